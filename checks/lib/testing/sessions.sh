# Checks commands on session files that are paused within an instruction, have breakpoints and watches, or are read-only. Also checks a program that
# ends early.
# shellcheck shell=sh

# FIM, SRC, LDM, XCH, LD and WMP are 7 cycles, and JMS and FIM 4 more. After 12 cycles, the first ISZ R3 has jumped, and its second cycle is pending.
./mcs4 script $three_lamps/board.toml $three_lamps/three_lamps.asm | sed 's/^run 2000$/run 12/' | new_session inside
verdict "$(outcome ./mcs4 cover --session "$folder/inside.mcs" 4 $three_lamps/three_lamps.asm | sed -n '/[0-9] .*ISZ/p; /^status/p')" \
    "         2 2/0            turn:   ISZ R3, turn
     never 0/0                    ISZ R2, turn
status 0" "the effect of an instruction whose second cycle is pending"
verdict "$(outcome ./mcs4 profile --session "$folder/inside.mcs" 4 $three_lamps/three_lamps.asm)" "4 cycles, 0.0 ms

label             at          own  own %     calls with calls    longest
turn              016           3   75.0
(begun earlier)                 1   25.0
status 0" "the cycles of a session that begins and ends within instructions"
printf 'test t\nrun 5\nrun 4\n' > "$folder/odd.test"
printf 'y: NOP\n NOP\nx: JUN x\n' > "$folder/odd.asm"
verdict "$(outcome ./mcs4 profile $three_lamps/board.toml "$folder/odd.asm" "$folder/odd.test")" "9 cycles, 0.1 ms

label             at          own  own %     calls with calls    longest
x                 002           7   77.8
y                 000           2   22.2
status 0" "the cycles of a test that ends within an instruction"
# A call counts even if it leaves the return addresses unchanged. The oldest of the three open calls began in cycle 6.
printf 'here: JMS here\n' > "$folder/odd.asm"
verdict "$(outcome ./mcs4 profile $three_lamps/board.toml "$folder/odd.asm" "$folder/odd.test" | sed -n '4p; $p')" "here              000           9  100.0         5          3          3
status 0" "calls that change no return address"
./mcs4 script $three_lamps/board.toml $three_lamps/three_lamps.asm | new_session free
cp "$folder/free.mcs" "$folder/stopped.mcs"
printf 'break 0x014\nbreak 0x016\nbreak 0x005\nwatch 0 0\nwatch 7 0xFF\n' | continue_session stopped
for arguments in "cover --session SESSION 5000 $three_lamps/three_lamps.asm" "profile --session SESSION 5000 $three_lamps/three_lamps.asm" \
    "trace SESSION 1200" "wave SESSION 3000 lamps pc"; do
    before=${arguments%%SESSION*}
    after=${arguments#*SESSION}
    verdict "$(outcome ./mcs4 $before"$folder/stopped.mcs"$after)" "$(outcome ./mcs4 $before"$folder/free.mcs"$after)" "a session with breakpoints and watches: $arguments"
done
# Checks that a read-only session can be read.
chmod 755 "$check_folder" "$folder"
mkdir -m 777 "$folder/anyone"
chmod 444 "$folder/stopped.mcs"
reader_prefix=env
if [ "$(id -u)" -eq 0 ]; then reader_prefix="$(command -v setpriv) --reuid=65534 --regid=65534 --clear-groups"; fi
for arguments in "trace SESSION 3" "trace --source $three_lamps/three_lamps.asm SESSION 3" "trace --last 2 SESSION 1000" "wave SESSION 3" "wave --lines SESSION" \
    "cover --session SESSION 3 $three_lamps/three_lamps.asm" "profile --session SESSION 3 $three_lamps/three_lamps.asm"; do
    before=${arguments%%SESSION*}
    after=${arguments#*SESSION}
    # shellcheck disable=SC2086
    verdict "$(outcome env TMPDIR="$folder/anyone" $reader_prefix ./mcs4 $before"$folder/stopped.mcs"$after)" "$(outcome ./mcs4 $before"$folder/stopped.mcs"$after)" "a read-only session: $arguments"
done

# Creates a program that ends before it has answered, and uses it in place of the native program.
cat > "$folder/ending" <<'program'
#!/bin/sh
if [ "$1" != open ]; then exec "$ANSWERING" "$@"; fi
echo 'session 2'
read -r line
exit 3
program
chmod +x "$folder/ending"
for tool in test cover profile; do
    verdict "$(outcome env ANSWERING="$mcs4" MCS4="$folder/ending" timeout 20 ./mcs4 $tool $three_lamps/board.toml $three_lamps/three_lamps.asm $three_lamps/three_lamps.test | tail -n 2)" \
        "$tool: the session has ended; the program said: nothing
status 1" "mcs4 $tool of a program that ends"
done
