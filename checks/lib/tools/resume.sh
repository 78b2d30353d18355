# Checks that mcs4 resume continues a session with the part of a script that the session has not executed.
# shellcheck shell=sh

# Cuts a script off after every third line. `resume` must then lead to the same state as the whole script. Also kills the program during a script.
cat > "$folder/resume.txt" <<'script'
regs
wire
[[rom]]
chip = 0
port = "0000"
[[ram]]
bank = 0
chips = 1
.
no command
asm
        FIM P1, 5
again:  SRC P1
        IAC
        WRM
        INC R3
        JUN again
.
run 20
list 0 3
poke r9 7

test 0
run 100
ram 0
regs
script
"$mcs4" new "$folder/whole.mcs" < "$folder/resume.txt" | tail -n 7 > "$folder/end"
lines=0
while [ "$lines" -lt 22 ]; do
    sed -n "1,${lines}p" "$folder/resume.txt" | new_session cut
    ./mcs4 resume "$folder/resume.txt" "$folder/cut.mcs" | tail -n 7 > "$folder/answers" || true
    verdict_of_files "$folder/answers" "$folder/end" "a script resumed after line $lines"
    lines=$((lines + 3))
done
verdict "$(./mcs4 resume "$folder/resume.txt" "$folder/cut.mcs" | sed 1q)" "session 6" "a script resumed where only queries are left"
echo 'reset' | continue_session cut
check_rejected 1 "resume: $folder/cut.mcs did not begin with $folder/resume.txt: it has accepted 7 commands, but the whole script has 6" \
    ./mcs4 resume "$folder/resume.txt" "$folder/cut.mcs"
printf 'poke r9 8\n' | new_session cut
cp "$folder/cut.mcs" "$folder/copy.mcs"
verdict "$(outcome ./mcs4 resume "$folder/resume.txt" "$folder/cut.mcs" | sed '2,$d')" \
    "resume: $folder/cut.mcs did not begin with $folder/resume.txt: after 1 commands some answers differ (< $folder/cut.mcs, > what $folder/resume.txt leads to)" \
    "a session from another script"
verdict_of_files "$folder/cut.mcs" "$folder/copy.mcs" "a session that was not resumed"
check_rejected 2 "resume: SESSION is missing
usage: mcs4 resume SCRIPT SESSION" ./mcs4 resume "$folder/resume.txt"
rm "$folder/cut.mcs"
awk 'BEGIN { for (i = 0; i < 400; i++) print "poke r" i % 16 " " int(i / 16) % 16 "\nrun 100000"; print "regs" }' > "$folder/long.txt"
# Empties the file of answers before the program starts. A redirection in the background shell could empty the file too late.
: > "$folder/answers"
"$mcs4" new "$folder/cut.mcs" < "$folder/long.txt" > "$folder/answers" &
child=$!
while [ ! -s "$folder/answers" ] && kill -0 "$child" 2> /dev/null; do sleep 0.01; done
sleep 0.05
kill -9 "$child" 2> /dev/null || true
wait "$child" 2> /dev/null || true
# The last 16 of the 400 pokes are those from i = 384, which is 24 times 16, and 24 mod 16 is 8. 40,000,000 cycles of NOP modulo 4,096 are 2,560.
verdict "$(./mcs4 resume "$folder/long.txt" "$folder/cut.mcs" | tail -n 1)" \
    "acc 0 cy 0 pc A00 owed 0 dcl 0 test 1 r 8888888888888888 ret 000 000 000" "a script that was killed"
verdict "$(echo seq | "$mcs4" open "$folder/cut.mcs" | tail -n 1)" "seq 800" "the commands of a script that was killed"

# Checks that if the session did not begin with the lines of the script, the tool reports the difference and sends nothing. Arguments: the script, the
# session's lines, the expected output, and a description of the difference.
check_differs() {
    printf "$1" > "$folder/script"
    printf "$2" | new_session other
    cp "$folder/other.mcs" "$folder/copy.mcs"
    verdict "$(outcome ./mcs4 resume "$folder/script" "$folder/other.mcs" | sed '1d; s/^resume: //')" "$3
status 1" "a session with other $4"
    verdict_of_files "$folder/other.mcs" "$folder/copy.mcs" "a session that was not resumed: $4"
}
board_with_keys='wire\nrom = [{ chip = 0, port = "0000" }, { chip = 1, port = "iiii" }]\nchain = [{ clock = "rom0.0", data = "rom0.1", chips = 1 }]\nkeys = { chain = 0, first = 0, rows = 2, columns = ["rom1.0"] }\n.\nasm\nSRC P0\nWRR\nIAC\nWRR\n.\n'
check_differs 'poke r1 1\nwatch 0 0\npoke r2 2\n' 'poke r1 1\nwatch 1 5\n' "< watches 1.05
> watches 0.00" watches
check_differs "${board_with_keys}press 0 0\npoke r1 1\n" "${board_with_keys}press 1 0\n" "< keys 1.0
> keys 0.0" keys
check_differs "${board_with_keys}poke r0 1\nstep\npoke r0 0\nreset\n" "${board_with_keys}poke r0 2\nstep\npoke r0 0\n" "< src 20
> src 10" "SRC bytes"
check_differs "${board_with_keys}poke acc 8\nrun 2\npoke acc 0\nreset\n" "${board_with_keys}poke acc 4\nrun 2\npoke acc 0\n" "< roms 0.4.0,1.0.0
> roms 0.8.0,1.0.0" latches
# One session writes 2 and then 3 to the port, and the other one 1 and then 3. The chain's clock rises once in each, while its data line is 1 in the
# first session and 0 in the second.
check_differs "${board_with_keys}poke acc 2\nrun 4\npoke acc 3\npoke acc 3\npoke acc 3\nreset\n" "${board_with_keys}poke acc 1\nrun 2\npoke acc 3\npoke pc 3\nstep\n" \
    "< chains 0000000000
> chains 1000000000" chains
# Checks that the bytes of the script are sent unchanged: of two carriage returns at the end of a line, the bench drops only one.
printf 'poke r1 1\r\npoke r2 2\r\r\npoke r3 3\n' > "$folder/script"
printf 'poke r1 1\n' | new_session other
verdict "$(outcome ./mcs4 resume "$folder/script" "$folder/other.mcs")" "session 1
no 14
ok 2
status 0" "a script with two carriage returns at the end of a line"
# A listing ends after address FFF, even if more bytes are requested.
printf 'wire\nrom = [{ chip = 15, port = "0000" }]\n.\npoke rom.0xFFE 0x40\nlist 0xFFE 4\nlist 0xFFF 1\npoke r1 1\npoke r99 1\n' > "$folder/script"
new_session other < "$folder/script"
verdict "$(outcome ./mcs4 resume "$folder/script" "$folder/other.mcs")" "session 3
no 11
status 0" "a script with listings up to the last address"
