# Checks that control characters in texts and file names from other people never reach a terminal. Tools print their codes, such as `\x1B`.
# shellcheck shell=sh

esc=$(printf '\033')
control_characters="${esc}]0;PWNED$(printf '\007')${esc}[2J$(printf '\302\233')31m$(printf '\177')"
shown='\x1B'
# Creates a script that runs a command in a pseudo-terminal and prints the command's output.
cat > "$folder/terminal.py" <<'program'
import os, pty, subprocess, sys
own, end = pty.openpty()
child = subprocess.Popen(sys.argv[1:], stdout=end, stderr=end)
os.close(end)
output = b""
while True:
    try:
        part = os.read(own, 65536)
    except OSError:
        break
    output += part
child.wait()
sys.stdout.buffer.write(output.replace(b"\r\n", b"\n"))
program

# Puts control characters everywhere in the texts: in comments, a title, the name of a key, a test, labels, and file names.
mkdir "$folder/$control_characters"
{ printf '# title: %s\n' "$control_characters" && sed "s/^# row 0: 1 /# row 0: 1$control_characters /; s/^# lamp 0: locked/&$control_characters/" $lock/board.toml; } > "$folder/board.toml"
sed "s/^        JUN start/        JUN start ; $control_characters/" $lock/lock.asm > "$folder/lock.asm"
printf ' LDM 1 ; %s\nb%sad: NOP\n' "$control_characters" "$control_characters" > "$folder/bad.asm"
printf 'test bad\nrun 100 ms # %s\nexpect lamps ... # %s\n' "$control_characters" "$control_characters" > "$folder/odd.test"
printf '# %s\ntest good\nrun 100 # %s\n' "$control_characters" "$control_characters" > "$folder/good.test"
{ printf '# title: %s\n# lamp 0: go%s\n' "$control_characters" "$control_characters" && grep -v '^# lamp ' $calculator/board.toml; } > "$folder/display.toml"
cp "$folder/lock.asm" "$folder/$control_characters/p.asm"
./mcs4 script "$folder/board.toml" "$folder/lock.asm" | sed '/^run /,$d' | new_session odd
printf 'session 0\nno 10\n' > "$folder/no.answers"
printf 'bogus %s\n' "$control_characters" > "$folder/bogus"
sed "s/^name .*/name $control_characters/" examples/a_fault_to_find.mcsp > "$folder/odd.mcsp"
{
    sed 1,2d "$folder/odd.mcsp" > "$folder/rest"
    printf 'fethsaim project 1\ncksum %s\n' "$(cksum < "$folder/rest" | cut -d ' ' -f 1)"
    cat "$folder/rest"
} > "$folder/named.mcsp"
# Each line has the expected status, whether the terminal shows the escaped text, and the command.
cat > "$folder/commands" <<commands
1 y test $folder/board.toml $folder/lock.asm $folder/odd.test
0 n test $folder/board.toml $folder/lock.asm $folder/good.test
1 y test $folder/board.toml $folder/bad.asm $folder/good.test
1 y test $folder/board.toml $folder/lock.asm $folder/$control_characters/none.test
1 y cover $folder/board.toml $folder/lock.asm $folder/odd.test
0 y cover $folder/board.toml $folder/lock.asm $folder/good.test
1 y profile $folder/board.toml $folder/lock.asm $folder/odd.test
0 n trace --source $folder/lock.asm $folder/odd.mcs 1
1 y keys $folder/board.toml $control_characters
0 n script $folder/board.toml $folder/lock.asm
1 y script $folder/board.toml $folder/bad.asm
0 y listing $folder/lock.asm
1 y listing $folder/bad.asm
1 y listing $folder/none$control_characters
0 y import $folder/lock.asm
1 y import $folder/bad.asm
1 y import $folder/none$control_characters
1 y names $folder/bad.asm
1 y rom load $folder/none$control_characters
1 y back $folder/none$control_characters
2 y back $folder/odd.mcs $control_characters
1 y wave $folder/odd.mcs 5 line$control_characters
1 y project split $folder/none$control_characters $folder/none
0 n project split $folder/named.mcsp $folder/none
1 y project join $folder/$control_characters $folder/none.mcsp
2 y project $control_characters
1 y cycles --source $folder/none$control_characters $folder/odd.mcs
1 y display $folder/none$control_characters
1 y explain $folder/bogus
commands
control_pattern="[$(printf '\001')-$(printf '\010')$(printf '\013')-$(printf '\037\177')]\|$(printf '\302\233')"
answers=$folder/answers
while read -r expected is_shown arguments; do
    tool=${arguments%% *}
    case $tool in explain) answers=$folder/no.answers ;; esac
    status=0
    # shellcheck disable=SC2086
    ./mcs4 $arguments < "$answers" > "$folder/output" 2> "$folder/errors" || status=$?
    verdict "$status; $(LC_ALL=C grep -ac "$control_pattern" "$folder/errors")" "$expected; 0" "standard error of $arguments"
    case $tool in
    # If the output is not a terminal, it must contain the original bytes.
    import | listing) if [ "$expected" -eq 0 ]; then verdict "$(LC_ALL=C grep -acF "$control_characters" "$folder/output")" 1 "a file of $arguments"; fi ;;
    *) verdict "$(LC_ALL=C grep -ac "$control_pattern" "$folder/output")" 0 "standard output of $arguments" ;;
    esac
    rm -rf "$folder/none"
    if ! command -v python3 > /dev/null; then continue; fi
    # shellcheck disable=SC2086
    python3 "$folder/terminal.py" ./mcs4 $arguments < "$answers" > "$folder/terminal"
    rm -rf "$folder/none"
    if LC_ALL=C grep -qaF "$shown" "$folder/terminal"; then was_shown=y; else was_shown=n; fi
    verdict "$was_shown, $(LC_ALL=C grep -ac "$control_pattern" "$folder/terminal") raw" "$is_shown, 0 raw" "a terminal with $arguments"
done < "$folder/commands"
# Checks that this check would find unescaped characters: `cat` prints them as they are.
if command -v python3 > /dev/null; then
    verdict "$(python3 "$folder/terminal.py" cat "$folder/bogus" | LC_ALL=C grep -ac "$control_pattern")" 1 "a terminal with cat"
fi
