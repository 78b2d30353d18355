# Checks that each command reports a standard output that is full or closed, and exits with status 1.
# shellcheck shell=sh

new_session session < $calculator/quotient.txt
cp "$folder/answers" "$folder/lamps"
cat > "$folder/commands" <<commands
test -C $lock
cover -C $lock
profile -C $lock
trace $folder/session.mcs 100
trace --last 10 $folder/session.mcs 100000
wave $folder/session.mcs 100
wave $folder/session.mcs 200000
wave --lines $folder/session.mcs
listing $lock/lock.asm
listing --names $lock/lock.asm
import $lock/lock.asm
keys $lock/board.toml 12
script $lock/board.toml $lock/lock.asm 12
rom ask 0 300
rom load --binary $lock/board.toml
display $calculator/board.toml < lamps
cycles < lamps
explain $folder/wrong < wrong
names $lock/lock.asm < lamps
debug -C $lock
explore --seconds 1 -C $lock
back $folder/session.mcs
keys --until-stop $folder/session.mcs $calculator/board.toml 1
commands
printf 'bogus\n' > "$folder/wrong"
run_tool() {
    input=/dev/null
    case $1 in *" < "*) input=$folder/${1##* < } ;; esac
    # shellcheck disable=SC2086
    ./mcs4 ${1%% < *} < "$input"
}
printf 'session 0\nno 10\n' > "$folder/printed"
mv "$folder/printed" "$folder/wrong.answers"
sed -i 's/ < wrong$/ < wrong.answers/' "$folder/commands"
while read -r line; do
    if [ -e /dev/full ]; then
        status=0
        run_tool "$line" > /dev/full 2> "$folder/printed" || status=$?
        verdict "$(cat "$folder/printed"); $status" "${line%% *}: not all output was written; is the disk full?; 1" "$line > /dev/full"
    fi
    status=0
    run_tool "$line" >&- 2> "$folder/printed" || status=$?
    verdict "$(cat "$folder/printed"); $status" "${line%% *}: standard output is closed; 1" "$line >&-"
    # Checks that a pipe whose reader reads only the first line causes no error.
    verdict "$(run_tool "$line" 2>&1 | sed 1q | grep -c 'not all output was written')" 0 "$line | sed 1q"
done < "$folder/commands"
