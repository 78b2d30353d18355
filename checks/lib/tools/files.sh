# Checks that tools report a lack of space for temporary files, invalid files, and sessions in use. Also checks that a signal ends a tool, and leaves
# no files or processes.
# shellcheck shell=sh

new_session session < $calculator/quotient.txt

# Checks that tools report a full folder for temporary files.
small_disk=$folder/small
mkdir "$small_disk"
if mount -t tmpfs -o size=64k tmpfs "$small_disk" 2> /dev/null; then
    trap 'umount "$small_disk" 2> /dev/null || :' EXIT
    for arguments in "script $lock/board.toml $lock/lock.asm" "listing $lock/lock.asm" "keys $lock/board.toml 1" "test $lock/board.toml $lock/lock.asm $lock/lock.test" \
        "cover $lock/board.toml $lock/lock.asm $lock/lock.test" "trace $folder/session.mcs 3" "wave $folder/session.mcs 3" \
        "resume $calculator/quotient.txt $folder/session.mcs" "back $folder/session.mcs"; do
        verdict "$(TMPDIR=$small_disk outcome ./mcs4 $arguments | tail -n 2)" "${arguments%% *}: $small_disk has no room for temporary files; make some, or name another place: TMPDIR
status 1" "no room for the temporary files of $arguments"
    done
    # Makes several attempts, because a process that the tool has started can end a moment later.
    for attempt in 1 2 3 4 5 6 7 8 9 10; do if umount "$small_disk" 2> /dev/null; then break; fi; sleep 0.5; done
else
    echo "not run: a full folder for temporary files (a file system cannot be mounted here)"
fi

# Runs a command with invalid files: an empty file, a folder, a missing file, a file of 100 MB, a link to itself, and a name that is too long.
# Arguments: the maximum size of a file in bytes, and the command. The name of the file and `last_word` are appended to the command.
: > "$folder/empty"
ln -s loop "$folder/loop"
long_name=$(printf '%256s' | tr ' ' x)
dd if=/dev/null of="$folder/huge" bs=1 seek=100000000 2> /dev/null
check_invalid_files() {
    max_bytes=$1
    shift
    for file in empty none huge . loop $long_name; do
        path=$folder/$file
        case $file in
        empty) message="$path is empty" ;;
        none) message="cannot read $path: there is no such file" ;;
        huge) message="cannot read $path: it has more than $max_bytes bytes" ;;
        .) message="cannot read $path: it is a folder" ;;
        loop) message="cannot read $path: too many symbolic links" ;;
        *) message="cannot read $path: its name is too long" ;;
        esac
        verdict "$(outcome "$@" "$path" $last_word)" "$2: $message
status 1" "$* with $file"
    done
}
printf 'reset\nseq\n' > "$folder/two.txt"
last_word=
check_invalid_files 1048576 ./mcs4 rom load
check_invalid_files 16777216 ./mcs4 listing
check_invalid_files 16777216 ./mcs4 explain
check_invalid_files 1048576 ./mcs4 resume "$folder/two.txt"
check_invalid_files 1048576 ./mcs4 panel $lock/board.toml
last_word="$folder/session.mcs"
check_invalid_files 16777216 ./mcs4 resume
check_invalid_files 16777216 ./mcs4 panel
last_word=10
check_invalid_files 1048576 ./mcs4 trace
check_rejected 1 "cover: cannot read $folder/loop: too many symbolic links" ./mcs4 cover --lcov "$folder/lcov" $lock/board.toml $lock/lock.asm "$folder/loop"
check_rejected 1 "project: cannot read $folder/loop: too many symbolic links" ./mcs4 project join "$folder/loop" "$folder/joined.mcsp"
check_rejected 1 "project: there is no folder $folder/none" ./mcs4 project join "$folder/none" "$folder/joined.mcsp"
check_rejected 1 "project: cannot write in $folder/loop: too many symbolic links" ./mcs4 project split examples/a_fault_to_find.mcsp "$folder/loop"
check_rejected 1 "debug: there is no file $folder/none; mcs4 debug BOARD PROGRAM $folder/none begins a session in it" ./mcs4 debug "$folder/none"
check_rejected 1 "test: cannot read $folder/loop/mcs4.toml: too many symbolic links" ./mcs4 test -C "$folder/loop"
mkfifo "$folder/pipe"
check_rejected 1 "back: cannot read $folder/pipe: it is not a regular file" timeout 20 ./mcs4 back "$folder/pipe"
check_rejected 1 "trace: cannot read $folder/pipe: it is not a regular file" timeout -s KILL 20 ./mcs4 trace "$folder/pipe" 10
ln -s none "$folder/dangling"
check_rejected 1 "project: cannot make $folder/dangling: something else has its name" ./mcs4 project split examples/a_fault_to_find.mcsp "$folder/dangling"
check_rejected 1 "rom: standard input has no answers; redirect the answers of mcs4 to it, as in: mcs4 rom save FIRST COUNT < ANSWERS" ./mcs4 rom save 0 1
check_rejected 1 "cycles: standard input has no answers; redirect the answers of mcs4 to it, as in: mcs4 cycles .. < ANSWERS" ./mcs4 cycles
check_rejected 1 "explain: standard input has no answers; redirect the answers of mcs4 to it, as in: mcs4 explain .. < ANSWERS" ./mcs4 explain "$folder/two.txt"
check_rejected 1 "panel: standard input and output must be a terminal" ./mcs4 panel $lock/board.toml "$folder/session.mcs"
check_rejected 2 "panel: SESSION is missing
usage: mcs4 panel [-C FOLDER] [--stopped] [--source PROGRAM] [BOARD] SESSION" ./mcs4 panel $lock/board.toml
check_rejected 1 "rom: cannot read -: it has more than 67108864 bytes" ./mcs4 rom save 0 1 < "$folder/huge"
check_rejected 1 "cycles: cannot read -: it has more than 67108864 bytes" ./mcs4 cycles < "$folder/huge"
printf '#!/bin/sh\necho "no 53"\necho "mcs4: s.mcs: in use by another program" >&2\nexit 3\n' > "$folder/refusing"
chmod +x "$folder/refusing"
for arguments in "resume $folder/two.txt $folder/session.mcs" "trace $folder/session.mcs 1"; do
    # The command opens a copy of the session. It must print its own message about the session, and not the program's message about the copy.
    verdict "$(MCS4=$folder/refusing outcome ./mcs4 $arguments)" "${arguments%% *}: the session $folder/session.mcs was rejected: no 53: the device failed, or the host rejected the file: does it exist, is it writable, is it in use?
status 1" "a session in use: $arguments"
done

# Checks that `resume` reports a session that another program has open, and prints no answers.
echo reset | new_session held
if command -v flock > /dev/null; then
    verdict "$(outcome flock "$folder/held.mcs" ./mcs4 resume "$folder/two.txt" "$folder/held.mcs")" \
        "mcs4: $folder/held.mcs: in use by another program; wait until that has ended
resume: the session $folder/held.mcs was rejected: no 53: the device failed, or the host rejected the file: does it exist, is it writable, is it in use?
status 1" "a session in use"
fi
verdict "$(outcome ./mcs4 resume "$folder/two.txt" "$folder/held.mcs")" "session 1
seq 1
status 0" "a session that is no longer in use"

# Checks that SIGINT (Ctrl-C), SIGTERM and SIGHUP end a tool with the status that shells use for the signal, and that no files are left behind.
awk 'BEGIN { print "test long"; for (i = 0; i < 400; i++) print " run 5 s" }' > "$folder/long.test"
mkdir "$folder/interrupted"
for signal in INT:130 TERM:143 HUP:129; do
    TMPDIR=$folder/interrupted setsid env --default-signal=INT,TERM,HUP ./mcs4 test $lock/board.toml $lock/lock.asm "$folder/long.test" > "$folder/answers" 2>&1 &
    child=$!
    until ls "$folder/interrupted"/*/1.mcs > /dev/null 2>&1 || ! kill -0 "$child" 2> /dev/null; do sleep 0.05; done
    # Sends the signal to the whole process group, as a terminal does.
    kill -s "${signal%:*}" -- "-$child"
    status=0
    wait "$child" || status=$?
    verdict "$status, $(ls "$folder/interrupted" | wc -l | tr -d ' ') left" "${signal#*:}, 0 left" "a tool that receives SIG${signal%:*}"
done

# Checks that the signals have the same effect at any moment while a tool starts. The shell that starts the program gets them, too.
for delay in 60 70 80 90 100 105 110 115 120 125 130 135 140 150 160 170 180 200 220 240; do
    for signal in INT:130 TERM:143 HUP:129; do
        TMPDIR=$folder/interrupted setsid env --default-signal=INT,TERM,HUP timeout --foreground -s KILL 20 \
            ./mcs4 test $lock/board.toml $lock/lock.asm "$folder/long.test" > "$folder/answers" 2>&1 &
        child=$!
        # Waits until `timeout` runs, because before that the shell's background job ignores SIGINT.
        until { read -r comm < "/proc/$child/comm" && [ "$comm" = timeout ]; } 2> /dev/null || ! kill -0 "$child" 2> /dev/null; do :; done
        sleep "0.$(printf '%03d' "$delay")"
        kill -s "${signal%:*}" -- "-$child"
        status=0
        wait "$child" 2> /dev/null || status=$?
        if [ "$status" -ne "${signal#*:}" ] || [ -s "$folder/answers" ] || [ -n "$(ls "$folder/interrupted")" ]; then
            echo "$delay ms, SIG${signal%:*}: $status $(cat "$folder/answers") $(ls "$folder/interrupted")"
        fi
    done
done > "$folder/started"
verdict "$(cat "$folder/started")" "" "signals while a tool starts"

# Checks that SIGTERM, sent only to a tool, ends it at once, together with all processes that it has started. Tries a tool that runs tests, one that serves
# a script, and one that waits for input.
awk 'BEGIN { print "test longer\nrepeat 100000\nrun 100000\nend" }' > "$folder/longer.test"
{ cat $calculator/quotient.txt && awk 'BEGIN { for (i = 0; i < 300000; i++) print "run 100000" }'; } > "$folder/longer.txt"
mkfifo "$folder/silent"
new_session session < $calculator/quotient.txt
# Prints the number of processes that use the folder `interrupted` for temporary files.
count_interrupted_processes() {
    grep -lzsx "TMPDIR=$folder/interrupted" /proc/[0-9]*/environ | wc -l | tr -d ' '
}
for arguments in "1.mcs test $lock/board.toml $lock/lock.asm $folder/longer.test" \
    "1.mcs resume $folder/longer.txt $folder/session.mcs" "- display $calculator/board.toml"; do
    first_file=${arguments%% *}
    arguments=${arguments#* }
    TMPDIR=$folder/interrupted setsid env --default-signal=TERM timeout 60 ./mcs4 $arguments <> "$folder/silent" > "$folder/answers" 2>&1 &
    # A tool that waits for input has opened its board, but has created no files yet.
    case $first_file in
    -) sleep 2 ;;
    *) until ls "$folder/interrupted"/*/"$first_file" > /dev/null 2>&1 || ! kill -0 "$!" 2> /dev/null; do sleep 0.05; done ;;
    esac
    # Finds the tool, which is the child process of `timeout`.
    tool=$(sed 's/ .*//' "/proc/$!/task/$!/children")
    kill -s TERM "$tool"
    status=0
    wait $! 2> /dev/null || status=$?
    for attempt in 1 2 3 4 5 6 7 8 9 10; do if [ "$(count_interrupted_processes)" -eq 0 ]; then break; fi; sleep 0.2; done
    verdict "$status, $(count_interrupted_processes) running, $(ls "$folder/interrupted" | wc -l | tr -d ' ') left" "143, 0 running, 0 left" "TERM to ${arguments%% *} only"
done
