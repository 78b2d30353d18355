# Checks that files that tools overwrite keep their mode and owner, that links are followed, and that read-only files are rejected. After a signal, no
# other files may be left.
# shellcheck shell=sh

make_board_with_buzzer() {
    printf '[[rom]]\nchip = 0\nport = "0000"\n' > "$folder/buzzer.toml"
    echo ' FIM P0, 0
 SRC P0
again: IAC
 WRR
 JUN again' > "$folder/buzzer.asm"
    ./mcs4 script "$folder/buzzer.toml" "$folder/buzzer.asm" | new_session buzzer
}
make_board_with_buzzer
./mcs4 project split examples/a_fault_to_find.mcsp "$folder/taken_apart"
# Functions that write a project, a sound or a coverage record to a file. Argument: the name of the file.
write_project() { ./mcs4 project join "$folder/taken_apart" "$1"; }
write_sound() { ./mcs4 wave --wav "$1" "$folder/buzzer.mcs" 100000 rom0.0; }
write_record() { ./mcs4 cover --lcov "$1" $lock/board.toml $lock/lock.asm $lock/lock.test > "$folder/covered"; }

for kind in project sound record; do
    mkdir "$folder/$kind" "$folder/$kind/real"
    complete_file=$folder/$kind/whole
    "write_$kind" "$complete_file"
    verdict "$(stat -c %a "$complete_file")" "$(touch "$folder/usual" && stat -c %a "$folder/usual")" "the mode of a new file: $kind"
    file=$folder/$kind/file
    for mode in 600 640 664; do
        head -c 100 "$complete_file" > "$file"
        chmod "$mode" "$file"
        "write_$kind" "$file"
        verdict "$(stat -c %a "$file"); $(cmp "$file" "$complete_file" 2>&1)" "$mode; " "the mode of a file that is replaced: $kind"
    done
    if [ "$(id -u)" -eq 0 ]; then
        head -c 100 "$complete_file" > "$file"
        chown 4321:1234 "$file"
        chmod 620 "$file"
        "write_$kind" "$file"
        verdict "$(stat -c '%u:%g %a' "$file"); $(cmp "$file" "$complete_file" 2>&1)" "4321:1234 620; " "the owner of a file that is replaced: $kind"
    fi
    # Writes through a link, a link to a link, a link to a missing file, and a link to itself.
    head -c 100 "$complete_file" > "$folder/$kind/real/file"
    ln -s real/file "$folder/$kind/link"
    ln -s link "$folder/$kind/second"
    ln -s real/new "$folder/$kind/dangling"
    ln -s nowhere "$folder/$kind/nowhere"
    for pair in link:file second:file dangling:new; do
        "write_$kind" "$folder/$kind/${pair%:*}"
        verdict "$(test -h "$folder/$kind/${pair%:*}" && cmp "$folder/$kind/real/${pair#*:}" "$complete_file" 2>&1 && echo followed)" followed "the ${pair%:*}: $kind"
        head -c 100 "$complete_file" > "$folder/$kind/real/${pair#*:}"
    done
    verdict "$(outcome "write_$kind" "$folder/$kind/nowhere" | sed 's/^[a-z]*: //; s/it is a link that leads nowhere$/too many symbolic links/')" \
        "cannot write $folder/$kind/nowhere: too many symbolic links
status 1" "a link that leads nowhere: $kind"
    head -c 100 "$complete_file" > "$file"
    chmod 444 "$file"
    cp -f "$file" "$folder/before"
    verdict "$(outcome "write_$kind" "$file" | sed 's/^[a-z]*: //'); $(stat -c %a "$file"); $(cmp "$file" "$folder/before" 2>&1)" "cannot write $file: it is read-only
status 1; 444; " "a file that is read-only: $kind"
    verdict "$(find "$folder/$kind" -mindepth 1 | LC_ALL=C sort | sed "s|$folder/$kind/||" | tr '\n' ' ')" "dangling file link nowhere real real/file real/new second whole " "no other files are left: $kind"
done
ln -s nothing "$folder/taken_apart.link"
mkdir "$folder/has_link"
ln -s "$folder/victim" "$folder/has_link/board.toml"
check_rejected 1 "project: $folder/has_link/board.toml already exists; name another folder, or move it away" ./mcs4 project split examples/a_fault_to_find.mcsp "$folder/has_link"

# Checks that a file of another user stays unchanged, because a new file could not belong to that user.
if [ "$(id -u)" -eq 0 ] && command -v setpriv > /dev/null; then
    mkdir "$folder/shared"
    chmod 777 "$folder/shared"
    chmod -R a+rX "$folder/taken_apart"
    head -c 100 "$folder/project/whole" > "$folder/shared/theirs"
    chmod 666 "$folder/shared/theirs"
    chmod a+x "$folder" "${folder%/*}"
    as_other_user() { setpriv --reuid 65534 --regid 65534 --clear-groups env TMPDIR="$folder/shared" "$@"; }
    if as_other_user test -r ./mcs4 && as_other_user test -x "$mcs4" && as_other_user test -r "$folder/taken_apart/mcs4.toml"; then
        verdict "$(outcome as_other_user ./mcs4 project join "$folder/taken_apart" "$folder/shared/theirs"); $(wc -c < "$folder/shared/theirs" | tr -d ' '); $(ls -A "$folder/shared")" \
            "project: cannot write $folder/shared/theirs: it belongs to another user or group, which a new file cannot have
status 1; 100; theirs" "a file of another user"
        chmod 644 "$folder/shared/theirs"
        check_rejected 1 "project: cannot write $folder/shared/theirs: no permission" as_other_user ./mcs4 project join "$folder/taken_apart" "$folder/shared/theirs"
    else
        echo "not run: files of another user in checks/tools (the folder $top cannot be read by others)"
    fi
fi

# Checks that no other user can guess the name of the temporary file: only the output file may be touched, whatever the process ID is.
mkdir "$folder/guessed"
sh -c 'echo precious > "$1/out.mcsp.$$"; exec ./mcs4 project join "$2" "$1/out.mcsp"' sh "$folder/guessed" "$folder/taken_apart"
verdict "$(cmp "$folder/guessed/out.mcsp" "$folder/project/whole" 2>&1); $(cat "$folder/guessed"/out.mcsp.*)" "; precious" "a file at NAME.PID"
mkdir "$folder/split_guessed"
sh -c 'echo precious > "$1/board.toml.$$"; exec ./mcs4 project split examples/a_fault_to_find.mcsp "$1"' sh "$folder/split_guessed"
verdict "$(cat "$folder/split_guessed"/board.toml.*); $(cmp "$folder/split_guessed/board.toml" "$folder/taken_apart/board.toml" 2>&1)" "precious; " "a file at PART.PID"

# Stops tools with a signal at many different moments. Then the file must be either the old or the new one, a folder must be complete or missing, and
# no other files may be left.
mkdir "$folder/stopped" "$folder/temporary"
stop_during_command() {
    TMPDIR=$folder/temporary setsid env --default-signal=INT,TERM,HUP timeout --foreground -s KILL 60 "$@" > "$folder/printed" 2>&1 &
    child=$!
    sleep "0.$(printf '%03d' "$delay")"
    if [ "$target" = group ]; then kill -s "$signal" -- "-$child" 2> /dev/null || :; else kill -s "$signal" "$child" 2> /dev/null || :; fi
    status=0
    wait "$child" 2> /dev/null || status=$?
    if [ "$status" -eq 137 ]; then errors="$errors hangs:$signal:$target:$delay"; fi
    # If the signal arrives before `timeout` has recorded its child process, it ends only `timeout`, and the tool continues to its end.
    tenths=600
    while [ "$tenths" -gt 0 ] && kill -s 0 -- "-$child" 2> /dev/null; do
        sleep 0.1
        tenths=$((tenths - 1))
    done
}
head -c 100 "$folder/project/whole" > "$folder/old"
stop_count=0
errors=
for signal in INT TERM HUP; do
    for target in group tool; do
        for delay in 5 20 40 60 80 100 120 150 200 300; do
            cp "$folder/old" "$folder/stopped/out.mcsp"
            stop_during_command ./mcs4 project join "$folder/taken_apart" "$folder/stopped/out.mcsp"
            if ! cmp -s "$folder/old" "$folder/stopped/out.mcsp" && ! cmp -s "$folder/project/whole" "$folder/stopped/out.mcsp"; then errors="$errors join:$signal:$delay"; fi
            rm "$folder/stopped/out.mcsp"
            stop_during_command ./mcs4 project split examples/a_fault_to_find.mcsp "$folder/stopped/new/inner"
            if [ -e "$folder/stopped/new" ] && ! diff -r "$folder/taken_apart" "$folder/stopped/new/inner" > /dev/null; then errors="$errors split:$signal:$delay"; fi
            rm -rf "$folder/stopped/new"
            stop_during_command ./mcs4 wave --wav "$folder/stopped/out.wav" "$folder/buzzer.mcs" 100000 rom0.0
            if [ -e "$folder/stopped/out.wav" ] && ! cmp -s "$folder/sound/whole" "$folder/stopped/out.wav"; then errors="$errors wav:$signal:$delay"; fi
            rm -f "$folder/stopped/out.wav"
            leftovers=$(ls -A "$folder/stopped" "$folder/temporary" | grep -v ':$' | tr -d '\n')
            if [ -n "$leftovers" ]; then errors="$errors left:$signal:$target:$delay:$leftovers"; fi
            rm -rf "$folder/stopped" "$folder/temporary"
            mkdir "$folder/stopped" "$folder/temporary"
            stop_count=$((stop_count + 3))
        done
    done
done
verdict "$stop_count stops:$errors" "180 stops:" "tools that are stopped while they write"
