# Checks that the user's files and changed files are kept by upgrades, by interrupted runs, and by the removal.
# shellcheck shell=sh disable=SC2154

make_home
parent=$folder/deep/er
prefix=$parent/prefix
library_folder=$prefix/lib/fethsaim
odd_name='a " $(b) \ '"'"'
c'
./install --prefix "$prefix" > "$folder/output"
add_user_files() {
    echo mine > "$library_folder/examples/calculator/my.mcs"
    echo mine > "$library_folder/examples/calculator/.hidden"
    echo mine > "$library_folder/$odd_name"
    ln -s nowhere "$library_folder/link"
    mkdir -m 700 "$library_folder/private" "$library_folder/empty"
    echo mine > "$library_folder/private/mine"
    chmod 600 "$library_folder/private/mine"
}
add_user_files
# Changes three installed files: appends a comment to each. Argument: the text of the comment.
change_files() {
    for name in lib/fethsaim/examples/calculator/board.toml share/man/man1/mcs4.1 lib/fethsaim/mcs4; do echo "# $1" >> "$prefix/$name"; done
}
change_files changed
# Adds a file of the user that has the same name as a file that a new version installs.
grep -v ' lib/fethsaim/tools/lib/face.txt$' "$library_folder/installed" > "$folder/list"
cp "$folder/list" "$library_folder/installed"
echo mine > "$library_folder/tools/lib/face.txt"
# Prints the type, the mode, and the contents or the link's target of each of the user's files and folders.
print_user_files() {
    for name in examples/calculator/my.mcs examples/calculator/.hidden "$odd_name" link private empty private/mine; do
        ls -ld "$library_folder/$name" | cut -d ' ' -f 1 | cut -c 1-10
        if [ -h "$library_folder/$name" ]; then readlink "$library_folder/$name"; elif [ -f "$library_folder/$name" ]; then cat "$library_folder/$name"; fi
    done
}
print_user_files > "$folder/user_files"
last_lines() { for file in "$@"; do tail -n 1 "$file"; done | tr '\n' ' '; }
kept_title="Kept, because Fethsaim did not install it, or you have changed it:"
verdict "$(PATH=$prefix/bin:$PATH outcome ./install --prefix "$prefix")" "mcs4 is installed: $prefix/bin/mcs4
$kept_title
$library_folder/$odd_name
$library_folder/empty
$library_folder/examples/calculator/board.toml.old
$library_folder/examples/calculator/my.mcs
$library_folder/examples/calculator/.hidden
$library_folder/link
$library_folder/mcs4.old
$library_folder/private
$library_folder/tools/lib/face.txt.old
$prefix/share/man/man1/mcs4.1.old
status 0" "./install over files of the user"
verdict "$(print_user_files)" "$(cat "$folder/user_files")" "the user's files after ./install"
verdict "$(last_lines "$library_folder/examples/calculator/board.toml.old" "$prefix/share/man/man1/mcs4.1.old" "$library_folder/mcs4.old" "$library_folder/tools/lib/face.txt.old")" \
    "# changed # changed # changed mine " "the changed files after ./install"
verdict "$(cmp "$library_folder/tools/lib/face.txt" tools/lib/face.txt && cmp "$library_folder/examples/calculator/board.toml" examples/calculator/board.toml && cmp "$library_folder/mcs4" mcs4 && echo new)" new "what is installed over it"
change_files again
verdict "$(PATH=$prefix/bin:$PATH ./install --prefix "$prefix" | grep 'old' | LC_ALL=C sort)" "$library_folder/examples/calculator/board.toml.old
$library_folder/examples/calculator/board.toml.old.2
$library_folder/mcs4.old
$library_folder/mcs4.old.2
$library_folder/tools/lib/face.txt.old
$prefix/share/man/man1/mcs4.1.old.2" "./install over files that were changed again"
verdict "$(last_lines "$library_folder/mcs4.old" "$library_folder/mcs4.old.2")" "# changed # again " "files that were changed twice"

# Checks that a session that is served during an upgrade continues in its file.
mkfifo "$folder/lines"
"$library_folder/shipped/mcs4" new "$library_folder/served.mcs" < "$folder/lines" > "$folder/answers" &
session_process=$!
exec 3> "$folder/lines"
echo "poke r1 1" >&3
until grep -q '^ok 1$' "$folder/answers" || ! kill -0 "$session_process" 2> /dev/null; do sleep 0.1; done
./install --prefix "$prefix" > "$folder/output"
echo "poke r1 2" >&3
exec 3>&-
wait "$session_process"
verdict "$(echo seq | "$library_folder/shipped/mcs4" open "$library_folder/served.mcs" | tail -n 1)" "seq 2" "a session that was served during ./install"
rm "$library_folder/served.mcs"

# --- interrupted runs, and the runs after them

# Creates the folders that an interrupted run leaves, with the number of a process that has ended. The folder `old` exists if the run had already
# moved the old lib/fethsaim away.
ended_process=$(sh -c 'echo $$')
mkdir "$prefix/lib/.fethsaim.$ended_process" "$prefix/lib/.fethsaim.9$ended_process" "$prefix/lib/.fethsaim.${ended_process}9"
mv "$library_folder" "$prefix/lib/.fethsaim.$ended_process/old"
mkdir "$prefix/lib/.fethsaim.9$ended_process/lib"
echo mine > "$prefix/lib/.fethsaim.${ended_process}9/mine"
./install --prefix "$prefix" > "$folder/output"
verdict "$(ls -A "$prefix/lib" | tr '\n' ' ')" ".fethsaim.${ended_process}9 fethsaim " "the files of an interrupted run are removed, but no files of the user"
verdict "$(print_user_files)" "$(cat "$folder/user_files")" "the user's files after an interrupted run"
rm -rf "$prefix/lib/.fethsaim.${ended_process}9"
mkdir "$prefix/lib/.fethsaim.$$"
check_unchanged "install: another ./install is running here, as process $$; wait until it ends, or remove $prefix/lib/.fethsaim.$$; nothing was changed" 1 ./install --prefix "$prefix"
rmdir "$prefix/lib/.fethsaim.$$"
# Stops ./install at many different moments. After each stop, mcs4 must work or be missing, the next run must repair everything, and the user's files
# must be kept.
stop_count=12
while [ "$stop_count" -gt 0 ]; do
    stop_count=$((stop_count - 1))
    signal=TERM
    if [ "$stop_count" -lt 6 ]; then signal=KILL; fi
    ./install --prefix "$prefix" > "$folder/output" 2>&1 &
    install_process=$!
    sleep "$(awk -v n="$stop_count" 'BEGIN { print 0.1 + n % 6 * 0.3 }')"
    kill -s "$signal" "$install_process" 2> /dev/null || :
    wait "$install_process" 2> /dev/null || :
    if [ "$signal" = TERM ]; then verdict "$(ls -A "$prefix/lib")" fethsaim "nothing is left after a TERM"; fi
    if [ -e "$library_folder" ]; then verdict "$("$prefix/bin/mcs4" version | sed -n 2p)" "program: $library_folder/shipped/mcs4" "mcs4 after a run that was stopped"; fi
done
./install --prefix "$prefix" > "$folder/output"
verdict "$(ls -A "$prefix/lib")" fethsaim "nothing is left after the next run"
verdict "$(print_user_files)" "$(cat "$folder/user_files")" "the user's files after runs that were stopped"
verdict "$(grep -c 'old' "$folder/output")" 5 "no other files count as the user's"

# Checks that an installed program that is damaged is not started.
cp "$library_folder/shipped/mcs4" "$folder/whole"
printf '\1' | dd of="$library_folder/shipped/mcs4" bs=1 seek=5000 conv=notrunc 2> /dev/null
verdict "$(outcome "$prefix/bin/mcs4" new "$folder/temporary/damaged.mcs")" "mcs4: cannot start $library_folder/shipped/mcs4: it is damaged: its checksum is not the one in $library_folder/installed; install it again
status 126" "an installed program that is damaged"
cp "$folder/whole" "$library_folder/shipped/mcs4"

# Checks that the removal keeps the user's files and prints their names, and that it removes the folders that ./install has created.
echo mine >> "$prefix/share/man/man1/mcs4-wave.1"
verdict "$(outcome ./install --uninstall --prefix "$prefix" | LC_ALL=C sort)" "$(LC_ALL=C sort << END
mcs4 was removed from $prefix
$kept_title
$prefix/share/man/man1/mcs4-wave.1
$library_folder/$odd_name
$library_folder/examples/calculator/board.toml.old
$library_folder/examples/calculator/board.toml.old.2
$library_folder/examples/calculator/my.mcs
$library_folder/examples/calculator/.hidden
$library_folder/link
$library_folder/mcs4.old
$library_folder/mcs4.old.2
$library_folder/private/mine
$library_folder/tools/lib/face.txt.old
status 0
END
)" "./install --uninstall with files of the user"
verdict "$(print_user_files)" "$(cat "$folder/user_files")" "the user's files after --uninstall"
verdict "$(find "$prefix" ! -type d | wc -l | tr -d ' ')" 14 "no other files are left"
rm -rf "$folder/deep"
./install --prefix "$prefix" > "$folder/output"
./install --uninstall --prefix "$prefix" > "$folder/output"
verdict "$([ -e "$folder/deep" ] || echo none)" none "the folders that were created above the prefix"
