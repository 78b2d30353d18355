# Checks that environment variables with the same name as a variable inside a tool have no effect. Such a variable must not change what a tool prints,
# writes or removes.
# shellcheck shell=sh

new_session session < $calculator/quotient.txt
cp "$folder/answers" "$folder/lamps"
cp $lock/lock.asm $lock/board.toml "$folder"
user_folder=$folder/house
mkdir "$user_folder"
echo "my rooms" > "$user_folder/room"
# Collects the names of all variables in the tools. Upper-case names are omitted, because the shell or a caller sets these variables.
cat mcs4 tools/* tools/lib/*.sh js/node/*.mjs js/node/commands/*.mjs 2> /dev/null | grep -oE '\$\{?[a-z_]+|ENVIRON\["[a-z_]+|env\.[a-z_]+|(^|[ ;{(])[a-z_]+=' |
    sed 's/.*[^a-z_]\([a-z_]\{1,\}\)=$/\1/; s/=$//; s/^\$//; s/^{//; s/^ENVIRON\["//; s/^env\.//; s/^[ ;{(]//' |
    LC_ALL=C sort -u | grep -vxE 'mcs|_' > "$folder/all_names"
verdict "$(grep -cxE 'built|reason|folder|program|cache|top' "$folder/all_names")" 6 "names of variables"
# Runs a command with the variables in `assignments` in its environment. Prints its output, errors and status.
run_with_variables() {
    # shellcheck disable=SC2086
    outcome env $assignments "$@"
}

# Runs commands of each tool, some that succeed and some that fail, and prints their output.
run_commands() {
    run_with_variables ./mcs4 back none.mcs
    run_with_variables ./mcs4 project split none.mcsp "$folder/none"
    run_with_variables ./mcs4 project split examples/a_fault_to_find.mcsp "$folder/split"
    ls "$folder/split"
    rm -rf "$folder/split"
    run_with_variables ./mcs4 project join none "$folder/none.mcsp"
    run_with_variables ./mcs4 import - < "$folder/lock.asm"
    run_with_variables ./mcs4 import none.asm
    run_with_variables ./mcs4 listing --names "$folder/lock.asm"
    printf ' LDM 1\n JMP 3\n' | run_with_variables ./mcs4 listing -
    run_with_variables ./mcs4 keys "$folder/board.toml" 12
    run_with_variables ./mcs4 keys "$folder/board.toml" Z
    run_with_variables ./mcs4 script "$folder/board.toml" "$folder/lock.asm" 12
    run_with_variables ./mcs4 test "$folder/board.toml" "$folder/lock.asm" $lock/lock.test
    run_with_variables ./mcs4 cover "$folder/board.toml" "$folder/lock.asm" $lock/lock.test
    run_with_variables ./mcs4 profile "$folder/board.toml" "$folder/lock.asm" $lock/lock.test
    run_with_variables ./mcs4 trace "$folder/session.mcs" 30
    run_with_variables ./mcs4 wave "$folder/session.mcs" 30
    run_with_variables ./mcs4 wave --lines "$folder/session.mcs"
    run_with_variables ./mcs4 names "$folder/lock.asm" < $calculator/quotient.txt
    run_with_variables ./mcs4 rom ask 0 300
    run_with_variables ./mcs4 rom load none.hex
    run_with_variables ./mcs4 cycles < "$folder/lamps"
    run_with_variables ./mcs4 display $calculator/board.toml < "$folder/lamps"
    run_with_variables ./mcs4 explain $calculator/quotient.txt < "$folder/lamps"
    run_with_variables ./mcs4 resume $calculator/quotient.txt "$folder/session.mcs"
    run_with_variables ./mcs4 resume none.txt "$folder/session.mcs"
}
assignments=
run_commands > "$folder/expected"
for value in "$user_folder" 1; do
    assignments=$(sed "s|\$|=$value|" < "$folder/all_names")
    run_commands > "$folder/printed"
    verdict_of_files "$folder/printed" "$folder/expected" "the output of commands if all their variables are $value in the environment"
    verdict "$(ls "$user_folder"; cat "$user_folder/room")" "room
my rooms" "a folder of the user, which all variables name"
done
