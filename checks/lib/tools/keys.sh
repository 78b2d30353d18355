# Checks that mcs4 keys reads the names of keys in a board's comments, and presses keys up to a stop.
# shellcheck shell=sh

check_rejected 1 "keys: cannot read none.toml: there is no such file" ./mcs4 keys none.toml "1"
check_rejected 2 "keys: KEYS is missing
usage: mcs4 keys [-C FOLDER] [--down CYCLES] [--up CYCLES] [--until-stop SESSION] [BOARD] KEYS" ./mcs4 keys $calculator/board.toml

# Checks that on a board whose lines end with CRLF, the last key of a row has the correct name.
printf '# row 0: a b\r\n# row 1: c\r\nrom = [{ chip = 0, port = "00ii" }]\r\nchain = [{ clock = "rom0.2", data = "rom0.3", chips = 1 }]\r\nkeys = { chain = 0, first = 0, rows = 2, columns = ["rom0.0", "rom0.1"] }\r\n' > "$folder/crlf.toml"
verdict "$(./mcs4 keys "$folder/crlf.toml" "b c" | grep press)" "press 0 1
press 1 0" "keys of a board with CRLF"

sed 's/# row 0: 1 2 3/#Row 0:1 2 3/' < $lock/board.toml > "$folder/board.toml"
verdict "$(outcome ./mcs4 keys --down 10 --up 5 "$folder/board.toml" 2)" "press 0 1
run 10
release 0 1
run 5
lamps
status 0" "keys in a comment with another spelling"
sed 's/# row 0: 1 2 3/# row 0: 1 2 3 A/' < $lock/board.toml > "$folder/board.toml"
check_rejected 1 "keys: $folder/board.toml: line 8: the key A is in row 0, column 3, but the board has 4 rows and 3 columns" ./mcs4 keys "$folder/board.toml" 1
sed 's/# row 1: 4 5 6/# row 1: 4 1 6/' < $lock/board.toml > "$folder/board.toml"
check_rejected 1 "keys: $folder/board.toml: line 9: the key 1 is already named on line 8" ./mcs4 keys "$folder/board.toml" 1
sed 's/# row 1: 4 5 6/# row 0: 4 5 6/' < $lock/board.toml > "$folder/board.toml"
check_rejected 1 "keys: $folder/board.toml: line 9: row 0 already has names, on line 8" ./mcs4 keys "$folder/board.toml" 1
grep -v '^# row' < $lock/board.toml > "$folder/board.toml"
check_rejected 1 "keys: $folder/board.toml has no comments \`# row R: NAME ..\` that name its keys" ./mcs4 keys "$folder/board.toml" 1
check_usage_error "CYCLES of --down: '0' is not a decimal number from 1 to 100000" ./mcs4 keys --down 0 $lock/board.toml 1
check_rejected 2 "keys: KEYS is missing
usage: mcs4 keys [-C FOLDER] [--down CYCLES] [--up CYCLES] [--until-stop SESSION] [BOARD] KEYS" ./mcs4 keys $lock/board.toml
# Sets a breakpoint where the program reads a digit. At the breakpoint, the key must still be down, and no later key may have been pressed.
{
    ./mcs4 script $lock/board.toml $lock/lock.asm | sed '$d'
    echo 'break @right' | ./mcs4 names $lock/lock.asm
} | new_session lock
verdict "$(outcome ./mcs4 keys --until-stop "$folder/lock.mcs" $lock/board.toml 47 | sed 's/ran [0-9]* break/ran .. break/')" "session 4
ok 5
ok 6 ran .. break
status 0" "keys up to a stop"
verdict "$(echo state | "$mcs4" open "$folder/lock.mcs" | grep -o 'keys [^ ]*')" "keys 1.0" "a key that is down at a stop"
