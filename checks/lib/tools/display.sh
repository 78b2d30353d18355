# Checks that mcs4 display prints what lamps show: digits, signs, points, named lamps, and multiplexed digits.
# shellcheck shell=sh

# Prints a board. Arguments: the number of its lamps, and its comments.
board_of() {
    printf %b "$2"
    awk -v count="$1" 'BEGIN { print "[[rom]]\nchip = 0\nport = \"0000\""; while (count-- > 0) print "[[lamp]]\nline = \"rom0.0\"" }'
}

board=$calculator/board.toml
check_rejected 2 "display: BOARD is missing, and there is no mcs4.toml here
usage: mcs4 display [-C FOLDER] [BOARD] < ANSWERS" ./mcs4 display
echo "session 0" > "$folder/answers"
check_rejected 1 "display: no answer shows the lamps" ./mcs4 display "$board" < "$folder/answers"
echo "lamps ..*" > "$folder/answers"
check_rejected 1 "display: line 1 of the answers has 3 lamps, and the display of $board needs 43" ./mcs4 display "$board" < "$folder/answers"
echo "no 34 line 2" > "$folder/answers"
check_rejected 1 "display: line 1 of the answers is a refusal: no 34 line 2; mcs4 explain says why" ./mcs4 display "$board" < "$folder/answers"
board_of 8 '# display 0: 2 digits\n' > "$folder/board.toml"
printf 'session 3\nlamps ...**..*\nlamps **......\n' > "$folder/answers"
verdict "$(outcome ./mcs4 display "$folder/board.toml" < "$folder/answers")" "19
?0
status 0" "digits without signs"
board_of 23 '# lamp 0: minus overflow\n# display 3: 4 digits with points\n' > "$folder/board.toml"
echo "lamps *..........***......*.." > "$folder/answers"
verdict "$(outcome ./mcs4 display "$folder/board.toml" < "$folder/answers")" "-1.82
status 0" "a display with points"

# Checks multiplexed digits. At any instant, only some of the digits' lamps are on, so the display must be computed from the last 30 ms.
./mcs4 script examples/clock/board.toml examples/clock/clock.asm | sed '/^run /d' > "$folder/clock.txt"
new_session clock < "$folder/clock.txt"
verdict "$(outcome ./mcs4 keys examples/clock/board.toml SET | tail -n 3)" "run 16000
trace 2778 lamps
status 0" "keys for a multiplexed display"
for cycles in 1 100 411 926 20000 50000; do printf 'run %s\ntrace 2778 lamps\n' "$cycles"; done | "$mcs4" open "$folder/clock.mcs" > "$folder/answers"
verdict "$(outcome ./mcs4 display examples/clock/board.toml < "$folder/answers")" "1200
1200
1200
1200
1200
12.00
status 0" "a multiplexed display"
printf 'session 0\nlamps .**.....*...\n' > "$folder/answers"
verdict "$(outcome ./mcs4 display examples/clock/board.toml < "$folder/answers")" "display: line 2 of the answers has the lamps at an instant, and the digits of examples/clock/board.toml are multiplexed; \`trace 2778 lamps\` reports what is perceived in 30 ms
status 1" "the lamps at one instant of a multiplexed display"
printf 'trace ran 2778 end lines 2 .**.....*...\n5 000 .**.........\n' > "$folder/answers"
verdict "$(outcome ./mcs4 display examples/clock/board.toml < "$folder/answers")" "display: the answers end in the middle of an answer to \`trace\`
status 1" "an answer that is cut off"
printf 'trace ran 2778 end lines 0 .**.\n' > "$folder/answers"
verdict "$(outcome ./mcs4 display examples/clock/board.toml < "$folder/answers")" "display: line 1 of the answers has 4 lamps, and the display of examples/clock/board.toml needs 12
status 1" "too few lamps for a multiplexed display"
# Checks that errors in a board's comments are not reported if the displayed number does not depend on these comments.
board_of 8 '# display 0: 2 digits\n# colour 0: pink\n# die 0: 9 lamps\n# title:\n' > "$folder/board.toml"
printf 'lamps .*....*.\n' > "$folder/answers"
verdict "$(outcome ./mcs4 display "$folder/board.toml" < "$folder/answers")" "42
status 0" "a display, with an unknown colour"

board_of 17 '# display 0: 2 digits of 7 segments\n# lamp 14: ready go fault\n' > "$folder/board.toml"

printf 'lamps .**....**.**.*.*.\nlamps .......***..**...\n' > "$folder/answers"
verdict "$(outcome ./mcs4 display "$folder/board.toml" < "$folder/answers")" "12 go
9
status 0" "a display of seven segments, and a lamp with a name"
board_of 10 '# lamp 0: minus overflow\n# display 2: 2 digits\n' > "$folder/board.toml"
printf 'session 3\nlamps *....*..*.\nlamps .***......\nlamps ...*.*.*.*\n' > "$folder/answers"
verdict "$(outcome ./mcs4 display "$folder/board.toml" < "$folder/answers")" "-12
?0 overflow
55
status 0" "a display with signs"
printf 'lamps *.\n' > "$folder/answers"
check_rejected 1 "display: line 1 of the answers has 2 lamps, and the display of $folder/board.toml needs 10" ./mcs4 display "$folder/board.toml" < "$folder/answers"
printf 'lamps ..........\nno 44\n' > "$folder/answers"
check_rejected 1 "display: line 2 of the answers is a refusal: no 44; mcs4 explain says why" ./mcs4 display "$folder/board.toml" < "$folder/answers"
check_rejected 1 "display: $lock/board.toml has no display: a comment \`# display 0: 4 digits\` makes one" ./mcs4 display $lock/board.toml < "$folder/answers"
printf '# display 0: four digits\n' > "$folder/board.toml"
check_rejected 1 "display: $folder/board.toml: line 1: not a display: write \`# display 3: 8 digits\`, if needed with \`of 7 segments\`, \`with points\`, \`scanned by 7\`" \
    ./mcs4 display "$folder/board.toml" < "$folder/answers"
# Checks that `display` rejects comments about parts that the board lacks, with the same messages as `test`.
board_of 8 '# display 0: 2 digits\n# printer rom0.1: ram0.0 0 1 feed\n' > "$folder/board.toml"
echo "start: JUN start" > "$folder/idle.asm"
printf 'test: dark\nexpect display 00\n' > "$folder/idle.test"
echo "lamps ........" > "$folder/answers"
expected_message="$folder/board.toml: line 2: the board has no output line ram0.0.0"
check_rejected 1 "display: $expected_message" ./mcs4 display "$folder/board.toml" < "$folder/answers"
check_rejected 1 "test: $expected_message" ./mcs4 test "$folder/board.toml" "$folder/idle.asm" "$folder/idle.test"
board_of 7 '# display 0: 2 digits\n' > "$folder/board.toml"
expected_message="$folder/board.toml: line 1: the display needs lamps up to number 7, but the board has 7"
check_rejected 1 "display: $expected_message" ./mcs4 display "$folder/board.toml" < "$folder/answers"
check_rejected 1 "test: $expected_message" ./mcs4 test "$folder/board.toml" "$folder/idle.asm" "$folder/idle.test"
printf '# display 0: 2 digits\n[[rom]]\nchip = 16\nport = "0000"\n' > "$folder/board.toml"
check_rejected 1 "$(outcome ./mcs4 test "$folder/board.toml" "$folder/idle.asm" "$folder/idle.test" | sed 's/^test: /display: /; /^status/d')" \
    ./mcs4 display "$folder/board.toml" < "$folder/answers"
