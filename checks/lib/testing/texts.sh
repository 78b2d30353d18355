# Checks that mcs4 test reads several files of tests, pipes instead of files, comments at the end of a line, and times in microseconds. Also checks
# boards with a display and other lamps.
# shellcheck shell=sh

# Checks that a test can start from a saved state only in the file that saves this state. Two files can use the same name for different states.
printf 'test a\n press 1 2 ; keys\n run 5   # a moment\n save begun ; here\ntest b # 1\n from begun\n release 1 2\n' > "$folder/first.test"
printf 'test c\n press #\n release # ; the key #\n save begun\ntest d\n from begun\n run 54 us\n expect cycles 54us # five\n' > "$folder/second.test"
verdict "$(outcome ./mcs4 test $lock/board.toml $lock/lock.asm "$folder/first.test" "$folder/second.test")" "TAP version 13
1..4
ok 1 - a
ok 2 - b \\# 1
ok 3 - c
ok 4 - d
status 0" "two texts that save states with the same name"
printf 'test e\n from begun\n' > "$folder/third.test"
check_rejected 1 "test: $folder/third.test:2: no earlier test saves a state begun" ./mcs4 test $lock/board.toml $lock/lock.asm "$folder/first.test" "$folder/third.test"

# Checks that a test fails if the state from which it begins was not saved, even if it is the last test.
printf 'test a\n expect acc 1\n save begun\ntest b\n from begun\n' > "$folder/unsaved.test"
verdict "$(outcome ./mcs4 test $lock/board.toml $lock/lock.asm "$folder/unsaved.test" | results)" "not ok 1 - a
  message: \"acc is 0, but must be 1\"
  at: \"$folder/unsaved.test:2\"
not ok 2 - b
  message: \"the state begun is missing, because the test \`a\` did not reach its \`save\`\"
  at: \"$folder/unsaved.test:5\"
status 1" "a state that was not saved"
# Checks that text that is not UTF-8 is read as Latin-1, and printed in UTF-8.
printf 'loop: JUN loop ; \344\n' > "$folder/latin.asm"
verdict "$(outcome ./mcs4 cover $lock/board.toml "$folder/latin.asm" "$folder/unsaved.test" | sed -n 's/.*loop:/loop:/p')" \
    "loop: JUN loop ; $(printf '\303\244')" "a program in Latin 1"

# Checks that tests can run named steps that an earlier file of tests defines. If a step fails, the message must name the file and line of the step,
# and of the test line that runs the steps.
printf 'steps opened\n expect lamps open\nsteps enter # the code\n keys 4711#\n do opened\n' > "$folder/steps.test"
printf 'test it opens\n run 100 ms\n do enter\ntest it does not\n run 100 ms\n keys 3\n do enter\n' > "$folder/opens.test"
verdict "$(outcome ./mcs4 test $lock/board.toml $lock/lock.asm "$folder/steps.test" "$folder/opens.test" | results)" "ok 1 - it opens
not ok 2 - it does not
  message: \"lamps are *.., but must be .*.; lit: locked; in the steps opened called at line 5, in the steps enter called at $folder/opens.test:7\"
  at: \"$folder/steps.test:2\"
status 1" "shared steps of another text"
check_rejected 1 "test: $folder/steps.test:1: there is no line \`test NAME\`" ./mcs4 test $lock/board.toml $lock/lock.asm "$folder/steps.test"
check_rejected 1 "test: $folder/opens.test:3: there are no steps enter before this line; define them with \`steps enter\`
test: $folder/opens.test:7: there are no steps enter before this line; define them with \`steps enter\`" \
    ./mcs4 test $lock/board.toml $lock/lock.asm "$folder/opens.test" "$folder/steps.test"
verdict "$(outcome ./mcs4 cover $lock/board.toml $lock/lock.asm "$folder/steps.test" "$folder/opens.test" | sed -n '/^status/p; /instructions were run/s/ (.*//p')" \
    "$(cat "$folder/steps.test" "$folder/opens.test" > "$folder/joined.test"
    outcome ./mcs4 cover $lock/board.toml $lock/lock.asm "$folder/joined.test" | sed -n '/^status/p; /instructions were run/s/ (.*//p')" "the coverage by two texts"
cp "$folder/steps.test" "$folder/again.test"
check_rejected 1 "test: $folder/again.test:1: the steps opened are already defined at $folder/steps.test:1
test: $folder/again.test:3: the steps enter are already defined at $folder/steps.test:3" \
    ./mcs4 test $lock/board.toml $lock/lock.asm "$folder/steps.test" "$folder/again.test" "$folder/opens.test"

# Checks pipes and standard input instead of files.
mkfifo "$folder/board.pipe" "$folder/test.pipe"
cat $lock/board.toml > "$folder/board.pipe" &
cat "$folder/first.test" > "$folder/test.pipe" &
verdict "$(outcome ./mcs4 test "$folder/board.pipe" - "$folder/test.pipe" < $lock/lock.asm)" "TAP version 13
1..2
ok 1 - a
ok 2 - b \\# 1
status 0" "texts from pipes"
verdict "$(outcome ./mcs4 test - - examples/stopwatch.test < examples/stopwatch.txt | sed '1d;$!d')" "status 0" "standard input as both board and program"
sed 's/JMS key/JMS kez/' < $lock/lock.asm > "$folder/faulty.asm"
verdict "$(outcome ./mcs4 test $lock/board.toml - "$folder/first.test" < "$folder/faulty.asm")" "test: -: line 31: no 32: kez is not defined; key?
test:     digit:  JMS kez
status 1" "an error in a program on standard input"
echo "first line" > "$folder/first.pipe.test"
cat "$folder/first.pipe.test" > "$folder/test.pipe" &
verdict "$(outcome ./mcs4 test $lock/board.toml $lock/lock.asm "$folder/test.pipe")" \
    "test: $folder/test.pipe:1: tests begin with \`test NAME\`, but this line is: first line
status 1" "an error in a test from a pipe"
check_rejected 1 "test: - is empty" ./mcs4 test $lock/board.toml - "$folder/first.test"

# Checks that on a board with a display, patterns of lamps ignore the lamps of the display, except those with a name.
cat > "$folder/display.toml" <<'board'
# lamp 0: first
# lamp 5: go
# display 0: 1 digit
rom = [{ chip = 0, port = "0000" }]
ram = [{ bank = 0, chips = 1 }]
lamp = [{ line = "rom0.3" }, { line = "rom0.2" }, { line = "rom0.1" }, { line = "rom0.0" }, { line = "ram0.0.0" }, { line = "ram0.0.1" }]
board
printf ' FIM P0, 0\n SRC P0\n LDM 7\n WRR\n LDM 2\n WMP\nhere: JUN here\n' > "$folder/display.asm"
printf 'test a\n run 9\n expect lamps go\n expect display 7 go\n expect not lamps none\ntest b\n run 9\n expect lamps none\ntest c\n set acc 8\n run 9\n expect not lamps first go\n' > "$folder/display.test"
verdict "$(outcome ./mcs4 test "$folder/display.toml" "$folder/display.asm" "$folder/display.test" | grep '^ok\|^not\|message\|^status')" "ok 1 - a
not ok 2 - b
  message: \"lamps are .***.*, but must be .???..; lit: go\"
ok 3 - c
status 1" "lamps beside a display"
