# Checks that mcs4 test reports each error in files of tests with its file and line, and runs no test. Also checks errors in the tested programs, and
# values of MCS4 that do not name the bench.
# shellcheck shell=sh

printf 'test t\n run 5\n' > "$folder/one.test"
cat > "$folder/bad.test" <<'end_of_tests'
test one
  press x
  expect lamp blue on
  until @nowhere within 10
  run 10 years
  expect
  expect lamps ****
  expect ram.0.0x40 1
  set r16 1
  expect r1 16
  foo
  from later
  keys 12z
  until lamps locked
  save a
test two
  from b
test
  expect chain0 11
  expect rom2 in 3
  expect cycles about 3
  pace 10
end_of_tests
check_rejected 1 "test: $folder/bad.test:2: the board has no key x; it has: 1 2 3 4 5 6 7 8 9 * 0 #
test: $folder/bad.test:3: the board has no lamp blue; it has: locked open alarm (column 10)
test: $folder/bad.test:4: the program has no label nowhere (column 9)
test: $folder/bad.test:5: write \`run TIME\`, as in: run 500, run 20 ms, run 1.5 s
test: $folder/bad.test:6: a condition is missing (column 8)
test: $folder/bad.test:7: a pattern of 4 lamps; the board has 3 (column 10)
test: $folder/bad.test:8: the board has no RAM chip for ram.0.0x40 (column 10)
test: $folder/bad.test:9: r16: no such place; the registers are r0 to r15 (column 7)
test: $folder/bad.test:10: r1 holds 0 to 15, not 16 (column 13)
test: $folder/bad.test:11: a line of a test cannot begin with \`foo\`; it can begin with test, steps, from, save, press, release, keys, pace, run, until, expect, mark, set, reset, do, repeat or end
test: $folder/bad.test:12: \`from\` must be right below \`test\`
test: $folder/bad.test:13: the board has no key z, nor 12z; it has: 1 2 3 4 5 6 7 8 9 * 0 #
test: $folder/bad.test:14: write \`until CONDITION within TIME\`
test: $folder/bad.test:17: no earlier test saves a state b; saved states: a
test: $folder/bad.test:18: a test needs a name: test NAME
test: $folder/bad.test:19: chain 0 has 10 bits, each 0, 1, or ? for any (column 10)
test: $folder/bad.test:20: the board has no ROM 2 (column 10)
test: $folder/bad.test:21: write \`cycles TIME\`, \`cycles at most TIME\` or \`cycles at least TIME\` (column 10)
test: $folder/bad.test:22: write \`pace TIME TIME\`: how long each key is down, and how long it is up before the next key" \
    ./mcs4 test $lock/board.toml $lock/lock.asm "$folder/bad.test"
cat > "$folder/bad_steps.test" <<'end_of_tests'
steps
  run 5
steps one
  do one
  save x
  do two
  from x
steps one
test a
  repeat
  repeat 0
  end
  end
  end
  do
  do three
  press {r16}
  press {r4:x,y}
  press {r4:}
  press {pc}
  keys {ram.0.0x40}
  repeat 1000
    repeat 1000
      run 5
      run 6
    end
    save y
end_of_tests
check_rejected 1 "test: $folder/bad_steps.test:1: shared steps need a name of one word: steps NAME
test: $folder/bad_steps.test:4: the steps one cannot run themselves
test: $folder/bad_steps.test:5: shared steps have no states: \`save\` belongs in a test
test: $folder/bad_steps.test:6: there are no steps two before this line; define them with \`steps two\`
test: $folder/bad_steps.test:7: shared steps have no states: \`from\` belongs in a test
test: $folder/bad_steps.test:8: the steps one are already defined at line 3
test: $folder/bad_steps.test:10: write \`repeat COUNT\`, 1 to 100,000: the lines down to its \`end\` are run COUNT times
test: $folder/bad_steps.test:11: write \`repeat COUNT\`, 1 to 100,000: the lines down to its \`end\` are run COUNT times
test: $folder/bad_steps.test:14: there is no \`repeat\` for this \`end\`
test: $folder/bad_steps.test:15: write \`do STEPS\`, the name of shared steps
test: $folder/bad_steps.test:16: there are no steps three before this line; shared steps: one
test: $folder/bad_steps.test:17: r16: no such place; the registers are r0 to r15
test: $folder/bad_steps.test:18: the board has no key x; it has: 1 2 3 4 5 6 7 8 9 * 0 #
test: $folder/bad_steps.test:19: to choose a key by a value, write \`{PLACE}\` or \`{PLACE:KEY,KEY}\`; places are acc, cy, dcl, r0 to r15, ram.B.S and st.B.H.K
test: $folder/bad_steps.test:20: to choose a key by a value, write \`{PLACE}\` or \`{PLACE:KEY,KEY}\`; places are acc, cy, dcl, r0 to r15, ram.B.S and st.B.H.K
test: $folder/bad_steps.test:21: the board has no RAM chip for ram.0.0x40
test: $folder/bad_steps.test:24: this repeats more than 1,000,000 lines
test: $folder/bad_steps.test:27: a state is saved once: \`save\` cannot be in a \`repeat\`
test: $folder/bad_steps.test:22: this \`repeat\` has no \`end\`" \
    ./mcs4 test $lock/board.toml $lock/lock.asm "$folder/bad_steps.test"
printf 'test b\n do one more\n end 3\n repeat 100001\n from a\n repeat 9\ntest c\n press {r4:1,,2}\n keys {r1 4}\n keys {}\n' > "$folder/no.test"
check_rejected 1 "test: $folder/no.test:2: write \`do STEPS\`, the name of shared steps
test: $folder/no.test:3: \`end\` takes no argument
test: $folder/no.test:4: write \`repeat COUNT\`, 1 to 100,000: the lines down to its \`end\` are run COUNT times
test: $folder/no.test:5: \`from\` must be right below \`test\`
test: $folder/no.test:4: this \`repeat\` has no \`end\`
test: $folder/no.test:6: this \`repeat\` has no \`end\`
test: $folder/no.test:8: the board has no key ; it has: 1 2 3 4 5 6 7 8 9 * 0 #
test: $folder/no.test:9: the board has no key {, nor {r1; it has: 1 2 3 4 5 6 7 8 9 * 0 #
test: $folder/no.test:10: the board has no key {, nor {}; it has: 1 2 3 4 5 6 7 8 9 * 0 #" \
    ./mcs4 test $lock/board.toml $lock/lock.asm "$folder/no.test"
printf 'hello\n' > "$folder/no.test"
check_rejected 1 "test: $folder/no.test:1: tests begin with \`test NAME\`, but this line is: hello" \
    ./mcs4 test $lock/board.toml $lock/lock.asm "$folder/no.test"
printf '# nothing\n' > "$folder/no.test"
check_rejected 1 "test: $folder/no.test:1: there is no line \`test NAME\`" ./mcs4 test $lock/board.toml $lock/lock.asm "$folder/no.test"
printf 'test t\nexpect display 3\n' > "$folder/no.test"
check_rejected 1 "test: $folder/no.test:2: the board's text names no display (\`# display 0: 4 digits\`) (column 8)" \
    ./mcs4 test $lock/board.toml $lock/lock.asm "$folder/no.test"
printf 'test t\nexpect printed 3\n' > "$folder/no.test"
check_rejected 1 "test: $folder/no.test:2: the board's text names no printer (\`# printer rom0.2: ram0.2 0 1 2 + feed\`) (column 8)" \
    ./mcs4 test $lock/board.toml $lock/lock.asm "$folder/no.test"
printing_calculator=examples/printing_calculator
printf 'test t\nexpect printed\ntest u\nuntil not printed within 9\n' > "$folder/no.test"
check_rejected 1 "test: $folder/no.test:2: write \`printed TEXT\`, the last lines of the printout, as in: printed 12+ 30= 42 (column 8)
test: $folder/no.test:4: write \`printed TEXT\`, the last lines of the printout, as in: printed 12+ 30= 42 (column 11)" \
    ./mcs4 test $printing_calculator/board.toml $printing_calculator/printing_calculator.asm "$folder/no.test"
printf 'test \303\244\n' > "$folder/no.test"
check_rejected 1 "test: $folder/no.test:1: a byte that is neither a tab nor a printable ASCII character" \
    ./mcs4 test $lock/board.toml $lock/lock.asm "$folder/no.test"
: > "$folder/empty"
check_rejected 1 "test: $folder/empty is empty" ./mcs4 test $lock/board.toml $lock/lock.asm "$folder/empty"
check_rejected 1 "test: cannot read none: there is no such file" ./mcs4 test $lock/board.toml $lock/lock.asm none
check_rejected 1 "test: cannot read none: there is no such file" ./mcs4 test none $lock/lock.asm "$folder/one.test"
check_rejected 2 "test: TEST is missing
usage: mcs4 test [-C FOLDER] [BOARD PROGRAM] [TEST ..]" ./mcs4 test $lock/board.toml $lock/lock.asm
sed 's/JMS key/JMS kez/' < $lock/lock.asm > "$folder/faulty.asm"
check_rejected 1 "test: $folder/faulty.asm: line 31: no 32: kez is not defined; key?
test:     digit:  JMS kez" ./mcs4 test $lock/board.toml "$folder/faulty.asm" "$folder/one.test"
sed 's/ISZ R4, digit/ISZ R4, digits/' < examples/stopwatch.txt > "$folder/faulty.txt"
line=$(grep -n 'ISZ R4, digits' "$folder/faulty.txt" | sed 's/:.*//')
check_rejected 1 "test: $folder/faulty.txt: line $line: no 32: digits is not defined; digit?
test:             ISZ R4, digits" ./mcs4 test "$folder/faulty.txt" "$folder/faulty.txt" "$folder/one.test"
printf '#!/bin/sh\necho no such thing\n' > "$folder/no_bench"
chmod +x "$folder/no_bench"
verdict "$(MCS4=$folder/no_bench outcome ./mcs4 test $lock/board.toml $lock/lock.asm "$folder/one.test")" \
    "test: $folder/no_bench does not answer; set MCS4 to the path of the program if it is not the mcs4 at the top
status 1" "a program that is not mcs4"
verdict "$(MCS4=$folder/none outcome ./mcs4 names $lock/lock.asm)" "names: $folder/none does not answer; set MCS4 to the path of the program if it is not the mcs4 at the top
status 1" "a missing program"
# Checks that the output of tools/build appears if a clone must first build its program. (Here a script that only copies the program replaces
# tools/build.)
if [ -e tools/lib/sums.sh ]; then
    tree=$folder/tree
    mkdir -p "$tree/tools" "$tree/crates/mcs4/out"
    cp -R mcs4 js "$tree"
    cp -R tools/lib "$tree/tools"
    echo 'mcs4:' > "$tree/crates.txt"
    printf '#!/bin/sh\necho "mcs4: mcs_nibble is proved and built, 91 s so far"\ncp -- "%s" "%s"\n' "$mcs4" "$tree/crates/mcs4/out/mcs4" > "$tree/tools/build"
    chmod +x "$tree/tools/build"
    verdict "$(outcome env -u MCS4 XDG_CACHE_HOME="$folder/cache" "$tree/mcs4" keys $lock/board.toml 1 | sed -n '1,2p; $p')" "mcs4: cannot start the program in shipped/: it is missing. Now proving and building the program
mcs4: mcs_nibble is proved and built, 91 s so far
status 0" "a program that is built first"
fi
