# Checks that mcs4 test repeats lines, runs shared steps, chooses keys by values, and reports the label that was last passed.
# shellcheck shell=sh

# Each lamp is on for 538 cycles. These times are counted from the cycle in which a lamp turns on. The iterations of the delay loop begin after 4, 6,
# 8, 10 and 14 cycles, the last iteration begins after 520, and the JCN to `first` after 532. `first` begins 4 cycles before a lamp turns on. Counted
# from power-on, the program passes `first` after 3 cycles, and `next` after 5.
cat > "$folder/shared.test" <<'end_of_tests'
steps begin
    until lamps right within 7
    mark
steps turn # of all lamps
    repeat 2
        until not lamps right within 6 ms
    end
    until lamps left within 6 ms
    expect cycles 1076
    until lamps right within 6 ms
    expect cycles 1614 ; and no cycle more
    mark
steps more
    repeat 2
        do turn
    end
test it goes round
    do begin
    repeat 3
        do more
    end
    save round
test once more
    from round
    do more
    until @first within 1609
test it fails in the second turn
    do begin
    repeat 3
        expect lamps right
        repeat 5
            run 538
            expect not lamps left
        end
    end
test it fails in shared steps
    do begin
    set r4 4
    do turn
test a label before
    run 9
    until @first within 4
test a place before
    run 1
    until pc 0 within 3
test long ago
    set rom.0x018 0x40
    set rom.0x019 0x18
    run 250000
    until @next within 10
test not in this test
    run 1
    until @first within 1
end_of_tests
verdict "$(outcome ./mcs4 test $three_lamps/board.toml $three_lamps/three_lamps.asm "$folder/shared.test" | results)" "ok 1 - it goes round
not ok 2 - once more
  message: \"it did not become true within 1609 cycles: pc is 003 (first), within an instruction, but must be @first; the last label passed is turn, 13 cycles ago; @first was last passed 1613 cycles ago\"
  at: \"$folder/shared.test:26\"
not ok 3 - it fails in the second turn
  message: \"lamps are *.., but must not be *..; lit: left; in pass 2 of 5 of the repeat at line 31, in pass 1 of 3 of the repeat at line 29\"
  at: \"$folder/shared.test:33\"
not ok 4 - it fails in shared steps
  message: \"it did not become true within 556 cycles: lamps are ..*, but must not be ..*; lit: right; the last label passed is turn, 2 cycles ago; in pass 1 of 2 of the repeat at line 5, in the steps turn called at line 39\"
  at: \"$folder/shared.test:6\"
not ok 5 - a label before
  message: \"it did not become true within 4 cycles: pc is 016 (turn), but must be @first; the last label passed is turn, 2 cycles ago; @first was last passed 10 cycles ago\"
  at: \"$folder/shared.test:42\"
not ok 6 - a place before
  message: \"it did not become true within 3 cycles: pc is 004 (first + 1), but must be 0; the last label passed is first, 1 cycle ago; pc 0 was last passed 4 cycles ago\"
  at: \"$folder/shared.test:45\"
not ok 7 - long ago
  message: \"it did not become true within 10 cycles: pc is 018 (turn + 2), within an instruction, but must be @next; the last label passed is turn, 249993 cycles ago; @next was last passed 250005 cycles ago\"
  at: \"$folder/shared.test:50\"
not ok 8 - not in this test
  message: \"it did not become true within 1 cycles: pc is 002, but must be @first; @first was not passed in this test\"
  at: \"$folder/shared.test:53\"
status 1" "repeated lines and shared steps"

# Checks keys that are chosen by values. The values are in RAM that the lock does not use. The lock's code is 4711.
cat > "$folder/chosen.test" <<'end_of_tests'
steps ready
    run 100 ms
    set ram.0.0x20 4
    set ram.0.0x21 1
    set st.0.1.2 0
test values name keys
    do ready
    keys {ram.0.0x20} 7 {ram.0.0x21:3,1} {st.0.1.2:1,2} # ; the last key
    expect lamps open
test press and release
    do ready
    press {ram.0.0x21} {ram.0.0x20:0,0,0,0,*}
    expect ram.0.0x20 4
    release 1 {ram.0.0x20:0,0,0,0,*}
    keys 4 7 1 {ram.0.0x21} #
    expect lamps open
test no such key
    do ready
    set ram.0.0x21 10
    keys 4 {ram.0.0x21}
test no such key of two
    do ready
    repeat 3
        press {ram.0.0x20:1,2}
    end
test no such key of one
    set r5 2
    press {r5:1}
end_of_tests
verdict "$(outcome ./mcs4 test $lock/board.toml $lock/lock.asm "$folder/chosen.test" | results)" "ok 1 - values name keys
ok 2 - press and release
not ok 3 - no such key
  message: \"ram.0.0x21 is 10, and the board has no key 10, nor A\"
  at: \"$folder/chosen.test:20\"
not ok 4 - no such key of two
  message: \"ram.0.0x20 is 4, and {ram.0.0x20:1,2} has 2 keys; in pass 1 of 3 of the repeat at line 23\"
  at: \"$folder/chosen.test:24\"
not ok 5 - no such key of one
  message: \"r5 is 2, and {r5:1} has 1 key\"
  at: \"$folder/chosen.test:28\"
status 1" "keys that are chosen by values"
