# Checks that mcs4 test evaluates conditions, starts from saved states, and reports failures. The expected results were worked out manually.
# shellcheck shell=sh

cat > "$folder/lamps.test" <<'end_of_tests'
# The right lamp is on first, after 7 cycles: FIM, SRC, LDM, XCH, LD and WMP.
test the right lamp is lit first
    until lamps right within 7
    expect cycles 7
    expect pc 7
    expect not @next
test the middle one is lit after the right one
    until lamp middle on within 1000
    expect not lamp right on
    expect lamps .*.
    expect lamps ?*?
    expect ram0.0 out 2
    expect ram0.0.1 1
    expect ram0.0.0 0
    expect acc 2
    expect r4 2
    expect cy 1
    save middle
test the left one comes next
    from middle
    mark
    until lamps left within 6 ms
    expect cycles at most 538
    expect rom0 out 0
    save left
test a state is begun with as it was
    from left
    expect lamps left
    set acc 9
    set ram.0.0x3F 5
    set st.0.1.2 7
    set test 0
    expect acc 9
    expect ram.0.0x3E 0 5
    expect st.0.1.2 7
    expect test 0
    reset
    expect lamps none
    expect test 0
    expect ram.0.0x3F 0
test a sum
    set r4 7
    expect r4 8
    save never
test one that needs its state
    from never
    run 1
test a run into nothing
    set rom.0x018 0xFE
    run 1 s
test a limit
    until lamps left within 100
test a wait for a register
    until r4 2 within 10ms
    expect @first
test the number of #
    until @wait within 1000
    expect lamps ..*
end_of_tests
cat > "$folder/printed" <<'END'
TAP version 13
1..10
ok 1 - the right lamp is lit first
ok 2 - the middle one is lit after the right one
ok 3 - the left one comes next
ok 4 - a state is begun with as it was
not ok 5 - a sum
  message: "r4 is 7, but must be 8"
not ok 6 - one that needs its state
  message: "the state never is missing, because the test `a sum` did not reach its `save`"
not ok 7 - a run into nothing
  message: "the run stopped after 19 cycles before a code that is not an instruction, at 018 (turn + 2)"
not ok 8 - a limit
  message: "it did not become true within 100 cycles: lamps are ..*, but must be *..; lit: right; the last label passed is turn, 1 cycle ago"
not ok 9 - a wait for a register
  message: "pc is 00D (next + 8), but must be @first"
ok 10 - the number of \#
status 1
END
check_test_output() {
    verdict "$(outcome ./mcs4 test $three_lamps/board.toml $three_lamps/three_lamps.asm "$folder/lamps.test" 2>&1 | sed -n '/^TAP/p; /^1\.\./p; /ok [0-9]/p; /^  message/p; /^status/p')" \
        "$(cat "$folder/printed")" "$1"
}
check_test_output "conditions and failures"
# Checks that the output is the same whichever awk is the first one on the PATH.
for awk_program in gawk mawk original-awk "busybox awk"; do
    if command -v "${awk_program%% *}" > /dev/null; then
        mkdir -p "$folder/bin"
        printf '#!/bin/sh\nexec %s "$@"\n' "$awk_program" > "$folder/bin/awk"
        chmod +x "$folder/bin/awk"
        (
            PATH=$folder/bin:$PATH
            outcome ./mcs4 test $three_lamps/board.toml $three_lamps/three_lamps.asm "$folder/lamps.test" |
                sed -n '/^TAP/p; /^1\.\./p; /ok [0-9]/p; /^  message/p; /^status/p'
        ) > "$folder/other_awk"
        verdict "$(cat "$folder/other_awk")" "$(cat "$folder/printed")" "the results with $awk_program"
    fi
done

# Checks each kind of condition. The times follow from the program below.
cat > "$folder/kinds.asm" <<'program'
        FIM P0, 0x00
        SRC P0
        LDM 2
        WRR             ; the clock is 0, the data 1: 5 cycles
        IAC
        WRR             ; both are 1, the first bit is shifted in: 7
        FIM P0, 0x12
        SRC P0
        WRM             ; 11
        IAC
        WR3             ; 13
        WMP             ; 14
        DCL             ; 15
        STC             ; 16
        JMS part
end:    JUN end
part:   FIM P7, 0xE9    ; 20
        BBL 7           ; 21
program
cat > "$folder/kinds.toml" <<'board'
# row 0: a
rom = [{ chip = 0, port = "0000" }, { chip = 1, port = "1ii0" }]
ram = [{ bank = 0, chips = 1 }]
chain = [{ clock = "rom0.0", data = "rom0.1", chips = 2 }]
keys = { chain = 0, first = 0, rows = 1, columns = ["rom1.1"] }
lamp = [{ line = "ram0.0.2" }, { line = "chain0.0" }]
board
awk 'BEGIN {
    count = split("rom0 out 2:5/rom0.1 1:5/rom0 out 3:7/rom0.0 1:7/chain0 1???????????????????:7/chain0 10000000000000000000:7/chain0.0 1:7/rom1 in 10:7/" \
        "rom1.1 1:7/lamp 1 on:7/lamps .*:7/not lamps ..:7/ram.0.0x12 3:11/ram.0.0x11 0 3 0:11/st.0.1.3 4:13/not st.0.1.3 0:13/ram0.0 out 4:14/" \
        "ram0.0.2 1:14/lamps **:14/dcl 4:15/cy 1:16/@part:18/r14 14:20/r15 9:20/acc 7:21/@end:21/not dcl 0:15/pc 3:3", kinds, "/")
    for (i = 1; i <= count; i++) {
        split(kinds[i], parts, ":")
        print "test " kinds[i] "\n press a\n until " parts[1] " within 40\n expect cycles " parts[2]
        # The run ends within an instruction.
        print "test inside " kinds[i] "\n press a\n run 1\n until " parts[1] " within 40\n expect cycles " parts[2]
    }
    # Tests conditions that become true at once, never, too late, in the last cycle, and inside an instruction.
    print "test not there\n until not pc 0 within 40\n expect cycles 2"
    print "test never\n until rom1 in 10 within 40"
    print "test too late\n press a\n until acc 7 within 20"
    print "test in time\n press a\n until acc 7 within 21"
    print "test half an instruction\n run 18\n until r15 9 within 1\n expect cycles 19\n expect owed 1"
    print "test the other half\n run 1\n until owed 0 within 10\n expect cycles 2"
    print "test TEST\n until test 0 within 10"
}' > "$folder/kinds.test"
verdict "$(outcome ./mcs4 test "$folder/kinds.toml" "$folder/kinds.asm" "$folder/kinds.test" | sed -n '/^not ok/p; /^  message/p; /^status/p')" \
    "not ok 58 - never
  message: \"it did not become true within 40 cycles: rom1 in is 8, but must be 10; the last label passed is end, 1 cycle ago\"
not ok 59 - too late
  message: \"it did not become true within 20 cycles: acc is 4, but must be 7; the last label passed is part, 2 cycles ago\"
not ok 63 - TEST
  message: \"it did not become true within 10 cycles: test is 1, but must be 0\"
status 1" "each kind of condition"

# Checks that a failure shows the last instructions before it, and the key presses among them.
printf 'test t\npress 5\nrun 12\nexpect lamps open\n' > "$folder/one.test"
verdict "$(outcome ./mcs4 test $lock/board.toml $lock/lock.asm "$folder/one.test" | sed -n '/trace/,$p')" \
    "  trace: |
              press 1 1
           0  000 40 2C JUN start        acc 0 cy 0
              start:
           2  02C DD    LDM 13           acc D cy 0
           3  02D BC    XCH R12          acc 0 cy 0  r12 D
              ready:
           4  02E D1    LDM 1            acc 1 cy 0
           5  02F 50 71 JMS show         acc 1 cy 0  ret 031 000 000
              show:
           7  071 20 00 FIM P0, 0x00     acc 1 cy 0
           9  073 21    SRC P0           acc 1 cy 0
          10  074 E1    WMP              acc 1 cy 0  out 0.0 1 lamps *..
          11  075 C0    BBL 0            acc 0 cy 0  ret 000 000 076
              anew:
          12  031 2A 00 FIM P5, 0x00     comes next
  ...
status 1" "the trace of a failure"
