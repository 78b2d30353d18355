# Compares the instructions and effects that mcs4 trace prints with traces that were worked out manually, and with single steps.
# shellcheck shell=sh

# Checks a trace that was worked out manually. The program selects a bank, writes RAM, a status character and a port, turns on a lamp, calls a
# subroutine, and reaches a code that is not an instruction.
cat > "$folder/trace.txt" <<'script'
wire
[[rom]]
chip = 0
port = "0000"
[[ram]]
bank = 1
chips = 2
[[lamp]]
line = "rom0.0"
.
asm
        LDM 1
        DCL
        FIM P0, 0x65
        SRC P0
        LDM 9
        WRM
        WR2
        WMP
        FIM P1, 0
        SRC P1
        WRR
        JMS sum
        DB 0xFF
sum:    ADD R0
        BBL 3
.
run 1
script
cat > "$folder/trace" <<'trace'
       0  001 FD    DCL              acc 1 cy 0  dcl 1
       1  002 20 65 FIM P0, 0x65     acc 1 cy 0  r0 6 r1 5
       3  004 21    SRC P0           acc 1 cy 0
       4  005 D9    LDM 9            acc 9 cy 0
       5  006 E0    WRM              acc 9 cy 0  ram.1.0x65 9
       6  007 E6    WR2              acc 9 cy 0  st.1.6.2 9
       7  008 E1    WMP              acc 9 cy 0  out 1.1 9
       8  009 22 00 FIM P1, 0x00     acc 9 cy 0
      10  00B 23    SRC P1           acc 9 cy 0
      11  00C E2    WRR              acc 9 cy 0  rom0 out 9 lamps *
      12  00D 50 10 JMS 0x010        acc 9 cy 0  ret 00F 000 000
      14  010 80    ADD R0           acc F cy 0
      15  011 C3    BBL 3            acc 3 cy 0  ret 000 000 012
      16  00F FF    DB 0xFF          stops before it: no instruction
trace
new_session trace < "$folder/trace.txt"
cp "$folder/trace.mcs" "$folder/copy.mcs"
verdict "$(./mcs4 trace "$folder/trace.mcs" 100)" "$(cat "$folder/trace")" "a trace"
verdict "$(./mcs4 trace "$folder/trace.mcs" 4)" "$(sed 3q "$folder/trace")" "a trace of four cycles"
verdict "$(./mcs4 trace --last 2 "$folder/trace.mcs" 1000000)" "$(tail -n 3 "$folder/trace")" "the last two instructions before the stop"
verdict_of_files "$folder/trace.mcs" "$folder/copy.mcs" "a session is unchanged after a trace"
echo 'break 0x004' | continue_session trace
verdict "$(./mcs4 trace --last 1 "$folder/trace.mcs" 1000)" "       1  002 20 65 FIM P0, 0x65     acc 1 cy 0  r0 6 r1 5
       3  004 21    SRC P0           stops before it: break" "the last instruction before a breakpoint"
echo 'run 2' | continue_session trace
verdict "$(./mcs4 trace "$folder/trace.mcs" 2)" "       0  (the second cycle)         acc 1 cy 0
       1  004 21    SRC P0           acc 1 cy 0" "a trace from the middle of an instruction"

# Checks traces with the labels and lines of a source.
make_source
cp "$folder/source.mcs" "$folder/copy.mcs"
verdict "$(outcome ./mcs4 trace --source "$folder/source.asm" "$folder/source.mcs" 7)" \
    "       0  000 D1       1          LDM 1               acc 1 cy 0
          alone:
       1  001 40 03    3          JUN on              acc 1 cy 0
       3  003 B2       5  on:     XCH R2              acc 0 cy 0  r2 1
          data:
       4  004 F2       6  IAC                         acc 1 cy 0
       5  005 F2       6  IAC                         acc 2 cy 0
       6  006 00    NOP                               acc 2 cy 0
status 0" "a trace with the lines of the source"
# If PROGRAM is a script of lines, the line numbers must be those in the script.
verdict "$(outcome ./mcs4 trace --source "$folder/source.txt" "$folder/source.mcs" 1)" \
    "       0  000 D1       5          LDM 1               acc 1 cy 0
status 0" "a trace with the lines of a script"
sed 's/$/\r/' < "$folder/source.asm" > "$folder/source_crlf.asm"
verdict "$(outcome ./mcs4 trace --source "$folder/source_crlf.asm" "$folder/source.mcs" 7)" \
    "$(outcome ./mcs4 trace --source "$folder/source.asm" "$folder/source.mcs" 7)" "a trace with the lines of a source with CRLF"
verdict_of_files "$folder/source.mcs" "$folder/copy.mcs" "a session is unchanged after a trace with its source"
check_rejected_sources "trace --source PROGRAM $folder/source.mcs 1"

# Checks that the error in the arguments is printed before the usage.
usage="usage: mcs4 trace [-C FOLDER] [--names PROGRAM | --source PROGRAM] [--last N] SESSION CYCLES"
check_rejected 2 "trace: --names and --source cannot be combined
$usage" \
    ./mcs4 trace --names "$folder/source.asm" --source "$folder/source.asm" "$folder/source.mcs" 1

check_usage_error "CYCLES: '100001' is not a decimal number from 1 to 100000" ./mcs4 trace "$folder/trace.mcs" 100001
check_usage_error "N: '0' is not a decimal number from 1 to 10000" ./mcs4 trace --last 0 "$folder/trace.mcs" 10
check_rejected 2 "trace: CYCLES is missing
$usage" ./mcs4 trace "$folder/trace.mcs"
check_rejected 2 "trace: SESSION and CYCLES are missing
$usage" ./mcs4 trace
verdict "$(./mcs4 trace "$folder/source.mcs" 40 --source "$folder/source.asm")" "$(./mcs4 trace --source "$folder/source.asm" "$folder/source.mcs" 40)" "an option after the arguments"
check_rejected 2 "trace: CYCLES is missing
$usage" ./mcs4 trace --last 3 "$folder/trace.mcs"
check_rejected 2 "trace: --last is given twice
$usage" ./mcs4 trace --last 3 --last 4 "$folder/trace.mcs" 40
check_rejected 2 "trace: N is missing after --last
$usage" ./mcs4 trace --last
check_rejected 2 "trace: there is no option --first
$usage" ./mcs4 trace --first 3 "$folder/trace.mcs" 40
check_rejected 2 "trace: '50' is one argument too many
$usage" ./mcs4 trace "$folder/trace.mcs" 40 50
check_rejected 1 "trace: the session $folder/trace.txt was rejected: no 50: not a session file: its size or the name inside it is wrong" ./mcs4 trace "$folder/trace.txt" 1

cat > "$folder/trace.txt" <<'script'
wire
rom = [{ chip = 0, port = "0000" }, { chip = 15, port = "0000" }]
chain = [{ clock = "rom0.0", data = "rom0.1", chips = 1 }]
.
asm
        FIM P0, 0
        SRC P0
        LDM 2
        WRR
        IAC
        WRR
        JUN last
        ORG 0xFFE
last:   XCH R11
        DB 0x40
.
script
sed '1,/^asm$/d; /^\.$/d' < "$folder/trace.txt" > "$folder/trace.asm"
new_session trace < "$folder/trace.txt"
verdict "$(outcome ./mcs4 trace --names "$folder/trace.asm" "$folder/trace.mcs" 12)" \
    "       0  000 20 00 FIM P0, 0x00     acc 0 cy 0
       2  002 21    SRC P0           acc 0 cy 0
       3  003 D2    LDM 2            acc 2 cy 0
       4  004 E2    WRR              acc 2 cy 0  rom0 out 2
       5  005 F2    IAC              acc 3 cy 0
       6  006 E2    WRR              acc 3 cy 0  rom0 out 3 chain0 1000000000
       7  007 4F FE JUN last         acc 3 cy 0
          last:
       9  FFE BB    XCH R11          acc 0 cy 0  r11 3
      10  FFF 40 20 JUN 0x020        acc 0 cy 0
status 0" "a trace of ports, a chain, and the last address"
check_rejected 1 "trace: the session's program differs from $three_lamps/three_lamps.asm: 003 has D2, but line 6 makes D1" \
    ./mcs4 trace --names $three_lamps/three_lamps.asm "$folder/trace.mcs" 12

# Traces a chain whose clock is a line of a RAM chip's port.
printf 'wire\nrom = [{ chip = 0, port = "0000" }]\nram = [{ bank = 0, chips = 1 }]\nchain = [{ clock = "ram0.0.0", data = "ram0.0.1", chips = 1 }]\n.\nasm\n FIM P0, 0\n SRC P0\n LDM 3\n WMP\n.\n' > "$folder/clocked.txt"
new_session clocked < "$folder/clocked.txt"
verdict "$(./mcs4 trace "$folder/clocked.mcs" 5 | tail -n 1)" "       4  004 E1    WMP              acc 3 cy 0  out 0.0 3 chain0 1000000000" "a chain that a RAM chip's port clocks"
# Traces ISZ instructions that jump to themselves, with several registers.
printf 'wire\nrom = [{ chip = 0, port = "0000" }]\n.\nasm\n FIM P7, 0xE0\none: ISZ R14, one\n FIM P6, 0xE0\ntwo: ISZ R12, two\nend: JUN end\n.\n' > "$folder/stand.txt"
new_session stand < "$folder/stand.txt"
verdict "$(./mcs4 trace "$folder/stand.mcs" 15 | cut -c 1-13,36-)" "       0  000  acc 0 cy 0  r14 E
       2  002  acc 0 cy 0  r14 F
       4  002  acc 0 cy 0  r14 0
       6  004  acc 0 cy 0  r12 E
       8  006  acc 0 cy 0  r12 F
      10  006  acc 0 cy 0  r12 0
      12  008  acc 0 cy 0
      14  008  acc 0 cy 0" "instructions that jump to themselves"
# Compares a trace of the calculator with `step` and `state`: the cycles before each instruction, its address, and then accumulator, carry, registers,
# return addresses, chains and lamps.
new_session steps < $calculator/quotient.txt
./mcs4 keys --until-stop "$folder/steps.mcs" $calculator/board.toml "3*" > "$folder/answers"
printf 'press 4 3\nrun 899\n' | continue_session steps
./mcs4 trace "$folder/steps.mcs" 3000 > "$folder/traced"
awk 'BEGIN { for (i = 0; i < 3000; i++) print "state\nstep"; print "state" }' | continue_session steps
cat > "$folder/compare.awk" <<'program'
function row() {
    return now["acc"] " " now["cy"] " " now["r"] " " now["ret"] " " now["chain0"] " " now["chain1"] " " now["lamps"]
}
function put(text, at, digit) {
    return substr(text, 1, at) digit substr(text, at + 2)
}
FNR == NR && $1 == "state" {
    for (i = 2; i < NF; i += 2) now[$i] = $(i + 1)
    split(now["chains"], chains, ",")
    now["chain0"] = chains[1]
    now["chain1"] = chains[2]
    if (steps > 0 && elapsed - took < 3000) stepped = stepped elapsed - took " " at " " row() "\n"
    at = now["owed"] == 1 ? "(the" : now["pc"]
    if (steps++ == 0) for (i in now) first[i] = now[i]
}
FNR == NR && $3 == "ran" { elapsed += took = $4 }
FNR == 1 && NR > 1 { for (i in first) now[i] = first[i] }
FNR < NR && $2 ~ /^([0-9A-F][0-9A-F][0-9A-F]|\(the)$/ {
    for (i = 1; $i != "acc"; i++) continue
    for (; i < NF; i += 2) {
        if ($i ~ /^r[0-9]+$/) now["r"] = put(now["r"], substr($i, 2), $(i + 1))
        else if ($i == "ret") {
            now["ret"] = $(i + 1) "," $(i + 2) "," $(i + 3)
            i += 2
        } else if ($i ~ /^(rom[0-9]+|out)$/) i++
        else now[$i] = $(i + 1)
    }
    traced = traced $1 " " $2 " " row() "\n"
}
END { printf "%s", (traced == stepped ? "same\n" : "TRACED\n" traced "STEPPED_MESSAGE\n" stepped) }
program
verdict "$(awk -f "$folder/compare.awk" "$folder/answers" "$folder/traced")" same "a trace, compared with steps"
verdict "$(wc -l < "$folder/traced" | awk '{ print ($1 > 1500) }')" 1 "many instructions in a trace"
