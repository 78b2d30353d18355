# Compares the counts of mcs4 cover with those of single steps and with a report that was worked out manually. Also checks the LCOV format.
# shellcheck shell=sh

make_count
cat > "$folder/covered" <<'covered'
                          two = 2
         1                        FIM P0, 0xE0    ; R0: two turns
         2                turn:   JMS part
         2 1/1                    ISZ R0, turn
         1 0/1                    JCN two, never
         1                        JUN end
     never                never:  NOP
                                  DB 1, 2
         2                part:   CLC
         2                        BBL 0
        10                end:    JUN end

8 of 9 instructions were run (88.9 %), 3 of 4 branch directions (75.0 %)
never run: line 7
only one way: line 5 (never taken)
status 0
covered
# The cycles: FIM (2), twice JMS (2), CLC (1), BBL (1) and ISZ (2), then JCN (2) and JUN (2) are 18. With 11 more JUN of 2 cycles, they are 40.
sed 's/^        10 /        11 /' < "$folder/covered" > "$folder/expected"
verdict "$(outcome ./mcs4 cover --lcov "$folder/count.info" $three_lamps/board.toml "$folder/count.asm" "$folder/count.test")" \
    "$(cat "$folder/expected")" "coverage, worked out manually"
verdict "$(cat "$folder/count.info")" "TN:
SF:$folder/count.asm
FN:9,part
FNDA:2,part
FNF:1
FNH:1
BRDA:4,0,0,1
BRDA:4,0,1,1
BRDA:5,0,0,0
BRDA:5,0,1,1
BRF:4
BRH:3
DA:2,1
DA:3,2
DA:4,2
DA:5,1
DA:6,1
DA:7,0
DA:9,2
DA:10,2
DA:11,11
LF:9
LH:8
end_of_record" "the LCOV file, worked out manually"

# A jump that is always taken: eight iterations of CLC (1 cycle), JCN (2) and JUN (2) are 40 cycles.
cat > "$folder/always.asm" <<'program'
turn:   CLC
        JCN 10, next    ; if the carry is 0
        NOP
next:   JUN turn
program
verdict "$(outcome ./mcs4 cover --lcov "$folder/always.info" $three_lamps/board.toml "$folder/always.asm" "$folder/count.test")" \
    "         8                turn:   CLC
         8 8/0                    JCN 10, next    ; if the carry is 0
     never                        NOP
         8                next:   JUN turn

3 of 4 instructions were run (75.0 %), 1 of 2 branch directions (50.0 %)
never run: line 3
only one way: line 2 (always taken)
status 0" "coverage of a jump that is always taken"
verdict "$(sed -n '/^BR/p' "$folder/always.info" | tr '\n' ' ')" "BRDA:2,0,0,8 BRDA:2,0,1,0 BRF:2 BRH:1 " "the LCOV file of a jump that is always taken"

# Compares the counts of `cover` with those of single steps (`step` and `regs`), in 6,000 cycles of the calculator with a key down.
./mcs4 script $calculator/board.toml $calculator/calculator.asm > "$folder/script"
{
    cat "$folder/script"
    echo 'press 1 2'
} | new_session calc
cp "$folder/calc.mcs" "$folder/copy.mcs"
outcome ./mcs4 cover --lcov "$folder/calc.info" --session "$folder/calc.mcs" 6000 $calculator/calculator.asm > "$folder/report"
verdict "$(tail -n 1 "$folder/report"; cmp "$folder/calc.mcs" "$folder/copy.mcs" && echo same)" "status 0
same" "the coverage of a session"
./mcs4 listing $calculator/calculator.asm > "$folder/listing"
awk 'BEGIN { for (i = 0; i < 6000; i++) print "regs\nstep" }' | continue_session calc
verdict "$(sed -n 's/^DA://p' "$folder/calc.info")" "$(awk '
    FNR == 1 { file++ }
    file == 1 && $1 == "acc" { pc = $6; second = $8 }
    file == 1 && $3 == "ran" { if (done < 6000 && second == 0) runs[pc]++; done += $4 }
    file == 2 && /^[0-9A-F][0-9A-F][0-9A-F] [0-9A-F][0-9A-F]/ && substr($0, 18) !~ /DB / { at[++n] = $1 }
    file == 3 {
        text = $0
        sub(/;.*/, "", text)
        sub(/^[A-Za-z_0-9]*[ \t]*:/, "", text)
        if (text ~ /^[ \t]*[A-Za-z]/ && text !~ /=|ORG|DB/) print FNR "," runs[at[++k]] + 0
    }
' "$folder/answers" "$folder/listing" $calculator/calculator.asm)" "counts of \`cover\`, and of steps"
check_rejected 1 "cover: the session's program differs from $lock/lock.asm: 001 has 24, but line 16 makes 2C" \
    ./mcs4 cover --session "$folder/calc.mcs" 100 $lock/lock.asm
check_rejected 1 "cover: cannot write $folder/none/x.info: its folder does not exist or cannot be written" ./mcs4 cover --lcov "$folder/none/x.info" --session "$folder/calc.mcs" 10 $calculator/calculator.asm
check_usage_error "CYCLES: '0' is not a decimal number from 1 to 100000000" ./mcs4 cover --session "$folder/calc.mcs" 0 $calculator/calculator.asm
check_rejected 2 "cover: PROGRAM is missing
usage: mcs4 cover [-C FOLDER] [--lcov FILE] [BOARD PROGRAM] [TEST ..]
       mcs4 cover [--lcov FILE] --session SESSION CYCLES PROGRAM" \
    ./mcs4 cover --session "$folder/calc.mcs" 100
if command -v genhtml > /dev/null; then
    genhtml -q --branch-coverage -o "$folder/html" "$folder/count.info" > "$folder/words" 2>&1 || cat "$folder/words" >&2
    find "$folder/html" -name 'count.asm.gcov.html' -exec cat {} + > "$folder/page"
    verdict "$(sed 's/<[^>]*>//g' < "$folder/page" | grep 'ISZ R0, turn\|JCN two\|NOP')" \
        "       4         [ +  + ]:          2 :         ISZ R0, turn
       5         [ -  + ]:          1 :         JCN two, never
       7                 :          0 : never:  NOP" "genhtml reads the coverage"
else
    echo "not run: genhtml (Debian's package lcov)"
fi

# Checks that `cover` fails and does not overwrite a file. It may replace only a file in the LCOV format that is not its input, and only if it
# succeeds. Arguments: the file, the status, the message, and the command.
check_unchanged() {
    cp "$1" "$folder/before"
    file=$1
    shift
    check_rejected "$@"
    verdict "$(cmp "$file" "$folder/before" 2>&1; ls "$folder" | grep -F "${file##*/}.")" "" "$file is not overwritten"
}
cp $three_lamps/board.toml "$folder/mine.toml"
cp "$folder/count.asm" "$folder/mine.asm"
cover_usage="usage: mcs4 cover [-C FOLDER] [--lcov FILE] [BOARD PROGRAM] [TEST ..]
       mcs4 cover [--lcov FILE] --session SESSION CYCLES PROGRAM"
check_unchanged "$folder/mine.toml" 2 "cover: TEST is missing
$cover_usage" ./mcs4 cover --lcov "$folder/mine.toml" "$folder/count.asm" "$folder/count.test"
check_unchanged "$folder/mine.toml" 1 "cover: $folder/mine.toml exists, and does not begin like an LCOV file (TN:); name another file, or move it away" \
    ./mcs4 cover --lcov "$folder/mine.toml" $three_lamps/board.toml "$folder/count.asm" "$folder/count.test"
check_unchanged "$folder/mine.asm" 1 "cover: $folder/mine.asm is an input of this command, so it is not written; name another file" \
    ./mcs4 cover --lcov "$folder/mine.asm" $three_lamps/board.toml "$folder/mine.asm" "$folder/count.test"
printf ' LDX 5\n' > "$folder/wrong.asm"
check_unchanged "$folder/count.info" 1 "cover: $folder/wrong.asm: line 1: no 30: LDX is not an instruction; LD or LDM?
cover:      LDX 5" ./mcs4 cover --lcov "$folder/count.info" $three_lamps/board.toml "$folder/wrong.asm" "$folder/count.test"
check_unchanged "$folder/calc.mcs" 1 "cover: $folder/calc.mcs is an input of this command, so it is not written; name another file" \
    ./mcs4 cover --lcov "$folder/calc.mcs" --session "$folder/calc.mcs" 10 $calculator/calculator.asm
verdict "$(outcome ./mcs4 cover --lcov /dev/stdout $three_lamps/board.toml "$folder/count.asm" "$folder/count.test" | sed -n '/^TN:/,$p' | tail -n 2)" "end_of_record
status 0" "the LCOV file to a pipe"
