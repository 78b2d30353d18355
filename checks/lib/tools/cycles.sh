# Checks that mcs4 cycles adds up the cycles of runs, and reports the addresses at which they stopped.
# shellcheck shell=sh

# Checks the report of the addresses at which runs stopped, with the labels and lines of the source.
make_source
printf 'run 1\nregs\nstep\nseq\nstate\nrun 1\nrun 2\nreset\nregs\nrun 5\npoke pc 0x100\nrun 100\nregs\n' > "$folder/runs.txt"
cp "$folder/source.mcs" "$folder/ran.mcs"
continue_session ran < "$folder/runs.txt"
# LDM, JUN, XCH and two IAC are six cycles. ROM 1 is missing, and its words are read as NOP.
verdict "$(outcome ./mcs4 cycles --source "$folder/source.asm" "$folder/ran.mcs" < "$folder/answers")" \
    "1 cycle, 10.8 microseconds, to 001 (alone), line 3: JUN on
2 cycles, 21.6 microseconds, to 003 (on), line 5: on: XCH R2
1 cycle, 10.8 microseconds
2 cycles, 21.6 microseconds
5 cycles, 54.0 microseconds
100 cycles, 1080.0 microseconds, to 164, which the source does not fill
111 cycles, 1198.8 microseconds
status 0" "addresses of stops, by the source"
verdict "$(outcome ./mcs4 cycles --source "$folder/source.asm" "$folder/ran.mcs" 4 7 < "$folder/answers")" \
    "2 cycles, 21.6 microseconds, to 003 (on), line 5: on: XCH R2
1 cycle, 10.8 microseconds
3 cycles, 32.4 microseconds
status 0" "addresses of some stops"
check_rejected_sources "cycles --source PROGRAM $folder/ran.mcs"
check_rejected 1 "cycles: the session $folder/source.txt was rejected: no 50: not a session file: its size or the name inside it is wrong" \
    ./mcs4 cycles --source "$folder/source.asm" "$folder/source.txt" < "$folder/answers"
check_rejected 2 "cycles: SESSION is missing
usage: mcs4 cycles [--source PROGRAM SESSION] [FIRST LAST] < ANSWERS" ./mcs4 cycles --source "$folder/source.asm"

# The expected times: 1 + 4000 + 12 cycles of 10.8 microseconds are 43,340.4, and without the last 12 they are 43,210.8.
printf 'session 0\nok 1 ran 1 end\nok 2\nok 3 ran 4000 break\r\nlamps *\nok 4 ran 12 code\n' > "$folder/answers"
verdict "$(outcome ./mcs4 cycles < "$folder/answers")" "4013 cycles, 43340.4 microseconds
status 0" "cycles of all lines"
verdict "$(outcome ./mcs4 cycles 2 5 < "$folder/answers")" "4001 cycles, 43210.8 microseconds
status 0" "cycles of some lines"
check_rejected 1 "cycles: there are only 6 lines of answers" ./mcs4 cycles 2 7 < "$folder/answers"
check_rejected 1 "cycles: none of these lines shows a run, as \`ok 5 ran 100 end\` does" ./mcs4 cycles 3 3 < "$folder/answers"
check_usage_error "FIRST is at least 1, and LAST is not before it" ./mcs4 cycles 3 2 < "$folder/answers"
check_rejected 2 "cycles: LAST is missing
usage: mcs4 cycles [--source PROGRAM SESSION] [FIRST LAST] < ANSWERS" ./mcs4 cycles 3
printf 'session 0\nno 44\n' > "$folder/answers"
check_rejected 1 "cycles: line 2 is a refusal: no 44; mcs4 explain says why" ./mcs4 cycles < "$folder/answers"
