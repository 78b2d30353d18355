# Checks that mcs4 explain explains the errors in the answers to a script, and names the lines that were not answered.
# shellcheck shell=sh

# Checks that the explanations of rejected lines name addresses by the labels and lines of the source.
make_source
cp "$folder/source.mcs" "$folder/ran.mcs"
printf 'break 0x003\npoke pc 4097\nlist 1 257\npoke rom.5 256\nlist 0x300 0\npress 0 0\nbreak\n' > "$folder/wrong.txt"
continue_session ran < "$folder/wrong.txt"
verdict "$(outcome ./mcs4 explain --source "$folder/source.asm" "$folder/ran.mcs" "$folder/wrong.txt" < "$folder/answers")" \
    "line 2: no 11: a word that must be a number is not one, or the number is out of its range
    poke pc 4097
line 3: no 11: a word that must be a number is not one, or the number is out of its range
    list 1 257
    001 (alone), line 3: JUN on
line 4: no 11: a word that must be a number is not one, or the number is out of its range
    poke rom.5 256
    005 (data + 1), line 6: data: DB 0xF2, 0xF2
line 5: no 11: a word that must be a number is not one, or the number is out of its range
    list 0x300 0
    300, which the source does not fill
line 6: no 41: the board has no such key
    press 0 0
line 7: no 10: not a command: an unknown first word, a wrong number of words, or an unknown place
    break
status 1" "addresses of rejected lines, by the source"
check_rejected_sources "explain --source PROGRAM $folder/ran.mcs $folder/wrong.txt"
check_rejected 2 "explain: SCRIPT is missing
usage: mcs4 explain [--source PROGRAM SESSION] SCRIPT < ANSWERS" ./mcs4 explain --source "$folder/source.asm" "$folder/ran.mcs"

# Tries rejected lines, invalid lines of programs, and boards in which the invalid part depends on other parts, or other parts depend on it.
cat > "$folder/explain.txt" <<'script'
wire
[keys]
chain = 0
first = 0
rows = 2
columns = ["rom1.0"]
[[chain]]
clock = "rom0.0"
data = "rom0.1"
chips = 1
lamp = 3
.
wire
lamp = [
    { line = "rom0.1" }, { line = "rom0.2" },
    { line = "rom0.3" }, { line = "ram3.0.0" },
]
[keys]
chain = 0
first = 9
rows = 1
columns = ["rom1.0"]
[[chain]]
clock = "rom0.0"
data = "rom0.1"
chips = 1
[[rom]]
chip = 1
port = "iiii"
[[rom]]
chip = 0
port = "0000"
.
wire
[[rom]]
chip = 1
port = "iiii"

[[ram]]
bank = 1
chips = 4
# the second one
[[rom]]
chip = 1
port = "0000"
[[lamp]]
line = "ram1.0.0"
.
wire
[[ram]]
bank = 1
chips = = 4
.
list 0 2
  asm
 ; a program
 LDM 16
.
board
 
ram 0
state
press 300 0
asm now
asm
LDM 1
script
new_session explain < "$folder/explain.txt" || true
cat > "$folder/explained" <<'explained'
line 1: no 21, line 10 of the text: lamp is not a key of chain, which has clock, data, chips
    lamp = 3
line 13: no 25, line 3 of the text: the board has no line ram3.0.0: no [[ram]] has bank = 3
        { line = "rom0.3" }, { line = "ram3.0.0" },
line 34: no 24, line 10 of the text: chip 1 is already on line 1
    chip = 1
line 49: no 20, line 3 of the text: a value is needed here, not =
    chips = = 4
line 55: no 33, line 2 of the text: LDM takes a value, 0 to 15
     LDM 16
line 63: no 11: a word that must be a number is not one, or the number is out of its range
    press 300 0
line 64: no 10: not a command: an unknown first word, a wrong number of words, or an unknown place
    asm now
line 65: no 15: input ended inside a text: the line '.' after it is missing
    asm
status 1
explained
verdict "$(outcome ./mcs4 explain "$folder/explain.txt" < "$folder/answers")" "$(cat "$folder/explained")" \
    "explanations of rejected lines"
printf 'session 0\nok 1\nacc 0\n' > "$folder/answers"
printf '\nreset\n\nregs\n' > "$folder/two.txt"
verdict "$(outcome ./mcs4 explain "$folder/two.txt" < "$folder/answers")" "status 0" "nothing to explain"
printf 'reset\nseq\n' > "$folder/two.txt"
printf 'session 0\nok 1\nok 2\n' > "$folder/answers"
check_rejected 1 "explain: these are not the answers to this script: line 3 of the answers, \`ok 2\`, does not answer line 2 of the script, \`seq\`" \
    ./mcs4 explain "$folder/two.txt" < "$folder/answers"
printf 'session 0\nok 1\nseq 1\nok 2\n' > "$folder/answers"
check_rejected 1 "explain: these are not the answers to this script: line 4 of the answers, \`ok 2\`, comes after the answer to the last line of the script" \
    ./mcs4 explain "$folder/two.txt" < "$folder/answers"
check_rejected 2 "explain: SCRIPT is missing
usage: mcs4 explain [--source PROGRAM SESSION] SCRIPT < ANSWERS" ./mcs4 explain

# Tries answers that are incomplete, answers to another script, and text that is not an answer. Arguments: the script, the answers, and the expected
# output.
check_explain() {
    printf "$1" > "$folder/script"
    printf "$2" > "$folder/answers"
    verdict "$(outcome ./mcs4 explain "$folder/script" < "$folder/answers")" "$3" "explain: $1"
}
check_explain 'poke r1 1\nwatch 0 0\n' 'session 0\n' "line 1 and those after it were not answered
    poke r1 1
status 1"
check_explain 'poke r1 1\nwatch 0 0\n' 'session 0\nok 1\nok' "line 2 was not answered
    watch 0 0
status 1"
wrong_answers_message="explain: these are not the answers to this script: line"
check_explain 'press 0 0\n' 'session 0\nok 1 ran 10 end\n' "$wrong_answers_message 2 of the answers, \`ok 1 ran 10 end\`, does not answer line 1 of the script, \`press 0 0\`
status 1"
check_explain 'run 5\n' 'session 0\nok 1\n' "$wrong_answers_message 2 of the answers, \`ok 1\`, does not answer line 1 of the script, \`run 5\`
status 1"
check_explain 'reset\nreset\n' 'session 0\nok 9\nok 3\n' "$wrong_answers_message 2 of the answers, \`ok 9\`, does not answer line 1 of the script, \`reset\`: 0 commands were accepted before it
status 1"
check_explain 'watches\nreset\n' 'session 0\nwatches -\njunk\n' "$wrong_answers_message 3 of the answers, \`junk\`, does not answer line 2 of the script, \`reset\`
status 1"
{
    printf 'wire\nrom = [{ chip = 0, port = "0000" }]\n.\nasm\n NOP\n NOP ; \303\244\n.\nasm\n NOP\n ORG 0x3FF\n FIM P0, 0\n.\nasm\n; '
    awk 'BEGIN { for (i = 0; i < 300; i++) printf "x"; print "\n." }'
} > "$folder/script"
new_session explain < "$folder/script"
verdict "$(outcome ./mcs4 explain "$folder/script" < "$folder/answers" | sed 's/xxx*/x/')" "line 4: no 14, line 2 of the text: a byte that is neither a tab nor a printable ASCII character: \`$(printf '\303\244')\`
     NOP ; $(printf '\303\244')
line 8: no 42, line 3 of the text: this line is at 3FF, and the board has no ROM 3: wire a [[rom]] with chip = 3
     FIM P0, 0
line 13: no 12, line 1 of the text: a line of more than 255 bytes
    ; x
status 1" "lines of texts that the answer does not name"
printf ' NOP\n NO\303\244P ; \303\244\n' > "$folder/faulty.asm"
check_rejected 1 "script: $folder/faulty.asm: line 2: no 14: $(printf '\303\244') is not an ASCII character; it is allowed only in comments
script:      NO$(printf '\303\244')P ; $(printf '\303\244')" ./mcs4 script $three_lamps/board.toml "$folder/faulty.asm"
printf ' NOP\n ORG 0x100\n NOP\n' > "$folder/faulty.asm"
check_rejected 1 "script: $folder/faulty.asm: line 3: no 42: this line is at 100, and the board has no ROM 1: wire a [[rom]] with chip = 1
script:      NOP" ./mcs4 script $three_lamps/board.toml "$folder/faulty.asm"

# A listing ends after address FFF, even if more bytes are requested.
printf 'wire\nrom = [{ chip = 15, port = "0000" }]\n.\npoke rom.0xFFE 0x40\nlist 0xFFE 4\nlist 0xFFF 1\npoke r1 1\npoke r99 1\n' > "$folder/script"
new_session other < "$folder/script"
verdict "$(outcome ./mcs4 explain "$folder/script" < "$folder/answers")" "line 8: no 11: a word that must be a number is not one, or the number is out of its range
    poke r99 1
status 1" "listings up to the last address"
