# Checks the output of mcs4 script for the calculator, and its messages about errors.
# shellcheck shell=sh

board=$calculator/board.toml
program=$calculator/calculator.asm
verdict "$(./mcs4 script "$board" "$program" '22/7=')" "$(cat $calculator/quotient.txt)" "the script of the quotient"
check_rejected 1 "script: $board has no key x" ./mcs4 script "$board" "$program" "1 x 2"
check_rejected 1 "script: cannot read none.toml: there is no such file" ./mcs4 script none.toml "$program" "1"
check_rejected 1 "script: cannot read none.asm: there is no such file" ./mcs4 script "$board" none.asm "1"
printf 'NOP\n.\n' > "$folder/dotted"
check_rejected 1 "script: $folder/dotted: line 2: a line with only a dot would end the text here" ./mcs4 script "$board" "$folder/dotted" "1"
check_rejected 2 "script: PROGRAM is missing
usage: mcs4 script BOARD PROGRAM [KEYS]
       mcs4 script [-C FOLDER] [KEYS]" ./mcs4 script "$board"
printf 'NOP\n\tJCN 4, far\n ORG 0x300\nfar: NOP\n' > "$folder/bad.asm"
check_rejected 1 "script: $folder/bad.asm: line 2: no 34: far is on another page; JCN reaches the page of the address after its two words
script:     	JCN 4, far" ./mcs4 script "$board" "$folder/bad.asm"
printf '[[rom]]\nchip = 0\nport = "0000"\n[[lamp]]\nline = "rom1.0"\n' > "$folder/bad.toml"
check_rejected 1 "script: $folder/bad.toml: line 5: no 25: the board has no line rom1.0: no [[rom]] has chip = 1
script:     line = \"rom1.0\"" ./mcs4 script "$folder/bad.toml" "$program"
