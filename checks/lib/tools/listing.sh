# Checks that mcs4 listing prints the correct addresses, bytes and names.
# shellcheck shell=sh

# Compares the listing with bytes that were assembled manually. The program has lines that end with CRLF, labels on separate lines and at ORG, and a
# name that is used before its definition. It also has a DB whose listing takes several lines.
cat > "$folder/program.asm" <<'program'
five = 5                ; a number
start:  LDM five
        JMS add_it
        ; a comment
alone:
        ISZ R2, start
        ORG 0x0FE
table:  DB 1, 2, 3, 4, 0xAB
add_it: ADD R1
        BBL 7
program
sed 's/$/\r/' < "$folder/program.asm" > "$folder/crlf.asm"
cat > "$folder/listing" <<'listing'
  = 005          five = 5                ; a number
000 D5           start:  LDM five
001 51 03                JMS add_it
                         ; a comment
003              alone:
003 72 00                ISZ R2, start
                         ORG 0x0FE
0FE 01 02 03 04  table:  DB 1, 2, 3, 4, 0xAB
102 AB
103 81           add_it: ADD R1
104 C7                   BBL 7

add_it           103
alone            003
five             005
start            000
table            0FE
listing
verdict "$(./mcs4 listing "$folder/program.asm")" "$(cat "$folder/listing")" "a listing"
verdict "$(./mcs4 listing "$folder/crlf.asm")" "$(cat "$folder/listing")" "a listing of a source with CRLF"
verdict "$(./mcs4 listing --names "$folder/program.asm")" "add_it 103
alone 003
five 005
start 000
table 0FE" "names"
verdict "$(./mcs4 listing $calculator/calculator.asm | grep -c '^[0-9A-F][0-9A-F][0-9A-F] [0-9A-F][0-9A-F]')" \
    "$(./mcs4 listing $calculator/calculator.asm | sed -n 's/^[0-9A-F][0-9A-F][0-9A-F] [0-9A-F][0-9A-F]/&/p' | sort -u | wc -l | tr -d ' ')" \
    "no address twice in the listing of the calculator"
printf 'NOP\n\tJCN 4, far\n ORG 0x300\nfar: NOP\n' > "$folder/bad.asm"
check_rejected 1 "listing: $folder/bad.asm: line 2: no 34: far is on another page; JCN reaches the page of the address after its two words
listing:     	JCN 4, far" ./mcs4 listing "$folder/bad.asm"
verdict "$(./mcs4 listing --labels "$folder/program.asm")" "add_it 103
alone 003
start 000
table 0FE" "labels"
check_rejected 2 "listing: there is no option --name; did you mean --names?
usage: mcs4 listing [-C FOLDER] [--names | --labels] [PROGRAM]" ./mcs4 listing --name "$folder/bad.asm"
