# Checks that tools read and send texts with a byte order mark, non-ASCII letters, or long comments correctly. Also checks scripts and projects in
# place of a program.
# shellcheck shell=sh

board=$calculator/board.toml
byte_order_mark='\357\273\277'
printf "$byte_order_mark"'# title: Z\303\244hler \342\202\254 \360\237\230\200\r\n[[rom]] # "\303\244"\nchip = 0\nport = "0000"\n' > "$folder/marked.toml"
printf "$byte_order_mark"'; z\303\244hle\n NOP ; \344 in Latin 1\n' > "$folder/marked.asm"
printf "$byte_order_mark"'test t\n# \303\244\n run 5\n' > "$folder/marked.test"
verdict "$(outcome ./mcs4 script "$folder/marked.toml" "$folder/marked.asm" | tr '\r' R)" "wire
# title: Z hler     
[[rom]] # \" \"
chip = 0
port = \"0000\"
.
asm
; z  hle
 NOP ;   in Latin 1
.
run 2000
lamps
status 0" "the texts that are sent"
verdict "$(outcome ./mcs4 test "$folder/marked.toml" "$folder/marked.asm" "$folder/marked.test")" "TAP version 13
1..1
ok 1 - t
status 0" "texts with a byte order mark"
verdict "$(outcome ./mcs4 listing "$folder/marked.asm" | sed 1q)" "                 ; z$(printf '\303\244')hle" "a listing with letters beyond ASCII"
# Checks lines that end with a carriage return alone. The message about a byte that cannot be sent to the bench must contain its line.
printf ' LDM 1\r FOO\r' > "$folder/returns.asm"
check_rejected 1 "listing: $folder/returns.asm: line 2: no 30: FOO is not an instruction; a label has a colon: FOO:
listing:      FOO" ./mcs4 listing "$folder/returns.asm"
printf ' LDM 1\r LDM 2\r\001' > "$folder/returns.asm"
check_rejected 1 "listing: $folder/returns.asm: line 3: no 14: a control character; only tabs and printable ASCII characters can be sent
listing:     \x01" ./mcs4 listing "$folder/returns.asm"
printf '# one\rtest t\r run 5\r' > "$folder/returns.test"
verdict "$(outcome ./mcs4 test "$folder/marked.toml" "$folder/marked.asm" "$folder/returns.test" | sed -n 3p)" "ok 1 - t" "tests whose lines end with carriage returns alone"
printf '# one\rnever acc 5\r' > "$folder/returns.props"
verdict "$(outcome ./mcs4 prove "$folder/marked.toml" "$folder/marked.asm" "$folder/returns.props" | sed -n 3p | cut -d '#' -f 1)" "ok 1 - never acc 5 " \
    "properties whose lines end with carriage returns alone"
printf '; one\r LDM 1H\r' > "$folder/returns.asm"
verdict "$(outcome ./mcs4 import "$folder/returns.asm" | tr '\r' R)" "; one
        LDM 1
status 0" "an import of lines that end with carriage returns alone"
# Checks a program in UTF-16 with a byte order mark, as PowerShell writes it.
for order in le be; do
    { if [ $order = le ]; then printf '\377\376'; else printf '\376\377'; fi && iconv -f utf-8 -t "utf-16$order" $lock/lock.asm; } > "$folder/wide.asm"
    verdict "$(outcome ./mcs4 listing "$folder/wide.asm")" "$(outcome ./mcs4 listing $lock/lock.asm)" "a program in UTF-16, $order"
done
# Checks that comments and indentation do not count towards the limits, with a text of almost 20,000 bytes and a line of more than 300. A script must
# keep the comments of a text that the bench accepts.
{ awk 'BEGIN { for (i = 0; i < 200; i++) { printf "%40s NOP ; ", ""; for (n = 0; n < 50; n++) printf "."; print "" } }' && echo "here: JUN here"; } > "$folder/long.asm"
awk 'BEGIN { printf " NOP ;"; for (n = 0; n < 300; n++) printf "."; print "" }' >> "$folder/long.asm"
verdict "$(wc -c < "$folder/long.asm" | tr -d ' '), $(outcome ./mcs4 listing --names "$folder/long.asm" | tr '\n' ' ')" "19922, here 0C8 status 0 " "a text that is long by its comments"
verdict "$(./mcs4 script "$board" "$folder/long.asm" | sed -n '/^asm$/{n;p;}')" NOP "a script of a text that is long by its comments"
verdict "$(./mcs4 script "$board" "$folder/long.asm" | grep -c '^# row')" "$(grep -c '^# row' "$board")" "the comments of a board in the script of a long text"
sed 's/JUN here/JUN there ; not here/' "$folder/long.asm" > "$folder/wrong.asm"
check_rejected 1 "listing: $folder/wrong.asm: line 201: no 32: there is not defined; here?
listing:     here: JUN there ; not here" ./mcs4 listing "$folder/wrong.asm"
awk 'BEGIN { for (i = 0; i < 1100; i++) print " DB 1, 2, 3, 4 ; four" }' > "$folder/wrong.asm"
awk 'BEGIN { for (i = 0; i < 100; i++) print "DB 1, 2, 3, 4" }' >> "$folder/wrong.asm"
check_rejected 1 "test: $folder/wrong.asm: line 1171: no 13: a text has at most 16,384 bytes without its comments; this one has 16,800 and exceeds the limit here
test:     DB 1, 2, 3, 4" \
    ./mcs4 test "$board" "$folder/wrong.asm" "$folder/marked.test"
printf ' NOP\n L\303\204M 1 ; \303\244\n' > "$folder/bad.asm"
check_rejected 1 "listing: $folder/bad.asm: line 2: no 14: $(printf '\303\204') is not an ASCII character; it is allowed only in comments
listing:      L$(printf '\303\204')M 1 ; $(printf '\303\244')" ./mcs4 listing "$folder/bad.asm"
printf ' NOP\n \007 ; \007\n' > "$folder/bad.asm"
verdict "$(outcome ./mcs4 listing "$folder/bad.asm" | sed 1q)" "listing: $folder/bad.asm: line 2: no 14: a control character; only tabs and printable ASCII characters can be sent" "a control character"
verdict "$(./mcs4 listing examples/stopwatch.txt | sed -n 's/^000 //p')" "$(./mcs4 project split examples/a_fault_to_find.mcsp "$folder/split"; awk '/^asm$/ { inside = 1; next } /^\.$/ { inside = 0 } inside' examples/stopwatch.txt > "$folder/alone.asm"; ./mcs4 listing "$folder/alone.asm" | sed -n 's/^000 //p')" "the listing of a script"
verdict "$(outcome ./mcs4 listing examples/a_fault_to_find.mcsp)" "$(outcome ./mcs4 listing "$folder/split/program.asm")" "the listing of a project"
