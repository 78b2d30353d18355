# Checks that mcs4 import converts programs in the syntax of Intel's assembler and of AS, and reports what it cannot convert.
# shellcheck shell=sh

# Prints the ROM contents of a program.
rom_of() {
    rm -f "$folder/import.mcs"
    { rom_board_lines 16 && echo asm && LC_ALL=C sed 's/;.*//; s/[ \t]*$//' "$1" && echo . && ./mcs4 rom ask 0 4096; } | "$mcs4" new "$folder/import.mcs" | sed 1,3d
}
cat > "$folder/intel.src" <<'source'
/ Intel's spelling, and AS's
       CPU 4004
X      EQU 5
Y      = X+2
PORT   EQU 20H
START, FIM 0P, PORT     / ROM chip 2
       SRC 0P
       LDM <X+1
LOOP,  WRR
       JCN TZ, LOOP
       JCN AN START     ; without a comma
       FIM 2< 254
       ISZ 4, LOOP
       XCH R10
       inc x
       JUN $+2
       JMS TABLE+1-1
       BBL
       ORG 100H
table: DATA 1, 'A', <TABLE, >TABLE, "OK", -1
A.long_label_that_is_long: NOP
ADD:   NOP
* a remark
       JUN add
       JCN nz, (TABLE&0F00H)+(Y*2-6/2)
       FIM R8R9, 101B*4
       END
anything
source
cat > "$folder/imported" <<'source'
; Intel's spelling, and AS's
; CPU 4004
X = 5
Y = 7                   ; X+2
PORT = 0x20
START:  FIM P0, PORT    ; ROM chip 2
        SRC P0
        LDM 6           ; <X+1
LOOP:   WRR
        JCN 1, LOOP
        JCN 12, START   ; without a comma
        FIM P1, 254
        ISZ R4, LOOP
        XCH R10
        INC R5          ; x
        JUN 0x011       ; $+2
        JMS 0x100       ; TABLE+1-1
        BBL 0
        ORG 0x100
table:  DB 1, 0x41, 0x00, 0x01, 0x4F, 0x4B, 0xFF ; 'A', <TABLE, >TABLE, -1
A_long_label_tha: NOP
ADD_:   NOP
; a remark
        JUN ADD_
        JCN 12, 0x10B   ; (TABLE&0F00H)+(Y*2-6/2)
        FIM P4, 0x14    ; 101B*4
; END
;anything
source
verdict "$(outcome ./mcs4 import "$folder/intel.src")" "$(cat "$folder/imported")
status 0" "an imported program"
verdict "$(./mcs4 import - < "$folder/intel.src")" "$(cat "$folder/imported")" "a program imported from standard input"
verdict "$(outcome ./mcs4 import "$folder/imported" | sed 's/ *;.*//' | tr -d ' ' | sed '/^$/d')" "$(sed 's/ *;.*//' "$folder/imported" | tr -d ' ' | sed '/^$/d; s/,12,/,12,/')
status0" "an imported program, imported again"
# Compares the output with bytes that were assembled manually. The programs are in the style of Intel's first manuals. One clears a RAM register in a
# loop, one adds two numbers of sixteen decimal digits in a loop, and one computes the AND of two registers.
cat > "$folder/clear.src" <<'source'
/ CLEAR RAM REGISTER 0 OF CHIP 0
       FIM 0P, 0       / SRC ADDRESS
       LDM 0
CLEAR, SRC 0P
       WRM
       ISZ 1, CLEAR    / 16 CHARACTERS
       NOP
/ DECIMAL ADDITION: REGISTER 0 AND REGISTER 1 INTO REGISTER 1
ADD16, FIM 0P, 0       / FIRST NUMBER
       FIM 1P, 10H     / SECOND NUMBER
       CLC
DIGIT, SRC 0P
       RDM
       SRC 1P
       ADM
       DAA
       WRM
       INC 1
       ISZ 3, DIGIT
       BBL 0
/ AND OF REGISTERS 0 AND 1 INTO 2
AND,   FIM 2P, 0C0H
BITS,  XCH 0
       RAL
       XCH 0
       JCN CN, ONE
       LDM 0
       JUN SHIFT
ONE,   LD 1
SHIFT, XCH 6
       ISZ 5, BITS
       JUN AND-2
source
cat > "$folder/clear.bytes" <<'bytes'
20 00 D0 21 E0 71 03 00
20 00 22 10 F1 21 E9 23 EB FB E0 61 73 0D C0
24 C0 B0 F5 B0 12 21 D0 40 22 A1 B6 75 19 40 15
bytes
./mcs4 import "$folder/clear.src" > "$folder/clear.asm"
verdict "$(rom_of "$folder/clear.asm" | awk '{ print $2; if (substr($0, 8, 1) != " ") print $3 }' | head -n 39 | tr '\n' ' ')" "$(tr '\n' ' ' < "$folder/clear.bytes")" "the bytes of programs in Intel's style, assembled manually"
verdict "$(sed -n 's/.*; //p' "$folder/clear.asm" | grep -v '^AND-2')" "$(sed -n 's/.*\/ //p' "$folder/clear.src")" "the comments of imported programs"
# Checks that the examples assemble to the same bytes in Intel's syntax as in the bench's syntax.
for example in examples/*/*.asm; do
    sed 's/;/ \//; t spelled; :spelled
        s/^\([A-Za-z_][A-Za-z0-9_]*\) *= *0x\([0-9A-Fa-f]*\)/\1 EQU 0\2H/; s/^\([A-Za-z_][A-Za-z0-9_]*\) *= */\1 EQU /; s/^\([A-Za-z_][A-Za-z0-9_]*\):/\1,/
        h; s/ \/.*//; s/0x\([0-9A-Fa-f]*\)/0\1H/g; s/\([^A-Za-z0-9_]\)P\([0-7]\)/\1\2P/g; s/\([^A-Za-z0-9_]\)R\([0-9][0-9]*\)/\1\2/g
        x; /\//!s/.*//; s/^[^\/]*//; x; G; s/\n/ /; s/ *$//' "$example" > "$folder/example.src"
    verdict "$(outcome ./mcs4 import "$folder/example.src" > "$folder/example.asm"; tail -n 1 "$folder/example.asm")" "status 0" "$example in Intel's spelling"
    sed -i '$d' "$folder/example.asm"
    verdict "$(rom_of "$folder/example.asm" | cksum)" "$(rom_of "$example" | cksum)" "the bytes of $example in Intel's spelling"
    verdict "$(grep -c , "$folder/example.src" | awk '{ print ($1 > 3) }')" 1 "$example has another spelling"
done
# Checks that the other tools print a hint if a line has Intel's or AS's syntax.
while IFS='|' read -r line message; do
    echo "$line" > "$folder/spelled.asm"
    check_rejected 1 "listing: $folder/spelled.asm: line 1: no 30: $message
listing:     $line" ./mcs4 listing "$folder/spelled.asm" < /dev/null
done <<'lines'
zero EQU 4 ; none|define a name with =: zero = 4
 FIM 0P, 0|FIM takes a pair, P0 to P7; mcs4 import takes programs in Intel's and AS's spelling
 LDM 0AH|LDM takes a value, 0 to 15; hexadecimal is 0x0A; mcs4 import takes programs in Intel's and AS's spelling
 LDM $A|LDM takes a value, 0 to 15; hexadecimal is 0xA; mcs4 import takes programs in Intel's and AS's spelling
LOOP, NOP|LOOP is not an instruction; mcs4 import takes programs in Intel's and AS's spelling
 NOP / none|NOP takes no operand; mcs4 import takes programs in Intel's and AS's spelling
 JMP 4|JMP is not an instruction; JUN?
lines
# Checks that unsupported lines are reported, and that a text with such lines prints no program.
cat > "$folder/bad.src" <<'source'
       JMP START
X      EQU Y
Y      EQU X
       LDM 16
       FIM 3<, 0
       FIM 2, 0
       JCN NC, $
       INCLUDE "other.inc"
       HLT
       WPM
START, NOP
START, NOP
       LDM nowhere
       LDM 1+
       LDM (1
       ADD
       NOP 1
       ISZ 4
       DB
source
sed '12s/START, //' "$folder/bad.src" > "$folder/bad2.src"
check_rejected 1 "import: $folder/bad.src:12: the name START is also defined on line 11" ./mcs4 import "$folder/bad.src"
check_rejected 1 "import: $folder/bad2.src:1: \`JMP\` is neither an instruction nor a directive that is supported
import: $folder/bad2.src:2: the value of \`Y\` depends on itself
import: $folder/bad2.src:3: the value of \`X\` depends on itself
import: $folder/bad2.src:4: \`16\` is 16; it must be 0 to 15
import: $folder/bad2.src:5: \`3<\` is not an even register, 0 to 14, at which a pair begins; if it is the number of a pair, write 3P
import: $folder/bad2.src:6: \`2\` is not a pair; pairs are 0P to 7P, or 0<, 2< to 14< by their first register
import: $folder/bad2.src:7: NC means no condition (0) in Intel's syntax, but no carry (10) in that of AS: write 0 or 10
import: $folder/bad2.src:8: INCLUDE is not supported; write the lines that it stands for
import: $folder/bad2.src:9: HLT is an instruction of the 4040
import: $folder/bad2.src:10: WPM writes program RAM, which a board here does not have
import: $folder/bad2.src:13: no line defines the name nowhere
import: $folder/bad2.src:14: an operand is missing
import: $folder/bad2.src:15: a bracket is missing
import: $folder/bad2.src:16: ADD takes one operand
import: $folder/bad2.src:17: NOP takes no operand
import: $folder/bad2.src:18: ISZ takes two operands
import: $folder/bad2.src:19: DB has no values" ./mcs4 import "$folder/bad2.src"
printf ' NOP\n JCN AZ, FAR / too far\n ORG 300H\nFAR, NOP\n' > "$folder/far.src"
check_rejected 1 "import: $folder/far.src: line 2: no 34: an address on another page; JCN and ISZ reach the page of the address after their two words
import:      JCN AZ, FAR / too far" ./mcs4 import "$folder/far.src"
check_rejected 1 "import: cannot read none.src: there is no such file" ./mcs4 import none.src
# Checks that a line that is too long for any assembler, and brackets that are nested too deeply, are rejected at once.
awk 'BEGIN { printf " LDM 1"; for (i = 0; i < 300000; i++) printf "+1"; print "" }' > "$folder/long.src"
awk 'BEGIN { printf " LDM 1 ; "; for (i = 0; i < 300000; i++) printf "+1"; print "" }' > "$folder/remark.src"
awk 'BEGIN { printf " LDM "; for (i = 0; i < 400; i++) printf "("; printf "1"; for (i = 0; i < 400; i++) printf ")"; print "" }' > "$folder/deep.src"
awk 'BEGIN { printf " LDM "; for (i = 0; i < 45; i++) printf "("; printf "1"; for (i = 0; i < 45; i++) printf ")"; print "" }' > "$folder/less.src"
awk 'BEGIN { for (i = 0; i < 300000; i++) printf " "; print "x" }' > "$folder/blank.src"
awk 'BEGIN { for (i = 0; i < 900; i++) printf " "; print "; so far" }' > "$folder/blanks.src"
{
    outcome timeout 60 ./mcs4 import "$folder/long.src"
    outcome timeout 60 ./mcs4 import "$folder/remark.src" | cut -c 1-30
    outcome timeout 60 ./mcs4 import "$folder/deep.src"
    outcome timeout 60 ./mcs4 import "$folder/less.src" | cut -c 1-13
    outcome timeout 60 ./mcs4 import "$folder/blank.src"
    outcome timeout 60 ./mcs4 import "$folder/blanks.src" | sed 's/ *;/ ;/'
} > "$folder/printed"
verdict "$(cat "$folder/printed")" "import: $folder/long.src:1: the line has more than 1024 bytes before its comment
status 1
        LDM 1           ; +1+1
status 0
import: $folder/deep.src:1: more than 50 nested brackets or signs
status 1
        LDM 1
status 0
import: $folder/blank.src:1: the line has more than 1024 bytes before its comment
status 1
 ; so far
status 0" "long lines, and deeply nested brackets"
# Checks that the time grows only linearly with the numbers of names and lines: tries many names whose first 16 letters are the same, and 1 MiB of
# short lines.
awk 'BEGIN { for (i = 0; i < 400; i++) printf "SAME_FIRST_LETTERS_%d EQU %d\n", i, i % 16 }' > "$folder/names.src"
awk 'BEGIN { for (i = 0; i < 40000; i++) print "LABEL" i " EQU (1+2)*3" }' > "$folder/lines.src"
for kind in names lines; do
    verdict "$(timeout 30 ./mcs4 import "$folder/$kind.src" 2>&1 | sed "s/:.*//; 1q")" "$(case $kind in names) echo 'SAME_FIRST_LETTE = 0' ;; *) echo import ;; esac)" "many $kind"
done
# Checks that a non-ASCII character never becomes a byte of the program, and that comments keep their bytes.
printf " DB 'a\\344b' ; a\\344b\n" > "$folder/byte.src"
check_rejected 1 "import: $folder/byte.src:1: 'a$(printf '\303\244')b' has a character that is not ASCII" ./mcs4 import "$folder/byte.src"
printf " NOP ; a\\344b\n" > "$folder/byte.src"
verdict "$(./mcs4 import "$folder/byte.src" | od -An -tx1 | tr -d ' \n')" "$(printf '        NOP             ; a\344b\n' | od -An -tx1 | tr -d ' \n')" "bytes of a comment"
