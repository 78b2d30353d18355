# Checks that mcs4 rom imports and exports ROM images as bytes, in Intel HEX and in BNPF, and imports S-records.
# shellcheck shell=sh

# Checks that 4,096 random bytes are imported and exported unchanged, as bytes and in Intel HEX. The Intel HEX of a few bytes was written manually.
head -c 4096 /dev/urandom > "$folder/image"
{ rom_board_lines 16 && ./mcs4 rom load --binary "$folder/image" && ./mcs4 rom ask 0 4096; } | new_session rom
./mcs4 rom save 0 4096 < "$folder/answers" > "$folder/saved"
verdict_of_files "$folder/saved" "$folder/image" "a binary image that was imported and exported"
./mcs4 rom save --hex 0 4096 < "$folder/answers" > "$folder/saved.hex"
{ rom_board_lines 16 && ./mcs4 rom load "$folder/saved.hex" && ./mcs4 rom ask 0 4096; } | new_session rom
./mcs4 rom save 0 4096 < "$folder/answers" > "$folder/saved"
verdict_of_files "$folder/saved" "$folder/image" "an image that was exported and imported in Intel HEX"
printf ':03002000010203D7\r\n:0000040000FC\r\n' > "$folder/bad.hex"
printf ':020000040000FA\r\n:03002000010203d7\r\n:00000001ff\r\n' > "$folder/few.hex"
verdict "$(./mcs4 rom load "$folder/few.hex" 0x100)" "asm
ORG 0x120
DB 1,2,3
." "Intel HEX, moved to another address"
printf '01F D0    LDM 0\r\n020 01    DB 0x01\r\n021 02    DB 0x02\r\n022 03    DB 0x03\r\n' > "$folder/input"
verdict "$(./mcs4 rom save --hex 0x20 3 < "$folder/input")" ":03002000010203D7
:00000001FF" "Intel HEX of three bytes"
verdict "$(./mcs4 rom save 31 4 < "$folder/input" | od -An -tx1)" " d0 01 02 03" "four bytes"
verdict "$(./mcs4 rom ask 0x10 300)" "list 0x010 256
list 0x110 44" "queries for 300 bytes"
check_hex_error() {
    printf "$1" > "$folder/bad.hex"
    check_rejected 1 "rom: $folder/bad.hex: $2" ./mcs4 rom load "$folder/bad.hex"
}
check_hex_error ':03002000010203D7\n:03002000010203D8\n' "line 2: the checksum is D8, but should be D7"
check_hex_error ':03002000010203D7\n' "it has no last record (:00000001FF), so a part of it is missing"
check_hex_error ':03002000010203D7\n:03002200010203D5\n' "line 2: the address 022, which an earlier line already fills"
check_hex_error ':030FFE00010203EA\n' "line 1: past the last address, FFF"
check_hex_error '\n:0300200001020\n' "line 2: a record has \`:\`, ten hexadecimal digits and two for each byte"
check_hex_error '\n:0400200001020x\n' "line 2: a record has \`:\`, ten hexadecimal digits and two for each byte"
check_hex_error '\n:04002000010203D6\n' "line 2: it announces 4 bytes, but has 3"
check_hex_error '\n:020000040001F9\n' "line 2: type 04 with a value other than 0: an address past FFF"
check_hex_error '\n:0400000600000000F6\n' "line 2: type 06, which has no meaning for a 4004"
check_hex_error '\n:03000005000000F8\n' "line 2: a record of type 05 has four bytes"
check_hex_error ':00000001FF\n:00000001FF\n' "line 2: a record after the last one (type 01)"
check_hex_error ':00000001FF\n' "it has no byte"
check_rejected 1 "rom: $folder/image: it has 4,096 bytes, and only 4,095 fit from the address 001" ./mcs4 rom load --binary "$folder/image" 1
check_usage_error "ADDRESS is 0 to 4095, decimal or with 0x" ./mcs4 rom load "$folder/image" 12H
check_usage_error "FIRST is 0 to 4095, COUNT is at least 1, and 4096 is the address after the last one" ./mcs4 rom ask 4000 97
echo "no 11" > "$folder/input"
check_rejected 1 "rom: line 1 of the answers is a refusal: no 11; mcs4 explain says why" ./mcs4 rom save 0 1 < "$folder/input"
echo "000 D0    LDM 0" > "$folder/input"
check_rejected 1 "rom: no answer shows the byte at 001; mcs4 rom ask makes the questions" ./mcs4 rom save 0 2 < "$folder/input"

# Checks S-records that were written manually: data records with addresses of two, three and four bytes, a count, and the end. Each error must be
# reported with its line.
with_srec_checksum() {
    awk -v hex="$1" 'BEGIN { for (i = 1; i <= length(hex); i += 2) sum += 16 * (index("0123456789ABCDEF", substr(hex, i, 1)) - 1) + index("0123456789ABCDEF", substr(hex, i + 1, 1)) - 1; printf "%s%02X", hex, 255 - sum % 256 }'
}
printf '%s\r\n' "S1$(with_srec_checksum 050010D0E2)" "S2$(with_srec_checksum 0500012010)" "S3$(with_srec_checksum 060000013041)" "S5$(with_srec_checksum 030003)" "S9$(with_srec_checksum 030000)" > "$folder/image.srec"
verdict "$(outcome ./mcs4 rom load "$folder/image.srec")" "asm
ORG 0x010
DB 208,226
ORG 0x120
DB 16
ORG 0x130
DB 65
.
status 0" "S-records"
verdict "$(outcome ./mcs4 rom load --srec - 1 < "$folder/image.srec" | sed -n 2p)" "ORG 0x011" "S-records from standard input, moved"
check_srec_error() {
    printf '%s\n' "$1" "$2" > "$folder/bad.srec"
    check_rejected 1 "rom: $folder/bad.srec: $3" ./mcs4 rom load "$folder/bad.srec"
}
check_srec_error "S1$(with_srec_checksum 050010D0E2)" "S1050012D0E200" "line 2: the checksum is 00, but should be $(with_srec_checksum 050012D0E2 | sed 's/.*\(..\)$/\1/')"
check_srec_error "S1$(with_srec_checksum 050010D0E2)" "S1060012D0E236" "line 2: it announces 6 bytes, but has 5"
check_srec_error "S1$(with_srec_checksum 050010D0E2)" "S1050012D0E2X6" "line 2: a record of Motorola has \`S\`, a digit, and two hexadecimal digits for each byte"
check_srec_error "S1$(with_srec_checksum 050010D0E2)" "S1$(with_srec_checksum 050011D0E2)" "line 2: the address 011, which an earlier line already fills"
check_srec_error "S1$(with_srec_checksum 050010D0E2)" "S1$(with_srec_checksum 050FFFD0E2)" "line 2: past the last address, FFF"
check_srec_error "S1$(with_srec_checksum 050010D0E2)" "" "it has no last record (S9), so a part of it is missing"
check_srec_error "S9$(with_srec_checksum 030000)" "S1$(with_srec_checksum 050010D0E2)" "line 2: a record after the last one (S9)"

# Checks BNPF that was written manually, with remarks, and with words over several lines. A ROM must be exported and imported unchanged. Each error
# must be reported with its line.
printf 'BNPF of B, ROM 1\n  0 BNNNNNNNPFBPPPPNNNNF bytes\r\n 2 b nnpn\npnpn f ' > "$folder/few.bnpf"
verdict "$(outcome ./mcs4 rom load "$folder/few.bnpf" 0xFD)" "asm
ORG 0x0FD
DB 1,240,42
.
status 0" "three words of BNPF"
./mcs4 rom save --bnpf 256 256 < "$folder/answers" > "$folder/saved.bnpf"
verdict "$(sed 2q "$folder/saved.bnpf" | tr -d 'BNPF'); $(wc -l < "$folder/saved.bnpf" | tr -d ' ')" " 256    
 260    ; 64" "a ROM in BNPF"
{ rom_board_lines 16 && ./mcs4 rom load "$folder/saved.bnpf" 256 && ./mcs4 rom ask 256 256; } | new_session rom
./mcs4 rom save 256 256 < "$folder/answers" > "$folder/saved"
tail -c +257 "$folder/image" | head -c 256 > "$folder/page_1"
verdict_of_files "$folder/saved" "$folder/page_1" "a ROM that was exported and imported in BNPF"
check_bnpf_error() {
    printf "$1" > "$folder/bad.bnpf"
    check_rejected 1 "rom: $folder/bad.bnpf: $2" ./mcs4 rom load "$folder/bad.bnpf"
}
check_bnpf_error 'BNNNNNNNPF\nBNNNNNNPF\n' "line 2: a word of BNPF is B, eight of P and N, and F, as BNNNPNPNNF; this is BNNNNNNPF"
check_bnpf_error 'BNNNNNNNPF\nBNNNNNNNPPF\n' "line 2: a word of BNPF is B, eight of P and N, and F, as BNNNPNPNNF; this is BNNNNNNNPP"
check_bnpf_error 'BNNNNNNNPF\nBNNNNXNNP\n' "line 2: a word of BNPF is B, eight of P and N, and F, as BNNNPNPNNF; this is BNNNNX"
check_bnpf_error 'BNNNNNNNPF\nBNNNN' "line 2: a word without its end, \`F\`: BNNNN"
check_bnpf_error 'none\n' "it has no byte"
check_rejected 1 "rom: $folder/few.bnpf: line 2: past the last address, FFF" ./mcs4 rom load "$folder/few.bnpf" 4095

# Checks that a source text is not loaded as a binary image, unless an option requests that.
for text in $calculator/calculator.asm "$folder/z.asm"; do
    printf ' NOP ; z\303\244hler\n' > "$folder/z.asm"
    check_rejected 1 "rom: $text is a text, but not Intel HEX, S-records or BNPF; if its characters are the bytes of an image: rom load --binary" ./mcs4 rom load "$text"
done
printf 'S0' > "$folder/letters.bin"
verdict "$(outcome ./mcs4 rom load --binary "$folder/letters.bin")" "asm
ORG 0x000
DB 83,48
.
status 0" "letters as an image"
printf '\320' > "$folder/letters.bin"
verdict "$(outcome ./mcs4 rom load "$folder/letters.bin" | sed -n 3p)" "DB 208" "an image of one byte"

# Checks that an image that needs more than one source text is loaded completely or not at all.
head -c 4096 /dev/zero | tr '\000' '\377' > "$folder/image"
for chips in 12 16; do
    {
        rom_board_lines "$chips"
        ./mcs4 rom load --binary "$folder/image"
        ./mcs4 rom ask 0 4096
    } > "$folder/script"
    new_session rom < "$folder/script"
    if [ "$chips" -eq 12 ]; then
        verdict "$(sed -n '3,4p' "$folder/answers")" "no 42
no 42" "an image for ROMs that the board lacks"
    else
        ./mcs4 rom save 0 4096 < "$folder/answers" > "$folder/saved"
        verdict_of_files "$folder/saved" "$folder/image" "an image of all ROMs"
    fi
done
printf ':0400000300000000F9\n:03002000010203D7\n:0400000500000000F7\n:00000001FF\n' > "$folder/entry.hex"
verdict "$(outcome ./mcs4 rom load "$folder/entry.hex")" "asm
ORG 0x020
DB 1,2,3
.
status 0" "Intel HEX with entry records"
