# Checks that mcs4 names replaces the names in lines with addresses, and reports a name that the program lacks.
# shellcheck shell=sh

cat > "$folder/named.txt" <<'lines'
break @next
  asm
 NOP ; @next
.
list @wait 2
poke r1 @zero
lines
verdict "$(outcome ./mcs4 names $three_lamps/three_lamps.asm < "$folder/named.txt")" "break 0x005
  asm
 NOP ; @next
.
list 0x014 2
poke r1 0x004
status 0" "names in lines"
printf 'reset\nbreak @nowhere\n' > "$folder/named.txt"
check_rejected 1 "names: line 2: @nowhere: the program has no such name" ./mcs4 names $three_lamps/three_lamps.asm < "$folder/named.txt"
check_rejected 2 "names: PROGRAM is missing, and there is no mcs4.toml here
usage: mcs4 names [-C FOLDER] [PROGRAM] < LINES" ./mcs4 names
