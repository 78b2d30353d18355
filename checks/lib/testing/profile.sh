# Checks that mcs4 profile reports the cycles spent in each part of a program, and the times from a key to the lamps. The expected numbers were worked
# out manually.
# shellcheck shell=sh

make_count
verdict "$(outcome ./mcs4 profile $three_lamps/board.toml "$folder/count.asm" "$folder/count.test")" \
    "40 cycles, 0.4 ms

label             at          own  own %     calls with calls    longest
end               00F          22   55.0
turn              002          12   30.0
part              00D           4   10.0         2          4          2
(no label)                      2    5.0
status 0" "a profile, worked out manually"
cat > "$folder/key.toml" <<'board'
# row 0: a
rom = [{ chip = 0, port = "0000" }, { chip = 1, port = "iiii" }]
ram = [{ bank = 0, chips = 1 }]
chain = [{ clock = "rom0.0", data = "rom0.1", chips = 1 }]
keys = { chain = 0, first = 0, rows = 1, columns = ["rom1.0"] }
lamp = [{ line = "ram0.0.0" }]
board
cat > "$folder/key.asm" <<'program'
        FIM P0, 0x00
        SRC P0
        LDM 2
        WRR
        IAC
        WRR             ; the row is driven
        FIM P1, 0x10
look:   SRC P1
        RDR
        SRC P0
        WMP             ; the key is the lamp: SRC, RDR, SRC and WMP are 4 cycles
        JUN look
program
# 100 cycles are 16 iterations of 6 cycles, and 4 more. Then JUN takes 2 cycles, and 4 more cycles lead to the lamp: 106 in total.
printf 'test t\nrun 9\npress a\nrun 100\nrelease a\nrun 100\n' > "$folder/key.test"
verdict "$(outcome ./mcs4 profile "$folder/key.toml" "$folder/key.asm" "$folder/key.test" | tail -n 3)" \
    "key                 presses  answered        longest to a lamp         to the last lamp
a                         1         1          4,       0.0 ms        106,       1.1 ms
status 0" "from a key to a lamp, worked out manually"
