; The game is described in board.toml. R2 is the left half of the current row, R3
; its right half; R4 and R5 are the row below it. P6 and P7 select the ports of
; the two halves, in bank R11. R6 is 0 while the lamps move left. R7 counts the
; rows: a step of the lamps takes (16 - R7) * 1,058 cycles of 10.8 microseconds,
; 160 ms in the lowest row and 80 ms in the highest.
zero     = 4            ; conditions of JCN
nonzero  = 12
carry    = 2
no_carry = 10
is_down  = 1            ; TEST is 0: DROP is down

start:  LDM 0           ; all lamps dark
        JMS fill
        FIM P1, 0x07    ; three lamps at the right
        FIM P2, 0xFF    ; the row below: the ground, so no lamp falls
        FIM P3, 0x02    ; R6: to the left. R7: 2, the lowest row
        FIM P6, 0x80    ; the lowest row: chips 2 and 3 of bank 3
        FIM P7, 0xC0
        LDM 3
        XCH R11

run:    JMS show
        JMS pause
        JCN nonzero, drop
        LD R6
        JCN nonzero, right
left:   LD R2
        RAL
        JCN carry, back         ; they are at the left edge
        CLC
        LD R3
        RAL
        XCH R3
        LD R2
        RAL
        XCH R2
        JUN run
back:   LDM 1
        XCH R6
right:  LD R3
        RAR
        JCN carry, forth        ; they are at the right edge
        CLC
        LD R2
        RAR
        XCH R2
        LD R3
        RAR
        XCH R3
        JUN run
forth:  LDM 0
        XCH R6
        JUN left

; DROP: a lamp stays on if the lamp below it is on.
drop:   LD R2
        XCH R0
        LD R4
        JMS both
        LD R8
        XCH R2
        LD R3
        XCH R0
        LD R5
        JMS both
        LD R8
        XCH R3
        JMS show
        JMS let_go
        LD R2
        JCN nonzero, stands
        LD R3
        JCN zero, lost
stands: LD R2
        XCH R4
        LD R3
        XCH R5
        INC R7
        LD R12                  ; the next row: in the same bank, or
        JCN zero, above
        FIM P6, 0x00
        FIM P7, 0x40
        JUN run
above:  LD R11                  ; in the bank above
        JCN zero, won
        DAC
        XCH R11
        FIM P6, 0x80
        FIM P7, 0xC0
        JUN run

; Lost: no lamp of the row stays on. The row blinks until DROP starts a new game.
lost:   FIM P1, 0xFF
        JMS show
        JMS pause
        JCN nonzero, again
        FIM P1, 0x00
        JMS show
        JMS pause
        JCN zero, lost
again:  JMS let_go
        JUN start

; Won: all lamps are on until DROP starts a new game.
won:    LDM 15
        JMS fill
glow:   JMS pause
        JCN zero, glow
        JUN again

; Writes the row, R2 and R3, to its ports.
show:   LD R11
        DCL
        SRC P6
        LD R2
        WMP
        SRC P7
        LD R3
        WMP
        BBL 0

; Waits for one step; returns 0 in ACC, or 1 once DROP is down. Uses R8 to R10.
pause:  LD R7
        XCH R10
        FIM P4, 0x00
look:   JCN is_down, pressed
        ISZ R9, look
        ISZ R8, look
        ISZ R10, look
        BBL 0
pressed: BBL 1

; Waits until DROP has been up for 11 ms without a bounce. Uses R8, R9.
let_go: FIM P4, 0x00
up:     JCN is_down, let_go
        ISZ R9, up
        ISZ R8, up
        BBL 0

; Returns R8 = ACC AND R0: four passes, the left bit first. Uses R0, R1, R8, R9.
both:   XCH R1
        LDM 12
        XCH R9                  ; R9: from 12, four passes
bit:    LD R0
        RAL
        XCH R0
        JCN carry, in_one
        LD R1
        RAL
        XCH R1
        CLC
        JUN known
in_one: LD R1
        RAL
        XCH R1
known:  LD R8
        RAL
        XCH R8
        ISZ R9, bit
        BBL 0

; Writes ACC to all RAM ports. Uses R0, R8 to R11.
fill:   XCH R0
        FIM P4, 0x00            ; R8: chip 0
        FIM P5, 0x0C            ; R10: bank 0. R11: from 12, four banks
bank:   LD R10
        DCL
chip:   SRC P4
        LD R0
        WMP
        LDM 4                   ; R8: the next chip is four further on
        CLC
        ADD R8
        XCH R8
        JCN no_carry, chip
        INC R10
        ISZ R11, bank
        BBL 0
