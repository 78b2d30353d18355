; A light runs over three lamps, from the right to the left.
time  = 0x0C            ; counters: how long a lamp is lit
zero  = 4               ; a condition of JCN
        FIM P0, 0
        SRC P0          ; the RAM chip
first:  LDM 1
        XCH R4
next:   LD R4
        WMP             ; the lamps
        JMS wait
        LD R4
        CLC
        RAL             ; the next lamp
        XCH R4
        LDM 8           ; past the last lamp?
        CLC
        SUB R4
        JCN zero, first
        JUN next
wait:   FIM P1, time
turn:   ISZ R3, turn
        ISZ R2, turn
        BBL 0
