; A clock that starts at 12.00. The four digits share their segments: they are
; lit one after the other, each for 2.5 milliseconds. Such a turn takes 926
; cycles of 10.8 microseconds, a hundredth of a second. The point blinks.
; While SET is down, a minute passes in half a second.
test_is_1 = 9           ; conditions of JCN
no_carry = 10
not_zero = 12
        FIM P4, 0x12    ; R8 and R9: the hours
        FIM P5, 0x00    ; R10 and R11: the minutes
        FIM P7, 0x88    ; a minute, 120 half seconds: 8, then 7 times 16
        FIM P0, 0xF0    ; the table of segments
again:  FIM P6, 0xCE    ; half a second, 50 turns: 2, then 3 times 16
turn:   LD R8
        XCH R1
        LDM 1
        JMS show
        LD R15          ; the point is lit every other half second
        RAR
        LDM 0
        RAR
        XCH R6
        LD R9
        XCH R1
        LDM 2
        JMS show
        XCH R6          ; no point: BBL 0 has made ACC 0
        LD R10
        XCH R1
        LDM 4
        JMS show
        LD R11
        XCH R1
        LDM 8
        JMS show
        NOP             ; the last two of the 926 cycles
        NOP
        ISZ R13, turn
        ISZ R12, turn
        JCN test_is_1, up
        JMS minute
up:     ISZ R15, again
        ISZ R14, again
        FIM P7, 0x88
        JMS minute
        JUN again

; Shows the digit R1 on the line in ACC; R6: 8 for a point, 0 for none.
show:   XCH R7
        FIM P1, 0x00
        SRC P1
        LDM 0
        WMP             ; all digits are dark,
        FIN P2
        FIM P1, 0x40
        SRC P1
        LD R5
        WMP             ; while the segments change
        FIM P1, 0x80
        SRC P1
        LD R4
        CLC
        ADD R6
        WMP
        FIM P1, 0x00
        SRC P1
        LD R7
        WMP             ; now this digit is lit
        FIM P1, 0xA4
wait:   ISZ R3, wait
        ISZ R2, wait
        BBL 0

; Adds a minute to the time; 23.59 becomes 00.00. Uses R8 to R11.
minute: LD R11
        IAC
        DAA             ; 10 becomes 0 and a carry
        XCH R11
        JCN no_carry, done
        INC R10
        LDM 6
        CLC
        SUB R10
        JCN not_zero, done
        XCH R10         ; 60 minutes: 0 minutes, and an hour more
        LD R9
        IAC
        DAA
        XCH R9
        TCC
        ADD R8
        XCH R8
        LDM 2
        CLC
        SUB R8
        JCN not_zero, done
        LDM 4
        CLC
        SUB R9
        JCN not_zero, done
        XCH R8          ; 24 hours: 0 hours
        LDM 0
        XCH R9
done:   BBL 0

; The segments of 0 to 9: a is 1, b is 2, up to g, 64.
        ORG 0xF0
        DB 0x3F, 0x06, 0x5B, 0x4F, 0x66, 0x6D, 0x7D, 0x07, 0x7F, 0x6F
