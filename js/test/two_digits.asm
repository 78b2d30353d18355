; Two digits behind two 4003; in each turn of the main loop all of them is written anew, lamp by lamp.
        FIM P4, 0x42    ; the number
        FIM P0, 0xF0    ; the table
        FIM P7, 0
        SRC P7
loop:   LD R8
        JMS digit
        LD R9
        JMS digit
        JUN loop
digit:  XCH R1
        FIN P2
        LDM 12
        XCH R7
        LD R5
        JMS bits
        LDM 13
        XCH R7
        LD R4
bits:   RAR             ; the next segment, as the data line; then the clock
        XCH R6
        TCC
        RAL
        WRR
        IAC
        WRR
        XCH R6
        ISZ R7, bits
        BBL 0
        ORG 0xF0
        DB 0x3F, 0x06, 0x5B, 0x4F, 0x66, 0x6D, 0x7D, 0x07, 0x7F, 0x6F
