; A lock. Four digits and # open it for a second; * clears the digits. The third
; wrong code in a row raises the alarm for two seconds. No key is read meanwhile.
;
; Reserved index registers:
;   R10  the number of digits keyed; 5 if there are more than four
;   R11  1 if one of these digits is wrong
;   R12  13 + the number of wrong codes in a row
zero    = 4             ; conditions of JCN
nonzero = 12
locked  = 1             ; lines of the RAM port: the lamps
open    = 2
alarm   = 5             ; the lamps alarm and locked
star    = 10            ; keys that are not digits
hash    = 11

        JUN start

        ORG 0x010       ; tables start at multiples of 16: R1 or R5 is the index
code:   DB 4, 7, 1, 1, 15, 15   ; 15 is not a key: a fifth digit is wrong
        ORG 0x020
keys:   DB 1, 2, 3
        DB 4, 5, 6
        DB 7, 8, 9
        DB star, 0, hash

start:  LDM 13
        XCH R12
ready:  LDM locked
        JMS show
anew:   FIM P5, 0       ; no digits yet, none of them wrong
digit:  JMS key
        LDM star
        CLC
        SUB R8
        JCN zero, anew
        LDM hash
        CLC
        SUB R8
        JCN zero, enter
        FIM P0, code
        LD R10
        XCH R1
        FIN P1          ; R3: the right digit
        LD R3
        CLC
        SUB R8
        JCN zero, right
        LDM 1
        XCH R11
right:  LDM 5
        CLC
        SUB R10
        JCN zero, digit
        INC R10
        JUN digit

enter:  LDM 4
        CLC
        SUB R10
        JCN nonzero, wrong      ; not four digits
        LD R11
        JCN nonzero, wrong
        LDM 13
        XCH R12
        LDM open
        JMS show
        LDM 15          ; one second
        JMS wait
        JUN ready
wrong:  ISZ R12, ready
        LDM 13
        XCH R12
        LDM alarm
        JMS show
        LDM 14          ; two seconds
        JMS wait
        JUN ready

; Writes ACC to the RAM port, the lamps. Uses P0.
show:   FIM P0, 0
        SRC P0
        WMP
        BBL 0

; Waits 16 - ACC seconds, each about 96,000 cycles of 10.8 microseconds.
wait:   XCH R4
second: FIM P0, 0
        FIM P1, 0x05    ; R3: from 5, 11 passes of 8,738 cycles
turn:   ISZ R0, turn
        ISZ R1, turn
        ISZ R2, turn
        ISZ R3, turn
        ISZ R4, second
        BBL 0

; Waits until five scans in a row find no key, then until five find the same key.
; Returns that key in R8. Ignores several keys in one row. Uses R0 to R9.
key:    LDM 11
        XCH R9
up:     JMS scan
        LD R6
        IAC
        JCN nonzero, key
        ISZ R9, up
none:   JMS scan
        LD R6
        IAC
        JCN zero, none
        IAC
        JCN zero, none
        LD R6
        XCH R8
        LDM 12
        XCH R9
same:   JMS scan
        LD R6
        CLC
        SUB R8
        JCN nonzero, none
        ISZ R9, same
        BBL 0

; Scans the keys: shifts a single 1 from row to row. Returns the key in R6: 15 for
; none, 14 for several keys in one row. Uses R0 to R7.
scan:   LDM 15
        XCH R6
        FIM P2, keys    ; P2: the table entry of the row's first key
        LDM 12
        XCH R7          ; R7: from 12, four rows
        LDM 2           ; data is 1 for row 0
row:    FIM P0, 0x00
        SRC P0          ; the port of ROM 0
        WRR             ; writes the data; the clock is low
        IAC
        WRR             ; the clock rises: the chain shifts
        FIM P0, 0x10
        SRC P0          ; the port of ROM 1
        RDR
        KBP             ; 1 to 3: one key, 0: none, 15: several
        JCN zero, next
        IAC
        JCN zero, several
        DAC
        DAC
        CLC
        ADD R5
        XCH R1
        LD R4
        XCH R0
        FIN P1
        LD R3
        JUN found
several: LDM 14
found:  XCH R6
next:   INC R5          ; the next row is three keys further on
        INC R5
        INC R5
        LDM 0           ; data is 0 for all other rows
        ISZ R7, row
        BBL 0
