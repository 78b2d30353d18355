; A calculator that prints the operands and the results. It adds, subtracts and
; multiplies whole numbers of eight digits, in the order keyed: 2 + 3 * 4 = is
; 20. 00 is two zeros, C clears all. After a result that is too long the display
; shows nine dashes, and all keys except C are ignored.
;
; Until a key is accepted, the loop `turn` lights the nine digits, each for 0.4
; milliseconds, and reads the keys. From one turn to the next it keeps:
;   R10, R11  what the last turn has found: R10 is 0 for no key, 1 for one key
;             (R11 is its number), more for several
;   R12       counts the turns that find the same, up to 0
;   R13, R14  R13 is 1 while the accepted key is still down, R14 its number
; All other registers are scratch. While a key is executed, R15 is its code.
;
; A number is sixteen digits in the nibbles of a RAM register, the lowest first.
; -1 is 9999999999999999, so additions need no sign.
shown = 0x00            ; register 0: the number that is shown
before = 0x10           ; register 1: the left operand
picture = 0x27          ; register 2 from nibble 7 on: the codes on the display
product = 0x30          ; register 3: the product
; Status nibbles of register 0. 0: the pending operator, 0 for none. 1: 1 if the
; next digit starts a new number. 2: 1 after a result that is too long.

zero = 4                ; conditions of JCN
carry = 2
no_carry = 10
not_zero = 12

; Codes of the printer; digits are their own codes. The display uses the same
; codes, and `feed` for a dark digit.
plus = 10
minus = 11
equals_sign = 13
clear_sign = 14
feed = 15

        JMS show        ; shows 0

; A turn lights each digit once and reads the keys. At `digit`, ACC has the data
; of the chain: a 1 for the first digit, then 0. 379 cycles if no key is down.
turn:   FIM P4, 0x00    ; R8, R9: no key found so far
        LDM 7
        XCH R7          ; R7: the nibble of the digit's code, 7 to 15
        FIM P0, 0xF0    ; the table of segments
        LDM 2           ; data is 1
digit:  XCH R6
        FIM P1, 0x20
        LD R7
        XCH R3
        SRC P1
        RDM             ; the code of this digit
        XCH R1
        FIN P2          ; its segments
        FIM P1, 0x40
        SRC P1
        LDM 0
        WMP             ; the previous digit goes dark: segments e to g,
        FIM P1, 0x00
        SRC P1
        WMP             ; and a to d
        LD R6
        WRR             ; writes the data; the clock is low
        IAC
        WRR             ; the clock rises: the chain shifts
        LD R5
        WMP             ; segments a to d,
        FIM P1, 0x40
        SRC P1
        LD R4
        WMP             ; and e to g: this digit is lit
        FIM P1, 0x10
        SRC P1
look:   RDR             ; the columns, if this line drives a row of keys
        KBP
        JCN zero, next
        INC R8          ; counts the rows with a key
        XCH R15
        LD R15
        IAC
        JCN carry, several
        LD R7           ; its number: 4 * row + column
        IAC
        CLC
        RAL
        CLC
        RAL
        CLC
        ADD R15
        DAC
        XCH R9
        JUN next
several: INC R8         ; 15 from KBP: several keys in this row
next:   LDM 0           ; data is 0 for all other digits
        ISZ R7, digit

; Debounce: a key is accepted when three turns in a row have found it alone. It
; is not accepted again until all keys have been up or another key has been
; accepted.
        LD R8
        CLC
        SUB R10
        JCN not_zero, other
        LD R9
        CLC
        SUB R11
        JCN not_zero, other
        ISZ R12, turn
        LD R10
        JCN zero, up
        DAC
        JCN not_zero, turn      ; several keys are down
        LD R13
        JCN zero, taken
        LD R14
        CLC
        SUB R11
        JCN not_zero, taken
        JUN turn        ; the accepted key is still down
up:     XCH R13
        JUN turn
other:  LD R8
        XCH R10
        LD R9
        XCH R11
        LDM 14          ; from 14: two more turns
        XCH R12
        JUN turn

taken:  LDM 1
        XCH R13
        LD R11
        XCH R14
        LDM 14          ; P0: 0xE0 + R11, in the table of key codes
        XCH R0
        LD R11
        XCH R1
        FIN P2
        LD R5
        XCH R15
        FIM P1, 0x40    ; the display is dark until the next turn
        SRC P1
        LDM 0
        WMP
        FIM P1, 0x00
        SRC P1
        WMP
        JUN act

        ORG 0x0E0       ; the codes of the keys, row by row; 15 is key 00
        DB 7, 8, 9, 14, 4, 5, 6, 12, 1, 2, 3, 11, 0, 15, 13, 10
        ORG 0x0F0       ; the segments of codes 0 to 15: digits, minus (11)
        DB 0x3F, 0x06, 0x5B, 0x4F, 0x66, 0x6D, 0x7D, 0x07, 0x7F, 0x6F
        DB 0x00, 0x40, 0x00, 0x00, 0x00, 0x00

        ORG 0x100

; Executes the key with the code R15. Register 0 is selected.
act:    RD2
        JCN zero, alive
        LDM clear_sign
        CLC
        SUB R15
        JCN not_zero, dead
alive:  LDM 6
        CLC
        ADD R15
        JCN no_carry, number    ; 0 to 9
        LDM equals_sign
        CLC
        SUB R15
        JCN zero, equals
        JCN carry, operator     ; 10 to 12
        IAC
        JCN zero, clear
        XCH R15         ; 00: enters the digit 0 twice
        LDM 0
        XCH R15
        JMS enter
number: JMS enter
        JMS show
dead:   JUN turn

; Operator key: first executes the pending operator, unless it was the last key.
operator: JMS print
        FIM P0, shown
        SRC P0
        RD1
        JCN zero, goes
        RD0
        JCN not_zero, waits
goes:   JMS compute
        FIM P0, shown
        FIM P1, before
        JMS copy
        JMS show
        FIM P0, shown
        SRC P0
waits:  LD R15
        WR0
        LDM 1
        WR1
        RD2
        JCN zero, dead
        LDM feed
        XCH R15
        JMS print       ; prints nine dashes
        JUN turn

; = key: prints the right operand, then the result on a line of its own.
equals: JMS print
        JMS compute
        JMS show
        LDM feed
        XCH R15
        JMS print
        FIM P0, shown
        SRC P0
        LDM 0
        WR0
        LDM 1
        WR1
        JUN turn

clear:  FIM P0, shown
        JMS wipe
        LDM 0
        WR0
        WR2
        LDM 1
        WR1
        JMS show
        LDM clear_sign
        JMS send
        LDM feed
        JMS send
        JUN turn

; Appends the digit R15 to the number shown, unless that has eight. Uses P0, R6.
enter:  FIM P0, shown
        SRC P0
        RD1
        JCN zero, going
        JMS wipe        ; a new number
        LDM 0
        WR1
going:  FIM P0, 0x07
        SRC P0
        RDM
        JCN not_zero, full
        FIM P0, shown
        LD R15
        XCH R6
        JMS left
full:   BBL 0

; Prints the display, then the code R15, and ends the line. Uses P0, P1.
print:  FIM P0, picture
column: SRC P0
        RDM
        IAC
        JCN zero, dark
        DAC
        JMS send
dark:   ISZ R1, column
        LD R15
        JMS send
        LD R15
        IAC
        JCN zero, full  ; R15 was `feed`: the line has ended
        LDM feed

; Sends the code in ACC to the printer. Uses P1.
send:   FIM P1, 0x80
        SRC P1
        WMP             ; the code first,
        FIM P1, 0x00
        SRC P1
        LDM 4
        WRR             ; then the strobe rises,
        LDM 0
        WRR             ; and falls
        BBL 0

        ORG 0x200

; Writes the number shown into `picture`: dark digits, a minus if it is below 0,
; its digits. If it has more than eight digits, writes nine dashes.
show:   FIM P0, shown
        FIM P1, product
        JMS copy
        LDM feed
        XCH R4
        FIM P0, 0x3F
        SRC P0
        RDM
        JCN zero, positive
        FIM P0, product
        JMS negate
        LDM minus
        XCH R4
positive: FIM P0, 0x38
high:   SRC P0
        RDM
        JCN not_zero, long
        ISZ R1, high
        FIM P0, picture
        FIM P1, 0x37    ; the highest digit
lead:   SRC P0
        LDM feed
        WRM             ; a dark digit
        SRC P1
        RDM
        JCN not_zero, digits
        INC R1
        LD R3
        DAC
        XCH R3
        LD R3
        JCN not_zero, lead      ; the lowest digit is shown even if it is 0
digits: SRC P0
        LD R4
        WRM             ; the minus, or dark
each:   INC R1
        SRC P1
        RDM
        SRC P0
        WRM
        LD R3
        DAC
        XCH R3
        JCN carry, each
        BBL 0
long:   FIM P0, picture
        LDM minus
dash:   SRC P0
        WRM
        ISZ R1, dash
        FIM P0, shown
        SRC P0
        LDM 1
        WR2
        BBL 0

; Computes `shown` = `before` operator `shown`, if an operator is pending.
compute: FIM P0, shown
        FIM P1, before
        SRC P0
        RD0
        JCN zero, done  ; none is pending
        XCH R4
        LDM 5
        CLC
        ADD R4
        JCN no_carry, add_up       ; 10: plus
        JCN not_zero, times     ; 12: times
        JMS negate      ; 11: minus; P0 does not change
        JUN add_up

; Multiplies. For each digit of `shown`, the highest first: shifts the product
; up, then adds `before` as often as the digit says. At most 12,253 cycles.
times:  FIM P0, 0x0F
        SRC P0
        RDM
        JCN zero, factor
        FIM P0, shown   ; if the right operand is negative, negates both
        JMS negate
        FIM P0, before
        JMS negate
factor: FIM P0, product
        JMS wipe
        LDM 7
        XCH R7
place:  FIM P0, product
        LDM 0
        XCH R6
        JMS left
        FIM P1, shown
        LD R7
        XCH R3
        SRC P1
        RDM
        CMA
        IAC             ; 16 - digit, the start of R5; 0 for 0
        JCN zero, none
        XCH R5
again:  FIM P0, product
        FIM P1, before
        JMS add_up
        ISZ R5, again
none:   LD R7
        DAC
        XCH R7
        JCN carry, place
        FIM P0, product
        FIM P1, shown

; Copies the RAM register P0 to the RAM register P1. P0 and P1 keep their value,
; in this routine and in those below.
copy:   SRC P0
        RDM
        SRC P1
        WRM
        INC R3
        ISZ R1, copy
done:   BBL 0

; Adds the RAM register P1 to the RAM register P0. DAA turns a sum above 9 into
; a digit and a carry.
add_up: CLC
sum:    SRC P1
        RDM
        SRC P0
        ADM
        DAA
        WRM
        INC R3
        ISZ R1, sum
        BBL 0

; Negates the RAM register P0: 0 - P0. TCS gives 10, or 9 if the digit below has
; borrowed. The carry is 1 if there is no borrow.
negate: STC
borrow: TCS
        SRC P0
        SBM
        CLC
        DAA
        WRM
        ISZ R1, borrow
        BBL 0

; Shifts the RAM register P0 up one digit. R6 becomes its lowest digit.
left:   SRC P0
        RDM
        XCH R6
        WRM
        ISZ R1, left
        BBL 0

; Clears the RAM register P0 and selects it.
wipe:   LDM 0
nought: SRC P0
        WRM
        ISZ R1, nought
        BBL 0
