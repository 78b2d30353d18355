; A desk calculator for the 4004: eight digits, a decimal point and + - * /.
; It calculates in the order keyed: 2 + 3 * 4 = is 20. Its board: board.toml.
;
; The RAM chip holds two numbers. Each has a register: 16 nibbles (Intel calls a
; nibble of RAM a character) and four status nibbles.
;   register 0, `shown`    the number on the display
;   register 1, `before`   the left operand while an operator is pending; after
;                          =, the right operand, which a repeated = uses again
; Nibbles 0 to 7 hold the digits, the lowest digit in nibble 0. Nibbles 8 to 15
; are 0, except during a calculation. The status nibbles:
;   0  sign: 1 is minus    1  decimals: the number of digits after the point
;   2  of `shown`: mode    0 keying a number, 1 keying its decimals,
;                          2 after an operator, 3 complete (after = ~ S)
;   3  of `shown`: error   0 none, 1 overflow, 2 division by zero
;   2  of `before`: operator, 0 for none   3  of `before`: 1 while it is pending
;
; The pair P0 is R0 and R1, P1 is R2 and R3, and so on. Reserved registers:
;   R8 R9    the key of the last scan       R10 R11  the last accepted key
;   R12      counts equal scans
; The other registers are scratch. "Uses" lists the registers that a routine
; reads or changes, and its RAM. Times are the longest ones, in cycles of 10.8
; microseconds. The time of a key starts at `act` and excludes `show`.
;
; A key is the address of its byte in the table `keys`. 0 means no key.

shown	= 0x00		; SRC address of register 0, and of the port of ROM 0
before	= 0x10		; SRC address of register 1, and of the port of ROM 1
upper	= 0x08		; SRC address of nibble 8 of register 0: its upper half
eight	= 8		; start of a loop counter: ISZ makes it 0 in eight passes
scans	= 12		; start of R12: four passes
after_several = 11	; start of R12 after several keys: five passes

op_plus	  = 2		; operators: bit 0 inverts the sign of the right operand,
op_minus  = 3		; `compute` tests bits 2 and 3
op_times  = 4
op_over	  = 8

zero	= 4		; conditions of JCN
nonzero = 12
carry	= 2
no_carry = 10

	JUN start	; execution starts at address 000

; Key table, four keys a row: 0 to 9 is a digit, any other byte the address of
; the key's routine. FIN and JIN reach only the page of 256 bytes they are on.

	ORG 0x010
keys:	DB 7, 8, 9, over
	DB 4, 5, 6, times
	DB 1, 2, 3, minus
	DB 0, point, sign, plus
	DB clear, entry, swap, equals

start:	FIM P4, 0	; no key in the last scan,
	FIM P5, 0	; and no accepted key

; C key: clears both numbers with their status nibbles. CE key: clears the number
; shown. Uses P0; all of registers 0 and 1. C takes 158 cycles, CE 84.

clear:	FIM P0, before
	JMS wipe
entry:	FIM P0, shown
	JMS wipe

; All key routines end here. Writes the display, then waits for a key.

ready:	JMS show

; Debounce. Contacts bounce for some milliseconds when a key goes down or up. A
; reading counts only if the next four scans find the same; after a scan that
; found several keys, the next five.
; Uses R0 to R12, no RAM. If no other key changes, a key is accepted at most 935
; cycles after it goes down.

await:	JMS scan	; P1: the key that is down, 0 if none is
	LD R7
	JCN nonzero, several	; several keys are down
	LD R2
	CLC
	SUB R8
	JCN nonzero, other
	LD R3
	CLC
	SUB R9
	JCN zero, alike
other:	LD R2		; not the key of the last scan: restarts the count
	XCH R8
	LD R3
	XCH R9
	LDM scans
	XCH R12
	JUN await
several: LDM after_several
	XCH R12
	JUN await
alike:	ISZ R12, await

; The reading is stable. It is ignored if it equals the last accepted key, so a
; key that is held counts once. If a second key goes down before the first is up,
; the second is accepted once the first is up (two-key rollover).

	LD R8
	CLC
	SUB R10
	JCN nonzero, news
	LD R9
	CLC
	SUB R11
	JCN zero, await
news:	LD R8
	XCH R10
	LD R9
	XCH R11
	LD R8
	JCN zero, await ; all keys are up

; After an error, all keys except C are ignored.

	FIM P0, shown
	SRC P0
	RD3		; the error, 0 for none
	JCN zero, act
	LD R9		; 0 for C (020) and for 7 (010)
	JCN nonzero, await
	LD R8		; 2 for C, 1 for 7
	RAR
	JCN carry, await

; Executes the accepted key: FIN reads its byte from the table, JIN jumps there.
; The routines start with register 0 selected. Uses P0, P1, no RAM. 10 cycles.

act:	LD R8
	XCH R0
	LD R9
	XCH R1
	FIN P1
	LD R2
	JCN zero, digit
	JIN P1

; Digit key: shifts the number up one place and makes R3 its lowest digit.
; Ignores the key if there are eight digits, or seven after the point.
; Uses P0, R3, R6; digits, decimals and mode of register 0. 205 cycles.

digit:	JMS begin
	FIM P0, 0x07	; the highest digit
	SRC P0
	RDM
	JCN nonzero, await
	RD2		; the mode
	JCN zero, enter
	RD1		; mode 1: one more decimal
	IAC
	XCH R6
	LD R6
	RAL
	JCN carry, await	; it would be the eighth
	LD R6
	WR1
enter:	LD R3
	XCH R6
	JMS left
	JUN ready

; Point key: the next digits are decimals. Uses P0; the mode. 96 cycles.

point:	JMS begin
	LDM 1
	WR2
	JUN ready

; ~ key: changes the sign of the number shown, even while it is being keyed. -0
; appears only during keying. Uses P0, R4, R5, R6. 194 cycles.

sign:	RD0
	RAR		; the sign goes into the carry
	CMC
	TCC		; and back, inverted
	WR0
	RD2		; the mode
	RAR
	RAR
	JCN no_carry, ready	; 0 or 1: it is being keyed
	JMS tidy
complete: LDM 3
	WR2
	JUN ready

; S key: swaps the two numbers. Uses R0 to R7. 1,929 cycles.

swap:	JMS exchange
	JMS tidy	; that number can be as keyed: -0 or 1.50
	JUN complete

; = key: executes the pending operator; `before` is its left operand. If none is
; pending, repeats the last operator with the same right operand.
; Uses R0 to R7, R13, R14. 14,620 cycles, most of them for a quotient.

equals: FIM P1, before
	SRC P1
	RD3
	JCN zero, again ; none is pending
	LDM 0
	WR3
	JMS exchange	; left operand to register 0, right operand to 1
again:	JMS compute
	JUN complete

; + - * / keys: execute the pending operator, then make this one pending. If the
; last key was an operator, this one only replaces it.
; Uses R0 to R7, R13 to R15. 14,764 cycles.

plus:	LDM op_plus
	JUN keyed
minus:	LDM op_minus
	JUN keyed
times:	LDM op_times
	JUN keyed
over:	LDM op_over
keyed:	XCH R15
	RD2		; the mode
	DAC
	DAC
	JCN zero, wait	; 2: after an operator
	JMS chain
wait:	FIM P1, before
	SRC P1
	LD R15
	WR2
	LDM 1
	WR3		; the operator is pending
	FIM P0, shown
	SRC P0
	LDM 2
	WR2		; mode 2: the next digit starts a new number
	JUN ready

	ORG 0x100

; Scans the keys. Shifts a single 1 through chain 0, from row to row, and reads
; the columns of each row at the port of ROM 1. KBP turns the four lines into a
; number: 1 to 4 for one key, 0 for none, 15 for several. Returns the key in P1,
; 0 for none, and 1 in R7 if several keys are down. Uses R0 to R7, no RAM. 142
; cycles; up to 182 with several keys down.

scan:	FIM P1, 0	; no key
	FIM P2, keys	; the first key of row 0
	FIM P3, 0xB0	; R6: from 11, five rows. R7: not several keys
	LDM 2		; data is 1 for row 0
row:	FIM P0, shown
	SRC P0		; selects the port of ROM 0
	WRR		; writes the data; the clock is low
	IAC
	WRR		; the clock rises: the chain shifts
	FIM P0, before
	SRC P0		; selects the port of ROM 1
	RDR
	KBP
	JCN zero, next
	XCH R0
	LD R0
	IAC
	JCN carry, many ; 15: several keys in this row
	LD R2
	JCN nonzero, many	; an earlier row has a key, too
	LD R0
	DAC		; the column, 0 to 3
	CLC
	ADD R5
	XCH R3
	LD R4
	XCH R2
	JUN next
many:	LDM 1
	XCH R7
next:	LDM 4		; the next row is four bytes further on
	CLC
	ADD R5
	XCH R5
	TCC
	ADD R4
	XCH R4
	LDM 0		; data is 0 for all other rows
	ISZ R6, row
	BBL 0

; Writes the display. Lines 0 to 2 of the RAM port are the lamps for minus,
; overflow and division by zero. Chain 1 gets five bits for each digit, the
; highest digit first: bits 8, 4, 2 and 1 of the digit, then its point. RAL moves
; the top bit of R3 into the carry and the carry into bit 0: so the carry, which
; is the point, comes out fifth. RAR puts a bit on line 3 of the port. Uses R0 to
; R7; reads nibbles 0 to 7 and status 0, 1, 3 of register 0. 539 cycles.

show:	FIM P0, shown
	SRC P0		; selects RAM register 0 and the port of ROM 0
	CLC
	RD3
	RAL		; error 1 to line 1, error 2 to line 2
	XCH R6
	RD0
	ADD R6
	WMP
	RD1
	XCH R4		; R4: the digit before the point, 0 is the lowest
	FIM P0, 0x07	; the highest digit
	FIM P3, 0x84	; R6: from 8, eight digits. R7: 4, line 2, the clock
place:	SRC P0
	RDM
	XCH R3
	LDM 11		; R2: from 11, five bits
	XCH R2
	LD R1
	CLC
	SUB R4
	CMA
	IAC		; carry 1 if R1 = R4: the point is on
bit:	LD R3
	RAL		; the top bit goes into the carry
	XCH R3
	LDM 0
	RAR		; and from there to line 3
	WRR		; writes the data; the clock is low
	ADD R7
	WRR		; the clock rises: the chain shifts
	ISZ R2, bit
	LD R1		; the next lower digit
	DAC
	XCH R1
	ISZ R6, place
	BBL 0

; Clears the number shown, unless it is being keyed. Register 0 is selected on
; entry and on return. Uses P0. 82 cycles.

begin:	RD2		; the mode
	RAR
	RAR
	JCN no_carry, going	; 0 or 1: it is being keyed
	FIM P0, shown
	JMS wipe
going:	BBL 0

; Clears a RAM register and its status nibbles, and selects it. P0 is the SRC
; address of its nibble 0, on entry and on return. 72 cycles.

wipe:	LDM 0
dark:	SRC P0
	WRM
	ISZ R1, dark
	WR0
	WR1
	WR2
	WR3
	BBL 0

; Shifts register 0 up one place: R6 goes into nibble 0, and each nibble into the
; next one. Returns the old nibble 15 in R6. Uses P0. 101 cycles.

left:	FIM P0, shown
up:	SRC P0
	RDM
	XCH R6		; R6: the old digit, for the next place
	WRM
	ISZ R1, up
	BBL 0

; Shifts register 0 down one place: R6 goes into nibble 15, and each nibble into
; the one below. Returns the old nibble 0 in R6. Uses P0. 149 cycles.

right:	FIM P0, 0x0F
down:	SRC P0
	RDM
	XCH R6
	WRM
	LD R1
	DAC		; carry 0 if R1 was 0
	XCH R1
	JCN carry, down
	BBL 0

; Swaps the two numbers: their digits, signs and decimals. Selects register 0.
; Uses P0, P1, R6, R7. 231 cycles.

exchange: FIM P0, shown
	FIM P1, before
trade:	SRC P0
	RDM
	XCH R6
	SRC P1
	RDM
	XCH R6
	WRM
	SRC P0
	LD R6
	WRM
	INC R3
	ISZ R1, trade
	RD0
	XCH R6
	RD1
	XCH R7
	SRC P1
	RD0
	XCH R6
	WR0
	RD1
	XCH R7
	WR1
	SRC P0
	LD R6
	WR0
	LD R7
	WR1
	BBL 0

	ORG 0x200

; Executes the pending operator, if any, and copies the number shown to `before`,
; with sign and decimals. Uses R0 to R7, R13, R14. 14,731 cycles.

chain:	FIM P1, before
	SRC P1
	RD3
	JCN zero, lone	; none is pending
	JMS exchange
	JMS compute
	JUN copy
lone:	JMS tidy
copy:	FIM P0, shown
	FIM P1, before
each:	SRC P0
	RDM
	SRC P1
	WRM
	INC R3
	ISZ R1, each
	SRC P0
	RD0
	XCH R6
	RD1
	SRC P1
	WR1
	LD R6
	WR0
	BBL 0

; Computes `shown` = `shown` operator `before`. `before` does not change. From
; here to `put`, these registers hold:
;   R4   the decimals of the result        R5   its sign
;   R13  1 if the signs differ; minus inverts the sign of the right operand
; Uses all 16 nibbles of register 0. 36 cycles up to the code of the operator.

compute: FIM P1, before
	SRC P1
	RD1
	XCH R7		; the decimals of `before`
	RD2
	XCH R14		; the operator
	RD0
	CLC
	ADD R14
	XCH R13
	FIM P0, shown
	SRC P0
	RD1
	XCH R4
	RD0
	XCH R5
	LD R5
	ADD R13
	RAR		; bit 0 of the sum of the signs and the operator
	TCC
	XCH R13
	LDM 0
	XCH R6		; R6: 0, for shifts of register 0
	LD R14
	JCN zero, trim	; no operator
	RAL
	JCN carry, divide
	RAL
	JCN carry, multiply

; Adds or subtracts. First aligns the points. If `shown` has fewer decimals, it
; is shifted up. If it has k more, nibble k of `shown` aligns with nibble 0 of
; `before`, and so on.
; Uses R0 to R7, R13; nibbles 0 to 15 of both registers. 926 cycles to add,
; 1,096 to subtract.

align:	LD R4
	CLC
	SUB R7
	JCN carry, aligned
	JMS left
	INC R4
	JUN align
aligned: XCH R1		; R1: k
	LDM 0
	XCH R0		; P0: nibble k of register 0
	LD R13
	JCN nonzero, differ
	JMS add_up
trim:	JUN fits

; The signs differ. If `before` is larger, the result of `subtract` is 10^16 too
; high. It is then subtracted from 0, and its sign changes.

differ: JMS subtract
	JCN carry, trim	; no borrow
	FIM P0, shown
	STC		; carry 1: no borrow at the lowest digit
negate: TCS
	SRC P0
	SBM
	CLC
	DAA
	WRM
	ISZ R1, negate
	LD R5
	RAR
	CMC
	TCC
	XCH R5
	JUN fits

; Multiplies. Eight times: adds `before` to the upper half of register 0 as many
; times as the lowest digit of `shown` says, then shifts register 0 down. So the
; digits of `shown` leave at the bottom while the product grows from the top. R6
; is the ninth digit of the upper half. Uses R0 to R7, R13, R14; nibbles 0 to 15
; of register 0, 0 to 7 of register 1. 7,428 cycles if the number shown is
; 99999999.

multiply: LD R13
	XCH R5
	LD R4
	CLC
	ADD R7		; the sum of the decimals
	XCH R4
	LDM eight
	XCH R7
	FIM P0, shown
factor: SRC P0
	RDM
	CMA
	IAC		; 16 - digit, the start of R14; 0 for 0
	JCN zero, shift
	XCH R14
more:	FIM P0, upper
	JMS add_up
	TCC
	ADD R6
	XCH R6
	ISZ R14, more
shift:	JMS right
	FIM P0, shown
	LDM 0
	XCH R6
	ISZ R7, factor
	JUN fits

; Divides. Each pass shifts register 0 up, then subtracts `before` from its upper
; half as often as possible; the count becomes the lowest digit. So the quotient
; grows from the bottom. R6 is the ninth digit of the upper half. There are eight
; passes, and more until the quotient has eight digits or seven decimals. R4 is
; the number of decimals + 8, because that number can be below 0.
; Uses R0 to R7, R13, R14; nibbles 0 to 15 of register 0, 0 to 7 of register 1.
; 14,258 cycles for 99 / 9.9099100.

divide: FIM P1, before
divisor: SRC P1
	RDM
	JCN nonzero, divides
	ISZ R3, divisor
	LDM 2		; division by zero
	JUN error
divides: LD R13
	XCH R5
	LDM 8
	CLC
	ADD R4
	CLC
	SUB R7
	XCH R4
	LDM eight
	XCH R7
further: LDM 0
	XCH R13		; R13: the digit of the quotient, from 0
	LDM 0
	XCH R6
	JMS left
goes:	FIM P0, upper
	JMS subtract
	JCN carry, went
	LD R6		; borrows from the ninth digit, if it is not 0
	JCN zero, too_much
	DAC
	XCH R6
went:	INC R13
	JUN goes
too_much: FIM P0, upper
	JMS add_up	   ; one subtraction too many
	FIM P0, shown
	SRC P0
	LD R13
	WRM
	ISZ R7, further
	LD R4
	CMA
	JCN zero, enough	; R4 is 15: seven decimals
	FIM P0, 0x07
	SRC P0
	RDM
	JCN nonzero, enough	; eight digits
	INC R4
	LDM 15		; one more pass
	XCH R7
	JUN further
enough: LD R4
	RAL
	JCN no_carry, beyond	; fewer than 0 decimals
	CLC
	RAR
	XCH R4
	FIM P0, upper	; clears the remainder
	LDM 0
rest:	SRC P0
	WRM
	ISZ R1, rest
	JUN fits
beyond: JUN overflow

	ORG 0x300

; Normalizes the number shown, as `fits` does. 1,682 cycles.

tidy:	FIM P0, shown
	SRC P0
	RD1
	XCH R4
	RD0
	XCH R5

; Normalizes register 0, a number with R4 decimals and sign R5. Drops the lowest
; digit while there are more than eight digits or seven decimals, or while it is
; a zero after the point. More than eight digits without decimals overflow.
; Uses R0, R1, R4, R5, R6; all of register 0. 3,157 cycles after a product,
; otherwise 1,673.

fits:	FIM P0, upper
high:	SRC P0
	RDM
	JCN nonzero, cut
	ISZ R1, high	; after the loop P0 is `shown`
	LD R4
	JCN zero, put	; no decimals
	RAL
	JCN carry, drop ; more than seven decimals
	SRC P0
	RDM
	JCN nonzero, put	; the lowest digit is not 0
drop:	LDM 0
	XCH R6
	JMS right
	LD R4
	DAC
	XCH R4
	JUN fits
cut:	LD R4
	JCN nonzero, drop
overflow: LDM 1
error:	XCH R6		; clears the number; the error is ACC, 1 or 2
	FIM P0, shown
	JMS wipe
	LD R6
	WR3
	BBL 0

; Stores R4 as decimals and R5 as sign; the sign of 0 is plus.

put:	FIM P0, shown
look:	SRC P0
	RDM
	JCN nonzero, signed
	ISZ R1, look
	LDM 0
	XCH R5
signed: FIM P0, shown
	SRC P0
	LD R4
	WR1
	LD R5
	WR0
	BBL 0

; Adds `before` to register 0: its lowest digit to the nibble at P0, the others
; to the nibbles above, up to nibble 15. DAA turns a sum above 9 into a digit and
; a carry. Returns the last carry, and `shown` in P0. Uses P0, P1. 150 cycles for
; 16 digits, 78 for 8.

add_up: FIM P1, before
	CLC
sum:	SRC P1
	RDM
	SRC P0
	ADM
	DAA
	WRM
	INC R3
	ISZ R1, sum
	BBL 0

; Subtracts `before` from register 0 in the same way. TCS gives 10, or 9 if the
; digit below has borrowed. SBM subtracts the digit of `before`, ADM adds that of
; register 0; DAA then sets the carry if there is no borrow. Returns the last
; carry, and `shown` in P0. Uses P0, P1. 182 cycles for 16 digits, 94 for 8.

subtract: FIM P1, before
	STC		; carry 1: no borrow at the lowest digit
lend:	TCS
	SRC P1
	SBM
	CLC
	SRC P0
	ADM
	DAA
	WRM
	INC R3
	ISZ R1, lend
	BBL 0
