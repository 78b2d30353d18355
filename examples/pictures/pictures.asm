; Shows one of four pictures on a matrix of lamps. Its rows are lit one by
; one, each for 1.1 milliseconds. All rows are dark while the columns
; change, so no row shows those of another. NEXT changes the picture.
test_is_1 = 9           ; conditions of JCN
no_carry = 10
not_zero = 12
        FIM P0, 0xC0    ; the first picture
frame:  LDM 0
        XCH R1          ; R1: the row, 0 at the top
        LDM 8
        XCH R14         ; rows 0 to 3 are at chip 2
half:   LDM 1
        XCH R6
row:    FIM P1, 0x80
        SRC P1
        LDM 0
        WMP
        FIM P1, 0xC0
        SRC P1
        WMP             ; all rows are dark
        FIN P2
        FIM P1, 0x00
        SRC P1
        LD R4
        WMP
        FIM P1, 0x40
        SRC P1
        LD R5
        WMP             ; the columns
        SRC P7
        LD R6
        WMP             ; and their row
        FIM P1, 0xE0
wait:   ISZ R3, wait
        ISZ R2, wait
        INC R1
        LD R6
        CLC
        RAL             ; the line of the next row; 0 after four rows
        XCH R6
        LD R6
        JCN not_zero, row
        LDM 12
        XCH R14         ; rows 4 to 7 are at chip 3
        LD R1
        RAL             ; carry 1 after eight rows
        JCN no_carry, half
        JCN test_is_1, up
        LD R8
        JCN not_zero, frame
        LDM 1           ; NEXT has gone down
        XCH R8
        INC R0
        LD R0
        JCN not_zero, frame
        LDM 12          ; the last picture is followed by the first
        XCH R0
        JUN frame
up:     LDM 0
        XCH R8
        JUN frame

; The pictures: a byte for each row, the highest bit at the left.
        ORG 0xC0        ; a heart
        DB 0x00, 0x66, 0xFF, 0xFF, 0x7E, 0x3C, 0x18, 0x00
        ORG 0xD0        ; a face
        DB 0x3C, 0x42, 0xA5, 0x81, 0xA5, 0x99, 0x42, 0x3C
        ORG 0xE0        ; an arrow
        DB 0x18, 0x0C, 0x06, 0xFF, 0xFF, 0x06, 0x0C, 0x18
        ORG 0xF0        ; a chip with eight pins
        DB 0x5A, 0xFF, 0x7E, 0xC3, 0xC3, 0x7E, 0xFF, 0x5A
