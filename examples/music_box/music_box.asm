; Plays a melody on a buzzer at line 0 of ROM 0's port: once at the start, then
; each time PLAY is pressed. Half a period of a note takes 34 * (16 - R10) +
; 2 * (16 - R11) - 17 cycles of 10.8 microseconds. So 0xD6 is 105 cycles: a' at
; 441 Hz. All notes are accurate to 1 %.
test_is_1 = 9           ; conditions of JCN
zero = 4
        FIM P7, 0x00
        SRC P7          ; the port of ROM 0
start:  FIM P0, 0x60    ; the address of the melody
note:   FIN P5          ; R10 and R11: the length of half a period
        ISZ R1, ahead
        INC R0
ahead:  FIN P3          ; R6 and R7: 256 - the number of half periods
        ISZ R1, begin
        INC R0
begin:  LD R10
        IAC
        JCN zero, end   ; 0xF0 ends the melody
half:   LD R10
        JCN zero, rest  ; 0x00 is a rest: the line stays 0
        LD R8
        CMA
rest:   XCH R8
        LD R8
        WRR             ; the line goes to 1, or to 0
        LD R10
        XCH R2
        LD R11
        XCH R3
wait:   ISZ R3, wait
        ISZ R2, wait
        NOP
        ISZ R7, half
        ISZ R6, half
        JUN note
end:    LDM 0
        WRR
        XCH R8
up:     JCN test_is_1, up
        JUN start

; The melody. A note is two bytes: half its period, 256 - the number of half
; periods. An eighth lasts 0.2 s. The rest 0x00, 0xFD separates equal notes.
        ORG 0x60
        DB 0xB4, 0x97, 0xC5, 0x7D, 0xD0, 0x62, 0xC5, 0x7D       ; c e g e
        DB 0xD6, 0x50, 0xD0, 0x62, 0xD0, 0x62, 0x00, 0xFD       ; a g
        DB 0xC9, 0x75, 0xBE, 0x8A, 0xC9, 0x75, 0xBE, 0x8A       ; f d f d
        DB 0xC5, 0x7D, 0xC5, 0x7D, 0x00, 0xFD                   ; e
        DB 0xB4, 0x97, 0xC5, 0x7D, 0xD0, 0x62, 0xDE, 0x30       ; c e g c'
        DB 0xDC, 0x39, 0xD6, 0x50, 0xD0, 0x62, 0xD0, 0x62       ; b a g
        DB 0xC9, 0x75, 0xC5, 0x7D, 0xBE, 0x8A, 0xD0, 0x62       ; f e d g
        DB 0xB4, 0x97, 0xB4, 0x97, 0xB4, 0x97, 0xF0, 0x00       ; c
