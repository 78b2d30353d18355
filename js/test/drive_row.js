// Lines of test programs that drive the first row of a key matrix.

/**
 * Lines that drive row 0 of a matrix whose rows are bits of chain 0. Line 0 of ROM 0 is the chain's clock, and line 1 its data. After these
 * lines, SRC P1 selects ROM 0, and SRC P2 selects ROM 1.
 */
export const DRIVE_ROW_0 = `        FIM P1, 0
        FIM P2, 0x10
        SRC P1
        LDM 2
        WRR
        IAC
        WRR
`;
