"""Invalid and unusual input for mcs4-prove, with the expected answers: invalid lines, rejected texts, and accepted texts at the limits."""

from __future__ import annotations

BOARD = ["wire", "[[rom]]", "chip = 0", 'port = "0000"', "."]
PROGRAM = ["asm", "next: RDR", " JUN next", "."]
QUESTION_LINES = ["most 9", "pause 9", *BOARD, *PROGRAM]
# Lines that are invalid in a question if they follow the lines in QUESTION_LINES.
INVALID_LINES = [
    "most", "most x", "most -1", "most 1 2", "most 4000000001", f"most {'9' * 5000}", "most 0x", "most 1.5", "Most 1", "pause", "pause 0", "pause 1000000001",
    "pause 0x", "memory", "memory x", "memory 1000001", "wire", "wire x", "asm", "asm x", ".", "[[rom]]", "never x", "nevermore", "prove it", "proved",
    "within", "within x", "within -1", "within 1 2", "within 16777215", "begin x", "begins", "end x", "ended",
    "together", "together x", "together -1", "together 256", "together 1 2", f"together {'9' * 5000}", "together 0x", "together 1.5", "Together 1",
    "togethers 1", "only x", "only 1", "only only", "only press 0 0", "Only", "press", "press 1", "press 1 2 3", "press 256 0", "press 0 256",
    "press x 0", "press 0 x", "press 0 -1", "press 1.0", "press 1,0", "Press 0 0", "presses 0 0", "test 0", "test 1", "test x", "test test", "Test",
    "tests", "wait", "wait x", "wait -1", "wait 0", "wait 1", "wait 100001", "wait 2 3", f"wait {'9' * 5000}", "wait 0x", "wait 2.5", "Wait 2",
    "waits 2", "held", "held x", "held -1", "held 0", "held 100001", "held 1 2", f"held {'9' * 5000}", "held 0x", "held 1.5", "Held 1", "helds 1",
    "held at most 1", "holds 1", "release 0 0", "together 1\0", "only\0", "press 0 0\0", "test\0", "wait 2\0", "held 1\0", "press 0 0 0 0 0", "test register 0 whole 0 0",
    "open x", "opens", "up", "up 0", "up 0 0 0", "up x 0", "up 0 256", "up 0 -1", "Up 0 0", "ups 0 0", "down", "down 256 0", "in 0 0",
    "\0", "most 1\0", "\x7f", "x" * 100000, "in register 0 whole 0 0", "out register 0 whole 0 0", "mistake code"]
# Invalid comparisons.
INVALID_COMPARISONS = [
    "in", "in register 0 whole 0", "in register 0 whole 0 0 0", "at register 0 whole 0 0", "In register 0 whole 0 0", "in registers 0 whole 0 0",
    "in register 16 whole 0 0", "in character 2048 whole 0 0", "in status 512 whole 0 0", "in ramport 32 whole 0 0", "in romport 16 whole 0 0",
    "in banksrc 8 whole 0 0", "in counter 18 whole 0 0", "in chain0 256 whole 0 0", "in chain4 0 whole 0 0", "in chain 0 whole 0 0",
    "in register 65536 whole 0 0", "in register 4294967296 whole 0 0", "in register -1 whole 0 0", "in register x whole 0 0", "in register 0 line4 0 0",
    "in register 0 line 0 0", "in register 0 0 0 0", "in register 0 whole 256 0", "in register 0 whole 0 256", "in register 0 whole 0 99999999999",
    "in register 0 whole 0x100 0", "in register 0 whole a b", "mistake", "mistake x", "mistake code x", "mistake code,call", "Mistake code", "mistakes code"]
# Lines that start a stopwatch with a condition that is never true.
NEVER_STARTED = ["begin", "in register 0 whole 9 3"]
# Lines that limit the inputs of the question in QUESTION_LINES, whose board has no inputs.
LIMIT_LINES = ["together 0", "together 255", " together\t0xFF ", "only", "\tonly ", "test", "press 0 0", "press 255 255", "press 0x0  0xff", "held 1",
               "held 100000", "\theld  0x1 "]
# Lines that limit how often the levels change. With each of them, the search for QUESTION_LINES finds three states.
WAIT_LINES = ["wait 2", "\twait  0x2 ", "wait 3"]
# A question about a board with eight keys. The question limits the inputs to these keys.
EIGHT_KEYS = ["most 9", "wire", "[[rom]]", "chip = 0", 'port = "0000"', "[[rom]]", "chip = 1", 'port = "000i"', "[[chain]]", 'clock = "rom0.0"',
              'data = "rom0.1"', "chips = 1", "[keys]", "chain = 0", "first = 0", "rows = 8", 'columns = ["rom1.0"]', ".", *PROGRAM, "only",
              *(f"press {row} 0" for row in range(8))]
# The lines of each question, with the exit status and the answer.
ANSWERS: list[tuple[list[str], int, str]] = [
    ([], 2, "no question"), ([""], 2, "no question"), (["prove"], 2, "no question"), ([*BOARD, "prove"], 2, "no question"),
    ([*PROGRAM, "prove"], 2, "no question"), (QUESTION_LINES, 2, "no question"), ([*QUESTION_LINES, "never"], 2, "no question"),
    # If the end of a text is missing, all lines that follow belong to the text.
    (["asm", "NOP", *BOARD, "wire", "prove"], 2, "no question"), ([*PROGRAM, *BOARD[:-1], "prove"], 2, "no question"),
    ([*QUESTION_LINES, "prove", ""], 2, f"wrong line {len(QUESTION_LINES) + 2}"), ([*QUESTION_LINES, "prove", "prove"], 2, f"wrong line {len(QUESTION_LINES) + 2}"),
    *(([*QUESTION_LINES, line, "prove"], 2, f"wrong line {len(QUESTION_LINES) + 1}") for line in INVALID_LINES),
    *(([*QUESTION_LINES, "never", line, "prove"], 2, f"wrong line {len(QUESTION_LINES) + 2}") for line in INVALID_COMPARISONS),
    ([*QUESTION_LINES, "prove"], 0, "holds 1"), ([*QUESTION_LINES, "", "\tmost  0x1 ", "most 2", "prove"], 0, "holds 1"), ([*QUESTION_LINES, "never", "prove"], 0, "may fail"),
    ([*BOARD, *PROGRAM, "prove"], 0, "too many"), ([*QUESTION_LINES, "most 0", "prove"], 0, "too many"), (["prove", *QUESTION_LINES], 2, "wrong line 2"),
    ([*QUESTION_LINES, "memory 1", "prove"], 0, "holds 1"), ([*QUESTION_LINES, "memory 0", "prove"], 0, "no room 0"),
    ([*QUESTION_LINES, "most 0", "memory 1", "prove"], 0, "too many"),
    ([*QUESTION_LINES, "never", "in register 0 whole 9 3", "prove"], 0, "holds 1"), ([*QUESTION_LINES, "never", "out register 0 whole 9 3", "prove"], 0, "may fail"),
    ([*QUESTION_LINES, "never", "in chain3 255 line3 0x0 0xFF", "in character 2047 whole 0 0", "prove"], 0, "may fail"),
    *(([*QUESTION_LINES, "never", f"mistake {kind}", "prove"], 0, "holds 1") for kind in ("code", "call", "return", "ram", "rom", "wrr", "code code")),
    *(([*QUESTION_LINES, "never", line, "prove"], 0, "may fail") for line in ("mistake rdr", "mistake wrr code rdr")),
    ([*QUESTION_LINES, "never", "mistake rdr", "in register 0 whole 1 1", "prove"], 0, "holds 1"),
    # A stopwatch needs a limit and conditions that start and stop it. It cannot be combined with sets of states.
    *(([*QUESTION_LINES, *lines, "prove"], 2, "no question") for lines in (
        ["within 5"], ["within 5", "begin"], ["within 5", "end"], ["begin", "end"], ["sets 9", "within 5", "begin", "end"])),
    *(([*QUESTION_LINES, "within 5", "begin", "end", line, "prove"], 2, f"wrong line {len(QUESTION_LINES) + 4}") for line in INVALID_COMPARISONS),
    ([*QUESTION_LINES, "within 1", "begin", "end", "prove"], 0, "holds 2"), ([*QUESTION_LINES, "within 0", "begin", "end", "prove"], 0, "may fail 0"),
    ([*QUESTION_LINES, "within 0", *NEVER_STARTED, "end", "prove"], 0, "holds 1"),
    ([*QUESTION_LINES, "within 16777214", "end", "begin", "mistake rdr", "prove"], 0, "holds 1"),
    ([*QUESTION_LINES, "within 0", "within 1", "begin", "end", "prove"], 0, "holds 2"),
    ([*QUESTION_LINES, "never", "within 1", "begin", "end", "prove"], 0, "may fail"),
    # Marks need conditions that they must precede, and there can be at most 200. They cannot be combined with sets of states. The board has no keys.
    *(([*QUESTION_LINES, *lines, "prove"], 2, "no question") for lines in (
        ["open"], ["up 0 0"], ["down 255 255"], ["open", *201 * ["up 0 0"]], ["sets 9", "open", "up 0 0"], ["within 5", "open", "up 0 0"])),
    *(([*QUESTION_LINES, "up 0 0", "open", line, "prove"], 2, f"wrong line {len(QUESTION_LINES) + 3}") for line in INVALID_COMPARISONS),
    ([*QUESTION_LINES, "open", *200 * ["up 0 0"], "prove"], 0, "may fail"), ([*QUESTION_LINES, "open", "down 0x0 0xFF", "in register 0 whole 9 3", "prove"], 0, "holds 1"),
    ([*QUESTION_LINES, "up 0 0", "open", "in counter 17 whole 0 0", "prove"], 0, "may fail"),
    ([*QUESTION_LINES, "up 0 0", "open", "in counter 17 whole 1 255", "prove"], 0, "holds 1"),
    ([*QUESTION_LINES, "never", "up 0 0", "open", "in register 0 whole 9 3", "prove"], 0, "may fail"),
    ([*QUESTION_LINES, "never", "open", "in register 0 whole 9 3", "up 0 0", "prove"], 0, "may fail"),
    # Limits on the inputs are allowed anywhere, except in a text or after the last line.
    *(([*lines, "prove"], 0, "holds 1") for line in LIMIT_LINES for lines in (
        [line, *QUESTION_LINES], [*QUESTION_LINES[:2], *BOARD, line, *PROGRAM], [*QUESTION_LINES, line, line])),
    *(([*QUESTION_LINES, "never", line, "in register 0 whole 0 0", "prove"], 0, "may fail") for line in LIMIT_LINES),
    *(([*QUESTION_LINES, "never", "in register 0 whole 0 0", line, "in register 1 whole 1 1", "prove"], 0, "holds 1") for line in LIMIT_LINES),
    *(([*QUESTION_LINES, "prove", line], 2, f"wrong line {len(QUESTION_LINES) + 2}") for line in LIMIT_LINES),
    *(([*BOARD, "asm", " NOP", line, ".", "prove"], 3, "no 30 2") for line in LIMIT_LINES),
    *((["wire", line, ".", *PROGRAM, "prove"], 3, "no 20") for line in LIMIT_LINES),
    *(([line, "prove"], 2, "no question") for line in LIMIT_LINES), ([*QUESTION_LINES, *LIMIT_LINES], 2, "no question"),
    # Lines that limit how often the levels change are allowed in the same positions. With them, the levels are parts of the states.
    *(([*lines, "prove"], 0, "holds 3") for line in WAIT_LINES for lines in (
        [line, *QUESTION_LINES], [*QUESTION_LINES[:2], *BOARD, line, *PROGRAM], [*QUESTION_LINES, line, line],
        [*QUESTION_LINES, "wait 100000", line])),
    *(([*QUESTION_LINES, "never", line, "in register 0 whole 0 0", "prove"], 0, "may fail") for line in WAIT_LINES),
    *(([*QUESTION_LINES, "never", "in register 0 whole 0 0", line, "in register 1 whole 1 1", "prove"], 0, "holds 3") for line in WAIT_LINES),
    *(([*QUESTION_LINES, "prove", line], 2, f"wrong line {len(QUESTION_LINES) + 2}") for line in WAIT_LINES),
    *(([*BOARD, "asm", " NOP", line, ".", "prove"], 3, "no 30 2") for line in WAIT_LINES), ([*QUESTION_LINES, *WAIT_LINES], 2, "no question"),
    *(([line, "prove"], 2, "no question") for line in WAIT_LINES), ([*QUESTION_LINES, "wait 2", "wait 100000", "prove"], 0, "too many"),
    ([*QUESTION_LINES, "wait 100000", "only", "prove"], 0, "holds 2"), ([*QUESTION_LINES, "wait 3", "most 2", "prove"], 0, "too many"),
    # With `wait`, the time for which keys are down is a part of the states. TEST is not a key.
    *(([*QUESTION_LINES, *lines, "prove"], 0, "holds 3") for lines in (
        ["held 1", "wait 2"], ["wait 2", "held 100000"], ["wait 3", "held 4"], ["held 4", "wait 3", "held 3"])),
    ([*EIGHT_KEYS, "wait 2", "held 1", "prove"], 0, "gave up"),
    ([*EIGHT_KEYS, "wait 2", "held 1", "together 0", "prove"], 0, "holds 2"),
    # The prover accepts at most 255 combinations of levels. Eight keys alone have 256.
    ([*EIGHT_KEYS, "wait 2", "prove"], 0, "gave up"), ([*EIGHT_KEYS, "wait 2", "together 7", "prove"], 0, "too many"),
    ([*EIGHT_KEYS, "wait 2", "together 7", "test", "prove"], 0, "gave up"), ([*EIGHT_KEYS, "wait 2", "together 0", "prove"], 0, "holds 2"),
    ([*QUESTION_LINES, "only", *1000 * ["press 255 255"], "prove"], 0, "holds 1"), ([*QUESTION_LINES, *1000 * ["together 0"], *1000 * ["only"], "prove"], 0, "holds 1"),
    (["wire", "x", ".", *PROGRAM, "prove"], 3, "no 20"), (["wire", "[[rim]]", ".", *PROGRAM, "prove"], 3, "no 21"),
    (["wire", "[[rom]]", "chip = 0", ".", *PROGRAM, "prove"], 3, "no 22"),
    (["wire", "[[rom]]", "chip = 16", 'port = "0000"', ".", *PROGRAM, "prove"], 3, "no 23"),
    (["wire", *2 * BOARD[1:4], ".", *PROGRAM, "prove"], 3, "no 24"),
    (["wire", *BOARD[1:4], "[[lamp]]", 'line = "ram0.0.0"', ".", *PROGRAM, "prove"], 3, "no 25"),
    ([*BOARD, "asm", " NOP", " FOO", ".", "prove"], 3, "no 30 2"), ([*BOARD, "asm", "a: NOP", "a: NOP", ".", "prove"], 3, "no 31 2"),
    ([*BOARD, "asm", "", " JUN b", ".", "prove"], 3, "no 32 2"), ([*BOARD, "asm", " LDM 16", ".", "prove"], 3, "no 33 1"),
    (["wire", ".", *PROGRAM, "prove"], 3, "no 42"), (["wire", ".", "asm", ".", "prove"], 0, "too many"),
]


# ---- questions about limits on the inputs

# A question about a board with two keys in a driven row, whose columns are lines 0 and 1 of a port. Line 3 of the port always reads 1. The program
# stores the port in R2. It stores 1 in R3 if TEST is 1.
KEYS_QUESTION = [
    "most 100", "pause 100", "wire", "[[rom]]", "chip = 0", 'port = "0000"', "[[rom]]", "chip = 1", 'port = "10ii"', "[[chain]]", 'clock = "rom0.0"',
    'data = "rom0.1"', "chips = 1", "[keys]", "chain = 0", "first = 0", "rows = 1", 'columns = ["rom1.0", "rom1.1"]', ".",
    "asm", " LDM 2", " WRR", " LDM 3", " WRR", " FIM P0, 0x10", " SRC P0", "loop: JCN 1, read", " LDM 1", " XCH R3", "read: RDR", " XCH R2",
    " JUN loop", "."]
# The conditions that are true after the program has read that no key is down, that the first, the second or both are down, or that TEST is 1.
READ_CONDITIONS = {"none": "in register 2 whole 8 8", "first": "in register 2 line0 1 1", "second": "in register 2 line1 1 1",
         "both": "in register 2 whole 11 11", "test": "in register 3 whole 1 1"}
ALL_READS, ALL_BUT_BOTH = {*READ_CONDITIONS}, {"none", "first", "second", "test"}
# Lines that limit the inputs, each list with the names of the conditions in READ_CONDITIONS that can then become true.
ALLOWED_READS: list[tuple[list[str], set[str]]] = [
    ([], ALL_READS), (["together 2"], ALL_READS), (["together 255"], ALL_READS), (["test"], ALL_READS), (["press 0 0"], ALL_READS),
    (["press 1 0"], ALL_READS), (["together 1"], ALL_BUT_BOTH), (["together 0"], {"none", "test"}),
    (["together 0", "press 0 0", "test"], {"none", "test"}),
    (["only"], {"none"}), (["only", "test"], {"none", "test"}), (["test", "only"], {"none", "test"}), (["only", "together 2"], {"none"}),
    (["only", "press 0 0"], {"none", "first"}), (["press 0 1", "only"], {"none", "second"}), (["press 0 1", "together 0", "only"], {"none"}),
    (["press 0 0", "only", "press 0 1"], {"none", "first", "second", "both"}), (["only", "press 0 0", "press 0 1", "test", "together 2"], ALL_READS),
    (["only", "press 0 0", "press 0 1", "together 1"], {"none", "first", "second"}),
    (["press 0 0", "test", "only", "only"], {"none", "first", "test"}),
    # The board does not have these keys.
    (["only", "press 1 0", "press 1 1", "press 0 2", "press 0 255", "press 255 0", "press 255 255"], {"none"}),
    (["only", "press 0 1", "press 1 0"], {"none", "second"}),
    # Without `wait`, a proof does not use `held`.
    (["held 1"], ALL_READS), (["held 100000", "together 1"], ALL_BUT_BOTH),
    # Only the last `together` line counts.
    (["together 1", "together 2"], ALL_READS), (["together 2", "together 1"], ALL_BUT_BOTH),
    (["together 0", "together 255", "together 0x1"], ALL_BUT_BOTH), (["together 2", "only", "together 0", "press 0 0"], {"none"}),
]
