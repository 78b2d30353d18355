"""The part of checks/page about values. While time is paused, the source words at the pointer and the caret show their values, which can be edited
there. The heat map shows which RAM nibbles change, while time is running and while it is paused. The expected values were counted manually or are the
bench's answers."""

import re

from browser_driver import matches
from page_basics import GET_STATUS, GET_WHOLE_STATUS, choose_example, send_lines, reopen_page, status_of, pause_running_time
from page_names import GET_EXPLANATION, point_at
from verdicts import eventually, verdict

ENTER, ESCAPE = "\ue007", "\ue00c"
BOARD = """rom = [{ chip = 0, port = "0000" }, { chip = 1, port = "iiii" }]
ram = [{ bank = 0, chips = 1 }]
"""
PROGRAM = """digit = 0x12
        FIM P2, 0x60
turn:   FIM P0, digit
        SRC P0
        LDM 7
        WRM
        INC R5
        JMS sum
        JUN turn
sum:    RDM
        ADD R4
        BBL 0
"""
LINES = PROGRAM.split("\n")
GET_VALUE_TIP = "const tip = document.querySelector('.value-tip:not(#change-tip)'); return tip.hidden ? '' : tip.textContent"
SET_CARET = """
const editor = document.querySelector("#program-editor .cm-editor").lineEditor;
editor.focus();
editor.setCursor({ line: arguments[0] - 1, ch: editor.getLine(arguments[0] - 1).indexOf(arguments[1]) })"""
GET_NEXT_LINE = "return document.querySelector('#program-editor .next').textContent"
# The instruction or label at which each step stops, starting at ADD. The list was worked out manually.
EXPECTED_STOPS = ("BBL", "JUN turn", "turn:", "SRC", "LDM", "WRM", "INC", "JMS", "JUN turn")
GET_LINE_VALUES = "return [...document.querySelectorAll('#program-editor .line-values')].map((node) => node.textContent)"
GET_WATCHES = """return [...document.querySelectorAll("#watched-list li")].map((row) =>
  `${row.querySelector("b").textContent} ${row.querySelector(".values").textContent}`)"""
VALUE_CELL = "#program-editor .meaning button.value"


def line_of(text):
    """Returns the number, from 1, of the first source line that contains `text`."""
    return LINES.index(next(line for line in LINES if text in line)) + 1


def point_until_shown(browser, line, word, query, expected):
    """Rests the pointer on a word until its expected value is shown. Makes up to four attempts, because the page can move the word."""
    for _ in range(4):
        point_at(browser, line, word)
        if matches(browser.wait_until(query, expected, 5), expected):
            return


def run_to_add_instruction(browser):
    """Runs the program to ADD, the instruction after RDM. R5 is then 1, and the nibble that the program writes is 7. Also checks words that the page
    shows in the new session."""
    browser.script("document.getElementById('change-place').value = 'nonsense'")
    choose_example(browser, "empty bench")
    verdict("another session resets the field for a place", browser.script("return document.getElementById('change-place').value"), "lamps")
    status_of(browser, "#board-editor", BOARD)
    eventually(browser, "the default name of a board without a title", "return document.getElementById('name').value", "my board")
    status_of(browser, "#program-editor", PROGRAM)
    eventually(browser, "the status names the running board and the key that pauses it", GET_STATUS, 'Running "my board". F5 pauses it.')
    point_until_shown(browser, line_of("INC R5"), "R5", GET_EXPLANATION, "R5: the lower half of P2.")
    eventually(browser, "a register has no value while the program is running", GET_EXPLANATION, "R5: the lower half of P2.")
    pause_running_time(browser)
    send_lines(browser, "reset")
    send_lines(browser, "poke ram.0.0x12 0")
    send_lines(browser, "run 11")
    browser.wait_until(GET_NEXT_LINE, re.compile("ADD R4"))


def check_values_at_pointer(browser):
    """Checks that the word under the pointer shows its value, and that an instruction without a value shows nothing."""
    for text, word, expected in (
            ("INC R5", "R5", "R5 = 1"),
            ("FIM P2", "P2", "P2 = 61: R4 6, R5 1"),
            ("SRC P0", "P0", "P0 = 12: R0 1, R1 2; selects ROM 1; bank 0, chip 0, register 1, character 2 = 7"),
            ("sum:    RDM", "RDM", re.compile(r"^bank 0, chip 0, register 1, character 2 = 7; acc 7, cy 0$")),
            ("FIM P0", "digit", re.compile(r"^digit = 0x12, 18, 0001 0010; sent by SRC, it selects ROM 1; bank 0, chip 0, register 1, char")),
            ("JUN turn", "turn", "turn: address 0x002, line 3"),
            ("LDM 7", "7", "7 = 0x7, 0111")):
        point_until_shown(browser, line_of(text), word, GET_VALUE_TIP, expected)
        eventually(browser, f"the value of {word} at the pointer", GET_VALUE_TIP, expected)
    point_at(browser, line_of("INC R5"), "INC")
    eventually(browser, "an instruction without further operands has no value", GET_VALUE_TIP, "")


def check_edited_value(browser):
    """Checks that the value of R5 is shown below the source when the caret is at R5, and that it can be edited there."""
    browser.script(SET_CARET, line_of("INC R5"), "R5")
    eventually(browser, "the value at the caret", GET_EXPLANATION, "R5 = 1. R5: the lower half of P2.")
    browser.script(f"document.querySelector('{VALUE_CELL}').focus()")
    browser.type_keys([ENTER])
    browser.type_into("#cell-editor input", "g" + ENTER)
    eventually(browser, "a character that is not a digit is rejected with a message", "return document.querySelector('#cell-status').textContent", re.compile("^Type hexadec"))
    browser.type_into("#cell-editor input", ESCAPE)
    browser.type_keys([ENTER])
    browser.type_into("#cell-editor input", "c" + ENTER)
    eventually(browser, "the edited value is shown", GET_EXPLANATION, "R5 = C. R5: the lower half of P2.")
    verdict("the value has the focus", browser.script(f"return document.activeElement.matches('{VALUE_CELL}')"), True)
    verdict("the bench has the edited value", send_lines(browser, "regs"), re.compile(" r 12006C"))


def check_line_values(browser):
    """Checks that each executed line shows the values that it has changed. A line with a call must show all values that the subroutine has changed.
    A running program must show none."""
    for step in range(9):
        browser.click("#over")
        browser.wait_until(GET_NEXT_LINE, re.compile(EXPECTED_STOPS[step]))
    eventually(browser, "the values that the executed lines have changed", GET_LINE_VALUES, ["acc 7", "R5 D", "acc 0", "acc 0"])
    browser.click("#run")
    eventually(browser, "no values of lines are shown while the program is running", GET_LINE_VALUES, [])


def check_watched_values(browser):
    """Checks that watched names, expressions and conditions show their values, which change with the machine, and that an invalid expression is
    reported."""
    browser.type_into("#watched-field", "count = R16" + ENTER)
    eventually(browser, "a wrong watch expression is reported", "return document.querySelector('#watched-status').textContent",
               "R16: no such place; the registers are r0 to r15 (column 9)")
    browser.script("document.querySelector('#watched-field').value = ''")
    browser.type_into("#watched-field", "digit = ram 0 0x12" + ENTER)
    eventually(browser, "a watched value with a name", GET_WATCHES, ["digit 7"])
    send_lines(browser, "poke ram.0.0x12 9")
    eventually(browser, "the watched value after a change", GET_WATCHES, ["digit 9"])
    browser.type_into("#watched-field", "next = digit + 1" + ENTER)
    eventually(browser, "a watched expression with another watch's name", GET_WATCHES, ["digit 9", "next 10 (0xA)"])
    browser.type_into("#watched-field", "digit >= 9 and not digit = 8" + ENTER)
    eventually(browser, "a watched condition", GET_WATCHES, ["digit 9", "next 10 (0xA)", "digit >= 9 and not digit = 8 true"])
    send_lines(browser, "poke ram.0.0x12 7")


GET_CHANGE_TIP = "const tip = document.getElementById('change-tip'); return tip.hidden ? '' : tip.textContent"
MOVE_FOCUS = "document.activeElement.blur(); document.querySelector(arguments[0]).focus()"


def check_last_change(browser):
    """Checks that a cell's tooltip reports the cell's last change and its cause, and that the user can go back to this change."""
    if browser.script("return document.getElementById('run').textContent") == "Pause":
        pause_running_time(browser)
    send_lines(browser, "run 100\npoke ram.0.0x13 5\nrun 7")
    browser.script(MOVE_FOCUS, ".ram button[title$='SRC byte 13']")
    eventually(browser, "the tooltip reports the line that changed the cell last", GET_CHANGE_TIP,
               re.compile(r"register 1, character 3: SRC byte 13: from 0 to 5 by the line poke ram\.0\.0x13 5, 7 cycles, 0\.076 ms ago\.$"))
    browser.script("document.activeElement.blur()")
    eventually(browser, "the tooltip disappears when the focus moves", GET_CHANGE_TIP, "")
    browser.script(MOVE_FOCUS, "#value-R5")
    instruction = re.compile(r"^R5: from . to . by ([0-9A-F]{3}) \(.*line \d+\), (.*) ago\.$")
    tip = browser.wait_until(GET_CHANGE_TIP, instruction)
    verdict("the tooltip reports the instruction that changed the register last", tip, instruction)
    browser.script("document.getElementById('change-place').value = 'r5'")
    browser.click("#back-change")
    address, cycles = instruction.search(tip).groups()
    eventually(browser, "going back leads to the reported change", GET_WHOLE_STATUS, re.compile(f"^Back at {address} .*, {re.escape(cycles)} earlier"))
    browser.click("#forward")


GET_HEAT_STATUS = "return document.getElementById('heat-status').textContent"
CHOOSE_OPTION = """
const field = document.getElementById(arguments[0]);
field.value = arguments[1];
field.dispatchEvent(new Event("change"))"""
GET_WARM_CELLS = "return [...document.querySelectorAll('.ram [data-warmth]')].map((cell) => `${cell.dataset.warmth} ${cell.title}`)"
# Worked out manually: 6 of the 100 cycles precede the WRM at 006, which overwrites 3 with 7.
CHANGE_DESCRIPTION = "once by 006 (turn + 4, line 6), 94 cycles, 1.015 ms ago"


def check_heat_map(browser):
    """Checks that the heat map highlights the RAM nibbles that changed recently, and that their last change is reported. A nibble must have its name
    from the source."""
    send_lines(browser, "reset")
    send_lines(browser, "poke ram.0.0x12 3")
    send_lines(browser, "run 100")
    names_script = "return [...document.querySelectorAll('.cell-names:not([hidden])')].map((line) => line.textContent)"
    eventually(browser, "the nibble has its name from the source", names_script, ["2 digit"])
    browser.script(CHOOSE_OPTION, "heat", "often")
    browser.script(CHOOSE_OPTION, "heat-cycles", "some")
    eventually(browser, "a wrong number of cycles is rejected with a message", GET_HEAT_STATUS, re.compile("^Enter a number of cycles"))
    browser.script(CHOOSE_OPTION, "heat-cycles", "100")
    eventually(browser, "the status reports the changed nibble", GET_HEAT_STATUS, f"In the last 100 cycles, 1.080 ms, one character has changed: digit, {CHANGE_DESCRIPTION}.")
    cell = f"5 digit, bank 0, chip 0, register 1, character 2: SRC byte 12; changed {CHANGE_DESCRIPTION}"
    eventually(browser, "the changed cell is highlighted, and its tooltip reports the change", GET_WARM_CELLS, [cell])
    browser.click("#run")
    eventually(browser, "the status while the program is running", GET_HEAT_STATUS, "Counted while running.")
    eventually(browser, "no cell is highlighted if the number of cycles is small", GET_WARM_CELLS, [])
    browser.script(CHOOSE_OPTION, "heat-cycles", "1,000,000")
    send_lines(browser, "poke ram.0.0x12 3")
    eventually(browser, "a cell is highlighted when it changes", GET_WARM_CELLS, re.compile(r"^\['5 digit, .* SRC byte 12; changed at least once while running, most recently by 006 .*, line 6\)'\]$"))
    browser.script(CHOOSE_OPTION, "heat-cycles", "100")
    eventually(browser, "no cell is highlighted with a smaller number of cycles", GET_WARM_CELLS, [])
    browser.click("#run")
    eventually(browser, "the status after a pause", GET_HEAT_STATUS, re.compile("^In the last 100 cycles, 1.080 ms, no character"))
    send_lines(browser, "poke st.0.1.2 4\nstep")
    eventually(browser, "a nibble that a line changed is highlighted", GET_WARM_CELLS, re.compile("status character 2; changed once by the line poke st.0.1.2 4"))
    browser.script(CHOOSE_OPTION, "heat", "")
    eventually(browser, "no cell is highlighted without the heat map", GET_WARM_CELLS, [])


def check(browser, page, _folder, _mcs4):
    reopen_page(browser, page)
    run_to_add_instruction(browser)
    check_values_at_pointer(browser)
    check_edited_value(browser)
    check_watched_values(browser)
    check_line_values(browser)
    check_last_change(browser)
    check_heat_map(browser)
