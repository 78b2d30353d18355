"""The part of checks/page about the printer tape. Calculations by pointer and keyboard must be printed, in real time and at full speed. The check
also covers going back, a reload, clearing, and errors in the description of a printer."""

import re
import time

from page_basics import ENTER, GET_DIGITS, GET_STATUS, PUT_INTO_EDITOR, SET_SPEED, choose_example, key, status_of, wait_until_ready
from verdicts import eventually, verdict

GET_PRINTER_TAPE = """
const lines = [...document.querySelectorAll("#paper div")].map((line) => line.textContent);
return document.getElementById("strip").hidden ? "-" : lines.join(" ")"""
GET_TAPE_HEIGHT = "return document.getElementById('strip').offsetHeight"
GET_BOARD_TEXT = "return document.querySelector('#board-editor .cm-editor').lineEditor.getValue()"
GET_PANEL_ERRORS = "return [...document.querySelectorAll('#face-faults li')].map((node) => node.textContent).join(' ')"
IS_AT_END = "const paper = document.getElementById('paper'); return paper.scrollHeight - paper.scrollTop - paper.clientHeight < 4"
BOARD = """# printer rom0.3: ram0.0 a CE b_c
[[rom]]
chip = 0
port = "000i"
[[ram]]
bank = 0
chips = 1
"""
# A program that sends the codes 0 to 15 to the printer once. It outputs each code before the strobe.
SENDER_PROGRAM = """
        FIM P0, 0
        SRC P0
next:   LD R4
        WMP
        LDM 8
        WRR
        LDM 0
        WRR
        ISZ R4, next
stop:   JUN stop
"""


def press_keys(browser, legends):
    """Touches the board's keys with these legends in sequence."""
    for legend in legends:
        browser.touch_together([key(legend)], 60)
        time.sleep(0.08)


def check_calculator(browser):
    """Checks that calculations by pointer and keyboard are printed, also at full speed, and that a reload keeps the printout."""
    choose_example(browser, "printing calculator")
    eventually(browser, "a board with a printer has an empty tape", GET_PRINTER_TAPE, "")
    height = browser.script(GET_TAPE_HEIGHT)
    press_keys(browser, "12+30=")
    eventually(browser, "the typed keys and the result are printed", GET_PRINTER_TAPE, "12+ 30= 42")
    eventually(browser, "the display shows the result", GET_DIGITS, "42")
    browser.type_keys(["-", "5", "8", ENTER], 60, 120)
    eventually(browser, "a calculation on the keyboard is printed", GET_PRINTER_TAPE, "12+ 30= 42 42- 58= -16")
    browser.reload()
    wait_until_ready(browser)
    eventually(browser, "a reload keeps the printout", GET_PRINTER_TAPE, "12+ 30= 42 42- 58= -16")
    browser.script(SET_SPEED, "full")
    press_keys(browser, "*3=")
    eventually(browser, "a calculation at full speed is printed", GET_PRINTER_TAPE, "12+ 30= 42 42- 58= -16 -16* 3= -48")
    verdict("the end of the printout is visible", browser.script(IS_AT_END), True)
    verdict("the height of the tape is unchanged", browser.script(GET_TAPE_HEIGHT), height)
    browser.script(SET_SPEED, "real")


def check_description_errors(browser):
    """Checks that an error in the printer's description is reported while the board's text is edited, and that the printout is unchanged."""
    text = browser.script(GET_BOARD_TEXT)
    browser.script(PUT_INTO_EDITOR, "#board-editor", text.replace("printer rom0.2", "printer rom5.2"))
    eventually(browser, "a printer at a missing line is reported", GET_PANEL_ERRORS, re.compile("the board has no output line rom5.2"))
    browser.script(PUT_INTO_EDITOR, "#board-editor", text)
    eventually(browser, "the report disappears when the text is corrected", GET_PANEL_ERRORS, "")
    verdict("the printout is unchanged", browser.script(GET_PRINTER_TAPE), "12+ 30= 42 42- 58= -16 -16* 3= -48")


def check_going_back(browser):
    """Checks that going back removes printed lines, that going forward restores them, and that Clear empties the tape."""
    browser.click("#run")
    eventually(browser, "the program is paused", GET_STATUS, re.compile("^Paused"))
    browser.click("#run")
    press_keys(browser, "C7=")
    eventually(browser, "another calculation is printed", GET_PRINTER_TAPE, re.compile("-48 C 7= 7$"))
    browser.click("#run")
    eventually(browser, "the program is paused again", GET_STATUS, re.compile("^Paused"))
    browser.click("#back-stop")
    eventually(browser, "going back removes the last lines", GET_PRINTER_TAPE, re.compile("-48$"))
    browser.click("#forward")
    eventually(browser, "going forward restores the last lines", GET_PRINTER_TAPE, re.compile("-48 C 7= 7$"))
    browser.click("#clear-printout")
    eventually(browser, "Clear empties the tape", GET_PRINTER_TAPE, "")
    browser.click("#run")
    press_keys(browser, "9=")
    eventually(browser, "a new printout begins after Clear", GET_PRINTER_TAPE, "9= 9")


def check_other_printer(browser):
    """Checks that another board's printer prints its characters, and codes without a character as ?. A printer with an error must have no tape."""
    status_of(browser, "#board-editor", BOARD)
    eventually(browser, "the printer of another board has an empty tape", GET_PRINTER_TAPE, "")
    status_of(browser, "#program-editor", SENDER_PROGRAM)
    eventually(browser, "codes without characters are printed as ?", GET_PRINTER_TAPE, f"aCEb c{'?' * 13}")
    status_of(browser, "#board-editor", BOARD.replace("rom0.3", "rom0.0"))
    eventually(browser, "a strobe at an input line is reported", GET_PANEL_ERRORS, "line 1 of the board's text: the board has no output line rom0.0")
    verdict("a printer with an error has no tape", browser.script(GET_PRINTER_TAPE), "-")


def check(browser, page, _folder, _mcs4):
    browser.open(page.as_uri() + "#example=empty%20bench")
    wait_until_ready(browser)
    verdict("a board without a printer has no tape", browser.script(GET_PRINTER_TAPE), "-")
    check_calculator(browser)
    check_description_errors(browser)
    check_going_back(browser)
    check_other_printer(browser)
