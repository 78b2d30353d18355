"""The part of checks/page about the page's help: the manual's tables, the console input, the wiring picture, and the tour."""

import re
import time

from page_basics import ENTER, ESCAPE, GET_STATUS, choose_example, key, send_lines, show_text, wait_until_ready
from verdicts import eventually, verdict

F1, UP, DOWN, CONTROL = "\ue031", "\ue013", "\ue015", "\ue009"
IS_HELP_SHOWN = "return !document.getElementById('help').hidden"
GET_HINT = "return document.getElementById('lines-hint').textContent"
GET_CONSOLE_FIELD = "return document.getElementById('lines').value"
GET_TOUR_STATUS = "return document.getElementById('tour-status').textContent"
GET_TOUR_TITLE = "return document.getElementById('tour-title').textContent"
COUNT_ROWS = "return document.querySelectorAll('#help-sections tbody tr').length"
SHOW_IN_BOARD = "#chosen [aria-label='Show in text']"
COUNT_HIGH_LINES = "return [...document.querySelectorAll('#wiring-picture .high')].length"
GET_SELECTED_TEXT = "return document.querySelector('#board-editor .cm-editor').lineEditor.getSelection()"


def check_help(browser):
    """Checks that F1 opens the help, that a search shows only the matching row of the manual, and that Escape closes the help."""
    browser.script("document.activeElement.blur()")
    browser.type_keys([F1])
    eventually(browser, "F1 opens the help", IS_HELP_SHOWN, True)
    browser.type_into("#help-search", "decimal adjust")
    eventually(browser, "a search shows only the matching row", COUNT_ROWS, 1)
    verdict("the row is from the manual", browser.text_of("#help-sections tbody tr"), re.compile("^DAAFBdecimal adjust: 6 is added to ACC if CY"))
    browser.type_keys([ESCAPE])
    eventually(browser, "Escape closes the help", IS_HELP_SHOWN, False)
    verdict("the help button has the focus again", browser.script("return document.activeElement.id"), "help-button")


def check_console_input(browser):
    """Checks that the console's field shows matching commands, recalls earlier lines, and completes words. The line `help WORD` must open the
    help."""
    show_text(browser, "console")
    browser.script("document.activeElement.blur()")
    browser.type_into("#lines", "re")
    eventually(browser, "the commands with the typed beginning are shown below the field", GET_HINT, re.compile(r"^release r c: .*\nreset: .*\nregs: "))
    browser.script("document.getElementById('lines').value = ''")
    browser.type_into("#lines", "poke r5 9" + ENTER)
    eventually(browser, "Enter sends the line and empties the field", GET_CONSOLE_FIELD, "")
    browser.type_into("#lines", "seq" + ENTER)
    eventually(browser, "Enter sends the second line", GET_CONSOLE_FIELD, "")
    browser.type_keys([UP, UP])
    eventually(browser, "the Up arrow recalls the line before the last one", GET_CONSOLE_FIELD, "poke r5 9")
    browser.type_keys([DOWN])
    eventually(browser, "the Down arrow recalls the last line", GET_CONSOLE_FIELD, "seq")
    browser.type_keys([DOWN])
    eventually(browser, "the Down arrow after the last line empties the field", GET_CONSOLE_FIELD, "")
    browser.type_into("#lines", "unb")
    browser.press_chord(CONTROL, " ")
    eventually(browser, "Ctrl+Space completes a word", GET_CONSOLE_FIELD, "unbreak ")
    browser.script("document.getElementById('lines').value = ''")
    browser.type_into("#lines", "help watch" + ENTER)
    eventually(browser, "the line `help WORD` opens the help", IS_HELP_SHOWN, True)
    verdict("the help searches the word", browser.script("return document.getElementById('help-search').value"), "watch")
    browser.click("#help-close")
    eventually(browser, "the Close button closes the help", IS_HELP_SHOWN, False)


def check_wiring(browser):
    """Checks that the wiring picture colours the lines at 1 and describes them in words, and that a selected part can be shown in the board's
    text."""
    choose_example(browser, "traffic light")
    browser.click("#wiring-tab")
    eventually(browser, "the picture of the wiring has its parts", "return document.querySelectorAll('#wiring-picture .part').length >= 4", True)
    eventually(browser, "lines at 1 are coloured while the program is running", COUNT_HIGH_LINES, re.compile("[1-9]"))
    verdict("the lines are also described in words", browser.text_of("#wiring-words"), re.compile("ROM 0 · 4001: line rom0.0, an (in|out)put, "))
    browser.script("document.querySelector('#wiring-picture .part.of-rom').focus()")
    browser.type_keys([ENTER])
    browser.click(SHOW_IN_BOARD)
    eventually(browser, "a part that was selected with Enter is shown in the board's text", GET_SELECTED_TEXT, re.compile(r"^\[\[rom\]\]\nchip = 0\n"))
    browser.click("#wiring-tab")
    browser.script("document.querySelector('#wiring-picture .of-test').focus()")
    browser.type_keys([ENTER])
    browser.click(SHOW_IN_BOARD)
    eventually(browser, "the button at TEST is shown in the board's text", GET_SELECTED_TEXT, "# test: button WALK")
    browser.click("#wiring-tab")
    verdict("the part at the caret is marked in the picture",
            browser.script("return document.querySelectorAll('#wiring-picture .marked').length") >= 1, True)
    browser.click("#program-tab")


def run_program(browser):
    """Clicks the button that copies a tour step's program into the source, then assembles and runs the program."""
    browser.click("#tour-put")
    browser.script("document.querySelector('#program-editor .status-text').firstChild.data = ''")
    browser.click("#program-editor .send")
    browser.wait_until("return document.querySelector('#program-editor .status-text').textContent", re.compile("running from 000"))
    browser.wait_until(GET_STATUS, re.compile("^Running"))


def check_tour(browser):
    """Checks that the tour detects the action that each of its five steps describes, and closes after the last one."""
    browser.click("#help-button")
    browser.click("#tour-begin")
    eventually(browser, "the first step of the tour is open", GET_TOUR_TITLE, "1 of 5: A lamp")
    run_program(browser)
    eventually(browser, "the tour detects the lamp", GET_TOUR_STATUS, "Done.")
    browser.click("#tour-next")
    run_program(browser)
    eventually(browser, "the tour detects the count", GET_TOUR_STATUS, "Done.")
    browser.click("#tour-next")
    verdict("the third step is not done yet", browser.script(GET_TOUR_STATUS), "")
    run_program(browser)
    time.sleep(0.3)
    browser.touch_together([key("right")], 400)
    eventually(browser, "the tour detects the key press", GET_TOUR_STATUS, "Done.")
    browser.click("#tour-next")
    send_lines(browser, "break 0x006")
    eventually(browser, "the tour detects the breakpoint", GET_TOUR_STATUS, "Done.")
    send_lines(browser, "unbreak 0x006")
    browser.click("#tour-next")
    run_program(browser)
    browser.click(".ram button")
    time.sleep(0.3)
    browser.touch_together([key("left")], 300)
    eventually(browser, "the tour detects the watch", GET_TOUR_STATUS, re.compile("^Done: that was the last step"))
    browser.click("#tour-next")
    eventually(browser, "the tour closes after its last step", "return document.getElementById('tour').hidden", True)


def check_cell_tooltips(browser):
    """Checks that tooltips explain the cells of the processor, the calls and the ports."""
    titles_script = "return [...document.querySelectorAll('#processor [title], #calls [title], #ports [title]')].map((node) => node.title).join('; ')"
    for description in ("the accumulator", "in the middle of a two-cycle instruction", "the return addresses for BBL, the newest first", "what WRR has written"):
        eventually(browser, f"the tooltip of a cell: {description}", titles_script, re.compile(description))


def check(browser, page, _folder, _mcs4):
    browser.open(page.as_uri())
    wait_until_ready(browser)
    choose_example(browser, "calculator")
    check_help(browser)
    check_cell_tooltips(browser)
    check_console_input(browser)
    check_wiring(browser)
    check_tour(browser)
