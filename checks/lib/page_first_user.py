"""The part of checks/page that acts like a first-time user, by keyboard alone. It gives an empty bench a board. It types a program, which is
rejected, and corrects, runs, pauses and steps it. It replaces and restores the program, saves it, and opens it again with the same bytes. Then it
opens an example that is a project, and corrects the error in the example's program."""

import re
import time

from page_editor import GET_CARET, GET_ERRORS, GET_STATUS_OF, PROGRAM_EDITOR, SET_CARET
from page_basics import DOWN, ENTER, ESCAPE, GET_NOTICE, GET_STATUS, GET_TEXT_OF_EDITOR, STEPPED_MESSAGE, TAB, move_focus_until, send_lines, wait_until_ready
from page_names import GET_BREAKPOINT_LINES, GET_SOURCE_STATUS
from page_texts import GET_NAME, GET_PROGRAM_TEXT, GET_QUESTION, GET_TEXTS, wait_for_download
from verdicts import eventually, verdict

CONTROL, BACKSPACE, END, HOME, UP = "\ue009", "\ue003", "\ue010", "\ue011", "\ue013"
F8, F9, F11 = "\ue038", "\ue039", "\ue03b"
GET_LAMPS = "return [...document.querySelectorAll('.bulb')].map((node) => (node.classList.contains('lit') ? '*' : '.')).join('')"
GET_KEYS_DOWN = "return [...document.querySelectorAll(\"#keys [aria-pressed='true']\")].map((node) => node.textContent).join(' ')"
IS_BOARD_OFFERED = "return document.getElementById('board-offer').checkVisibility()"
IS_SESSIONS_OPEN = "return document.getElementById('sessions').open"
IS_IN_SOURCE = "e.closest('#program-editor .cm-editor') !== null"
GET_REGISTERS = "return document.getElementById('registers').textContent"
# A program that shows on the lamps which keys are down, with an error in its fifth line. The comment distinguishes it from a source that is
# disassembled from ROM.
TYPED_LINES = ["; my first program", "LDM 3", "WRR", "read: RDR", "WMQ", "JUN read"]
ERROR_MESSAGE = "line 5: WMQ is not an instruction; WMP?"
DROP_FILE = """
const data = new DataTransfer();
data.items.add(new File([arguments[1]], arguments[0]));
document.body.dispatchEvent(new DragEvent("drop", { dataTransfer: data, bubbles: true, cancelable: true }))"""


def press_tab_until(browser, description, code, max_presses=90):
    """Presses the Tab key until a script about the focused element `e` returns true. Checks that this happens within `max_presses` presses."""
    verdict(f"the Tab key reaches {description}", move_focus_until(browser, TAB, code, max_presses), True)


def type_keys(browser, text):
    """Types text on the keyboard."""
    browser.type_keys([*text], 2, 2)


def choose_by_keyboard(browser, name):
    """Chooses an example by keyboard alone."""
    browser.script("document.getElementById('name').focus()")
    move_focus_until(browser, TAB, "e.id === 'sessions-button'", 5)
    browser.type_keys([ENTER])
    browser.wait_until(IS_SESSIONS_OPEN, True)
    press_tab_until(browser, f"the example {name}", f"e.getAttribute('aria-label') === 'new session: {name}'")
    browser.type_keys([ENTER])
    eventually(browser, f"Enter opens the example {name}", GET_NAME, name)
    browser.wait_until(IS_SESSIONS_OPEN, False)


def go_to_source(browser):
    """Moves the focus to the program's editor by keyboard."""
    browser.script("document.querySelector('#text-tabs [aria-selected=true]').focus()")
    browser.type_keys([HOME], 5, 5)
    press_tab_until(browser, "the source", IS_IN_SOURCE)


def check_offered_board(browser):
    """Checks that an empty bench offers a board, and that the keyboard can choose it."""
    choose_by_keyboard(browser, "empty bench")
    verdict("an empty bench offers a board", browser.script(IS_BOARD_OFFERED), True)
    press_tab_until(browser, "a board to begin with", "e.id === 'first-board'")
    browser.type_keys([ENTER])
    eventually(browser, "the board has four lamps", GET_LAMPS, "....")
    verdict("the board is not offered again", browser.script(IS_BOARD_OFFERED), False)
    verdict("the focus is in the front panel", browser.script("return document.activeElement.closest('#front') !== null"), True)


def check_typed_program(browser):
    """Checks that a typed program with an error is rejected, and that it can be corrected and run."""
    go_to_source(browser)
    for line in TYPED_LINES:
        type_keys(browser, line)
        browser.type_keys([ENTER], 2, 2)
    eventually(browser, "the error is reported while the user types", GET_ERRORS.format(PROGRAM_EDITOR), ERROR_MESSAGE)
    caret_before = browser.script(GET_CARET, PROGRAM_EDITOR)
    browser.press_chord(CONTROL, ENTER)
    eventually(browser, "Ctrl+Enter does not assemble a program with an error", GET_STATUS_OF.format(PROGRAM_EDITOR), ERROR_MESSAGE)
    verdict("the caret is unchanged", browser.script(GET_CARET, PROGRAM_EDITOR), caret_before)
    browser.type_keys([UP, UP, END, BACKSPACE, "P"], 5, 5)
    eventually(browser, "the corrected program has no error", GET_ERRORS.format(PROGRAM_EDITOR), "")
    browser.press_chord(CONTROL, ENTER)
    eventually(browser, "Ctrl+Enter assembles and runs the program", GET_STATUS_OF.format(PROGRAM_EDITOR), "Assembled 6 bytes; running from 000.")
    eventually(browser, "the program is running", GET_STATUS, re.compile("^Running"))
    eventually(browser, "the source does not differ from ROM", GET_SOURCE_STATUS, "")


def check_board_key(browser):
    """Checks that a key of the keyboard presses a key of the board, which changes the lamps."""
    browser.type_keys([ESCAPE, TAB], 5, 5)
    lamps_before = browser.script(GET_LAMPS)
    browser.script("window.shown = new Set()")
    browser.script("new MutationObserver(() => window.shown.add([...document.querySelectorAll('.bulb')].map((node) => "
                   "(node.classList.contains('lit') ? '*' : '.')).join(''))).observe(document.getElementById('lamps'), "
                   "{ subtree: true, attributes: true })")
    letter = browser.script("return document.querySelector('#keys kbd').textContent")
    browser.type_keys([letter], 300, 100)
    eventually(browser, "a key changes the lamps", "return window.shown.size > 0 && [...window.shown].some((each) => each !== arguments[0])"
               .replace("arguments[0]", f"'{lamps_before}'"), True)
    eventually(browser, "the key is up again", GET_KEYS_DOWN, "")


def check_breakpoint(browser):
    """Checks that the program stops at a breakpoint in the source, and that a step executes one instruction."""
    browser.type_keys([F8])
    browser.wait_until(GET_STATUS, re.compile("^Paused"))
    go_to_source(browser)
    browser.script(SET_CARET, PROGRAM_EDITOR, 3, 0)
    browser.type_keys([F9])
    eventually(browser, "F9 sets a breakpoint", GET_BREAKPOINT_LINES, "4")
    browser.type_keys([F8])
    eventually(browser, "the program stops at the breakpoint", GET_STATUS, re.compile("^Paused at 002, at a breakpoint"))
    browser.type_keys([F11])
    eventually(browser, "F11 executes one instruction", GET_STATUS, STEPPED_MESSAGE)
    verdict("the next instruction is WMP", browser.script(GET_REGISTERS), re.compile("pc003"))
    browser.type_keys([F9])
    eventually(browser, "F9 clears the breakpoint", GET_BREAKPOINT_LINES, "")


def check_restored_source(browser):
    """Checks that Ctrl+Z restores a source that was replaced by a disassembly of ROM."""
    typed_source = browser.script(GET_PROGRAM_TEXT)
    browser.script("document.getElementById('from-rom').focus()")
    browser.type_keys([ENTER])
    browser.wait_until(GET_QUESTION, "Replace the source?")
    verdict("the button Replace it has the focus", browser.script("return document.activeElement.textContent"), "Replace it")
    browser.type_keys([ENTER])
    browser.wait_until(GET_QUESTION, "")
    eventually(browser, "the source that is disassembled from ROM has no comment", GET_PROGRAM_TEXT, re.compile(r"^\s*LDM 3\s+WRR\s+RDR\s+WMP\s+JUN 0x002\s*$"))
    go_to_source(browser)
    browser.press_chord(CONTROL, "z")
    eventually(browser, "Ctrl+Z restores the text", GET_PROGRAM_TEXT, typed_source)


def save_by_keyboard(browser):
    """Saves through the File menu: Enter opens the menu, an arrow key moves to Save, Enter saves."""
    browser.script("document.getElementById('menu-button').focus()")
    browser.type_keys([ENTER, DOWN])
    verdict("the Down arrow reaches Save", browser.script("return document.activeElement.id"), "save-button")
    browser.type_keys([ENTER])


def check_project_file(browser, folder):
    """Checks that a project is saved, that a file of another kind is rejected, and that the saved project opens and is saved again with the same
    bytes."""
    texts = browser.script(GET_TEXTS)
    save_by_keyboard(browser)
    project_file = wait_for_download(folder, "My first board.mcsp")
    project_bytes = project_file.read_bytes()
    project_file.unlink()
    verdict("the saved project has the text", all(line in project_bytes.decode() for line in ("; my first program", "read: RDR")), True)
    browser.script(DROP_FILE, "holiday.jpg", "no session at all")
    eventually(browser, "a dropped file of another kind is rejected with a message", GET_NOTICE,
               re.compile(r"Cannot open holiday\.jpg: not a kind of text that the bench has; supported are projects .*The session shown is unchanged"))
    verdict("the texts are unchanged", browser.script(GET_TEXTS), texts)
    go_to_source(browser)
    browser.script(SET_CARET, PROGRAM_EDITOR, 0, 0)
    type_keys(browser, "; not this")
    eventually(browser, "the typed comment is in the source", GET_TEXT_OF_EDITOR.replace("arguments[0]", f"'{PROGRAM_EDITOR}'"), re.compile("^; not this"))
    browser.script(DROP_FILE, "mine.mcsp", project_bytes.decode())
    eventually(browser, "the dropped project has the saved texts", GET_TEXTS, texts)
    eventually(browser, "a notice offers to go back to the previous session", GET_NOTICE, re.compile('"My first board" is saved'))
    save_by_keyboard(browser)
    verdict("the project that is saved again has the same bytes", wait_for_download(folder, "My first board.mcsp").read_bytes() == project_bytes, True)
    browser.script("document.querySelector(\"#notice button[aria-label^='Reopen']\").focus()")
    browser.type_keys([ENTER])
    eventually(browser, "the previous session is open again", GET_PROGRAM_TEXT, re.compile("^; not this"))


def check_example(browser):
    """Opens an example that is a project. Checks that its texts have their comments, and that its session is in the state that these describe. Then
    corrects the error in the example's program."""
    browser.script("for (const each of document.querySelectorAll('#notice .dismiss')) each.click()")
    choose_by_keyboard(browser, "a fault to find")
    verdict("the example's source has its comments", browser.script(GET_PROGRAM_TEXT), re.compile("^; Four lamps should count from 0 to 9"))
    eventually(browser, "the example's source does not differ from ROM", GET_SOURCE_STATUS, "")
    eventually(browser, "the example has a breakpoint", GET_BREAKPOINT_LINES, re.compile(r"^\d+$"))
    eventually(browser, "the lamps show 9", GET_LAMPS, "*..*")
    verdict("R5 is ten", browser.script(GET_REGISTERS), re.compile("R5A"))
    verdict("the program is paused", browser.script("return document.getElementById('run').textContent"), "Continue")
    eventually(browser, "the example is not saved before the user does something", "return location.hash", "#example=a%20fault%20to%20find")
    source = browser.script(GET_PROGRAM_TEXT)
    line = source.split("\n").index("        SUB R4")
    go_to_source(browser)
    browser.script(SET_CARET, PROGRAM_EDITOR, line, len("        SUB R4"))
    browser.type_keys([BACKSPACE, "5"], 5, 5)
    browser.press_chord(CONTROL, ENTER)
    eventually(browser, "Ctrl+Enter assembles and runs the corrected program", GET_STATUS_OF.format(PROGRAM_EDITOR), re.compile("^Assembled .* bytes; running from 000"))
    browser.wait_until(GET_STATUS, re.compile("at a breakpoint"))
    script = "\n".join(["unbreak 8", "reset", *["run 91000"] * 10, "lamps", "run 97000", "lamps"])
    verdict("the corrected program counts to 9 and begins again at 0", send_lines(browser, script), re.compile(r"lamps \*\.\.\*.*lamps \.\.\.\."))


def check(browser, page, folder, _mcs4):
    browser.open("about:blank")
    browser.open(page.as_uri())
    wait_until_ready(browser)
    check_offered_board(browser)
    check_typed_program(browser)
    check_board_key(browser)
    check_breakpoint(browser)
    check_restored_source(browser)
    check_project_file(browser, folder)
    time.sleep(0.7)
    check_example(browser)
