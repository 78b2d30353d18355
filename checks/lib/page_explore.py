"""The part of checks/page about the search for counterexamples to properties.

The check inserts an error into an example's program, and the page must find it. The counterexample must be the same as that of `mcs4 explore` with
the same seed, and the session must keep running during the search. The counterexample opens as a session. Its test can be added to the tests, where
it fails. A search can be stopped. Errors in properties, seconds and boards are reported. The check also covers a program with so few states that its
properties are proved, and a search from a saved state. It also covers the keyboard, a phone's width, and saving the properties with the session and
in a project."""

import os
import re
import subprocess
import time

from page_basics import (GET_NOTICE, GET_TEXT_OF_EDITOR, IS_READY, PUT_INTO_EDITOR, TOP, choose_example, send_lines, choose_from_file_menu,
                         reopen_page, show_text)
from page_layout import MEASURE_OVERFLOW, set_size
from page_tests import GET_ERRORS as GET_TESTS_FAULTS
from page_tests import GET_TESTS_STATUS
from page_tests import GET_FAILURES
from page_texts import GET_NAME, wait_for_download, rename_session
from verdicts import eventually, verdict
from web_driver import Chromium

PROPERTIES_EDITOR = "#properties-editor"
GET_PROPERTIES_STATUS = "return document.querySelector('#properties-editor .status-text').textContent"
GET_BUTTON_LABEL = "return document.getElementById('explore').textContent"
GET_PROPERTY_ROWS = """return [...document.querySelectorAll('#property-list > li')].map((node) => [...node.querySelector('p').children]
  .map((child) => child.textContent).filter(Boolean).join(' | '))"""
GET_TAB_MARK = "return document.querySelector('#properties-tab .mark').textContent"
GET_ERRORS = GET_TESTS_FAULTS.replace("tests", "properties")
GET_FIGURES = "return document.getElementById('explore-figures').textContent"
GET_CYCLES = "return Number(document.getElementById('cycles').textContent.match(/[\\d,]+/)[0].replace(/,/g, ''))"
GET_COUNTEREXAMPLE_TEST = "return document.querySelector('#property-list pre').textContent"
CONTROL, ENTER = "\ue009", "\ue007"
LOCK = TOP / "examples/lock"
# The time limit of a search in seconds. Page and tool must use the same number, because the limit for minimising a counterexample depends on it.
SEARCH_SECONDS = 10


def text_of_tab(browser, name):
    """Returns the text in the editor of a tab, such as `properties`."""
    return browser.script(GET_TEXT_OF_EDITOR, f"#{name}-editor")


def set_text(browser, name, text):
    """Replaces the text in the editor of a tab."""
    browser.script(PUT_INTO_EDITOR, f"#{name}-editor", text)


def set_limits(browser, seconds, seed=1):
    """Fills in the seconds and the seed of a search."""
    for name, value in (("seconds", seconds), ("seed", seed)):
        browser.script("document.getElementById(arguments[0]).value = arguments[1]", f"explore-{name}", str(value))


def start_search(browser, seconds, seed=1):
    """Starts a search with these limits."""
    show_text(browser, "properties")
    set_limits(browser, seconds, seed)
    browser.click("#explore")


def faulty_program():
    """Returns the lock's program with an error: the lock accepts any digit for one digit of the code."""
    program = (LOCK / "lock.asm").read_text()
    faulty = re.sub(r"^        JCN nonzero, wrong$", "        NOP", program, flags=re.M)
    verdict("the error is put into the program", faulty == program, False)
    return faulty


def start_explore_tool(folder, program, mcs4):
    """Starts `mcs4 explore` with the lock's board, the lock's properties and a program. Returns the process."""
    path = folder / "planted.asm"
    path.write_text(program)
    command = ["./mcs4", "explore", LOCK / "board.toml", path, LOCK / "lock.props", "--seconds", str(SEARCH_SECONDS), "--out", folder / "finds.test"]
    return subprocess.Popen(command, cwd=TOP, env=dict(os.environ, MCS4=str(mcs4)), stdout=subprocess.PIPE, stderr=subprocess.DEVNULL, text=True)


def check_counterexample(browser, folder, mcs4):
    """Checks that the search finds the error, that the session continues meanwhile, and that the counterexample is the same as that of `mcs4
    explore`."""
    program = faulty_program()
    choose_example(browser, "lock")
    verdict("the example has its properties", text_of_tab(browser, "properties"), (LOCK / "lock.props").read_text())
    set_text(browser, "program", program)
    start_search(browser, SEARCH_SECONDS)
    eventually(browser, "the button has the label Stop during the search", GET_BUTTON_LABEL, "Stop")
    eventually(browser, "the search reports its steps", GET_FIGURES, re.compile("^[1-9][0-9,]* steps"))
    cycles_before = browser.script(GET_CYCLES)
    eventually(browser, "the status reports the broken property during the search", GET_PROPERTIES_STATUS, "1 property is broken so far.")
    verdict("the tab reports the broken property", browser.script(GET_TAB_MARK), "1 broken")
    eventually(browser, "the session continues during the search", f"{GET_CYCLES.replace('return ', 'return (')}) > {cycles_before}", True)
    eventually(browser, "the search ends", GET_BUTTON_LABEL, "Search", SEARCH_SECONDS + 30)
    verdict("the status reports the broken property after the search", browser.script(GET_PROPERTIES_STATUS), "1 property is broken.")
    tool = start_explore_tool(folder, program, mcs4)
    output, _ = tool.communicate()
    rows = browser.script(GET_PROPERTY_ROWS)
    verdict("the number of rows, one for each property", len(rows), 8)
    verdict("the row shows how the property is broken", rows[0], re.compile(r"^not ok \| lamp open on only after press 4, .* \| broken by \d+ steps?, [\d,]+ cycles"))
    verdict("the other properties are not broken", rows[1:3], ["ok | never lamp open on and lamp locked on", "ok | never lamp open on and lamp alarm on"])
    verdict("mcs4 explore reports only the same broken property", re.findall("^not ok (.*) - ", output, re.M), ["1"])
    tests_of_tool = (folder / "finds.test").read_text()
    verdict("the counterexample is the same as that of mcs4 explore", browser.script(GET_COUNTEREXAMPLE_TEST), tests_of_tool[tests_of_tool.index("\ntest ") + 1:].rstrip("\n"))
    verdict("the page reports the number of instructions that ran", browser.text_of("#explored-instructions"), re.compile(r"1\d\d of 125 instructions were run"))


def check_line_never_run(browser):
    """Checks that a click on the number of a line that never ran selects this line in the source."""
    line = browser.script("return Number(document.querySelector('#never-run button').textContent)")
    browser.click("#never-run button")
    verdict("a click on the number of a line that never ran selects that line in the source", browser.script("""
const editor = document.querySelector('#program-editor .cm-editor').lineEditor;
return [isShown(editor.view.dom), editor.getCursor('from').line + 1]"""), [True, line])
    show_text(browser, "properties")


def check_test_added(browser):
    """Checks that the counterexample's test is added to the tests only once, at the end, and that it fails there."""
    add_button = "#property-list .bar button:nth-of-type(2)"
    tests_before = text_of_tab(browser, "tests")
    test = browser.script(GET_COUNTEREXAMPLE_TEST)
    browser.click(add_button)
    verdict("the test is added to Tests", browser.script(GET_PROPERTIES_STATUS), "It is at the end of Tests, where Run tests runs it.")
    verdict("the test is at the end of Tests", text_of_tab(browser, "tests"), f"{tests_before.rstrip()}\n\n{test}\n")
    browser.click(add_button)
    verdict("the test is not added a second time", (browser.script(GET_PROPERTIES_STATUS), text_of_tab(browser, "tests").count(test)), ("Tests already has it.", 1))
    set_text(browser, "tests", test)
    show_text(browser, "tests")
    browser.click("#tests-editor .send")
    eventually(browser, "the added test is run", GET_TESTS_STATUS, re.compile("failed|passed"))
    verdict("the added test fails", browser.script(GET_FAILURES), re.compile(r"^\['line \d+ expect not lamp open on: [^']*'\]$"))
    show_text(browser, "properties")


def check_counterexample_opened(browser):
    """Checks that the counterexample opens as a session, and that the old session can be opened again and still shows the search results."""
    browser.click("#property-list .bar button:nth-of-type(1)")
    eventually(browser, "the counterexample is opened as a session", GET_NAME, re.compile("^lamp open on only after press 4"))
    eventually(browser, "a notice offers to go back to the session", GET_NOTICE, re.compile('"lock" is saved'))
    verdict("the lamp is on in the counterexample's session", "lamps .*." in send_lines(browser, "lamps"), True)
    verdict("the texts of the counterexample's session", (text_of_tab(browser, "properties"), text_of_tab(browser, "program") == faulty_program()),
            ((LOCK / "lock.props").read_text(), True))
    verdict("the new session has no search results", browser.script("return isShown(document.getElementById('explore-results'))"), False)
    browser.click("#sessions-button")
    browser.wait_until("return document.getElementById('sessions').open", True)
    browser.click("#kept button[aria-label='open lock']")
    eventually(browser, "the old session is open again", GET_NAME, "lock")
    eventually(browser, "the old session still shows its results", GET_PROPERTY_ROWS, re.compile("^.'not ok . lamp open on only after"))


def check_stop_button(browser):
    """Checks that a ten-minute search can be stopped at once by mouse, and can be started and stopped by keyboard."""
    start_search(browser, 600)
    # The page first attempts a proof, for a tenth of the time.
    eventually(browser, "the search runs", GET_FIGURES, re.compile("^[1-9][0-9,]* steps"), 120)
    start = time.monotonic()
    browser.hold_mouse("#explore", 400)
    eventually(browser, "the search stops", GET_BUTTON_LABEL, "Search", 5)
    verdict("the search stops at once", time.monotonic() - start < 3, True)
    verdict("the status reports that the search was stopped", browser.script(GET_PROPERTIES_STATUS), re.compile("^Stopped. "))
    browser.script("document.querySelector('#properties-editor .cm-editor').lineEditor.focus()")
    browser.press_chord(CONTROL, ENTER)
    eventually(browser, "Ctrl+Enter starts the search", GET_BUTTON_LABEL, "Stop")
    eventually(browser, "the search runs", GET_FIGURES, re.compile("^[1-9][0-9,]* steps"), 120)
    browser.script("document.getElementById('explore').focus()")
    browser.type_keys([ENTER])
    eventually(browser, "Enter on the button stops the search", GET_BUTTON_LABEL, "Search", 5)
    verdict("the button keeps the focus", browser.script("return document.activeElement.id"), "explore")
    browser.click("#clear-finds")
    verdict("Clear removes the results", browser.script("return isShown(document.getElementById('explore-results'))"), False)


def check_errors(browser):
    """Checks that errors in properties, in the seconds, in the seed and in the board's text are reported, and that they prevent a search. Also checks
    the sample text."""
    set_text(browser, "properties", "wait 0 to 5\nnever lamp purple on\npress A\n")
    show_text(browser, "properties")
    eventually(browser, "errors are reported while the user types", GET_ERRORS,
               ["line 1: write `wait TIME to TIME`, from 1 cycle to 100,000 (1.08 s), as in: wait 1 ms to 20 ms",
                "line 2: the board has no lamp purple; it has: locked open alarm (column 7)",
                "line 3: the board has no key A; it has: 1 2 3 4 5 6 7 8 9 * 0 #"])
    verdict("the tab shows the number of errors", browser.script(GET_TAB_MARK), "3 errors")
    browser.click("#explore")
    eventually(browser, "no search starts if the text has errors", GET_PROPERTIES_STATUS, re.compile("^Nothing was run: Properties, line 1: write .* and 2 more.$"))
    for seconds, seed, message in ((0, 1, "Seconds must be a number from 1 to 86,400."), ("x", -1, re.compile("^Seconds .* The seed must be a number"))):
        start_search(browser, seconds, seed)
        verdict(f"{seconds} seconds are rejected", browser.script(GET_PROPERTIES_STATUS), message)
    board = text_of_tab(browser, "board")
    set_text(browser, "board", f"{board}[rom]\n")
    start_search(browser, 5)
    eventually(browser, "the error in the board's text is reported", GET_PROPERTIES_STATUS, re.compile("^Nothing was run: Board: no 20: the text is not TOML"))
    set_text(browser, "board", board)
    set_text(browser, "properties", "")
    eventually(browser, "a sample text is offered for empty properties", "return isShown(document.getElementById('first-properties'))", True)
    browser.click("#first-properties")
    start_search(browser, 3)
    eventually(browser, "the search reaches the goals of the sample text", GET_PROPERTIES_STATUS, "Nothing was found that breaks a property.", 20)
    verdict("the row of a goal shows how it is reached", browser.script(GET_PROPERTY_ROWS)[0], re.compile(r"^ok \| reach lamp locked on \| reached by \d+ steps?, "))


BOARD = 'lamp = [{ line = "ram0.0.0" }, { line = "ram0.0.1" }]\n[[rom]]\nchip = 0\nport = "0000"\n[[ram]]\nbank = 0\nchips = 1\n'
PROGRAM = "look: JCN 1, lit\n LDM 0\n JUN put\nlit: LDM 1\nput: WMP\n JUN look\n"


def check_small_program_proved(browser):
    """Checks that properties are proved if they are true in all states and the program reaches only a few states."""
    choose_example(browser, "empty bench")
    start_search(browser, 5)
    eventually(browser, "on a board without inputs the search reports that no input may change", GET_PROPERTIES_STATUS, re.compile("^Nothing was run: Properties, line 1: no input may change"))
    set_text(browser, "board", BOARD)
    set_text(browser, "program", PROGRAM)
    set_text(browser, "properties", "test\nwait 1 to 20\nnever lamp 1 on\nnever lamp 0 on\nreach lamp 1 on\n")
    start_search(browser, 5)
    eventually(browser, "the search ends when all properties are decided", GET_PROPERTIES_STATUS, "1 property is broken. 1 goal was not reached.", 20)
    verdict("the rows report the proved properties", [row for row in browser.script(GET_PROPERTY_ROWS) if "states" in row][:2],
            ["ok | never lamp 1 on | proved for all inputs (2 states)", "not ok | reach lamp 1 on | never reached, for all inputs (2 states)"])


def check_search_from_state(browser):
    """Checks that a search can start in a state that a test saves. The counterexample must begin with the lines of that test. Errors in `from` lines
    are reported."""
    set_text(browser, "tests", "test it is lit\n  set test 1\n  run 40\n  save lit\n")
    set_text(browser, "properties", "from lit\ntest\nwait 1 to 20\nnever lamp 0 on\nfrom dark\n")
    show_text(browser, "properties")
    eventually(browser, "a second `from` line is an error", GET_ERRORS, ["line 5: an earlier line already has a state to begin from"])
    set_text(browser, "properties", "from dark\ntest\nnever lamp 0 on\n")
    eventually(browser, "a state that no test saves is an error", GET_ERRORS, ["line 1: no test saves a state dark; saved states: lit"])
    set_text(browser, "properties", "from lit\ntest\nwait 1 to 20\nnever lamp 0 on\n")
    start_search(browser, 5)
    eventually(browser, "the search finds a counterexample from the saved state", GET_PROPERTIES_STATUS, "1 property is broken.", 20)
    verdict("the counterexample begins with the lines of the test", browser.script(GET_COUNTEREXAMPLE_TEST), re.compile("^test never lamp 0 on\n  set test 1\n  run 40\n"))


def check_search_on_phone(browser):
    """Checks that on a phone a search works and nothing is wider than the page."""
    set_size(browser, 390, 844, True)
    verdict("the page does not scroll sideways on a phone", browser.script(MEASURE_OVERFLOW), 0)
    start_search(browser, 5)
    eventually(browser, "the search ends on a phone", GET_BUTTON_LABEL, "Search", 20)
    eventually(browser, "the results on a phone", GET_PROPERTY_ROWS, re.compile("never lamp 0 on"))
    verdict("the number of elements outside the phone's width", browser.script("""return [...document.querySelectorAll('#explore-results *')]
      .filter((each) => isShown(each) && each.getBoundingClientRect().right > innerWidth).length"""), 0)
    verdict("the results do not make the page scroll sideways", browser.script(MEASURE_OVERFLOW), 0)
    browser.restore_size()


def check_saving(browser, folder):
    """Checks that the properties text is saved with its session, is in a project, and can be read from a file."""
    set_text(browser, "properties", "never lamp 1 on")
    time.sleep(1)
    browser.reload()
    browser.wait_until(IS_READY, True)
    show_text(browser, "properties")
    eventually(browser, "the properties are unchanged after a reload", GET_TEXT_OF_EDITOR.replace("arguments[0]", f"'{PROPERTIES_EDITOR}'"), "never lamp 1 on")
    rename_session(browser, "with properties")
    choose_from_file_menu(browser, "#save-button")
    project_file = wait_for_download(folder, "with properties.mcsp")
    text = project_file.read_text()
    verdict("a project contains the properties", "\nunended properties\n" in text and "\nproperties\nnever lamp 1 on\n.\n" in text, True)
    browser.click("#sessions-button")
    browser.type_into("#file", str(LOCK / "lock.props"))
    eventually(browser, "a file of properties is opened in its tab", GET_TEXT_OF_EDITOR.replace("arguments[0]", f"'{PROPERTIES_EDITOR}'"),
               (LOCK / "lock.props").read_text())
    eventually(browser, "the notice says how to use the file", GET_NOTICE, re.compile("lock.props is in Properties. Search looks for counterexamples"))


def check(browser, page, folder, mcs4):
    reopen_page(browser, page)
    check_counterexample(browser, folder, mcs4)
    check_line_never_run(browser)
    check_test_added(browser)
    check_counterexample_opened(browser)
    check_stop_button(browser)
    check_errors(browser)
    check_small_program_proved(browser)
    check_search_from_state(browser)
    if isinstance(browser, Chromium):
        check_search_on_phone(browser)
    check_saving(browser, folder)
