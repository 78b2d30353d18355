"""The part of checks/page about proofs. The page proves the properties of an example with the same numbers of states as `mcs4 prove`. Editing a text
removes the mark that shows that a property is proved, and undoing the edit restores it. A proof can be cancelled. A counterexample opens before the
step that breaks its property, and time can go back from there. The check also covers goals, invalid numbers and properties, the keyboard, and a
phone's width."""

import os
import re
import subprocess
import time

from page_commands import press_chord
from page_explore import GET_TAB_MARK, GET_PROPERTIES_STATUS, set_text, text_of_tab
from page_basics import GET_NOTICE, GET_STATUS, TOP, choose_example, send_lines, reopen_page, show_text
from page_layout import MEASURE_OVERFLOW, set_size
from page_texts import GET_NAME
from verdicts import eventually, verdict
from web_driver import Chromium

GET_BUTTON_LABEL = "return document.getElementById('prove').textContent"
GET_PROGRESS = "return document.getElementById('proof-progress').textContent.trim()"
GET_PROGRESS_BAR = "const bar = document.querySelector('#proof-progress progress'); return [bar.value, bar.max]"
GET_PROOF_ROWS = """return [...document.querySelectorAll('#proof-list > li')].map((node) => [...node.querySelector('p').children]
  .map((child) => child.textContent).filter(Boolean).join(' | '))"""
COUNT_LAMPS_ON = "return document.querySelectorAll('.bulb.lit').length"
COUNT_LIT_ROWS = "return [...document.querySelectorAll('#proof-list .lit')].length"
CONTROL, SHIFT, ENTER = "\ue009", "\ue008", "\ue007"
# The maximum time of a proof in seconds, on a busy machine.
MAX_SECONDS = 900
# The number of kinds of common mistakes for which the page checks every program.
MISTAKE_COUNT = 7
CHANGED_NOTE = "the program, the board or the text has changed since then"
# With PROGRAM, lamp 0 is on while TEST is 0, and nothing turns lamp 1 on.
BOARD = ('# lamp 0: lit\n# test: button WALK\nlamp = [{ line = "ram0.0.0" }, { line = "ram0.0.1" }]\nrom = [{ chip = 0, port = "0000" }]\n'
         "ram = [{ bank = 0, chips = 1 }]\n")
PROGRAM = "look:   JCN 1, on\n        LDM 0\n        JUN put\non:     LDM 1\nput:    WMP\n        INC R1\n        JUN look\n"
# The program counts in all registers, so no search can visit all of its states.
COUNTING_PROGRAM = "look:   JCN 1, look\n" + "".join(f"        ISZ R{number}, look\n" for number in range(16)) + "        JUN look\n"


def start_proof(browser, states=1000000):
    """Starts a proof in which the search may visit at most `states` states."""
    show_text(browser, "properties")
    browser.script("document.getElementById('prove-states').value = arguments[0]", str(states))
    browser.click("#prove")


def prove_to_end(browser, description, states=1000000):
    """Starts a proof. Checks that it ends in time, and that the button then has its original label again."""
    start_proof(browser, states)
    eventually(browser, description, GET_BUTTON_LABEL, "Prove", MAX_SECONDS)


def prove_with_tool(browser, folder, mcs4):
    """Runs `mcs4 prove` with the page's texts. Returns the description and the number of states of each proved property, and then of each kind of
    mistake."""
    tab_files = [("board", "board.toml"), ("program", "program.asm"), ("properties", "some.props")]
    for name, file in tab_files:
        (folder / file).write_text(text_of_tab(browser, name))
    command = ["./mcs4", "prove", *(folder / file for _, file in tab_files)]
    result = subprocess.run(command, cwd=TOP, env=dict(os.environ, MCS4=str(mcs4)), stdout=subprocess.PIPE, text=True, check=False)
    return re.findall(r"^ok \d+ - (.*) # proved for all inputs \((.*)\)$", result.stdout, re.M)


def check_example(browser, folder, mcs4):
    """Checks that the page proves the stopwatch's properties with the same numbers of states as `mcs4 prove`. This example has one state more than
    the page's first, short search may visit."""
    choose_example(browser, "stopwatch")
    properties = [line for line in text_of_tab(browser, "properties").splitlines() if line.startswith(("never", "every"))]
    results_of_tool = prove_with_tool(browser, folder, mcs4)
    verdict("the properties that mcs4 prove proves", [text for text, _ in results_of_tool][: len(properties)], properties)
    verdict("the number of common mistakes that mcs4 prove reports", len(results_of_tool) - len(properties), MISTAKE_COUNT)
    start_proof(browser)
    eventually(browser, "the button has the label Cancel during the proof", GET_BUTTON_LABEL, "Cancel")
    progress = f"Property 1 of {len(results_of_tool)}: more than 10,000 states so far"
    eventually(browser, "the progress reports the number of states", GET_PROGRESS, progress, MAX_SECONDS)
    verdict("the progress bar", browser.script(GET_PROGRESS_BAR), [10000, 1000000])
    eventually(browser, "the proof ends", GET_BUTTON_LABEL, "Prove", MAX_SECONDS)
    verdict("each property is proved, with the number of states of mcs4 prove", browser.script(GET_PROOF_ROWS),
            [f"proved | {text} | for all inputs: {states}" for text, states in results_of_tool])
    verdict("the number of marked rows", browser.script(COUNT_LIT_ROWS), len(results_of_tool))
    verdict("the status counts the proved properties", browser.script(GET_PROPERTIES_STATUS), f"{len(results_of_tool)} proved.")
    verdict("the tab counts the proved properties", browser.script(GET_TAB_MARK), f"{len(results_of_tool)} proved")


def check_marks_after_edits(browser):
    """Checks that an edit of the program, the board or the property removes a mark, and that undoing the edit restores it."""
    count = browser.script(COUNT_LIT_ROWS)
    for name, comment_sign in (("program", ";"), ("board", "#")):
        text = text_of_tab(browser, name)
        set_text(browser, name, f"{text}{comment_sign} another one\n")
        eventually(browser, f"an edit of the {name} removes the marks", COUNT_LIT_ROWS, 0)
        verdict("the rows report the reason", {row.split(" | ")[-1] for row in browser.script(GET_PROOF_ROWS)}, {CHANGED_NOTE})
        verdict("the tab shows nothing", browser.script(GET_TAB_MARK), "")
        set_text(browser, name, text)
        eventually(browser, "undoing the edit restores the marks", COUNT_LIT_ROWS, count)
    properties = text_of_tab(browser, "properties")
    first_property, second_property = [row.split(" | ")[1] for row in browser.script(GET_PROOF_ROWS)][:2]
    set_text(browser, "properties", f"# one more\nnever r0 = 1 and r0 = 2\n{properties.replace(first_property, first_property.replace('9', '8'))}")
    eventually(browser, "an edited property loses its mark, and the others keep theirs", COUNT_LIT_ROWS, count - 1)
    verdict("the next property keeps its verdict", [row.split(" | ")[0] for row in browser.script(GET_PROOF_ROWS)][:2], [first_property, "proved"])
    browser.click("#proof-list li:nth-of-type(2) .name")
    verdict("a click on a property selects its line", browser.script("""
const editor = document.querySelector('#properties-editor .cm-editor').lineEditor;
return editor.getLine(editor.getCursor('from').line).trim()"""), second_property)


def check_counterexample(browser):
    """Checks that the counterexample to `never lamp lit on` can be added to the tests, and that it opens as a session before the step that turns the
    lamp on."""
    tests_before = text_of_tab(browser, "tests")
    button = "#proof-list li:nth-of-type(2) .bar button"
    browser.click(f"{button}:nth-of-type(2)")
    eventually(browser, "the test of the counterexample is added to Tests", GET_PROPERTIES_STATUS, "It is at the end of Tests, where Run tests runs it.")
    verdict("the added test is the one that is shown", text_of_tab(browser, "tests"),
            f"{tests_before}{browser.script('return document.querySelector(`#proof-list li:nth-of-type(2) pre`).textContent')}\n")
    browser.click(button)
    eventually(browser, "the counterexample opens as a session", GET_NAME, "never lamp lit on")
    eventually(browser, "the session is before the step that breaks the property", GET_STATUS, "The next step breaks: never lamp lit on")
    eventually(browser, "a notice offers to go back to the session", GET_NOTICE, re.compile('"empty bench" is saved'))
    verdict("the source is in front", browser.script("return document.getElementById('program-tab').getAttribute('aria-selected')"), "true")
    verdict("the lamp is off before the step", send_lines(browser, "lamps").endswith("lamps .."), True)
    browser.click("#step")
    eventually(browser, "the step turns the lamp on", COUNT_LAMPS_ON, 1)
    verdict("the bench reports that the lamp is on", send_lines(browser, "lamps").endswith("lamps *."), True)
    browser.click("#back-instruction")
    eventually(browser, "going back turns the lamp off", COUNT_LAMPS_ON, 0)
    cycle_count_script = "return document.getElementById('cycles').textContent.match(/[\\d,]+ cycle/)[0]"
    eventually(browser, "going back leads to the cycle at which the session was opened", cycle_count_script, "3 cycle")
    browser.click("#back-instruction")
    eventually(browser, "going back can continue before that cycle", cycle_count_script, "2 cycle")


def check_all_verdicts(browser):
    """Checks that the page reports each kind of verdict, for a separate board and program. Also checks a proof that may visit too few states, and
    that Clear removes the results."""
    choose_example(browser, "empty bench")
    set_text(browser, "board", BOARD)
    set_text(browser, "program", PROGRAM)
    set_text(browser, "properties", "test\nnever lamp 1 on\nnever lamp lit on\nreach lamp lit on\nreach lamp 1 on\nevery 1 ms @look\n"
        "lamp lit on only after press WALK\n")
    prove_to_end(browser, "the proof of all kinds of properties ends")
    verdict("the status counts the verdicts", browser.script(GET_PROPERTIES_STATUS), f"{2 + MISTAKE_COUNT} proved, 1 can fail, 1 reached, 1 never reached, 1 not decided.")
    rows = browser.script(GET_PROOF_ROWS)
    verdict("the verdicts on the properties", rows[:5], [
        "proved | never lamp 1 on | for all inputs: 32 states", "can fail | never lamp lit on | broken by 1 step, 4 cycles",
        "reached | reach lamp lit on | reached by 1 step, 4 cycles", "never reached | reach lamp 1 on | for all inputs: 32 states",
        "proved | every 1 ms @look | for all inputs: 33 states"])
    verdict("the verdict on a property that cannot be decided", rows[5:6], re.compile(r"^\['not decided \| lamp lit on only after press WALK \| WALK is at the TEST pin"))
    verdict("the verdicts on the common mistakes", [row.split(" | ")[0] for row in rows[6:]], ["proved"] * MISTAKE_COUNT)
    verdict("the number of marked rows", browser.script(COUNT_LIT_ROWS), 2 + MISTAKE_COUNT)
    check_counterexample(browser)
    browser.click("#sessions-button")
    browser.wait_until("return document.getElementById('sessions').open", True)
    browser.click("#kept button[aria-label='open empty bench']")
    eventually(browser, "the old session still has its verdicts", COUNT_LIT_ROWS, 2 + MISTAKE_COUNT)
    prove_to_end(browser, "the proof with at most 20 states ends", 20)
    verdict("too few states decide nothing", browser.script(GET_PROOF_ROWS), re.compile("'not decided . never lamp 1 on . more than 20 states; enter a larger number"))
    browser.click("#clear-finds")
    verdict("Clear removes the results", browser.script("return isShown(document.getElementById('proof-results'))"), False)


def check_input_errors(browser):
    """Checks that errors in the number of states and in the properties are reported. Without properties, only the common mistakes must be proved."""
    for states in ("0", "x", ""):
        start_proof(browser, states)
        verdict(f"{states or 'no'} states are rejected with a message", browser.script(GET_PROPERTIES_STATUS), "The number of states must be 1 to 999,999,999.")
    set_text(browser, "properties", "never lamp purple on\n")
    prove_to_end(browser, "the button's label after an error in the properties")
    verdict("the error in the properties is reported", browser.script(GET_PROPERTIES_STATUS), re.compile("^Nothing was run: Properties, line 1: the board has no lamp purple"))
    set_text(browser, "properties", "test\n")
    prove_to_end(browser, "the proof without properties ends")
    verdict("only the common mistakes are proved", browser.script(GET_PROPERTIES_STATUS), f"{MISTAKE_COUNT} proved.")
    set_text(browser, "program", "        JUN 256\n")
    prove_to_end(browser, "the proof for a program with a mistake ends")
    verdict("the status reports the mistake", browser.script(GET_PROPERTIES_STATUS), f"{MISTAKE_COUNT - 1} proved, 1 can fail.")
    verdict("the only row that is not proved", [row for row in browser.script(GET_PROOF_ROWS) if not row.startswith("proved")], ["can fail | no ROM that is absent | broken by 0 steps, 2 cycles"])


def check_cancelling(browser):
    """Checks that a proof that would take very long can be cancelled at once, by mouse and by keyboard."""
    set_text(browser, "program", COUNTING_PROGRAM)
    set_text(browser, "properties", "never lamp 1 on\n")
    start_proof(browser, 999999999)
    eventually(browser, "the proof runs", GET_PROGRESS, re.compile("more than .* states so far"), MAX_SECONDS)
    start = time.monotonic()
    browser.hold_mouse("#prove", 300)
    eventually(browser, "the proof stops", GET_BUTTON_LABEL, "Prove", 10)
    verdict("the proof stops at once", time.monotonic() - start < 8, True)
    verdict("the status reports that the proof was cancelled", browser.script(GET_PROPERTIES_STATUS), "It was cancelled before anything was proved.")
    verdict("no results are shown", browser.script("return isShown(document.getElementById('proof-results'))"), False)
    browser.script("document.querySelector('#properties-editor .cm-editor').lineEditor.focus()")
    press_chord(browser, CONTROL, SHIFT, ENTER)
    eventually(browser, "Ctrl+Shift+Enter starts the proof", GET_BUTTON_LABEL, "Cancel")
    browser.script("document.getElementById('prove').focus()")
    browser.type_keys([ENTER])
    eventually(browser, "Enter on the button cancels the proof", GET_BUTTON_LABEL, "Prove", 10)
    choose_example(browser, "three lamps")
    show_text(browser, "properties")
    verdict("another session shows no results", browser.script("return isShown(document.getElementById('proof-results'))"), False)


def check_proof_on_phone(browser):
    """Checks that on a phone a proof ends, and that nothing is wider than the page."""
    choose_example(browser, "empty bench")
    set_text(browser, "board", BOARD)
    set_text(browser, "program", PROGRAM)
    set_text(browser, "properties", "never lamp lit on\nnever lamp 1 on\n")
    set_size(browser, 390, 844, True)
    prove_to_end(browser, "the proof ends on a phone")
    verdict("the status on a phone", browser.script(GET_PROPERTIES_STATUS), f"{1 + MISTAKE_COUNT} proved, 1 can fail.")
    verdict("the number of elements outside the phone's width", browser.script("""return [...document.querySelectorAll('#proof-results *')]
      .filter((each) => isShown(each) && each.getBoundingClientRect().right > innerWidth).length"""), 0)
    verdict("the page does not scroll sideways on a phone", browser.script(MEASURE_OVERFLOW), 0)
    browser.restore_size()


def check(browser, page, folder, mcs4):
    reopen_page(browser, page)
    check_all_verdicts(browser)
    check_input_errors(browser)
    check_cancelling(browser)
    if isinstance(browser, Chromium):
        check_proof_on_phone(browser)
    check_example(browser, folder, mcs4)
    check_marks_after_edits(browser)
