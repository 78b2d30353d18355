"""The part of checks/page about the tests of programs. An example's tests pass. An error in the program makes a test fail at one of its lines, and
the session opens in the state of that failure. The source shows how often each line ran. The check also covers errors in the tests text, a text
without tests, a run that is cancelled, and saving the tests with the session and in a project."""

import re
import time

from page_basics import (GET_STATUS, GET_TEXT_OF_EDITOR, PUT_INTO_EDITOR, choose_example, send_lines, choose_from_file_menu, reopen_page, show_text,
                         wait_until_ready)
from page_texts import GET_NAME, wait_for_download, rename_session
from verdicts import eventually, verdict

TESTS_EDITOR = "#tests-editor"
GET_TESTS_STATUS = "return document.querySelector('#tests-editor .status-text').textContent"
GET_RESULTS = """return [...document.querySelectorAll('#test-list > li > p:first-child')]
  .map((each) => each.textContent.split(' ').slice(0, 4).join(' '))"""
GET_FAILURES = "return [...document.querySelectorAll('#test-list .wrong')].map((node) => node.textContent)"
GET_RUN_COUNTS = "return [...document.querySelectorAll('#program-editor .mark-counts')].map((node) => node.textContent).filter(Boolean)"
GET_PROFILE_LABELS = """return [...document.querySelectorAll('#profile-labels tr')]
  .map((row) => [...row.cells].map((cell) => cell.textContent).join(' ').trim())"""
GET_TAB_MARK = "return document.querySelector('#tests-tab .mark').textContent"
GET_ERRORS = "return [...document.querySelectorAll('#tests-editor .fault-list li')].map((node) => node.textContent)"
GET_SELECTED_TEXT = "return document.querySelector('#tests-editor .cm-editor').lineEditor.getSelection()"


def run_tests(browser):
    """Runs the tests in the tab Tests."""
    show_text(browser, "tests")
    browser.click(f"{TESTS_EDITOR} .send")


def check_passing_tests(browser):
    """Checks that an example's tests pass, and that the page reports the coverage, the cycles below each label, and the counts beside the source."""
    choose_example(browser, "three lamps")
    run_tests(browser)
    eventually(browser, "the tests of the example pass", GET_TESTS_STATUS, "All 2 tests passed.")
    verdict("the results of both tests", browser.script(GET_RESULTS), ["ok the light goes", "ok each lamp is"])
    verdict("the tab reports that the tests passed", browser.script(GET_TAB_MARK), "passed")
    verdict("the program is paused", browser.script(GET_STATUS), re.compile("^Paused"))
    verdict("the page reports the coverage", browser.text_of("#coverage-status"),
            "20 of 20 instructions were run (100.0 %), 6 of 6 branch directions (100.0 %). Counts are in the margin.")
    browser.click("#profile summary")
    verdict("the cycles below each label", browser.script(GET_PROFILE_LABELS),
            ["turn 016 2,084 96.5", "next 005 60 2.8", "wait 014 8 0.4 4 2,092 523", "first 003 4 0.2", "(no label)  3 0.1"])
    show_text(browser, "program")
    eventually(browser, "the counts are beside the source", f"{GET_RUN_COUNTS}.slice(-5).join(' ')", "3 4 976 912/64 64 60/4 4")


def check_failing_test(browser):
    """Checks that a test fails if a delay loop has one iteration too few, and that the session opens at the failure, with the tests but without
    results."""
    program = browser.script(GET_TEXT_OF_EDITOR, "#program-editor")
    browser.script(PUT_INTO_EDITOR, "#program-editor", program.replace("0x0C", "0x0D"))
    verdict("an edit removes the counts", browser.script(GET_RUN_COUNTS), [])
    run_tests(browser)
    eventually(browser, "a test fails", GET_TESTS_STATUS, "1 of 2 tests failed.")
    verdict("the tab reports the failure", browser.script(GET_TAB_MARK), "1 failed")
    verdict("the message about the failure, with its line", browser.script(GET_FAILURES), ["line 14 expect cycles 538: 536 cycles have passed, but the test expects 538"])
    browser.click("#test-list .wrong button")
    verdict("a click on the failure selects its line", browser.script(GET_SELECTED_TEXT), "  expect cycles 538")
    browser.click("#test-list details summary")
    trace_lines = browser.text_of("#test-list pre").split("\n")
    verdict("the first and the last line of the failure's trace", (trace_lines[0], trace_lines[-1]), ("lamps .*.", "     536  007 50 14 JMS wait         comes next"))
    browser.click("#test-list .bar button")
    eventually(browser, "the failure opens as a session", GET_NAME, "each lamp is lit for 538 cycles, line 14")
    verdict("the session is at the cycle of the failure", "pc 007 owed 0" in send_lines(browser, "regs"), True)
    verdict("the session has the tests", browser.script(GET_TEXT_OF_EDITOR, TESTS_EDITOR).count("\ntest "), 2)
    verdict("the session has no results", browser.script(GET_RESULTS), [])


def check_errors(browser):
    """Checks that errors in tests are reported, and that no test runs in that case. Also checks that the sample tests of three boards pass."""
    browser.script(PUT_INTO_EDITOR, TESTS_EDITOR, "test a\n  until lamps green within 10 ms\n  press x\n")
    show_text(browser, "tests")
    eventually(browser, "errors are reported while the user types", GET_ERRORS,
               ["line 2: the board has no lamp green; it has: left middle right (column 9)",
                "line 3: the board has no key x; its text names no keys (`# row 0: NAME ..`)"])
    verdict("the tab shows the number of errors", browser.script(GET_TAB_MARK), "2 errors")
    browser.click(f"{TESTS_EDITOR} .send")
    eventually(browser, "tests with errors are not run", GET_TESTS_STATUS,
               "Nothing was run: Tests, line 2: the board has no lamp green; it has: left middle right (column 9), and 1 more.")
    browser.script(PUT_INTO_EDITOR, TESTS_EDITOR, "")
    eventually(browser, "a sample test is offered for an empty text", "return isShown(document.getElementById('first-test'))", True)
    insert_sample(browser)
    browser.click(f"{TESTS_EDITOR} .send")
    eventually(browser, "the sample test passes", GET_TESTS_STATUS, "The test passed.")
    for example, lines in (("calculator", ["press 7", "run 50 ms", "expect display 7"]),
                           ("lock", ["press 1", "run 50 ms", "expect lamp locked on"])):
        choose_example(browser, example)
        show_text(browser, "tests")
        insert_sample(browser)
        text = browser.script(GET_TEXT_OF_EDITOR, TESTS_EDITOR)
        verdict(f"the sample test of the {example} presses the first key", [line.strip() for line in text.split("\n")[3:-1]], lines)
        browser.click(f"{TESTS_EDITOR} .send")
        eventually(browser, "the sample test with a key press passes", GET_TESTS_STATUS, "The test passed.")
    choose_example(browser, "three lamps")
    show_text(browser, "tests")


def insert_sample(browser):
    """Inserts the board's sample test into an empty editor."""
    browser.script(PUT_INTO_EDITOR, TESTS_EDITOR, "")
    browser.click("#first-test")
    browser.wait_until(f"{GET_TEXT_OF_EDITOR.replace('arguments[0]', repr(TESTS_EDITOR))}.includes('expect')", True)


GET_EXAMPLES = """return [...document.querySelectorAll("#examples button[aria-label^='new session: ']")]
  .map((each) => each.getAttribute("aria-label").slice("new session: ".length))"""
PASSED_MESSAGE = re.compile(r"^(The test|All \d+ tests) passed\.$")


def check_examples(browser):
    """Checks that each example's tests pass, and that the sample test of its board passes, too."""
    examples = browser.script(GET_EXAMPLES)
    verdict("the page has at least 17 examples", len(examples) >= 17, True)
    for example in examples:
        choose_example(browser, example)
        show_text(browser, "tests")
        if browser.script(GET_TEXT_OF_EDITOR, TESTS_EDITOR).strip():
            browser.click(f"{TESTS_EDITOR} .send")
            eventually(browser, f"the tests of {example} pass", GET_TESTS_STATUS, PASSED_MESSAGE, 180)
        insert_sample(browser)
        browser.click(f"{TESTS_EDITOR} .send")
        eventually(browser, f"the sample test of {example} passes", GET_TESTS_STATUS, "The test passed.", 180)


def check_cancelling(browser):
    """Checks that a test that would take very long can be cancelled."""
    browser.script(PUT_INTO_EDITOR, TESTS_EDITOR, "test for ever\n  until r15 9 within 10000 s\n")
    browser.click(f"{TESTS_EDITOR} .send")
    browser.wait_until("return isShown(document.getElementById('work'))", True)
    browser.click("#cancel")
    eventually(browser, "a test that does not end can be cancelled", GET_TESTS_STATUS, "It was cancelled; the results shown are from the previous run.")


def check_saved_tests(browser, folder):
    """Checks that the tests text is saved with its session and is in a project."""
    browser.script(PUT_INTO_EDITOR, TESTS_EDITOR, "test mine\n  run 5")
    time.sleep(1)
    browser.reload()
    wait_until_ready(browser)
    show_text(browser, "tests")
    eventually(browser, "the tests are unchanged after a reload", GET_TEXT_OF_EDITOR.replace("arguments[0]", f"'{TESTS_EDITOR}'"), "test mine\n  run 5")
    rename_session(browser, "with tests")
    choose_from_file_menu(browser, "#save-button")
    project_text = wait_for_download(folder, "with tests.mcsp").read_text()
    verdict("a project contains the tests", "\nunended test\n" in project_text and "\ntest\ntest mine\n  run 5\n.\n" in project_text, True)


def check(browser, page, folder, _mcs4):
    reopen_page(browser, page)
    check_passing_tests(browser)
    check_failing_test(browser)
    check_errors(browser)
    check_examples(browser)
    check_cancelling(browser)
    check_saved_tests(browser, folder)
