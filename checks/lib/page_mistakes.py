"""The part of checks/page about common mistakes in programs. The page reports each mistake with its line when it happens, while time keeps running.
If the mistake's check box is on, time pauses before the mistake, and can continue. For a program without mistakes, the page reports nothing."""

import re
import time

from page_basics import GET_STATUS, choose_example, reopen_page, show_text, status_of, pause_running_time, wait_until_ready
from verdicts import eventually, verdict

GET_MISTAKE_ROWS = "return [...document.querySelectorAll('#usual-list li .words')].map((node) => node.textContent)"
IS_PANEL_SHOWN = "return isShown(document.getElementById('usual'))"
BOARD = """rom = [{ chip = 0, port = "0000" }, { chip = 1, port = "iiii" }]
ram = [{ bank = 0, chips = 1 }]
"""
# The SRC for RDR selects ROM 1, whose lines are inputs. The WRR after it lacks its own SRC, so it writes to ROM 1, which is a mistake.
PROGRAM = """keys:   FIM P0, 0x10
        SRC P0
        RDR
        WRR
        JUN keys
"""
MISTAKE_MESSAGE = "WRR writes to ROM 1, whose port has no output line; the last SRC is at 002"


def check(browser, page, _folder, _mcs4):
    reopen_page(browser, page)
    choose_example(browser, "calculator")
    show_text(browser, "problems")
    time.sleep(1)
    verdict("nothing is reported for a program without mistakes", browser.script(IS_PANEL_SHOWN), False)
    choose_example(browser, "empty bench")
    status_of(browser, "#board-editor", BOARD)
    status_of(browser, "#program-editor", PROGRAM)
    eventually(browser, "the mistake is reported with its line", GET_MISTAKE_ROWS, [f"004 (keys + 4, line 4) {MISTAKE_MESSAGE}"])
    verdict("the tab counts the mistake", browser.text_of("#problems-tab .mark"), "1")
    verdict("the program is still running", browser.script(GET_STATUS), re.compile("^Running"))
    browser.click("#usual-list input")
    pause_running_time(browser)
    browser.click("#run")
    eventually(browser, "with the check box on, the program pauses before the mistake", GET_STATUS, "Paused at 004, before a mistake that is reported.")
    verdict("the mistake is reported again", browser.script(GET_MISTAKE_ROWS), [f"004 (keys + 4, line 4) {MISTAKE_MESSAGE}"])
    browser.click("#run")
    eventually(browser, "the program continues, and pauses before the next mistake", GET_STATUS, re.compile("^Paused at 004"))
    browser.reload()
    wait_until_ready(browser)
    browser.click("#run")
    eventually(browser, "a reload keeps the check box", GET_STATUS, re.compile("^Paused at 004"))
    browser.click("#usual-list input")
    browser.click("#run")
    eventually(browser, "the program does not pause with the check box off", GET_STATUS, re.compile("^Running"))
    eventually(browser, "the mistake is reported once in a run", GET_MISTAKE_ROWS, [f"004 (keys + 4, line 4) {MISTAKE_MESSAGE}"])
    time.sleep(0.5)
    verdict("the number of reports after half a second", len(browser.script(GET_MISTAKE_ROWS)), 1)
    browser.click("#run")
