"""The part of checks/page about stories, which guide the user through an example. `?story=` opens a story, and each link in the story shows what the
link's text says, by pointer and keyboard, also on a phone. The check also covers an unknown story, and a link to a label that no longer exists."""

import re
import time

from page_basics import ENTER, GET_DIGITS, GET_NOTICE, GET_STATUS, GET_WHOLE_STATUS, IS_READY, SET_SPEED, choose_example, status_of, wait_until_ready
from page_layout import MEASURE_OVERFLOW, set_size
from page_printer import GET_PRINTER_TAPE
from verdicts import eventually, verdict
from web_driver import Chromium

STORY_NAME = "printing%20calculator"
GET_STEP_TITLE = "return document.getElementById('tour').hidden ? '-' : document.getElementById('tour-title').textContent"
GET_TOUR_STATUS = "return document.getElementById('tour-status').textContent"
GET_SESSION_NAME = "return document.getElementById('name').value"
GET_TAB = "return document.querySelector('#text-tabs [aria-selected=true]').textContent"
GET_DOCK_TAB = GET_TAB.replace("text-tabs", "dock-tabs")
GET_KEYS_DOWN = "return [...document.querySelectorAll(\"#keys [aria-pressed='true'] b\")].map((node) => node.textContent).join(' ')"
GET_LINKS = "return [...document.querySelectorAll('#tour-words .place')].map((node) => node.textContent)"
CLICK_LINK = "document.querySelectorAll('#tour-words .place')[arguments[0]].click()"
FOCUS_LINK = "document.querySelectorAll('#tour-words .place')[arguments[0]].focus()"
IS_MEMORY_IN_VIEW = "const { top, bottom } = document.getElementById('memory').getBoundingClientRect(); return bottom > 0 && top < innerHeight"
IS_STORY_IN_VIEW = "const { top, bottom } = document.getElementById('tour').getBoundingClientRect(); return top >= 0 && bottom < innerHeight"
GET_TAB_HEIGHT = "return [...document.querySelectorAll('#texts [role=tabpanel]')].find(isShown).getBoundingClientRect().height"
GET_REGISTER = "return document.getElementById(`value-${arguments[0]}`).textContent"


def click_link(browser, label, wait_seconds=0.2):
    """Clicks the story's link with this text, and waits. A number after `#` in `label` selects one of several links with the same text, from 1. If
    there is no such link, the check fails."""
    label, _, number = label.partition("#")
    matches = [index for index, link in enumerate(browser.script(GET_LINKS)) if link == label]
    if not matches:
        verdict(f"the story has a link {label}", browser.script(GET_LINKS), label)
        return
    browser.script(CLICK_LINK, matches[int(number or 1) - 1])
    time.sleep(wait_seconds)


def next_step(browser, title):
    """Opens the next step of the story, and checks its title."""
    browser.click("#tour-next")
    eventually(browser, f"the next step is {title}", GET_STEP_TITLE, re.compile(f"^[1-6] of 6: {title}$"))


def check_sum_step(browser):
    """Checks that the story opens its example at the first step, and that the links of this step press the keys of a sum."""
    eventually(browser, "the story opens at its first step", GET_STEP_TITLE, "1 of 6: A sum")
    verdict("the story opens its example", browser.script(GET_SESSION_NAME), "printing calculator")
    for label in ("1", "2", "+", "3", "0", "="):
        click_link(browser, label)
    eventually(browser, "the links press the calculator's keys", GET_PRINTER_TAPE, "12+ 30= 42")
    verdict("the display shows the result", browser.script(GET_DIGITS), "42")


def check_main_loop_step(browser):
    """Checks that the links of the second step pause and resume the program, and show the wiring and the source."""
    next_step(browser, "One digit at a time")
    click_link(browser, "Pause")
    eventually(browser, "the link pauses the program", GET_STATUS, re.compile("^Paused"))
    click_link(browser, "Resume")
    eventually(browser, "the link resumes the program", GET_STATUS, re.compile("^Running"))
    click_link(browser, "wiring")
    eventually(browser, "the link shows the wiring", GET_TAB, re.compile("^Wiring"))
    click_link(browser, "a turn")
    eventually(browser, "the link shows the source", GET_TAB, re.compile("^Source"))


def check_phone(browser):
    """Checks that on a phone the story stays visible above the tab that it shows."""
    set_size(browser, 390, 844, True)
    for label in ("wiring", "a turn"):
        click_link(browser, label)
        eventually(browser, f"on a phone the story stays visible with {label}", IS_STORY_IN_VIEW, True)
        verdict(f"on a phone {label} is more than 150 pixels high", browser.script(GET_TAB_HEIGHT) > 150, True)
        verdict("the page does not scroll sideways", browser.script(MEASURE_OVERFLOW), 0)
    browser.restore_size()


def check_key_step(browser):
    """Checks that the links of the third step press a key, run to locations of the program, and go back to the instructions that set registers."""
    next_step(browser, "A key goes down")
    click_link(browser, "Pause")
    eventually(browser, "the link pauses the program", GET_STATUS, re.compile("^Paused"))
    click_link(browser, "press 5")
    eventually(browser, "the link presses the key, which stays down", GET_KEYS_DOWN, "5")
    click_link(browser, "press 5")
    verdict("the key stays down when it is pressed again", browser.script(GET_KEYS_DOWN), "5")
    click_link(browser, "Run to where the columns are read")
    eventually(browser, "the program runs to the read of the columns", GET_WHOLE_STATUS, re.compile(r"look, line"))
    click_link(browser, "Run to where the key is accepted")
    eventually(browser, "the program runs to the acceptance of the key", GET_WHOLE_STATUS, re.compile(r"taken, line"))
    verdict("R11 has the number of the key", browser.script(GET_REGISTER, "R11"), "5")
    click_link(browser, "R11 gets it")
    eventually(browser, "the program goes back to the instruction that sets R11", GET_WHOLE_STATUS, re.compile(r"^Back .*other \+"))
    verdict("R11 is not set yet", browser.script(GET_REGISTER, "R11"), "0")
    verdict("R9 has the number of the key", browser.script(GET_REGISTER, "R9"), "5")
    click_link(browser, "R9 gets it")
    eventually(browser, "the program goes back to the instruction that sets R9", GET_WHOLE_STATUS, re.compile(r"^Back .*look \+"))
    verdict("the accumulator has the number of the key", browser.script(GET_REGISTER, "acc"), "5")
    click_link(browser, "Forward")
    click_link(browser, "Forward")
    eventually(browser, "two steps forward return to the acceptance of the key", GET_WHOLE_STATUS, re.compile(r"taken, line"))


def check_digit_entry_step(browser):
    """Checks that the links of the fourth step run to the entry and the display of a digit, show RAM, and release the key. Resuming must remove the
    goal of a run."""
    next_step(browser, "A digit of a number")
    click_link(browser, "Run to where the digit is entered")
    eventually(browser, "the program runs to the entry of the digit", GET_WHOLE_STATUS, re.compile(r"enter, line"))
    verdict("R15 has the digit", browser.script(GET_REGISTER, "R15"), "5")
    click_link(browser, "RAM")
    eventually(browser, "the link shows RAM", IS_MEMORY_IN_VIEW, True)
    click_link(browser, "run on to where it is shown")
    eventually(browser, "the program runs to the display of the digit", GET_WHOLE_STATUS, re.compile(r"show, line"))
    click_link(browser, "Run to the next turn")
    eventually(browser, "the program runs to the next iteration of the main loop", GET_WHOLE_STATUS, re.compile(r"turn, line"))
    click_link(browser, "Release 5")
    eventually(browser, "the link releases the key", GET_KEYS_DOWN, "")
    click_link(browser, "resume")
    eventually(browser, "the display shows the digit", GET_DIGITS, "5")
    click_link(browser, "Run to where the digit is entered")
    eventually(browser, "without a key press the program runs towards the entry of a digit", GET_WHOLE_STATUS, re.compile("^Running to"))
    click_link(browser, "resume")
    eventually(browser, "resume removes the goal of the run", GET_WHOLE_STATUS, re.compile('^Running ".*F5'))
    browser.type_keys(["5"])
    eventually(browser, "the display shows a digit that is typed later", GET_DIGITS, "55")
    verdict("the program continues after the digit", browser.script(GET_WHOLE_STATUS), re.compile('^Running ".*F5'))


def check_printing_step(browser):
    """Checks that the links of the fifth step run to the output of a printer code, and go back to the time before it was printed."""
    next_step(browser, "A printed line")
    click_link(browser, "Pause")
    eventually(browser, "the link pauses the program", GET_STATUS, re.compile("^Paused"))
    click_link(browser, "press =")
    click_link(browser, "run to where a character is sent")
    eventually(browser, "the program runs to the output of a printer code", GET_WHOLE_STATUS, re.compile(r"send, line"))
    verdict("the accumulator has the printer code", browser.script(GET_REGISTER, "acc"), "5")
    click_link(browser, "Run on")
    eventually(browser, "the printout has one more character", GET_PRINTER_TAPE, "12+ 30= 42 5")
    click_link(browser, "Go back to before the code was written")
    eventually(browser, "going back removes the character", GET_PRINTER_TAPE, "12+ 30= 42")


def check_last_step(browser):
    """Checks that Enter opens the last step and follows its links, and that a link to a label that the program lacks is reported."""
    browser.script("document.getElementById('tour-next').focus()")
    browser.type_keys([ENTER])
    eventually(browser, "Enter opens the last step", GET_STEP_TITLE, "6 of 6: Further")
    for label, query in (("Release =", GET_KEYS_DOWN), ("tests", GET_TAB), ("Waves", GET_DOCK_TAB), ("Source", GET_TAB)):
        browser.script(FOCUS_LINK, browser.script(GET_LINKS).index(label))
        browser.type_keys([ENTER])
        expected = "" if query == GET_KEYS_DOWN else re.compile(f"^{label.capitalize()}")
        eventually(browser, f"Enter follows the link {label}", query, expected)
    browser.script(FOCUS_LINK, browser.script(GET_LINKS).index("resume"))
    browser.type_keys([ENTER])
    eventually(browser, "Enter on the link resumes the program", GET_STATUS, re.compile("^Running"))
    status_of(browser, "#program-editor", "NOP\n")
    browser.click("#tour-back")
    click_link(browser, "run to where a character is sent")
    eventually(browser, "the missing label is reported", GET_TOUR_STATUS, re.compile("^Nothing was done: .* it has no label send"))


def check_leaving(browser):
    """Checks that a reload opens the story at its first step, and that Leave closes it."""
    browser.reload()
    wait_until_ready(browser)
    eventually(browser, "a reload opens the story at its first step", GET_STEP_TITLE, "1 of 6: A sum")
    verdict("the address still names the session", browser.script("return location.hash"), re.compile("^#session="))
    browser.click("#tour-close")
    verdict("Leave closes the story", browser.script(GET_STEP_TITLE), "-")


def check_other_sessions(browser, page):
    """Checks that an unknown story is reported, that the list of examples opens a story, and that another session has no story."""
    browser.open(f"{page.as_uri()}?story=no%20such")
    wait_until_ready(browser)
    eventually(browser, "an unknown story is reported", GET_NOTICE, 'The address names a story, "no such", that this page does not have.')
    verdict("the last session is open", browser.script(GET_SESSION_NAME), "printing calculator")
    browser.click("#sessions-button")
    browser.wait_until("return document.getElementById('sessions').open", True)
    browser.click("#examples button[aria-label='new session with its story: printing calculator']")
    eventually(browser, "the list of examples opens the story", GET_STEP_TITLE, "1 of 6: A sum")
    page_in_window_script = "return document.documentElement.scrollWidth <= innerWidth"
    verdict("the page is not wider than the window", browser.script(page_in_window_script), True)
    choose_example(browser, "traffic light")
    eventually(browser, "another session has no story", GET_STEP_TITLE, "-")


def check(browser, page, _folder, _mcs4):
    browser.open(f"{page.as_uri()}?story={STORY_NAME}")
    eventually(browser, "the page is ready", IS_READY, True, 90)
    browser.script(SET_SPEED, "real")
    check_sum_step(browser)
    check_main_loop_step(browser)
    if isinstance(browser, Chromium):
        check_phone(browser)
    check_key_step(browser)
    check_digit_entry_step(browser)
    check_printing_step(browser)
    check_last_step(browser)
    check_leaving(browser)
    check_other_sessions(browser, page)
