"""The part of checks/page about the brightness of lamps. While time is running, the brightness corresponds to the fraction of time for which a lamp
is on, as `trace` reports it. While time is paused, a lamp is either on or off. A display that the program's main loop rewrites in each iteration
always shows its number. A display that the program shifts in after a key press shows its number when the shifting is complete."""

import re

from page_basics import GET_DIGITS, GET_STATUS, SET_SPEED, TOP, choose_example, send_lines, status_of, wait_until_ready
from verdicts import eventually, verdict

ROM = '[[rom]]\nchip = 0\nport = "0000"\n'
PULSES_BOARD = ROM + "".join(f'[[lamp]]\nline = "rom0.{line}"\n' for line in range(4))
# In each iteration, lamp 0 is on for 3 cycles and lamp 1 for the other cycles. Lamp 2 is always on, lamp 3 never.
PULSES_PROGRAM = "FIM P0, 0\nSRC P0\nloop: LDM 5\nWRR\nNOP\nLDM 6\nWRR\nFIM P1, 0\nwait: ISZ R2, wait\nJUN loop\n"
# A board with a display, and a program that shifts the number 42 into it again and again, segment by segment.
REFRESHED_BOARD, REFRESHED_PROGRAM = ((TOP / f"js/test/two_digits.{kind}").read_text() for kind in ("toml", "asm"))
GET_BRIGHTNESS_STATUS = "return document.getElementById('brightness-status').textContent"
# Records the brightness of each lamp and the text of the display in each frame, for a time in milliseconds, which is the argument.
RECORD_BRIGHTNESS = """
window.shines = [];
window.numbers = [];
const begun = performance.now();
const look = () => {
  window.shines.push([...document.querySelectorAll("#front .bulb")].map((bulb) => Number(bulb.style.getPropertyValue("--shine"))));
  window.numbers.push(document.getElementById("digits").textContent);
  if (performance.now() - begun < arguments[0]) requestAnimationFrame(look);
  else window.watched = true;
};
window.watched = false;
requestAnimationFrame(look);
"""
GET_BRIGHTNESS = "return [...document.querySelectorAll('#front .bulb')].map((bulb) => Number(bulb.style.getPropertyValue('--shine')))"


def lit_fractions(answer):
    """Returns the fraction of time for which each lamp is on, from an answer to `trace n lamps` in the log."""
    head = re.search(r"trace ran (\d+) end lines \d+ ([.*]+)", answer)
    rows = re.findall(r"(\d+) [0-9A-F]{3} ([.*]+)", answer[head.end():])
    total, marks, start = int(head.group(1)), head.group(2), 0
    cycles_on = [0] * len(marks)
    for end, next_marks in [*((int(cycles) + 1, next_marks) for cycles, next_marks in rows), (total, "")]:
        cycles_on = [count + (end - start if mark == "*" else 0) for count, mark in zip(cycles_on, marks)]
        marks, start = next_marks, end
    return [count / total for count in cycles_on]


def record_brightness(browser, milliseconds):
    """Records the brightness for a time in milliseconds, and waits for the end."""
    browser.script(RECORD_BRIGHTNESS, milliseconds)
    browser.wait_until("return window.watched", True)


def shown_fractions(browser):
    """Returns the minimum and maximum brightness of each lamp, converted to the fraction of time for which the lamp is on."""
    frames = browser.script("return window.shines")
    return [(min(values) ** 2.2, max(values) ** 2.2) for values in zip(*frames)]


def check_pulses(browser, speed):
    """Checks that each lamp's brightness at one speed is within 2 % of the fraction of time for which it is on in the trace."""
    browser.script(SET_SPEED, speed)
    eventually(browser, f"at {speed} speed the status reports the averaged brightness", GET_BRIGHTNESS_STATUS, re.compile("averaged over 30 ms"))
    record_brightness(browser, 500)
    record_brightness(browser, 1500)
    ranges = shown_fractions(browser)
    expected = lit_fractions(send_lines(browser, "trace 4100 lamps"))
    verdict(f"at {speed} speed the brightness is within 2 % of the fractions in the trace: {ranges} of {expected}",
            all(abs(bound - fraction) < 0.02 for limits, fraction in zip(ranges, expected) for bound in limits), True)


def check_lamps_while_paused(browser):
    """Checks that while time is paused, each lamp is either on or off, as the bench reports it."""
    browser.click("#run")
    eventually(browser, "the program is paused", GET_STATUS, re.compile("^Paused"))
    marks = re.search(r"lamps ([.*]+)", send_lines(browser, "lamps")).group(1)
    verdict("while paused, a lamp is either on or off", browser.script(GET_BRIGHTNESS), [1 if mark == "*" else 0 for mark in marks])
    verdict("the status reports that the lamps show one instant", browser.script(GET_BRIGHTNESS_STATUS), "Paused: lamps show this instant.")
    browser.click("#run")


def check_rewritten_display(browser):
    """Checks that a display that the program rewrites all the time shows the same number in each frame."""
    status_of(browser, "#board-editor", REFRESHED_BOARD)
    status_of(browser, "#program-editor", REFRESHED_PROGRAM)
    eventually(browser, "a display that the program rewrites in each iteration shows its number", GET_DIGITS, "42")
    record_brightness(browser, 2000)
    verdict("the display shows the same number in each frame", browser.script("return [...new Set(window.numbers)].join(' ')"), "42")
    lit_segments_script = "return [...document.querySelectorAll('#glass svg')].map((digit) => digit.querySelectorAll('.lit').length).join(' ')"
    verdict("the segments that are on, and the number of outlined digits", [browser.script(lit_segments_script), browser.script("return document.querySelectorAll('.smeared').length")],
            ["4 5", 2])


def check_shifted_display(browser):
    """Checks that the calculator's display shows a digit only after it was shifted in completely."""
    choose_example(browser, "calculator")
    eventually(browser, "the calculator shows 0", GET_DIGITS, "0")
    browser.script(RECORD_BRIGHTNESS, 2000)
    browser.type_keys(["1", "2", "3"], 40, 60)
    browser.wait_until("return window.watched", True)
    verdict("the display shows digits only after they are shifted in completely",
            browser.script("return [...new Set(window.numbers)].join(' ')"), "0 1 12 123")


def check_clock(browser):
    """Checks that the clock's multiplexed display shows the time while the program runs, and at most one digit while it is paused."""
    choose_example(browser, "clock")
    eventually(browser, "the multiplexed display shows the time", GET_DIGITS, re.compile(r"^12\.?00$"))
    record_brightness(browser, 1500)
    verdict("the display shows the time in each frame, with or without its point", browser.script("return [...new Set(window.numbers)].sort().join(' ')"), "12.00 1200")
    browser.script(SET_SPEED, "full")
    eventually(browser, "the display shows the time at full speed", GET_DIGITS, re.compile(r"^(1[2-9]|[02][0-9])\.?[0-5][0-9]$"))
    browser.script(SET_SPEED, "real")
    browser.click("#run")
    eventually(browser, "the program is paused", GET_STATUS, re.compile("^Paused"))
    lit_digits_script = "return [...document.querySelectorAll('#glass svg')].filter((digit) => digit.querySelector('.lit')).length"
    verdict("while paused, at most one digit is on", browser.script(lit_digits_script) <= 1, True)


def check_pictures(browser):
    """Checks that a multiplexed matrix of lamps shows its pictures while the program runs, and at most one row while it is paused."""
    choose_example(browser, "pictures")
    rows_script = ("const bulbs = [...document.querySelectorAll('.matrix .bulb')].map((bulb) => (bulb.classList.contains('lit') ? '*' : '.'));"
            "return Array.from({ length: 8 }, (_, row) => bulbs.slice(8 * row, 8 * row + 8).join('')).join(' ')")
    eventually(browser, "the multiplexed matrix shows a heart", rows_script,
               "........ .**..**. ******** ******** .******. ..****.. ...**... ........")
    verdict("the title of a lamp names both of its lines", browser.script("return document.querySelectorAll('.matrix .bulb')[13].title"),
            "ram0.1.2 and ram0.2.1")
    browser.type_keys(["n"], 100)
    eventually(browser, "NEXT shows another picture", rows_script, "..****.. .*....*. *.*..*.* *......* *.*..*.* *..**..* .*....*. ..****..")
    browser.click("#run")
    eventually(browser, "the program is paused", GET_STATUS, re.compile("^Paused"))
    verdict("while paused, at most one row is on", sum("*" in row for row in browser.script(rows_script).split()) <= 1, True)


def check(browser, page, _folder, _mcs4):
    browser.open(page.as_uri() + "#example=empty%20bench")
    wait_until_ready(browser)
    status_of(browser, "#board-editor", PULSES_BOARD)
    status_of(browser, "#program-editor", PULSES_PROGRAM)
    for speed in ("real", "tenth", "full"):
        check_pulses(browser, speed)
    browser.script(SET_SPEED, "real")
    check_lamps_while_paused(browser)
    check_rewritten_display(browser)
    check_shifted_display(browser)
    check_clock(browser)
    check_pictures(browser)
