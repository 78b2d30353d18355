"""The part of checks/page about a board's front panel: names, colours and positions of lamps, digits, and TEST as a button or a switch. It also
covers errors in the comments that describe the front panel."""

import base64
import re
import time

from page_basics import GET_DIGITS, GET_STATUS, PUT_INTO_EDITOR, TOP, choose_example, move_focus_until, key, show_text, status_of, wait_until_ready
from picture import write_picture
from verdicts import eventually, verdict

TAB = "\ue004"
# Returns the title without the panel's buttons, which are in the same heading.
GET_PANEL_TITLE = """const heading = document.getElementById('front-title');
return (heading.querySelector('.fold') || heading).textContent"""
GET_LAMP_NAMES = "return [...document.querySelectorAll('#front .bulb')].map((bulb) => bulb.getAttribute('aria-label')).join('; ')"
IS_PRESSED = "return document.querySelector(arguments[0]).getAttribute('aria-pressed')"
TEST_KEY = "#keys .at-test"
IS_TEST_PRESSED = f"return document.querySelector('{TEST_KEY}').getAttribute('aria-pressed')"
GET_PANEL_ERRORS = "return [...document.querySelectorAll('#face-faults li')].map((line) => line.textContent).join('; ')"
# The error messages about colours in the board's editor, each up to its first semicolon.
GET_COLOUR_ERRORS = """
return [...document.querySelectorAll("#board-editor .fault-list li")].map((line) => line.textContent.split(";")[0])
  .filter((words) => words.includes("colour")).join(" | ");
"""
# The centre of each lamp by name, as distances in pixels from the window's left and top edges.
GET_LAMP_POSITIONS = """
const places = {};
for (const bulb of document.querySelectorAll("#front .bulb")) {
  const box = bulb.getBoundingClientRect();
  places[bulb.getAttribute("aria-label").replace(/, (lit|dark)$/, "")] = [box.x + box.width / 2, box.y + box.height / 2].map(Math.round);
}
return places;
"""
GET_RINGS = "return [...document.querySelectorAll('#front .bulb')].map((bulb) => getComputedStyle(bulb).borderTopColor)"
GET_COLOURS = "return [...document.querySelectorAll('#front .bulb')].map((bulb) => getComputedStyle(bulb).getPropertyValue('--glow'))"
ARE_ONLY_LIT_LAMPS_FILLED = """
return [...document.querySelectorAll("#front .bulb")].map((bulb) => {
  const fill = getComputedStyle(bulb, "::after");
  const filled = fill.opacity > 0.7 && !/rgba\\(.*, 0\\)|transparent/.test(fill.backgroundColor);
  return filled === bulb.getAttribute("aria-label").endsWith(", lit");
}).every(Boolean)
"""
# The text of the display, and the number of lit segments in each digit.
GET_DISPLAY = """
return [document.getElementById("digits").textContent,
  [...document.querySelectorAll("#glass svg")].map((digit) => digit.querySelectorAll(".lit").length)];
"""
# The number of segments that are on when a digit is shown.
SEGMENT_COUNTS = {"0": 6, "1": 2, "2": 5, "3": 5, "4": 4, "5": 5, "6": 6, "7": 3, "8": 7, "9": 6}
# Records all announcements in `said`. Announcements less than half a second after a change of the display are also recorded in `saidEarly`. The page
# must not announce the display until it has been unchanged for a second. On a busy machine, the display can be unchanged for a second even while the
# stopwatch is running.
WATCH_ANNOUNCEMENTS = """
const watch = (id, then) => new MutationObserver(then)
  .observe(document.getElementById(id), { childList: true, characterData: true, attributes: true, subtree: true });
window.said = [];
window.saidEarly = [];
let changed = -Infinity;
watch("digits", () => { changed = performance.now(); });
watch("display-status", () => {
  const text = document.getElementById("display-status").textContent;
  window.said.push(text);
  if (performance.now() - changed < 500) window.saidEarly.push(text);
});
"""
IS_ANNOUNCEMENT_SHOWN = "return window.said.at(-1) === document.getElementById('digits').textContent"
GET_EARLY_ANNOUNCEMENTS = "return window.saidEarly.join(' ')"


def lamps_pattern(names):
    """Returns a pattern that matches only the complete string `names`, which lists the names and states of lamps."""
    return re.compile("^" + re.escape(names) + "$")


def check_traffic_light(browser):
    """Checks that the traffic light's panel has its title, that its lamps have the names, positions and colours of the board's text, and that its
    TEST button works."""
    choose_example(browser, "traffic light")
    eventually(browser, "the title of the front panel", GET_PANEL_TITLE, "Traffic light")
    eventually(browser, "each lamp has a name and a state", GET_LAMP_NAMES,
               lamps_pattern("red, dark; amber, dark; stand, lit; green, lit; walk, dark"))
    positions = browser.script(GET_LAMP_POSITIONS)
    verdict("red and amber, and red and green, have the same horizontal position", [positions["red"][0], positions["red"][0]], [positions["amber"][0], positions["green"][0]])
    verdict("red is above amber, and amber is above green", positions["red"][1] < positions["amber"][1] < positions["green"][1], True)
    verdict("the pedestrians' lamps are beside amber and green, to the right",
            [positions["stand"][1], positions["walk"][1], positions["stand"][0] > positions["amber"][0]], [positions["amber"][1], positions["green"][1], True])
    red, amber, stand, green, walk = browser.script(GET_COLOURS)
    verdict("red, amber and green have three colours", len({red, amber, green}), 3)
    verdict("the pedestrians' lamps have the same red and green", [stand, walk], [red, green])
    verdict("lamps that are on are filled, and the others are rings", browser.script(ARE_ONLY_LIT_LAMPS_FILLED), True)
    check_test_button(browser)


def check_test_button(browser):
    """Checks that the TEST button WALK is down only while it is held with a finger, its letter or the space bar. While time is paused, a click must
    toggle it."""
    verdict("TEST is a button with its name", browser.text_of(f"{TEST_KEY} b"), "WALK")
    verdict("the other TEST button is hidden", browser.script("return document.getElementById('test').hidden"), True)
    browser.script(f"window.presses = []; new MutationObserver(() => window.presses.push(document.querySelector('{TEST_KEY}')"
                   ".getAttribute('aria-pressed'))).observe(document.getElementById('keys'), { subtree: true, attributes: true, "
                   "attributeFilter: ['aria-pressed'] })")
    browser.touch_together([TEST_KEY], 300)
    eventually(browser, "the button is down while a finger holds it, and then up", "return window.presses.join(' ')", "true false")
    eventually(browser, "the cars' light changes to amber or red", GET_LAMP_NAMES, re.compile("red, lit.*stand, lit|amber, lit.*stand, lit"))
    eventually(browser, "the pedestrians' light changes to walk", GET_LAMP_NAMES, re.compile("red, lit.*walk, lit"))
    browser.type_keys(["w"], 100)
    eventually(browser, "its letter presses the button", "return window.presses.join(' ')", "true false true false")
    browser.script("document.getElementById('run').focus()")
    verdict("the Tab key reaches the button", move_focus_until(browser, TAB, f"e.matches('{TEST_KEY}')"), True)
    browser.type_keys([" "], 100)
    eventually(browser, "the space bar presses the button", "return window.presses.join(' ')", "true false true false true false")
    browser.click("#run")
    eventually(browser, "the program is paused", GET_STATUS, re.compile("^Paused"))
    browser.click(TEST_KEY)
    eventually(browser, "while paused, a click presses the button and leaves it down", IS_TEST_PRESSED, "true")
    browser.click(TEST_KEY)
    eventually(browser, "while paused, another click releases the button", IS_TEST_PRESSED, "false")


def check_stopwatch(browser):
    """Checks that the stopwatch's TEST is a switch, and that its display counts, has the correct segments, and is announced only after it has
    stopped."""
    choose_example(browser, "stopwatch")
    eventually(browser, "the title of the stopwatch's front panel", GET_PANEL_TITLE, "Stopwatch")
    verdict("the switch has its name and is off", [browser.text_of(f"{TEST_KEY} b"), browser.script(IS_TEST_PRESSED)], ["RUN", "false"])
    eventually(browser, "the display shows 0 at the beginning", GET_DIGITS, "0")
    browser.script(WATCH_ANNOUNCEMENTS)
    browser.touch_together([TEST_KEY], 80)
    eventually(browser, "the switch stays on", IS_TEST_PRESSED, "true")
    eventually(browser, "the display counts", GET_DIGITS, re.compile("^[1-9][0-9][0-9]$"))
    browser.touch_together([TEST_KEY], 80)
    eventually(browser, "another touch switches it off", IS_TEST_PRESSED, "false")
    eventually(browser, "the stopped display is announced", IS_ANNOUNCEMENT_SHOWN, True)
    digits, segments = browser.script(GET_DISPLAY)
    segment_counts = [SEGMENT_COUNTS[digit] for digit in digits]
    verdict("the number of segments that are on in each digit", segments, [0] * (4 - len(segment_counts)) + segment_counts)
    verdict("the running display is not announced", browser.script(GET_EARLY_ANNOUNCEMENTS), "")


def check_die(browser):
    """Checks that the die's lamps are at the positions of the pips, and that one to six of them are on after a throw."""
    choose_example(browser, "die")
    eventually(browser, "the number of lamps of the die", "return document.querySelectorAll('.die .bulb').length", 7)
    positions = browser.script(GET_LAMP_POSITIONS)
    names = browser.script("return [...document.querySelectorAll('.die .bulb')].map((bulb) => bulb.getAttribute('aria-label').split(',')[0])")
    pips = [tuple(positions[name]) for name in names]
    left_x, middle_x, right_x = sorted({x for x, _ in pips})
    top_y, centre_y, bottom_y = sorted({y for _, y in pips})
    verdict("the lamps are at the positions of the pips", pips,
            [(left_x, top_y), (right_x, top_y), (left_x, centre_y), (middle_x, centre_y), (right_x, centre_y), (left_x, bottom_y), (right_x, bottom_y)])
    browser.touch_together([key("THROW")], 100)
    eventually(browser, "the number of lamps that are on is 1 to 6", "return [1, 2, 3, 4, 5, 6].includes(document.querySelectorAll('.die .lit').length)", True)


def check_stacker(browser):
    """Checks that the lamps of the game Stacker are a matrix of 8 rows, and that its button DROP works."""
    choose_example(browser, "stacker")
    eventually(browser, "the number of lamps of the matrix", "return document.querySelectorAll('.matrix .bulb').length", 64)
    row_count_script = "return new Set([...document.querySelectorAll('.matrix .bulb')].map((bulb) => Math.round(bulb.getBoundingClientRect().y))).size"
    verdict("the number of rows of the matrix", browser.script(row_count_script), 8)
    eventually(browser, "three lamps are on at the beginning", "return document.querySelectorAll('.matrix .lit').length", 3)
    browser.touch_together([TEST_KEY], 80)
    eventually(browser, "DROP stops three lamps, and three more are on", "return document.querySelectorAll('.matrix .lit').length", 6)


def board_of_lamps(count):
    """Returns the text of a board with `count` lamps at the outputs of a chain."""
    lamps = "".join(f'[[lamp]]\nline = "chain0.{number}"\n' for number in range(count))
    return f'[[rom]]\nchip = 0\nport = "0000"\n[[chain]]\nclock = "rom0.0"\ndata = "rom0.1"\nchips = 2\n{lamps}'


def check_port_names(browser):
    """Checks the panel of ports for the lock example: it names the parts at each port and chain."""
    choose_example(browser, "lock")
    eventually(browser, "the number of colours of the lamps", f"{GET_COLOURS.replace('return', 'return new Set(')}).size", 3)
    verdict("the names of ports and chains", browser.text_of("#ports-status"),
            re.compile("1columns of the keys0iii.*chain 0rows of the keys"))


def check_board_without_panel(browser):
    """Checks the front panel of a board without comments about the panel: a default title, the TEST button, and lamps named after their I/O lines."""
    status_of(browser, "#board-editor", board_of_lamps(16))
    eventually(browser, "sixteen lamps without a front panel are not a display", "return document.getElementById('display').hidden", True)
    names = re.sub(", (lit|dark)", "", browser.script(GET_LAMP_NAMES))
    verdict("the lamps have the names of their lines", names, "; ".join(f"chain0.{number}" for number in range(16)))
    verdict("the front panel has the default title", browser.script(GET_PANEL_TITLE), "Lamps and keys")
    verdict("the TEST button is visible if no comment describes TEST", browser.script("return document.getElementById('test').hidden"), False)


def check_panel_errors(browser):
    """Checks that errors in the comments about a front panel are reported, and that the rest of the panel is shown. While the user
    types, the page must show the changed front panel only if the board is the same and has no error."""
    bad_panel = "# title: Odd <b>one</b>\n# colour 0: pink\n# lamp 16: nobody\n# lamp 0: here <i>x</i>\n# display 15: 1 digit\n# grid 0: ghost\n"
    verdict("a board whose front panel has errors is applied", status_of(browser, "#board-editor", bad_panel + board_of_lamps(16)),
            "Board applied.")
    eventually(browser, "the errors of the front panel are reported with their lines", GET_PANEL_ERRORS, "; ".join(f"line {line} of the board's text: {message}" for line, message in (
        (2, "pink is not a colour; the colours are red, amber, yellow, green, blue and white"),
        (3, "the lamp nobody is number 16, but the board has 16"),
        (5, "the display needs lamps up to number 18, but the board has 16"),
        (6, "no lamp is named ghost"))))
    eventually(browser, "the editor of the board shows the errors at their lines", GET_COLOUR_ERRORS, "line 2: pink is not a colour")
    verdict("the title without errors is shown, as plain text", [browser.script(GET_PANEL_TITLE), browser.script("return document.querySelector('#front i, #front h2 b')")],
            ["Odd <b>one</b>", None])
    verdict("the lamp without an error has its name", browser.script(GET_LAMP_NAMES).split("; ")[0], re.compile("^here, (lit|dark)$"))
    show_text(browser, "board")
    browser.script(PUT_INTO_EDITOR, "#board-editor", "# title: Another\n" + board_of_lamps(16))
    eventually(browser, "a typed front panel is shown before the board is applied", GET_PANEL_TITLE, "Another")
    eventually(browser, "the errors are gone", GET_PANEL_ERRORS, "")
    # The page saves the board's text, and updates the names from it, 600 ms after the last edit.
    for description, text in (("of another board", board_of_lamps(15)), ("with an error", board_of_lamps(16) + "[[lamp\n")):
        browser.script(PUT_INTO_EDITOR, "#board-editor", "# title: Third\n# lamp 16: nobody\n" + text)
        time.sleep(1.5)
        verdict(f"the front panel of a text {description} is shown only after the board is applied", [browser.script(GET_PANEL_TITLE), browser.script(GET_PANEL_ERRORS)], ["Another", ""])
    browser.reload()
    wait_until_ready(browser)
    eventually(browser, "a reload does not show the new front panel", GET_PANEL_TITLE, "Another")
    status_of(browser, "#board-editor", "# title: Third\n" + board_of_lamps(15))
    eventually(browser, "the new front panel is shown after the board is applied", GET_PANEL_TITLE, "Third")


def check_forced_colours(browser):
    """Checks that in forced colours, lamps have one colour and show their own colours as letters, and that only lamps that are on are filled."""
    choose_example(browser, "traffic light")
    eventually(browser, "the traffic light is green", GET_LAMP_NAMES, re.compile("green, lit"))
    browser.send_command("Emulation.setEmulatedMedia", features=[{"name": "forced-colors", "value": "active"}])
    verdict("in forced colours all lamps have one colour", len(set(browser.script(GET_RINGS))), 1)
    verdict("in forced colours only lamps that are on are filled", browser.script(ARE_ONLY_LIT_LAMPS_FILLED), True)
    letters_script = "return [...document.querySelectorAll('#front .bulb')].map((bulb) => getComputedStyle(bulb, '::before').content).join(' ')"
    verdict("in forced colours letters show the colours of the lamps", browser.script(letters_script), '"" "A" "" "G" "G"')
    browser.send_command("Emulation.setEmulatedMedia", features=[])


def check_three_lamps(browser):
    """Checks that the lamps in the example `three lamps` have their names."""
    board_text = (TOP / "examples/three_lamps/board.toml").read_text()
    status_of(browser, "#board-editor", board_text)
    eventually(browser, "the names and states of three lamps", GET_LAMP_NAMES, re.compile("^left, (lit|dark); middle, (lit|dark); right, (lit|dark)$"))


def check(browser, page, _folder, _mcs4):
    browser.open(page.as_uri())
    wait_until_ready(browser)
    check_traffic_light(browser)
    check_stopwatch(browser)
    check_die(browser)
    check_stacker(browser)
    check_port_names(browser)
    check_board_without_panel(browser)
    check_panel_errors(browser)
    check_three_lamps(browser)
    if browser.name == "Chromium":
        check_forced_colours(browser)


def take_pictures(browser, page, folder):
    """Takes screenshots of three boards on the page for the documents, as PNG files in a folder."""
    browser.open(page.as_uri())
    wait_until_ready(browser)
    browser.send_command("Emulation.setDeviceMetricsOverride", width=1280, height=1400, deviceScaleFactor=1, mobile=False)
    for name, keys in (("traffic light", ""), ("calculator", "22/7="), ("stacker", "ddd")):
        choose_example(browser, name)
        browser.script("scrollTo(0, 0)")
        time.sleep(0.5)
        browser.type_keys(list(keys), 50, 60)
        time.sleep(0.5)
        # Hide the hints below the keys. They are not part of the board.
        browser.script("for (const id of ['typing-label', 'keys-hint']) document.getElementById(id).hidden = true")
        box = browser.script("""
            const front = document.getElementById("front").getBoundingClientRect();
            return [front.x, front.y, front.width, document.getElementById("keys").getBoundingClientRect().bottom - front.y + 8]""")
        screenshot = browser.send_command("Page.captureScreenshot", clip=dict(zip(("x", "y", "width", "height", "scale"), [*box, 1])))
        write_picture(base64.b64decode(screenshot["data"]), folder / f"{name.replace(' ', '_')}.png")
    browser.restore_size()
