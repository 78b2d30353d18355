"""The basic part of checks/page: the calculator by pointer and keyboard, session files, breakpoints, messages about texts, two tabs, and hidden
pages. Keys, clicks and files must have the same effects as the program's lines. The other parts use the functions of this module."""

import os
import pathlib
import re
import subprocess
import time

from browser_driver import DriverError
from page_module import module_of_page
from picture import write_picture
from verdicts import eventually, verdict

TOP = pathlib.Path(__file__).resolve().parent.parent.parent
GET_DIGITS = "return document.getElementById('digits').textContent"
# The status text without the label and the line number after an address.
GET_STATUS = "return document.getElementById('status').textContent.replace(/ \\([^()]*line \\d+\\)/g, '')"
GET_WHOLE_STATUS = "return document.getElementById('status').textContent"
STEPPED_MESSAGE = re.compile("^At [0-9A-F]{3}, after [12] cycles?, ")
GET_NOTICE = "return [...document.querySelectorAll('#notice p')].map((shown) => shown.textContent).join(' ')"
# All notices so far, newest first, as the list shows them.
GET_ALL_NOTICES = """
document.getElementById("notices-button").click();
const all = [...document.querySelectorAll("#notices li .grow")].map((shown) => shown.textContent);
document.querySelector("#notices .bar button").click();
return all"""
# Closes the cards of a first visit, which cover everything else.
CLOSE_CARDS = "const cards = document.getElementById('welcome'); if (cards && cards.open) cards.close()"
# True if the page is ready, and has prepared the editors of the tabs that are not in front.
IS_READY = "return Boolean(document.body.dataset.ready) && document.querySelectorAll('.cm-editor').length === 4"
COUNT_KEYS_DOWN = "return document.querySelectorAll(\"#keys [aria-pressed='true']\").length"
SET_SPEED = """
const field = document.getElementById("speed");
field.value = arguments[0];
field.dispatchEvent(new Event("change"))"""
ENTER, ESCAPE, TAB, DOWN = "\ue007", "\ue00c", "\ue004", "\ue015"

# Returns the number of controls without an accessible name.
COUNT_UNNAMED_CONTROLS = """
return [...document.querySelectorAll("button, input, select, textarea")].filter((node) => !node.textContent.trim()
  && !node.getAttribute("aria-label") && !node.labels?.length && !node.getAttribute("aria-labelledby")).length"""

# Records the saved session one second after the page is hidden, and again when the page is shown.
RECORD_SAVED_SESSIONS = """
window.keptWhenHidden = [];
const id = location.hash.slice("#session=".length);
indexedDB.open("fethsaim", 1).onsuccess = (opened) => {
  const note = () => {
    const request = opened.target.result.transaction("sessions").objectStore("sessions").get(id);
    request.onsuccess = () => window.keptWhenHidden.push(`${request.result.revision} ${request.result.file.join("")}`);
  };
  document.addEventListener("visibilitychange", () => (document.hidden ? setTimeout(note, 1000) : note()));
}"""
COUNT_SAVED_SESSIONS = "const kept = window.keptWhenHidden; return [kept.length, new Set(kept).size]"

# GET_TEXT_OF_EDITOR returns the text of an editor, and PUT_INTO_EDITOR replaces it. Each editor's element has a LineEditor
# (js/page/text/line_editor.js).
GET_TEXT_OF_EDITOR = "return document.querySelector(`${arguments[0]} .cm-editor`).lineEditor.getValue()"
PUT_INTO_EDITOR = "document.querySelector(`${arguments[0]} .cm-editor`).lineEditor.setValue(arguments[1])"

# Blocks the page's thread for a number of milliseconds.
BLOCK_PAGE = "const end = performance.now() + arguments[0]; while (performance.now() < end);"

# True if the disassembly shows the program counter's line. The rows move with the counter, so an earlier click would hit another line.
IS_COUNTER_ROW_SHOWN = """const next = document.querySelector('#lines-of-program .next');
return next !== null && next.textContent.includes(document.getElementById('value-pc').textContent)"""

GET_RATE = "return Number(document.getElementById('rate').textContent.replace(/\\D/g, ''))"

# Tries the actions that the page's content security policy forbids. The browser reports each violation with an event.
TRY_FORBIDDEN = """
window.violations = new Set();
document.addEventListener("securitypolicyviolation", (event) => window.violations.add(event.effectiveDirective));
const add = (root, name, properties) => root.append(Object.assign(document.createElement(name), properties));
add(document.head, "script", { textContent: "window.injected = true" });
add(document.head, "style", { textContent: "body { display: none }" });
add(document.head, "base", { href: "http://127.0.0.1:1/" });
add(document.body, "img", { src: "http://127.0.0.1:1/" });
add(document.body, "form", { id: "forbidden", action: "http://127.0.0.1:1/" });
try {
  document.getElementById("forbidden").submit();
} catch {
  // Firefox throws, where Chromium only reports.
}
"""
GET_VIOLATIONS = "return [...window.violations].sort().join(' ') + (window.injected ? ', but the script ran' : '')"


def wait_until_ready(browser):
    """Waits at most 90 seconds until the page is ready, because that can take long on a busy machine. Closes the cards of a first visit."""
    eventually(browser, "the page is ready", IS_READY, True, 90)
    browser.script(CLOSE_CARDS)


def reopen_page(browser, page):
    """Opens a blank page, and then the page again."""
    browser.open("about:blank")
    browser.open(page.as_uri())
    wait_until_ready(browser)


def pause_running_time(browser):
    """Pauses time, which must be running."""
    browser.click("#run")
    browser.wait_until(GET_STATUS, re.compile("^Paused"))


def choose_from_file_menu(browser, selector):
    """Chooses an entry of the File menu."""
    browser.click("#menu-button")
    browser.click(selector)


def key(legend):
    """Returns the selector of the board's key with this legend."""
    return f"#keys button[aria-label^='key {legend},']"


def choose_example(browser, name):
    """Opens an example in a new session, through the dialog of sessions."""
    browser.click("#sessions-button")
    browser.wait_until("return document.getElementById('sessions').open", True)
    browser.click(f"#examples button[aria-label='new session: {name}']")
    browser.wait_until("return document.getElementById('sessions').open", False)


def step_with_marks(browser):
    """Checks with the traffic light that a lamp is on, that time can be paused, and that a step marks the values that it changed."""
    choose_example(browser, "traffic light")
    eventually(browser, "a lamp of the traffic light is on", "return document.querySelectorAll('.bulb.lit').length > 0", True)
    pause_running_time(browser)
    browser.click("#step")
    eventually(browser, "a step marks the changed values", "return document.querySelectorAll('.changed').length > 0", True)


def check_calculator(browser):
    """Checks that the calculator computes what is typed with the pointer and on the keyboard, even if it is typed very fast, and that a reload keeps
    the display."""
    choose_example(browser, "calculator")
    for legend in "12+30=":
        browser.touch_together([key(legend)], 60)
        time.sleep(0.08)
    eventually(browser, "the result of 12 + 30, typed with the pointer", GET_DIGITS, "42")
    browser.reload()
    wait_until_ready(browser)
    eventually(browser, "the display after a reload", GET_DIGITS, "42")
    browser.type_keys([ESCAPE, "7", "-", "9", ENTER])
    eventually(browser, "the result of 7 - 9, typed on the keyboard", GET_DIGITS, "-2")
    browser.type_keys([ESCAPE, "6", "*", "9", ENTER], 1, 1)
    eventually(browser, "the result of 6 * 9, typed very fast", GET_DIGITS, "54")
    # The milliseconds for which the key is down, and then up. On the board, the page keeps a key down for at least 43 ms, and then up for at least 22
    # ms.
    for down, up in ((20, 50), (50, 20), (90, 25)):
        browser.type_keys([ESCAPE, *"11111111"], down, up)
        eventually(browser, f"the same key typed eight times, {down} ms down and {up} ms up", GET_DIGITS, "11111111")


def check_keys_together(browser):
    """Checks that three fingers can hold three keys at once, and that all keys are up afterwards."""
    browser.script("window.both = 0; new MutationObserver(() => { window.both = Math.max(window.both, "
                   "document.querySelectorAll(\"#keys [aria-pressed='true']\").length); }).observe(document.getElementById('keys'), "
                   "{ subtree: true, attributes: true, attributeFilter: ['aria-pressed'] })")
    browser.touch_together([key("C"), key("S"), key("0")], 400)
    eventually(browser, "the maximum number of keys that are down at once", "return window.both", 3)
    eventually(browser, "all keys are up again", COUNT_KEYS_DOWN, 0)


def display_of(mcs4, file, keys):
    """Presses keys in a session file of the calculator with the native program, which changes the file. Returns the display, which `mcs4 display`
    reads from the answers."""
    board = TOP / "examples/calculator/board.toml"
    environment = dict(os.environ, MCS4=str(mcs4))
    lines = subprocess.run([TOP / "mcs4", "keys", board, keys], stdout=subprocess.PIPE, check=True, env=environment).stdout
    answers = subprocess.run([mcs4, "open", file], input=lines, stdout=subprocess.PIPE, check=True).stdout
    return subprocess.run([TOP / "mcs4", "display", board], input=answers, stdout=subprocess.PIPE, check=True).stdout.decode().strip()


def as_version_1(file):
    """Converts the bytes of a saved session without watches to version 1, which lacks the version byte and the watches with their count."""
    slot = 16 if file[8] % 2 == 0 else 81936
    length = int.from_bytes(file[slot:slot + 4], "big")
    snapshot = file[slot + 4:slot + 4 + length]
    old_snapshot = (length - 2).to_bytes(4, "big") + snapshot[:4] + snapshot[5:-1]
    return file[:slot] + old_snapshot + file[slot + len(old_snapshot):]


def check_session_files(browser, folder, mcs4):
    """Checks that the program continues a session that the page saved, and that the page opens the result. A file of version 1 must be converted,
    and a foreign or damaged file must be rejected."""
    browser.type_keys([ESCAPE, "6", "*", "7", ENTER])
    browser.wait_until(GET_DIGITS, "42")
    # Wait until no key is down, because a key that is down when time is paused is also down in the file.
    browser.wait_until(COUNT_KEYS_DOWN, 0)
    pause_running_time(browser)
    choose_from_file_menu(browser, "#save-session-button")
    saved_file = folder / "downloads/calculator.mcs"
    deadline = time.monotonic() + 20
    # Some browsers first create an empty file.
    while not (saved_file.exists() and saved_file.stat().st_size > 0) and time.monotonic() < deadline:
        time.sleep(0.05)
    old_file = folder / "old.mcs"
    old_file.write_bytes(as_version_1(saved_file.read_bytes()))
    browser.type_into("#file", str(old_file))
    eventually(browser, "a file of version 1 is converted", "return document.getElementById('name').value", "old")
    verdict("the display of the converted session", browser.script(GET_DIGITS), "42")
    verdict("the display after the program continues the saved file", display_of(mcs4, saved_file, "/8="), "5.25")
    browser.type_into("#file", str(saved_file))
    eventually(browser, "the page opens the file that the program has written", GET_DIGITS, "5.25")
    verdict("the keys of the opened session have names", browser.text_of("#keys"), "789/456*123-0.~+CCEcS=")
    source = browser.script(GET_TEXT_OF_EDITOR, "#program-editor")
    verdict("the source of the opened session", source, (TOP / "examples/calculator/calculator.asm").read_text())
    foreign_file = folder / "rubbish.mcs"
    foreign_file.write_bytes(b"no session")
    browser.type_into("#file", str(foreign_file))
    eventually(browser, "a file that is not a session is rejected with a message", GET_NOTICE, re.compile(r"Cannot open rubbish\.mcs: no 50: not a session file"))
    damaged_file = folder / "damaged.mcs"
    damaged_bytes = bytearray(saved_file.read_bytes())
    damaged_bytes[16:20] = b"\xff" * 4
    damaged_bytes[81936:81940] = b"\xff" * 4
    damaged_file.write_bytes(damaged_bytes)
    browser.type_into("#file", str(damaged_file))
    eventually(browser, "a damaged file is rejected with a message", GET_NOTICE, re.compile("no 51: the session file is damaged"))
    verdict("the session is unchanged", browser.script(GET_DIGITS), "5.25")
    browser.click("#notice .dismiss")


def check_breakpoint_and_watch(browser):
    """Checks that clicks set and clear a breakpoint and a watch, and that runs stop at them."""
    browser.click("#step")
    browser.wait_until(GET_STATUS, STEPPED_MESSAGE)
    next_row = "#lines-of-program button.next"
    eventually(browser, "the disassembly is at the program counter", IS_COUNTER_ROW_SHOWN, True)
    address = browser.text_of(f"{next_row} span")[:3]
    browser.click_at_rest(next_row)
    eventually(browser, "a click sets a breakpoint", f"return document.querySelector('{next_row}').getAttribute('aria-pressed')", "true")
    browser.click("#run")
    eventually(browser, "the program stops at the breakpoint", GET_STATUS, f"Paused at {address}, at a breakpoint.")
    eventually(browser, "the disassembly shows the address of the stop", f"return document.querySelector('{next_row} span').textContent.slice(0, 3)", address)
    browser.click_at_rest(next_row)
    eventually(browser, "another click clears the breakpoint", f"return document.querySelector('{next_row}').getAttribute('aria-pressed')", "false")
    browser.click(".ram button")
    eventually(browser, "a click sets a watch", "return document.querySelector('.ram button').getAttribute('aria-pressed')", "true")
    browser.script(SET_SPEED, "full")
    browser.click("#run")
    browser.touch_together([key("C")], 60)
    eventually(browser, "a run at full speed stops when the watched nibble changes", GET_STATUS,
               re.compile("^Paused at ..., after a watched nibble changed.$"))
    browser.script(SET_SPEED, "real")
    verdict("the changed nibble is marked", "changed" in browser.script("return document.querySelector('.ram button').className"), True)
    browser.click(".ram button")
    browser.wait_until("return document.querySelector('.ram button').getAttribute('aria-pressed')", "false")


def move_focus_until(browser, key, code, max_presses=40):
    """Presses a key until a script about the focused element `e` returns true. Returns false if the script returns false after every press."""
    for _ in range(max_presses):
        browser.type_keys([key], 1, 1)
        if browser.script(f"const e = document.activeElement; return {code}"):
            return True
    return False


def check_keyboard_alone(browser):
    """Checks that the keyboard reaches Step and the disassembly, where it sets and clears a breakpoint, and that all controls have names."""
    # Start at the session's name, because after the page's last element the focus moves to the browser.
    browser.script("document.getElementById('name').focus()")
    verdict("the Tab key reaches Step", move_focus_until(browser, TAB, "e.id === 'step'"), True)
    browser.type_keys([ENTER])
    eventually(browser, "Enter steps", GET_STATUS, STEPPED_MESSAGE)
    verdict("the Tab key reaches the disassembly", move_focus_until(browser, TAB, "e.closest('#lines-of-program') !== null"), True)
    browser.type_keys([DOWN, DOWN, ENTER])
    eventually(browser, "arrows and Enter set a breakpoint", "return document.activeElement.getAttribute('aria-pressed')", "true")
    browser.type_keys([ENTER])
    eventually(browser, "Enter clears the breakpoint", "return document.activeElement.getAttribute('aria-pressed')", "false")
    verdict("the number of controls without a name", browser.script(COUNT_UNNAMED_CONTROLS), 0)


def check_phone_width(browser):
    """Checks that the page does not scroll sideways at the width of a phone."""
    browser.send_command("Emulation.setDeviceMetricsOverride", width=360, height=740, deviceScaleFactor=1, mobile=True)
    eventually(browser, "a phone shows the page without scrolling sideways", "return document.documentElement.scrollWidth <= 360", True)
    browser.restore_size()


def check_hidden_page(browser):
    """Checks that time pauses in a hidden page, and in a page that the browser suspends."""
    # Press a key, because an example is saved only after the user has done something.
    browser.type_keys([ESCAPE])
    browser.wait_until("return location.hash", re.compile("#session="))
    browser.script(RECORD_SAVED_SESSIONS)
    shown_tab = browser.current_tab()
    browser.new_tab()
    time.sleep(2.5)
    browser.close_tab(shown_tab)
    eventually(browser, "a page that was hidden shows how long it was paused", GET_STATUS,
               re.compile(r"^Running\. Paused for \d+ seconds while the page was hidden\.$"))
    eventually(browser, "the saved session does not change while the page is hidden", COUNT_SAVED_SESSIONS, [2, 1])
    eventually(browser, "the rate of cycles after the page was hidden", GET_RATE, re.compile("^9[0-4]...$"))
    browser.script(BLOCK_PAGE, 1500)
    eventually(browser, "the page reports how long the browser suspended it", GET_STATUS,
               re.compile(r"Paused for \d+ seconds while the tab was busy\.$"))
    check_hidden_at_full_speed(browser)


def check_hidden_at_full_speed(browser):
    """Checks that at full speed a hidden page keeps running, and saves its session."""
    browser.script(SET_SPEED, "full")
    eventually(browser, "full speed is faster", GET_RATE, re.compile("[1-9]......"))
    browser.script("window.keptWhenHidden = []")
    shown_tab = browser.current_tab()
    browser.new_tab()
    time.sleep(6)
    browser.close_tab(shown_tab)
    eventually(browser, "at full speed the saved session changes while the page is hidden", COUNT_SAVED_SESSIONS, [2, 2])
    verdict("no pause is reported at full speed", browser.script(GET_STATUS), re.compile("^Running"))
    browser.script(SET_SPEED, "real")
    eventually(browser, "the rate of cycles in real time", GET_RATE, re.compile("^9[0-4]...$"))


def check_speed_field(browser):
    """Checks that the simulation has the speed that the speed field shows. Some browsers restore this field after a reload, others when the user
    returns to the page. (The driver goes back, not a script, because Chromium lets a script skip pages without user input.)"""
    for action, return_to_page in {"a reload": lambda: browser.script("setTimeout(() => location.reload(), 50)"),
                             "coming back": lambda: (browser.open("about:blank"), browser.go_back())}.items():
        browser.type_into("#speed", "full")
        # Treat a page from the browser's cache as ready when it is shown again.
        browser.script("const { dataset } = document.body; delete dataset.ready; addEventListener('pageshow', () => { dataset.ready = 'again'; })")
        return_to_page()
        wait_until_ready(browser)
        is_full = browser.wait_until("const field = document.getElementById('speed'); return field ? field.value : ''", re.compile("^(full|real)$")) == "full"
        # The first rate reported at full speed can still be low.
        eventually(browser, f"the rate of cycles after {action} is that of the speed field", GET_RATE, re.compile("^[2-9].{5}$|^.{7,}$" if is_full else "^[1-9].{4}$"))
    browser.script(SET_SPEED, "real")


def show_text(browser, name):
    """Brings a tab of the texts (such as `program`) or of the dock (such as `console`) to the front. Clicks again if the page has moved the tab away
    from the pointer, which can happen on a slow machine."""
    selected_tab_script = f"return document.getElementById('{name}-tab').getAttribute('aria-selected')"
    deadline = time.monotonic() + 30
    while time.monotonic() < deadline:
        browser.click(f"#{name}-tab")
        if browser.script(selected_tab_script) == "true":
            return
        time.sleep(0.2)
    raise DriverError(f"the tab {name} does not come to the front")


def status_of(browser, editor, text):
    """Puts text into an editor (such as `#board-editor`) and presses its button. Returns the message that appears."""
    show_text(browser, editor[1:].removesuffix("-editor"))
    browser.script(PUT_INTO_EDITOR, editor, text)
    browser.click(f"{editor} .send")
    return browser.wait_until(f"return document.querySelector('{editor} .status-text').textContent", re.compile("."))


def check_text_messages(browser):
    """Checks that errors in programs and boards are reported, that lines are answered, and that a board can be applied."""
    verdict("the message about a program's error", status_of(browser, "#program-editor", "NOP\n\tJCN 4, far\n ORG 0x300\nfar: NOP\n"),
            re.compile("^line 2: far is on another page; JCN reaches"))
    verdict("the message about a line with only a dot", status_of(browser, "#program-editor", "NOP\n.\nNOP\n"), re.compile("^line 2: a line with only a dot"))
    verdict("the message about a non-ASCII letter", status_of(browser, "#program-editor", "NOP\ncaf\u00e9: NOP"), re.compile("^line 2: \u00e9 is not a"))
    rom = '[[rom]]\nchip = 0\nport = "0000"\n'
    verdict("the message about an unknown key in a board's text", status_of(browser, "#board-editor", f"{rom}size = 3\n"),
            "line 4: size is not a key of rom, which has chip, port")
    verdict("the message about a line that the board lacks", status_of(browser, "#board-editor", f'{rom}\n[[lamp]]\nline = "ram0.0.0"\n'),
            "line 6: the board has no line ram0.0.0: no [[ram]] has bank = 0")
    verdict("the board is unchanged", browser.script(GET_DIGITS) != "", True)
    verdict("the answers to three lines", send_lines(browser, "poke r5 9\nfoo\nseq"),
            re.compile(r"poke r5 9ok \d+foono 10: not a command.*seqseq \d+$"))
    three_lamps_board = (TOP / "examples/three_lamps/board.toml").read_text()
    verdict("the message after a board is applied", status_of(browser, "#board-editor", three_lamps_board), "Board applied.")
    verdict("the new board has three lamps", browser.script("return document.querySelectorAll('#lamps li').length"), 3)


def send_lines(browser, lines):
    """Sends lines through the console. Returns the text that they add to its log."""
    browser.script("document.getElementById('lines').value = arguments[0]", lines)
    log_length = len(browser.text_of("#log"))
    # Clicks by script, because a notice can cover the button.
    browser.script("document.getElementById('send').click()")
    browser.wait_until("return document.getElementById('lines').value", "")
    return browser.text_of("#log")[log_length:]


def check_two_tabs(browser):
    """Checks that a second tab with the address of an open session shows another session, and can open a copy of the first."""
    address = browser.script("return location.href")
    first_tab = browser.current_tab()
    browser.new_tab()
    browser.open(address)
    wait_until_ready(browser)
    verdict("a notice in the second tab reports that the session is open", browser.script(GET_NOTICE), re.compile("open in another tab"))
    verdict("the second tab shows another session", browser.script("return location.href") != address, True)
    name = browser.script("return document.getElementById('name').value")
    browser.click("#notice button[aria-label^='Open a copy']")
    eventually(browser, "a copy of the session can be opened in the second tab", "return document.getElementById('name').value", re.compile(", a copy$"))
    verdict("the copy is a separate session", browser.script("return document.getElementById('name').value") != f"{name}, a copy", True)
    browser.close_tab(first_tab)


def check_basic_use(browser, page, folder, mcs4):
    """Checks that the calculator, files, breakpoints, the keyboard, texts, tabs and the speed field work in a browser that has all features that the
    page needs."""
    browser.open(page.as_uri())
    wait_until_ready(browser)
    verdict("the page opens without a notice", browser.script(GET_NOTICE), "")
    check_calculator(browser)
    if browser.can_multitouch:
        check_keys_together(browser)
    check_session_files(browser, folder, mcs4)
    check_breakpoint_and_watch(browser)
    check_keyboard_alone(browser)
    check_text_messages(browser)
    check_two_tabs(browser)
    choose_example(browser, "calculator")
    if browser.hides_background_tabs:
        check_hidden_page(browser)
    check_speed_field(browser)


def check_with_chromium(browser, page):
    """Checks that the page does not scroll sideways on a phone, and that the browser's log has no errors. Only Chromium's driver has the functions
    for this."""
    browser.open(page.as_uri())
    wait_until_ready(browser)
    check_phone_width(browser)
    # The check repeats a script that fails because its result does not exist yet. Such failures are not errors of the page.
    expected_words = ("javascript ", "Script error", "favicon")
    verdict("the errors in the browser's log", [line for line in browser.log() if not any(word in line for word in expected_words)], [])


def check_policy(browser, page):
    """Checks that the page's content security policy forbids everything that TRY_FORBIDDEN tries."""
    browser.open(page.as_uri())
    wait_until_ready(browser)
    browser.script(TRY_FORBIDDEN)
    eventually(browser, "the violations of the content security policy", GET_VIOLATIONS, "base-uri form-action img-src script-src-elem style-src-elem")


def page_figures(browser, page):
    """Returns a sentence with the sizes of the page and of its module, and the startup time, for the documents."""
    reopen_page(browser, page)
    startup_time = browser.script("return Number(document.body.dataset.ready)")
    return f"the page has {page.stat().st_size} bytes, its module {len(module_of_page(page))}; it starts in {startup_time} ms in {browser.name}"


def take_picture(browser, page, path):
    """Takes a screenshot of the calculator on the page for the documents, and writes it to a file."""
    browser.open(page.as_uri())
    wait_until_ready(browser)
    choose_example(browser, "calculator")
    show_text(browser, "program")
    browser.send_command("Emulation.setDeviceMetricsOverride", width=1280, height=800, deviceScaleFactor=1, mobile=False)
    for legend in "22/7=":
        browser.touch_together([key(legend)], 60)
        time.sleep(0.1)
    browser.wait_until(GET_DIGITS, "3.1428571")
    browser.click("#run")
    browser.click("#step")
    browser.wait_until(GET_STATUS, STEPPED_MESSAGE)
    browser.click_at_rest("#lines-of-program button.next + button")
    browser.click(".ram button")
    browser.wait_until("return document.querySelectorAll('#lines-of-program [aria-pressed=true], .ram [aria-pressed=true]').length", 2)
    browser.script("scrollTo(0, 0)")
    write_picture(browser.screenshot(), path)
    browser.restore_size()
