"""The part of checks/page about the layout: the positions of panels and controls at each window size, and the scrolling of the disassembly. It also
covers the marks of changes, cells that are edited in place, printing, and accessible names."""

import re
import time

from page_basics import (ENTER, ESCAPE, GET_STATUS, IS_COUNTER_ROW_SHOWN, STEPPED_MESSAGE, choose_example, key, send_lines, reopen_page, show_text,
                         step_with_marks, pause_running_time, wait_until_ready)
from page_workbench import (check_arrangement, check_touch_targets, check_first_glance, check_phone_details, check_first_tasks, check_layout_shifts,
                            check_details)
from page_waves import record
from verdicts import eventually, verdict
from web_driver import Chromium

PAGE_UP, PAGE_DOWN, END, HOME, UP, DOWN, RIGHT, LEFT = "\ue00e", "\ue00f", "\ue010", "\ue011", "\ue013", "\ue015", "\ue014", "\ue012"
F2 = "\ue032"


def check(browser, page, _folder, _mcs4):
    reopen_page(browser, page)
    choose_example(browser, "calculator")
    check_click_on_changing_text(browser)
    check_tabs(browser)
    check_folds(browser)
    check_arrangement(browser)
    check_disassembly_keys(browser)
    check_follow(browser)
    check_change_marks(browser)
    check_edited_cells(browser)
    check_limit_messages(browser)
    check_accessible_names(browser)
    check_swipe(browser)
    check_text_sizes(browser)
    check_first_glance(browser, page, set_size)
    check_details(browser, set_size)
    check_first_tasks(browser)
    check_sizes(browser)
    if isinstance(browser, Chromium):
        check_phone_details(browser, set_size)
        check_touch_targets(browser, set_size)
        check_layout_shifts(browser, page, set_size)
        check_narrow_sizes(browser)
        check_controls(browser)
        check_phone(browser)
        check_forced_colours(browser)
        check_print(browser)


# --- tabs and panels ---

GET_FRONT_TAB = "return document.querySelector('#text-tabs [aria-selected=true]').id"
GET_SHOWN_EDITOR = "return [...document.querySelectorAll('#texts [role=tabpanel]')].filter(isShown).map((node) => node.id).join(' ')"


def check_tabs(browser):
    """Checks that the tabs follow the ARIA pattern: a click, the arrow keys and Home select a tab and show its text, and the Tab key reaches only
    one tab."""
    show_text(browser, "board")
    verdict("a click shows the board's text", browser.script(GET_SHOWN_EDITOR), "board-editor")
    browser.script("document.getElementById('board-tab').focus()")
    browser.type_keys([HOME])
    verdict("Home selects the first tab", browser.script(GET_FRONT_TAB), "program-tab")
    browser.type_keys([RIGHT])
    verdict("the Right arrow shows the next tab", (browser.script(GET_FRONT_TAB), browser.script(GET_SHOWN_EDITOR)), ("board-tab", "board-editor"))
    verdict("the number of tabs that the Tab key reaches", browser.script("return document.querySelectorAll('#text-tabs [tabindex=\"0\"]').length"), 1)
    browser.type_keys([LEFT])
    verdict("the Left arrow shows the previous tab", browser.script(GET_SHOWN_EDITOR), "program-editor")


def check_folds(browser):
    """Checks that a click folds and unfolds a panel, and that a reload keeps the folded panel and the selected tabs."""
    browser.click("#memory .fold")
    fold_state_script = "return document.querySelector('#memory .fold').getAttribute('aria-expanded') + isShown(document.getElementById('banks'))"
    verdict("a click folds the panel", browser.script(fold_state_script), "falsefalse")
    show_text(browser, "board")
    show_text(browser, "console")
    browser.reload()
    wait_until_ready(browser)
    verdict("the panel is still folded after a reload", browser.script(fold_state_script), "falsefalse")
    verdict("the selected text tab after a reload", browser.script(GET_FRONT_TAB), "board-tab")
    verdict("the selected tab of the dock after a reload", browser.script("return isShown(document.getElementById('talk'))"), True)
    browser.click("#memory .fold")
    verdict("a click unfolds the panel", browser.script(fold_state_script), "truetrue")
    show_text(browser, "program")
    show_text(browser, "disassembly")


# --- the disassembly ---

GET_DISASSEMBLY_ROWS = "return [...document.querySelectorAll('#lines-of-program button')].filter((node) => !node.hidden).map((node) => node.textContent)"
GET_FOCUSED_ROW = "return document.activeElement.closest('#lines-of-program') ? document.activeElement.textContent.replace(/\\W/g, '').slice(0, 3) : ''"
GET_LAST_ROW_ADDRESS = GET_DISASSEMBLY_ROWS.replace("return", "return (") + ").pop().replace(/\\W/g, '').slice(0, 3)"
GET_SCROLL_TOP = "return document.getElementById('lines-of-program').scrollTop"


def shown_addresses(browser):
    """Returns the addresses of the visible rows of the disassembly."""
    return [re.sub(r"\W", "", line)[:3] for line in browser.script(GET_DISASSEMBLY_ROWS)]


def focus_row(browser, index):
    """Gives the focus to a row of the disassembly."""
    browser.script("document.querySelectorAll('#lines-of-program button')[arguments[0]].focus()", index)


def check_disassembly_keys(browser):
    """Checks that the keys bring all instructions of the program, and the first and the last address, into view. Also checks the scroll bar and Go
    to."""
    pause_running_time(browser)
    focus_row(browser, 3)
    browser.type_keys([HOME])
    eventually(browser, "Home shows address 000", GET_FOCUSED_ROW, "000")
    verdict("Home switches Follow off", browser.script("return document.getElementById('follow').checked"), False)
    first_addresses = shown_addresses(browser)
    browser.type_keys([DOWN])
    eventually(browser, "the Down arrow selects the next row", GET_FOCUSED_ROW, first_addresses[1])
    browser.type_keys([UP, UP])
    eventually(browser, "the Up arrow stays at the first row", GET_FOCUSED_ROW, "000")
    seen_addresses = set(first_addresses)
    for _ in range(200):
        last_address = shown_addresses(browser)[-1]
        browser.type_keys([PAGE_DOWN], 1, 1)
        browser.wait_until(GET_FOCUSED_ROW, re.compile("."))
        browser.wait_until(GET_LAST_ROW_ADDRESS, re.compile(f"^(?!{last_address})"), 5)
        addresses = shown_addresses(browser)
        seen_addresses.update(addresses)
        if last_address > "2FF":
            break
    verdict("the instructions of the program that PageDown did not show", program_addresses(browser) - seen_addresses, set())
    focus_row(browser, 3)
    browser.type_keys([END])
    eventually(browser, "End shows the last address", GET_FOCUSED_ROW, re.compile("FF[EF]"))
    for _ in range(4):
        browser.type_keys([PAGE_DOWN], 1, 1)
    verdict("PageDown stays at the last address", browser.script(GET_FOCUSED_ROW)[:2], "FF")
    browser.type_keys([PAGE_UP, PAGE_UP])
    eventually(browser, "PageUp goes back", "return Number(document.activeElement.textContent.slice(0, 4) < '\u25cfFF') && 1", re.compile("[01]"))
    check_scroll_bar(browser)


def program_addresses(browser):
    """Returns the addresses at which the instructions of the calculator's program begin, up to its end at 23F, as `list` shows them."""
    answers = send_lines(browser, "list 0 256\nlist 0x100 256\nlist 0x200 256")
    return {address for address in re.findall(r"(?<![0-9A-F])([0-2][0-9A-F]{2}) (?:[0-9A-F]{2} ){1,2}", answers) if address <= "23F"} - {"list"}


def check_scroll_bar(browser):
    """Checks that the scroll bar and the field Go to bring an address into view."""
    browser.script("document.getElementById('lines-of-program').scrollTop = arguments[0] * 24", 0x100)
    eventually(browser, "the scroll bar shows address 100", GET_DISASSEMBLY_ROWS, re.compile(r"^\['\W*10[0-3]"))
    browser.script("document.getElementById('lines-of-program').scrollTop = 1e9")
    eventually(browser, "the scroll bar shows the last address", GET_DISASSEMBLY_ROWS, re.compile(r"FF[EF][^,]*\]$"))
    browser.type_into("#go-to", f"0x010{ENTER}")
    eventually(browser, "Go to shows an address in the first row", GET_DISASSEMBLY_ROWS, re.compile(r"^\['\W*010"))
    eventually(browser, "the scroll position after Go to", GET_SCROLL_TOP, 16 * 24)


GET_NEXT_LINE = "const next = document.querySelector('#lines-of-program .next'); return next ? next.textContent : ''"


def check_follow(browser):
    """Checks that the disassembly moves with the program counter only if Follow is on."""
    browser.click("#step")
    addresses_before = shown_addresses(browser)
    browser.click("#step")
    verdict("the disassembly does not move without Follow", shown_addresses(browser), addresses_before)
    browser.click("#follow")
    eventually(browser, "Follow shows the row of the program counter", GET_NEXT_LINE, re.compile("."))
    for _ in range(5):
        addresses_before = cell_text(browser, "pc")
        browser.click("#step")
        eventually(browser, "a step changes the program counter", f"return document.getElementById('value-pc').textContent !== '{addresses_before}'", True)
        eventually(browser, "a row begins at the program counter after each step", IS_COUNTER_ROW_SHOWN, True)
    browser.click("#run")
    eventually(browser, "Follow shows the row of the program counter while the program is running", GET_NEXT_LINE, re.compile("."))
    pause_running_time(browser)


def cell_text(browser, name):
    """Returns the text of a cell of the processor, such as `pc` or `R5`."""
    return browser.script("return document.getElementById(arguments[0]).textContent", f"value-{name}")


# --- marks and cells ---

GET_MARKED_REGISTERS = "return [...document.querySelectorAll('#registers .changed')].map((node) => node.id.slice('value-'.length)).join(' ')"
COUNT_MARKS = """
window.marks = 0;
new MutationObserver((all) => { window.marks += all.filter((each) => each.target.classList.contains("changed")).length; })
  .observe(document.body, { subtree: true, attributes: true, attributeFilter: ["class"] })"""
# A program that sets R5 and then waits for about 1.5 seconds.
SLOW_PROGRAM = "FIM P0, 0x00\\nLDM 7\\nXCH R5\\nwait: ISZ R0, wait\\nISZ R1, wait\\nISZ R2, wait\\nISZ R3, wait\\nend: IAC\\nJUN end\\n"


def check_change_marks(browser):
    """Checks that after a pause, everything that differs from the previous pause is marked, even if it changed long before."""
    choose_example(browser, "three lamps")
    pause_running_time(browser)
    send_lines(browser, f"asm\n{SLOW_PROGRAM}.\nreset\nbreak 12".replace("\\n", "\n"))
    eventually(browser, "the status after a reset", GET_STATUS, "The board was reset; the program counter is at 000.")
    browser.script(COUNT_MARKS)
    browser.click("#run")
    eventually(browser, "the program stops at its breakpoint after a long run", GET_STATUS, "Paused at 00C, at a breakpoint.", 40)
    verdict("nothing was marked during the run, except at the stop", browser.script("return window.marks") < 12, True)
    verdict("a register that changed at the beginning of the run is marked", "R5" in browser.script(GET_MARKED_REGISTERS).split(), True)
    verdict("a register that has its old value again is not marked", "R0" in browser.script(GET_MARKED_REGISTERS).split(), False)
    browser.click("#step")
    browser.wait_until(GET_STATUS, STEPPED_MESSAGE)
    verdict("a step removes the mark of a register that it does not change", "R5" in browser.script(GET_MARKED_REGISTERS).split(), False)
    browser.click("#reset")
    eventually(browser, "the status after Reset", GET_STATUS, "The board was reset; the program counter is at 000.")


GET_EDITED_CELL = "return document.getElementById('cell-editor').hidden ? '' : document.querySelector('#cell-editor label').textContent"
GET_CELL_STATUS = "return document.getElementById('cell-status').textContent"


def edit_cell(browser, cell, opening_key, typed_keys):
    """Opens the editor of a cell with a key, and types keys into it."""
    browser.script("document.querySelector(arguments[0]).focus()", cell)
    browser.type_keys([opening_key])
    browser.wait_until(GET_EDITED_CELL, re.compile("."))
    browser.type_keys([*typed_keys])


def double_click(browser, selector):
    """Dispatches the events of a double click on an element."""
    browser.scroll_to(selector)
    browser.script("const cell = document.querySelector(arguments[0]); for (const [kind, detail] of [['click', 1], ['click', 2], "
                   "['dblclick', 2]]) cell.dispatchEvent(new MouseEvent(kind, { bubbles: true, detail }))", selector)


def check_edited_cells(browser):
    """Checks that registers and RAM are edited in place, that an error appears at the cell, and that a read-only cell shows a message."""
    edit_cell(browser, "#value-R5", F2, ["b", ENTER])
    eventually(browser, "F2, a digit and Enter set a register", "return document.getElementById('value-R5').textContent", "B")
    verdict("the cell has the focus again", browser.script("return document.activeElement.id"), "value-R5")
    edit_cell(browser, "#value-pc", ENTER, ["0", "1", "0", ENTER])
    eventually(browser, "the program counter is typed in the format in which it is shown", "return document.getElementById('value-pc').textContent", "010")
    edit_cell(browser, "#value-cy", ENTER, ["2", ENTER])
    eventually(browser, "a value out of range is rejected at the cell", GET_CELL_STATUS, re.compile("."))
    verdict("the message about the value", browser.script(GET_CELL_STATUS), re.compile("value|range|number", re.I))
    browser.type_keys([ESCAPE])
    eventually(browser, "Escape cancels the edit", GET_EDITED_CELL, "")
    verdict("the value is unchanged after Escape", cell_text(browser, "cy"), "0")
    edit_cell(browser, "#value-acc", ENTER, ["x", ENTER])
    eventually(browser, "a character that is not a digit is rejected", GET_CELL_STATUS, re.compile("hexadecimal"))
    browser.type_keys([ESCAPE])
    nibble = ".ram button:nth-child(3)"
    double_click(browser, nibble)
    eventually(browser, "a double click edits a RAM nibble", GET_EDITED_CELL, re.compile(r"bank 0, chip 0, register 0, character 2: SRC byte 02"))
    browser.type_keys(["9", ENTER])
    eventually(browser, "Enter sets the RAM nibble", f"return document.querySelector('{nibble}').textContent", "9")
    verdict("the double click does not watch the nibble", browser.script(f"return document.querySelector('{nibble}').getAttribute('aria-pressed')"), "false")
    verdict("the log has the line that sets the nibble", "poke ram.0.0x02 0x9" in browser.text_of("#log"), True)
    edit_cell(browser, ".ram button.status", F2, ["4", ENTER])
    eventually(browser, "a status nibble can be edited", "return document.querySelector('.ram button.status').textContent", "4")
    double_click(browser, ".ram .port span")
    eventually(browser, "a double click on a port shows why it cannot be set", GET_POPUP, re.compile("WMP"))


def check_click_on_changing_text(browser):
    """Checks that a click on an element works even if its text changes during the click. (In WebKit, a click is lost if the page replaces the text
    node.)"""
    browser.wait_until(GET_STATUS, re.compile("^Running"))
    browser.script("window.pressed = 0; document.getElementById('value-acc').addEventListener('click', () => { window.pressed++; })")
    browser.hold_mouse("#value-acc", 400)
    eventually(browser, "a click on a changing value works while the program is running", "return window.pressed", 1)


GET_POPUP = "const shown = document.querySelector('.popup-message'); return shown.hidden ? '' : shown.textContent"


def check_limit_messages(browser):
    """Checks that the errors about a ninth watch and a thirty-third breakpoint appear at the clicked element."""
    send_lines(browser, "\n".join(f"watch 7 {address}" for address in range(8)))
    browser.click(".ram button:nth-child(5)")
    eventually(browser, "a ninth watch is rejected with a message", GET_POPUP, re.compile("8 nibbles"))
    popup_near_script = "const [a, b] = [arguments[0], '.popup-message'].map((selector) => document.querySelector(selector).getBoundingClientRect()); " \
        "return Math.abs(a.left - b.left) + Math.abs(a.bottom - b.top) < 260"
    verdict("the message is near the clicked cell", browser.script(popup_near_script, ".ram button:nth-child(5)"), True)
    send_lines(browser, "\n".join([*(f"unwatch 7 {address}" for address in range(8)), *(f"break {0x300 + address}" for address in range(32))]))
    browser.click("#lines-of-program button:nth-child(2)")
    eventually(browser, "a thirty-third breakpoint is rejected with a message", GET_POPUP, re.compile("32 breakpoints"))
    send_lines(browser, "\n".join(f"unbreak {0x300 + address}" for address in range(32)))


# --- accessibility ---

GET_WRONGLY_NAMED_CELLS = """
return [...document.querySelectorAll(".ram button")].filter((node) => !/^[0-9A-F]$/.test(node.textContent)
  || node.getAttribute("aria-label") || !/bank \\d, chip \\d, register \\d, (character \\d+: SRC byte [0-9A-F]{2}|status character \\d)/.test(node.title)).length"""
# Counts the changes in ARIA live regions from now on. A screen reader would announce these changes.
COUNT_ANNOUNCEMENTS = """
window.said = 0;
const places = [...document.querySelectorAll("output, [aria-live], [role=status], [role=alert], [role=log]")];
const observer = new MutationObserver((all) => { window.said += all.length; });
for (const each of places) {
  if (each.getAttribute("aria-live") !== "off") observer.observe(each, { childList: true, characterData: true, subtree: true });
}"""


def check_accessible_names(browser):
    """Checks that the RAM cells and the browser tab have the correct names, and that a running program causes only a few announcements."""
    verdict("the number of RAM cells with a wrong name", browser.script(GET_WRONGLY_NAMED_CELLS), 0)
    verdict("the title of the browser tab", browser.script("return document.title"), re.compile("^three lamps"))
    choose_example(browser, "stopwatch")
    time.sleep(1)
    browser.script(COUNT_ANNOUNCEMENTS)
    time.sleep(3)
    verdict("at most six announcements in three seconds of running", browser.script("return window.said") <= 6, True)


CANCEL_KEY_TOUCH = """
const key = document.querySelector(arguments[0]);
const fire = (kind) => key.dispatchEvent(new PointerEvent(kind, { bubbles: true, cancelable: true, pointerId: 77, pointerType: "touch",
  isPrimary: true, button: kind === "pointerdown" ? 0 : -1 }));
key.setPointerCapture = () => {};
fire("pointerdown");
setTimeout(() => fire("pointercancel"), arguments[1])"""
COUNT_KEYS_DOWN = "return document.querySelectorAll(\"#keys [aria-pressed='true']\").length"


def check_swipe(browser):
    """Checks that a fast or slow swipe that begins on a key leaves no key down, while time is running and while it is paused."""
    choose_example(browser, "calculator")
    browser.wait_until(GET_STATUS, re.compile("^Running"))
    answer_before = send_lines(browser, "seq")
    verdict("a finger can scroll on a key", browser.script("return getComputedStyle(document.querySelector('.key')).touchAction"), "pan-y")
    for speed, milliseconds in (("quick", 20), ("slow", 200)):
        browser.script(CANCEL_KEY_TOUCH, key("7"), milliseconds)
        time.sleep(0.5)
        eventually(browser, f"no key is down after a {speed} swipe while running", COUNT_KEYS_DOWN, 0)
    pause_running_time(browser)
    for speed, milliseconds in (("quick", 20), ("slow", 200)):
        browser.script(CANCEL_KEY_TOUCH, key("7"), milliseconds)
        time.sleep(0.5)
        eventually(browser, f"no key is down after a {speed} swipe while paused", COUNT_KEYS_DOWN, 0)
    verdict("the swipes have pressed keys", send_lines(browser, "seq") != answer_before, True)


FIND_SMALL_TEXT = """
const small = new Map();
const walker = document.createTreeWalker(document.body, NodeFilter.SHOW_TEXT);
for (let node = walker.nextNode(); node; node = walker.nextNode()) {
  const parent = node.parentElement;
  if (!node.textContent.trim() || !isShown(parent) || parent.closest("script, style, noscript")) continue;
  const size = parseFloat(getComputedStyle(parent).fontSize);
  if (size < 11) small.set(`${parent.localName}.${parent.className} in ${parent.parentElement.id || parent.parentElement.className}`, size);
}
return [...small].join("; ")"""


def check_text_sizes(browser):
    """Checks that no visible text has letters smaller than 11 pixels."""
    verdict("texts with letters below 11 pixels", browser.script(FIND_SMALL_TEXT), "")
    show_text(browser, "board")
    verdict("texts with letters below 11 pixels, with the board's text", browser.script(FIND_SMALL_TEXT), "")
    show_text(browser, "program")


# --- sizes, print and colours, through Chromium's driver ---

def set_size(browser, width, height, mobile=False):
    """Sets the size of the page, and scrolls the page to its upper left corner."""
    browser.resize(width, height, mobile)
    time.sleep(0.3)
    browser.script("scrollTo(0, 0)")


GET_PANEL_BOXES = """
const ids = ["toolbar", "front", "keys", "texts", "program-editor", "dock", "side", "processor", "calls", "watched", "breakpoints", "memory",
  "statusbar", "regions"];
return Object.fromEntries(ids.map((id) => {
  const element = document.getElementById(id);
  const box = element.getBoundingClientRect();
  return [id, isShown(element) ? { left: box.left, right: box.right, top: box.top, bottom: box.bottom } : null];
}))"""
# Finds the controls in the toolbar that overlap each other.
FIND_OVERLAPS = """
const shown = [...document.querySelectorAll("#toolbar :is(button, input, select, h1):not([role=menu] *)")].filter(isShown);
const boxes = shown.map((each) => [each.id, each.getBoundingClientRect()]);
return boxes.flatMap(([id, a], k) => boxes.slice(k + 1)
  .filter(([, b]) => Math.min(a.right, b.right) - Math.max(a.left, b.left) > 1 && Math.min(a.bottom, b.bottom) - Math.max(a.top, b.top) > 1)
  .map(([other]) => `${id} ${other}`))"""
# While a notice is shown, finds the controls of the toolbar and the status bar that are partly outside the window or their bar.
FIND_CONTROLS_OUTSIDE = """
document.getElementById("notices-button").hidden = false;
return [...document.querySelectorAll("#toolbar :is(button, input, select):not([role=menu] *), #statusbar button")].filter(isShown).filter((control) => {
  const [{ left, right }, room] = [control, control.closest("#cycles, #toolbar, #statusbar")].map((node) => node.getBoundingClientRect());
  return left < Math.max(0, room.left) || right > Math.min(innerWidth, room.right);
}).map(({ id }) => id)"""
MEASURE_OVERFLOW = "return document.documentElement.scrollWidth - document.documentElement.clientWidth"
# Returns four numbers of pixels: by how much the page itself is too wide and too high, and how far a script can scroll it to the right and down.
TRY_TO_SCROLL = """
const { scrollHeight, clientHeight, scrollWidth, clientWidth } = document.documentElement;
scrollTo(1000, 1000);
const moved = [scrollX, scrollY];
scrollTo(0, 0);
return [scrollWidth - clientWidth, scrollHeight - clientHeight, ...moved]"""


def check_sizes(browser):
    """Checks that the page itself does not scroll at several window sizes. In wide windows, the front panel, the texts and the debugger's panels
    must be side by side."""
    choose_example(browser, "traffic light")
    for width, height in ((1024, 640), (1200, 720), (1280, 720), (1440, 900), (1920, 1080)):
        set_size(browser, width, height)
        boxes = browser.script(GET_PANEL_BOXES)
        verdict(f"the page does not scroll at {width}", browser.script(TRY_TO_SCROLL), [0, 0, 0, 0])
        verdict(f"the height of the toolbar at {width}", boxes["toolbar"]["bottom"] - boxes["toolbar"]["top"], 44)
        verdict(f"toolbar controls that overlap at {width}", browser.script(FIND_OVERLAPS), [])
        verdict(f"controls that are partly outside the window at {width}", browser.script(FIND_CONTROLS_OUTSIDE), [])
        verdict(f"the front panel, the texts and the debugger are side by side at {width}",
                boxes["front"]["right"] <= boxes["texts"]["left"] and boxes["texts"]["right"] <= boxes["side"]["left"], True)
        verdict(f"the dock is below the texts at {width}", boxes["texts"]["bottom"] <= boxes["dock"]["top"], True)
        verdict(f"the status bar is at the bottom at {width}", boxes["statusbar"]["bottom"], height)
        verdict(f"the panels end at the status bar at {width}", {boxes[name]["bottom"] for name in ("front", "dock", "side")}, {boxes["statusbar"]["top"]})
        verdict(f"the keys are visible at {width}", boxes["keys"]["bottom"] < height, True)
        verdict(f"the panels use the whole width at {width}", (boxes["front"]["left"], boxes["side"]["right"]), (0, width))
    check_controls_in_view(browser, 999, 820, 700)
    check_drawer(browser)
    browser.restore_size()


def check_narrow_sizes(browser):
    """Checks that the page's controls are in view at widths that are too small for a browser window. The driver sets the width of the page without
    resizing the window."""
    check_controls_in_view(browser, 699, 320)
    browser.restore_size()


def check_controls_in_view(browser, *widths):
    """Checks that at each width the page does not scroll, and that no control overlaps another one or is partly outside the window."""
    for width in widths:
        set_size(browser, width, 800)
        verdict(f"the page does not scroll at {width}", browser.script(TRY_TO_SCROLL), [0, 0, 0, 0])
        verdict(f"toolbar controls that overlap at {width}", browser.script(FIND_OVERLAPS), [])
        verdict(f"controls that are partly outside the window at {width}", browser.script(FIND_CONTROLS_OUTSIDE), [])


# In the visible bars, finds the controls that are cut off or overlap each other, and describes them.
FIND_WRONG_CONTROLS = """
const rows = [...document.querySelectorAll("#wave-bar, .editor > .bar, #wiring > .bar, #statusbar")].filter(isShown);
return rows.flatMap((row) => {
  const room = row.getBoundingClientRect();
  const shown = [...row.querySelectorAll("button, input, select, summary")].filter((node) => isShown(node) && !node.closest(".pop > :not(summary)"));
  const boxes = shown.map((each) => [each.id || each.textContent, each.getBoundingClientRect()]);
  const cut = boxes.filter(([, box]) => box.left < room.left - 1 || box.top < room.top - 1 || box.right > Math.min(room.right, innerWidth) + 1
    || box.bottom > room.bottom + 1).map(([name]) => `${name} is cut off`);
  return [...cut, ...boxes.flatMap(([name, a], k) => boxes.slice(k + 1)
    .filter(([, b]) => Math.min(a.right, b.right) - Math.max(a.left, b.left) > 1 && Math.min(a.bottom, b.bottom) - Math.max(a.top, b.top) > 1)
    .map(([other]) => `${name} is over ${other}`))];
})"""


def check_controls(browser):
    """Checks that in narrow windows the controls of waves, texts and status bar are complete and do not overlap."""
    choose_example(browser, "traffic light")
    show_text(browser, "waves")
    record(browser, 20000)
    for width, height in ((1279, 720), (1024, 640), (820, 1180), (390, 844)):
        set_size(browser, width, height, width < 700)
        browser.send_command("Emulation.setTouchEmulationEnabled", enabled=width < 700)
        for tab in ("program", "board", "wiring", "tests", "properties", "waves"):
            if width < 700:
                browser.click(f"#region-{'more' if tab == 'waves' else 'source'}")
            show_text(browser, tab)
            verdict(f"controls of {tab} that are cut off or overlap at {width}", browser.script(FIND_WRONG_CONTROLS), [])
    browser.send_command("Emulation.setTouchEmulationEnabled", enabled=False)
    browser.restore_size()


IS_DRAWER_SHOWN = "return isShown(document.getElementById('processor'))"


def check_drawer(browser):
    """Checks that in a narrow window the debugger's panels are a drawer, which its button opens and Escape closes."""
    set_size(browser, 820, 1180)
    verdict("the drawer is closed", browser.script(IS_DRAWER_SHOWN), False)
    browser.click("#drawer-button")
    verdict("the drawer's button opens it", browser.script(IS_DRAWER_SHOWN), True)
    browser.script("document.getElementById('value-acc').focus()")
    browser.type_keys([ESCAPE])
    verdict("Escape closes the drawer", browser.script(IS_DRAWER_SHOWN), False)


IS_IN_VIEW = """
const box = document.querySelector(arguments[0]).getBoundingClientRect();
return box.top >= -1 && box.bottom <= innerHeight + 1 && box.height > 0"""


def swipe_up(browser, x, y):
    """Swipes up by 180 pixels, in ten steps of 16 milliseconds."""
    moves = [{"type": "pointerMove", "duration": 16, "x": int(x), "y": int(y) - 18 * step} for step in range(11)]
    browser.perform_actions({"type": "pointer", "id": "swipe", "parameters": {"pointerType": "touch"},
                     "actions": [moves[0], {"type": "pointerDown", "button": 0}, *moves[1:], {"type": "pointerUp", "button": 0}]})


GET_MENU_STATE = """
const [word, item] = ["menu-button", "save-session-button"].map((id) => document.getElementById(id));
return `${word.getAttribute("aria-expanded")} ${isShown(item)}`"""


def check_menu(browser):
    """Checks that on a phone the session's buttons are in a menu, which a choice or Escape closes."""
    verdict("the menu is closed", browser.script(GET_MENU_STATE), "false false")
    browser.click("#menu-button")
    verdict("the button opens the menu", browser.script(GET_MENU_STATE), "true true")
    browser.type_keys([ESCAPE])
    verdict("Escape closes the menu", browser.script(GET_MENU_STATE), "false false")
    browser.click("#menu-button")
    browser.click("#help-narrow")
    verdict("Help in the menu opens the help", browser.script("return isShown(document.getElementById('help'))"), True)
    verdict("the menu is closed after the choice", browser.script(GET_MENU_STATE), "false false")
    browser.click("#help-close")
    browser.click("#menu-button")
    browser.click("#examples-narrow")
    overflow_script = "const box = document.getElementById('sessions'); return box.open && box.scrollWidth - box.clientWidth"
    eventually(browser, "the sessions dialog does not scroll sideways", overflow_script, 0)
    browser.click("#close-sessions")


GET_PHONE_PANELS = "return ['front', 'texts', 'side', 'dock'].filter((id) => isShown(document.getElementById(id))).join(' ')"


def check_phone(browser):
    """Checks that a phone shows one region at a time, selected with the tabs at the bottom, and that a swipe that begins on a key scrolls."""
    choose_example(browser, "calculator")
    set_size(browser, 375, 667, True)
    browser.send_command("Emulation.setTouchEmulationEnabled", enabled=True)
    browser.reload()
    wait_until_ready(browser)
    check_menu(browser)
    for width, height in ((390, 844), (360, 640), (320, 640), (375, 667)):
        set_size(browser, width, height, True)
        boxes = browser.script(GET_PANEL_BOXES)
        verdict(f"the page does not scroll on a phone at {width}", browser.script(TRY_TO_SCROLL), [0, 0, 0, 0])
        verdict(f"the region tabs are at the bottom at {width}", boxes["regions"]["bottom"], height)
        verdict(f"the region tabs are at least 44 pixels high at {width}", boxes["regions"]["bottom"] - boxes["regions"]["top"] >= 44, True)
    for region, panel in (("source", "texts"), ("debug", "side"), ("more", "dock"), ("board", "front")):
        browser.click(f"#region-{region}")
        verdict(f"the tab {region} shows only its panel", browser.script(GET_PHONE_PANELS), panel)
    browser.click("#region-debug")
    verdict("RAM does not scroll sideways", browser.script("const box = document.getElementById('banks'); return box.scrollWidth - box.clientWidth"), 0)
    browser.click("#region-board")
    for selector in (".bulb", ".key", "#run"):
        verdict(f"{selector} is visible on a phone", browser.script(IS_IN_VIEW, selector), True)
    pause_running_time(browser)
    set_size(browser, 375, 420, True)
    box = browser.script("const box = document.querySelector('.key').getBoundingClientRect(); return [box.x + 20, box.y + 15]")
    swipe_up(browser, *box)
    eventually(browser, "a swipe that begins on a key scrolls the front panel", "return document.getElementById('front').scrollTop > 50", True)
    eventually(browser, "no key is down after the swipe", COUNT_KEYS_DOWN, 0)
    browser.send_command("Emulation.setTouchEmulationEnabled", enabled=False)
    browser.restore_size()


def emulate_media(browser, media="", **features):
    """Emulates a medium such as print and media features such as forced colours. Without arguments, ends the emulation."""
    media_features = [{"name": name.replace("_", "-"), "value": value} for name, value in features.items()]
    browser.send_command("Emulation.setEmulatedMedia", media=media, features=media_features)
    time.sleep(0.2)


ARE_LAMPS_DISTINCT = """
const coloursOf = (lamp) => { const style = getComputedStyle(lamp); return `${style.backgroundColor} ${style.borderTopColor}`; };
const [lit, dark] = [".bulb.lit", ".bulb:not(.lit)"].map((selector) => coloursOf(document.querySelector(selector)));
return lit !== dark && !lit.startsWith("rgba(0, 0, 0, 0)")"""


def check_forced_colours(browser):
    """Checks that in forced colours, lamps that are on differ from the others, and changed values have an outline."""
    step_with_marks(browser)
    emulate_media(browser, forced_colors="active")
    verdict("in forced colours lamps that are on differ from the others", browser.script(ARE_LAMPS_DISTINCT), True)
    outline_script = "return getComputedStyle(document.querySelector('.changed')).outlineStyle"
    verdict("in forced colours marks have an outline", browser.script(outline_script), "solid")
    emulate_media(browser)


COUNT_PRINTED_CONTROLS = """
return [...document.querySelectorAll("#bench *")].filter((node) => isShown(node) && node.matches("button:not(.fold), select, #log, "
  + "textarea, .cm-editor")).length"""


def check_print(browser):
    """Checks that a printout has the source, the board's text and the lamps, but no buttons, fields or editors."""
    has_board = browser.script("return document.querySelector('#board-title') !== null")
    emulate_media(browser, media="print")
    eventually(browser, "the number of printed texts", "return document.querySelectorAll('#print h2').length", 2)
    printed_text = browser.text_of("#print")
    verdict("the printout has the source", "JMS" in printed_text or "JUN" in printed_text, True)
    verdict("the printout has the board's text", has_board and "lamp = [" in printed_text and "[[rom]]" in printed_text, True)
    verdict("the printout has the lamps", browser.script("return isShown(document.querySelector('.bulb'))"), True)
    verdict("the number of printed buttons, fields and editors", browser.script(COUNT_PRINTED_CONTROLS), 0)
    emulate_media(browser)
    verdict("the texts are visible again after printing", browser.script("return isShown(document.getElementById('texts'))"), True)
