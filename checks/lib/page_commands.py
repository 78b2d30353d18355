"""The part of checks/page about the page's commands: the palette, which lists all commands, and their keys. It also covers the toolbar with its menus
and tooltips, the theme, the notes on examples, and the first visit with its cards and its tour."""

import re

from browser_driver import ELEMENT_KEY
from page_access import check_view
from page_basics import DOWN, ENTER, ESCAPE, GET_STATUS, IS_READY, STEPPED_MESSAGE, TAB, TOP, choose_example, reopen_page, show_text, pause_running_time, wait_until_ready
from verdicts import eventually, verdict
from web_driver import Chromium

CONTROL, SHIFT, UP = "\ue009", "\ue008", "\ue013"
F1, F5, F8, F9, F10, F11 = "\ue031", "\ue035", "\ue038", "\ue039", "\ue03a", "\ue03b"
# The messages after a step over and after a step out. F5 can pause time inside a subroutine or before a call, so each message has two forms.
STEPPED_OVER_MESSAGE = re.compile(f"{STEPPED_MESSAGE.pattern}|^Returned to [0-9A-F]{{3}}, after ")
STEPPED_OUT_MESSAGE = re.compile("^Returned to |no call is open here")
IS_PALETTE_OPEN = "const palette = document.getElementById('palette'); return palette !== null && palette.open"
GET_PALETTE_ITEMS = "return [...document.querySelectorAll('#palette-list li .grow')].map((node) => node.textContent)"
GET_FIRST_PALETTE_ITEM = "return document.querySelector('#palette-list li').textContent"
GET_ACTIVE_OPTION = """
const field = document.querySelector('#palette input');
const option = document.getElementById(field.getAttribute('aria-activedescendant'));
return option && option.getAttribute('aria-selected') === 'true' ? [...option.parentElement.children].indexOf(option) : -1"""
GET_FOCUSED_ID = "return document.activeElement.id"
GET_TOOLTIP = "const tip = document.getElementById('tooltip'); return tip.hidden ? '' : tip.textContent"
GET_FRONT_TAB = "return document.querySelector('#text-tabs [aria-selected=true]').id"
# The buttons that need no command, each with the reason. They open a menu, belong to an open dialog or to the field next to them, or do the same as
# another command.
BUTTONS_WITHOUT_COMMAND = {
    "menu-button": "opens the menu of files", "view-button": "opens the menu of panels", "cancel": "belongs to running work",
    "tour-close": "belongs to the tour", "tour-back": "belongs to the tour", "tour-put": "belongs to the tour", "tour-next": "belongs to the tour", "first-program": "same as help.tour",
    "hello-program": "same as help.tour", "first-example": "same as project.all", "help-close": "belongs to the help", "close-sessions": "belongs to the dialog",
    "delete-chosen": "belongs to the dialog", "explore": "same as properties.search", "send": "same as Enter in the console",
    "step-many": "same as Enter in the field next to it", "until-change": "same as Enter in the field next to it",
}


def press_chord(browser, *keys):
    """Presses keys one after the other, then releases them in reverse order."""
    browser.perform_actions({"type": "key", "id": "keyboard", "actions": [
        *({"type": "keyDown", "value": key} for key in keys), *({"type": "keyUp", "value": key} for key in reversed(keys))]})


def open_palette(browser, query=""):
    """Opens the palette with Ctrl+K, and types a query if there is one."""
    press_chord(browser, CONTROL, "k")
    browser.wait_until(IS_PALETTE_OPEN, True)
    if query:
        browser.type_into("#palette input", query)


def execute_command(browser, query):
    """Types a query into the palette, and executes the first command that matches it."""
    open_palette(browser, query)
    browser.type_keys([ENTER])
    browser.wait_until(IS_PALETTE_OPEN, False)


def check_palette_contents(browser):
    """Checks that the palette lists every command, and that every button of the page has a command, except for tabs and exempt buttons."""
    choose_example(browser, "calculator")
    pause_running_time(browser)
    open_palette(browser)
    listed_commands = set(browser.script(GET_PALETTE_ITEMS))
    source = (TOP / "js/words/page_commands.js").read_text()
    table = re.search(r"export const COMMANDS = \{(.*?)\n\};", source, re.S).group(1)
    command_names = dict(re.findall(r'^  "([\w.]+)": "(.*)",$', table, re.M))
    # `time.pause` is only the run button's label while time is running. It is not a separate command.
    command_names.pop("time.pause")
    verdict("the commands that the palette lacks", sorted(set(command_names.values()) - listed_commands), [])
    verdict("the texts, panels, themes, speeds, examples and keys that the palette lacks", {"Show Source", "Show RAM", "Theme: dark", "Speed: full speed",
                                                              "Open the example three lamps", "Press C"} - listed_commands, set())
    browser.type_keys([ESCAPE])
    browser.wait_until(IS_PALETTE_OPEN, False)
    commands = (TOP / "js/page/commands/command_table.js").read_text()
    bench_html = (TOP / "page/bench.html").read_text()
    buttons = set(re.findall(r'<button[^>]* id="([\w-]+)"', bench_html))
    tabs = set(re.findall(r'<button[^>]* role="tab" id="([\w-]+)"', bench_html))
    region_buttons = {button for button in buttons if button.startswith("region-")} | {"drawer-button"}
    buttons_without_command = {button for button in buttons - tabs - region_buttons - set(BUTTONS_WITHOUT_COMMAND) if f'"{button}"' not in commands}
    exempt_buttons = {"back-stop", "back-breakpoint", "forward"}
    verdict("the buttons of the page without a command", sorted(buttons_without_command - exempt_buttons), [])


def check_listbox(browser):
    """Checks that the palette follows the ARIA combobox pattern: the field keeps the focus and names the active option. Also checks the arrow keys,
    a search, and the focus after Escape."""
    browser.script("document.getElementById('name').focus()")
    press_chord(browser, CONTROL, SHIFT, "p")
    eventually(browser, "Ctrl+Shift+P opens the palette", IS_PALETTE_OPEN, True)
    roles_script = "return ['input', 'ul', 'li'].map((node) => document.querySelector(`#palette ${node}`).getAttribute('role'))"
    verdict("the roles of the palette's parts", browser.script(roles_script), ["combobox", "listbox", "option"])
    labels_script = "return ['', ' input', ' ul'].map((node) => document.querySelector(`#palette${node}`).getAttribute('aria-label'))"
    verdict("the names of the palette's parts", browser.script(labels_script), ["Commands", "Type a command", "Commands"])
    verdict("the first command is selected", browser.script(GET_ACTIVE_OPTION), 0)
    browser.type_keys([DOWN, DOWN, UP])
    verdict("the arrow keys select another command", browser.script(GET_ACTIVE_OPTION), 1)
    browser.type_keys([UP, UP])
    last_index_script = "return document.querySelectorAll('#palette-list li').length - 1"
    verdict("the Up arrow wraps around to the last command", browser.script(GET_ACTIVE_OPTION), browser.script(last_index_script))
    browser.type_into("#palette input", "step ov")
    eventually(browser, "typed words find a command, which shows its key", GET_FIRST_PALETTE_ITEM, "Step overTimeF10")
    verdict("the field keeps the focus", browser.script("return document.activeElement.getAttribute('role')"), "combobox")
    browser.type_into("#palette input", " qqq")
    eventually(browser, "a search without results shows a message", GET_FIRST_PALETTE_ITEM, "Nothing is named step ov qqq")
    browser.type_keys([ESCAPE])
    eventually(browser, "Escape closes the palette", IS_PALETTE_OPEN, False)
    verdict("the focused element after the palette was closed", browser.script(GET_FOCUSED_ID), "name")
    browser.script("document.activeElement.blur()")


def check_unavailable_command(browser):
    """Checks that an unavailable command shows the reason, is marked as disabled, and does nothing."""
    open_palette(browser, "redo what")
    verdict("an unavailable command shows the reason", browser.script(GET_FIRST_PALETTE_ITEM), "Redo what was undonenothing was undone")
    verdict("an unavailable command is marked", browser.script("return document.querySelector('#palette-list li').getAttribute('aria-disabled')"), "true")
    browser.type_keys([ENTER])
    verdict("Enter on an unavailable command does nothing", browser.script(IS_PALETTE_OPEN), True)
    browser.type_keys([ESCAPE])


def check_keys(browser):
    """Checks that the function keys execute their commands instead of the browser's own actions."""
    choose_example(browser, "three lamps")
    browser.wait_until(GET_STATUS, re.compile("^Running"))
    browser.script("document.activeElement.blur()")
    browser.type_keys([F5])
    eventually(browser, "F5 pauses the program", GET_STATUS, re.compile("^Paused"))
    browser.type_keys([F11])
    eventually(browser, "F11 steps", GET_STATUS, STEPPED_MESSAGE)
    status_after_step = browser.script(GET_STATUS)
    press_chord(browser, CONTROL, F11)
    eventually(browser, "Ctrl+F11 steps back", f"return document.getElementById('status').textContent !== {status_after_step!r}", True)
    browser.type_keys([F10])
    eventually(browser, "F10 steps over", GET_STATUS, STEPPED_OVER_MESSAGE)
    press_chord(browser, SHIFT, F11)
    eventually(browser, "Shift+F11 steps out, or reports that no call waits for its return", GET_STATUS, STEPPED_OUT_MESSAGE)
    show_text(browser, "program")
    browser.script("document.querySelector('#program-editor .cm-editor').lineEditor.setCursor({ line: 12, ch: 0 })")
    browser.script("document.activeElement.blur()")
    browser.type_keys([F9])
    breakpoint_count_script = "return document.querySelectorAll('#breakpoint-list li').length"
    eventually(browser, "F9 sets a breakpoint at the caret", breakpoint_count_script, 1)
    browser.type_keys([F9])
    eventually(browser, "F9 clears the breakpoint", breakpoint_count_script, 0)
    browser.type_keys([F5])
    eventually(browser, "F5 continues", GET_STATUS, re.compile("^Running"))
    browser.type_keys([F8])
    eventually(browser, "F8 pauses the program", GET_STATUS, re.compile("^Paused"))
    browser.type_keys([F1])
    eventually(browser, "F1 opens the help", "return document.getElementById('help').hidden", False)
    browser.type_keys([ESCAPE])


def check_place_palette(browser):
    """Checks that Ctrl+P opens the palette for places, and that a text, a line or an address chosen there is shown. `>` must change it to the
    palette of commands."""
    press_chord(browser, CONTROL, "p")
    eventually(browser, "Ctrl+P opens the palette for places", IS_PALETTE_OPEN, True)
    verdict("the name of the palette for places", browser.script("return document.getElementById('palette').getAttribute('aria-label')"), "Go to")
    browser.type_into("#palette input", "wiring" + ENTER)
    eventually(browser, "the chosen tab is in front", GET_FRONT_TAB, "wiring-tab")
    press_chord(browser, CONTROL, "p")
    browser.wait_until(IS_PALETTE_OPEN, True)
    browser.type_into("#palette input", ":3" + ENTER)
    eventually(browser, "the source is in front after a line is chosen", GET_FRONT_TAB, "program-tab")
    caret_line_script = "return document.querySelector('#program-editor .cm-editor').lineEditor.getCursor().line"
    eventually(browser, "the chosen source line has the caret", caret_line_script, 2)
    browser.script("document.activeElement.blur()")
    press_chord(browser, CONTROL, "p")
    browser.wait_until(IS_PALETTE_OPEN, True)
    browser.type_into("#palette input", "00C" + ENTER)
    eventually(browser, "the disassembly shows the chosen address", "return document.getElementById('lines-of-program').textContent", re.compile("00C"))
    press_chord(browser, CONTROL, "p")
    browser.wait_until(IS_PALETTE_OPEN, True)
    browser.type_into("#palette input", ">stop")
    eventually(browser, "`>` changes the palette to commands", "return document.getElementById('palette').getAttribute('aria-label')", "Commands")
    browser.type_keys([ESCAPE])


IS_WATCH_SHOWN = "return isShown(document.getElementById('watched'))"
GET_KEY_ROWS = "return [...document.querySelectorAll('#help-sections tr')].map((node) => node.textContent).join('|')"


def check_command_effects(browser):
    """Checks that one command of each kind, executed through the palette, has its effect."""
    execute_command(browser, "show tests")
    eventually(browser, "the command shows the tests", GET_FRONT_TAB, "tests-tab")
    text_size_script = "return document.getElementById('texts').style.getPropertyValue('--text-size')"
    size_before = browser.script(text_size_script)
    execute_command(browser, "larger text")
    eventually(browser, "the command presses the button for larger text", f"{text_size_script} !== {size_before!r}", True)
    execute_command(browser, "smaller text")
    execute_command(browser, "find in the text")
    eventually(browser, "the command opens the search of the text in front", "return document.activeElement.closest('#tests-editor') !== null", True)
    execute_command(browser, "add a watch")
    eventually(browser, "the command moves the caret to the field", GET_FOCUSED_ID, "watched-field")
    execute_command(browser, "speed 1/100")
    speed = browser.script("return document.getElementById('speed').value")
    verdict("the command sets the speed", speed in ("hundredth", "thousandth"), True)
    execute_command(browser, "speed real time")
    execute_command(browser, "close or reopen watch")
    eventually(browser, "the command closes the panel", IS_WATCH_SHOWN, False)
    execute_command(browser, "close or reopen watch")
    eventually(browser, "the command reopens the panel", IS_WATCH_SHOWN, True)
    execute_command(browser, "list of keys")
    eventually(browser, "the help lists the keys", GET_KEY_ROWS, re.compile(r"F5, F8Continue\|F10Step over.*Ctrl\+Shift\+P, Ctrl\+KShow all commands"))
    browser.type_keys([ESCAPE])
    execute_command(browser, "open the example stopwatch")
    eventually(browser, "the command opens the example", "return document.title", re.compile("^stopwatch"))
    pause_running_time(browser)


GET_PAGE_COLOUR = "return getComputedStyle(document.body).backgroundColor"


def check_theme(browser):
    """Checks that the user's choice of a theme survives a reload, and that the theme follows the system by default."""
    light_colour = browser.script(GET_PAGE_COLOUR)
    execute_command(browser, "theme dark")
    eventually(browser, "the theme is dark", f"{GET_PAGE_COLOUR} !== {light_colour!r}", True)
    dark_colour = browser.script(GET_PAGE_COLOUR)
    scheme_script = "return getComputedStyle(document.documentElement).colorScheme"
    verdict("the browser's controls are dark, too", browser.script(scheme_script), "dark")
    browser.reload()
    wait_until_ready(browser)
    eventually(browser, "the theme after a reload", GET_PAGE_COLOUR, dark_colour)
    browser.send_command("Emulation.setEmulatedMedia", features=[{"name": "prefers-color-scheme", "value": "dark"}])
    execute_command(browser, "theme light")
    eventually(browser, "the chosen light theme is used although the system is dark", GET_PAGE_COLOUR, light_colour)
    execute_command(browser, "theme system")
    eventually(browser, "the system theme is dark in a dark system", GET_PAGE_COLOUR, dark_colour)
    browser.send_command("Emulation.setEmulatedMedia", features=[])
    eventually(browser, "the system theme changes with the system", GET_PAGE_COLOUR, light_colour)


MOUSE_POINTER = {"type": "pointer", "id": "mouse", "parameters": {"pointerType": "mouse"}}


def check_tooltips(browser):
    """Checks that a button's tooltip, which names its shortcut, appears on focus, under a resting pointer, and on a long touch. Each time, the
    tooltip must also disappear."""
    browser.script("document.getElementById('back-instruction').focus()")
    browser.type_keys([TAB, TAB])
    eventually(browser, "a tooltip appears at the focused button", GET_TOOLTIP, "Step over: one instruction; a subroutine that it calls runs to its end F10")
    browser.type_keys([ESCAPE])
    eventually(browser, "Escape hides the tooltip", GET_TOOLTIP, "")
    browser.script("document.activeElement.blur()")
    pointer_move_to_step = {"type": "pointerMove", "duration": 0, "x": 0, "y": 0, "origin": {ELEMENT_KEY: browser.find("#step")}}
    browser.perform_actions({**MOUSE_POINTER, "actions": [pointer_move_to_step]})
    eventually(browser, "a tooltip appears under the pointer", GET_TOOLTIP, re.compile("^Step into.* F11$"))
    browser.perform_actions({**MOUSE_POINTER, "actions": [{"type": "pointerMove", "duration": 0, "x": 300, "y": 300}]})
    eventually(browser, "the tooltip disappears when the pointer leaves", GET_TOOLTIP, "")
    status_before = browser.script(GET_STATUS)
    browser.touch("#out", 900)
    eventually(browser, "a tooltip appears for a long touch", GET_TOOLTIP, re.compile("^Step out.* Shift\\+F11$"))
    verdict("a long touch does nothing else", browser.script(GET_STATUS), status_before)
    eventually(browser, "the tooltip disappears after the touch", GET_TOOLTIP, "")


GET_PRIMARY_BUTTONS = """
return [...document.querySelectorAll("#toolbar button")].filter((node) => isShown(node)
  && getComputedStyle(node).backgroundColor === getComputedStyle(document.getElementById("run")).backgroundColor).length"""
MEASURE_TOOLBAR = """
return [...document.querySelectorAll("#toolbar button")].filter((node) => isShown(node)).map((node) => {
  const { width, height } = node.getBoundingClientRect();
  return { id: node.id, name: node.getAttribute("aria-label") || node.textContent, icons: node.querySelectorAll("svg.icon").length,
    size: Math.min(width, height) };
})"""
IS_MENU_EXPANDED = "return document.getElementById('menu-button').getAttribute('aria-expanded')"


def check_toolbar(browser):
    """Checks that the toolbar is 44 pixels high, and that exactly one button is filled. Each button must have a name, a size of at least 24 pixels,
    and (except for TEST) an icon. Also checks the File menu by keyboard, and the theme menu."""
    verdict("the height of the toolbar", browser.script("return document.getElementById('toolbar').offsetHeight"), 44)
    toolbar = browser.script(MEASURE_TOOLBAR)
    verdict("the buttons without an icon", [tool["id"] for tool in toolbar if tool["icons"] == 0 and tool["id"] != "test"], [])
    verdict("the buttons without a name", [tool["id"] for tool in toolbar if not tool["name"].strip()], [])
    verdict("the buttons that are too small for a finger", [tool["id"] for tool in toolbar if tool["size"] < 24], [])
    verdict("the number of filled buttons", browser.script(GET_PRIMARY_BUTTONS), 1)
    browser.script("document.getElementById('menu-button').focus()")
    browser.type_keys([ENTER])
    eventually(browser, "Enter opens the File menu", IS_MENU_EXPANDED, "true")
    verdict("the first item of the menu has the focus", browser.script(GET_FOCUSED_ID), "open-button")
    roles_script = "return [...document.querySelectorAll('#menu button')].map((node) => node.getAttribute('role')).join(' ')"
    verdict("the roles of the menu's items", set(browser.script(roles_script).split()), {"menuitem"})
    browser.type_keys([UP])
    verdict("the Up arrow wraps around to the last item of the menu", browser.script(GET_FOCUSED_ID), "projects-button")
    browser.type_keys([ESCAPE])
    eventually(browser, "Escape closes the menu", IS_MENU_EXPANDED, "false")
    verdict("the focused element after the menu was closed", browser.script(GET_FOCUSED_ID), "menu-button")
    browser.script("document.activeElement.blur()")
    browser.click("#theme-button")
    checked_items_script = "return [...document.querySelectorAll('#theme-menu button')].map((node) => node.getAttribute('aria-checked'))"
    eventually(browser, "the theme menu marks the selected theme", checked_items_script, ["true", "false", "false"])
    browser.click("#front h2")
    verdict("a click outside closes the theme menu", browser.script("return document.getElementById('theme-menu').hidden"), True)
    browser.click("#front h2")


def check_accessibility(browser):
    """Checks that the palette, a menu and the welcome cards have names and enough contrast in both colour schemes."""
    browser.send_command("Accessibility.enable")
    open_palette(browser)
    check_view(browser, "the palette")
    browser.type_keys([ESCAPE])
    browser.click("#menu-button")
    check_view(browser, "the menu of files")
    browser.type_keys([ESCAPE])
    execute_command(browser, "first steps")
    check_view(browser, "the first steps")
    browser.type_keys([ESCAPE])
    browser.send_command("Accessibility.disable")


GET_WELCOME_CARDS = "return [...document.querySelectorAll('#welcome b')].map((node) => node.textContent)"
COUNT_LAMPS_ON = "return document.querySelectorAll('.bulb.lit').length"


def check_first_visit(browser, page):
    """Checks that there are six welcome cards, that the first card's tour turns a lamp on with three clicks, and that the cards do not appear at the
    next visit. Returns early in a browser that cannot list its databases."""
    browser.script("localStorage.clear()")
    browser.open("about:blank")
    browser.open(page.as_uri())
    eventually(browser, "the page is ready", IS_READY, True, 90)
    if browser.script("return indexedDB.databases === undefined"):
        return
    welcome_open_script = "return document.getElementById('welcome').open"
    if not browser.script(welcome_open_script):
        # If earlier checks have stored sessions, the page shows the cards only on command.
        execute_command(browser, "first steps")
    cards = browser.script(GET_WELCOME_CARDS)
    verdict("the number of welcome cards", len(cards), 6)
    verdict("the first welcome card", cards[0], "Light a lamp (3 clicks)")
    browser.click("#welcome li:nth-child(1) button")
    eventually(browser, "the tour of the first program is open", "return document.getElementById('tour').hidden", False)
    eventually(browser, "the tour points at the button that inserts its program", DESCRIBE_TOUR_RING, "tour-put")
    browser.click("#tour-put")
    eventually(browser, "the tour points at the button that assembles", DESCRIBE_TOUR_RING, "send")
    browser.click("#program-editor .send")
    eventually(browser, "a lamp is on after three clicks", COUNT_LAMPS_ON, 1)
    eventually(browser, "the tour points at the next step", DESCRIBE_TOUR_RING, "tour-next")
    for number in range(4):
        browser.script("document.getElementById('tour-next').click()")
    browser.click("#tour-put")
    eventually(browser, "the tour scrolls its target into view", IS_RAM_CELL_IN_RING, True)
    browser.click("#tour-close")
    eventually(browser, "the ring disappears with the tour", "return document.getElementById('tour-ring').hidden", True)
    browser.open("about:blank")
    browser.open(page.as_uri())
    wait_until_ready(browser)
    verdict("the welcome cards do not appear again", browser.script(welcome_open_script), False)


# Returns the id of the button in the middle of the tour's ring, or the button's class if it has no id. Returns "" if the ring is hidden or surrounds
# no button.
DESCRIBE_TOUR_RING = """
const ring = document.getElementById('tour-ring');
if (ring.hidden) return '';
const box = ring.getBoundingClientRect();
const within = document.elementFromPoint(box.left + box.width / 2, box.top + box.height / 2);
const button = within && within.closest('button');
return button ? button.id || button.className : ''"""
# Returns true if the tour's ring surrounds the first RAM cell, and this cell is in view.
IS_RAM_CELL_IN_RING = """
const ring = document.getElementById('tour-ring').getBoundingClientRect();
const cell = document.querySelector('#banks .ram button').getBoundingClientRect();
return Math.abs(ring.left + 4 - cell.left) < 2 && Math.abs(ring.top + 4 - cell.top) < 2 && cell.bottom <= innerHeight && cell.top >= 0"""
COUNT_EXAMPLES_WITHOUT_NOTE = "return [...document.querySelectorAll('#examples li .grow')].filter((node) => node.textContent.split('. ').length < 2).length"


IS_EMPTY_NOTE_SHOWN = "return isShown(document.querySelector('#watched-list + .empty'))"


def check_empty_panels(browser):
    """Checks that each empty panel has exactly one button. In the watch panel, the button must move the focus to the field, and the note must
    disappear when the panel has a value."""
    choose_example(browser, "three lamps")
    eventually(browser, "an empty watch panel shows its note", IS_EMPTY_NOTE_SHOWN, True)
    browser.click("#watched-list + .empty button")
    eventually(browser, "the button of the empty watch panel moves the focus to the field", GET_FOCUSED_ID, "watched-field")
    browser.type_into("#watched-field", "R5" + ENTER)
    eventually(browser, "the note disappears when the panel has a value", IS_EMPTY_NOTE_SHOWN, False)
    count_wrong_panels_script = "return [...document.querySelectorAll('.empty')].filter((node) => node.querySelectorAll('button').length !== 1).length"
    verdict("the number of empty panels without exactly one button", browser.script(count_wrong_panels_script), 0)


def check_examples(browser):
    """Checks that every example in the list has a note, and that "three lamps" is the first example."""
    browser.click("#sessions-button")
    eventually(browser, "the number of examples without a note", COUNT_EXAMPLES_WITHOUT_NOTE, 0)
    first_example_script = "return document.querySelector('#examples li:nth-child(2) button').getAttribute('aria-label')"
    verdict("the first example in the list", browser.script(first_example_script), "new session: three lamps")
    browser.click("#close-sessions")


def check(browser, page, _folder, _mcs4):
    reopen_page(browser, page)
    check_palette_contents(browser)
    check_listbox(browser)
    check_unavailable_command(browser)
    check_keys(browser)
    check_place_palette(browser)
    check_command_effects(browser)
    check_toolbar(browser)
    check_tooltips(browser)
    check_examples(browser)
    check_empty_panels(browser)
    if isinstance(browser, Chromium):
        check_theme(browser)
        check_accessibility(browser)
    check_first_visit(browser, page)
