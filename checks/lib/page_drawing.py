"""The part of checks/page about drawing a board by mouse, keyboard and touch: from an empty bench to four keys, four lamps and a running program.
Each action edits the board's text and can be undone like any edit. Also checks the zoom of the picture."""

import re
import time

from page_basics import (ENTER, ESCAPE, GET_NOTICE, GET_STATUS, GET_TEXT_OF_EDITOR, PUT_INTO_EDITOR, TAB, choose_example, move_focus_until, show_text,
                         wait_until_ready)
from verdicts import eventually, verdict

CONTROL, SHIFT, DELETE, LEFT, UP, RIGHT, DOWN = "\ue009", "\ue008", "\ue017", "\ue012", "\ue013", "\ue014", "\ue015"
BOARD_EDITOR = "#board-editor"
GET_DRAWING_STATUS = "return document.getElementById('drawing-status').textContent"
GET_DRAWING_STATE = "return document.getElementById('drawing-state').textContent"
GET_LAMP_STATES = "return [...document.querySelectorAll('#front .bulb')].map((bulb) => (bulb.classList.contains('lit') ? '*' : '.')).join('')"
COUNT_KEYS = "return document.querySelectorAll('#keys .key').length"
COUNT_HIGH_LINES = "return document.querySelectorAll('#wiring-picture .high').length"
# The label of the buzzer's sound button, or "" if there is none.
GET_SOUND_LABEL = "return document.getElementById('sound').hidden ? '' : document.getElementById('sound-button').textContent"
GET_FOCUSED_LABEL = "return document.activeElement.getAttribute('aria-label')"
GET_SELECTED_PART_TITLE = "return document.querySelector('#chosen > b').textContent"
GET_OFFERED_PINS = "return [...document.querySelectorAll('#wiring-picture .can-end')].map((node) => node.getAttribute('aria-label'))"
INSERT_SCAN_LABEL = "Insert code that scans these keys"
GET_PIN_NUMBERS = "return [...document.querySelectorAll('#wiring-picture [aria-label^=\"ROM 0\"] .number')].map((node) => node.textContent).join(' ')"
GET_SOURCE = "return document.querySelector('#program-editor .cm-editor').lineEditor.getValue()"
GET_DISABLED_BUTTONS = "return [...document.querySelectorAll('#shelf button:disabled')].map((node) => `${node.textContent}: ${node.title}`)"
GET_KEYS_POSITION = """
const box = document.querySelector("#wiring-picture .of-keys rect");
return [box.getAttribute("x"), box.getAttribute("y")].map(Number)"""
GET_CENTRE = "const box = document.querySelector(arguments[0]).getBoundingClientRect(); return [box.x + box.width / 2, box.y + box.height / 2]"
# The descriptions of the parts and wires in the picture.
GET_WIRING_LINES = "return [...document.querySelectorAll('#wiring-words li')].map((node) => node.textContent).join(' ')"
# A program that shows on the lamps which keys are down.
PROGRAM = """        FIM P0, 0x00    ; ROM 0 and RAM chip 0
        FIM P1, 0x10    ; ROM 1
        SRC P0
        LDM 3           ; data and clock up:
        WRR             ; bit 0 of the chain drives the row of the keys
read:   SRC P1
        RDR
        SRC P0
        WMP
        JUN read
"""
DRAWN_BOARD = """[[rom]]
chip = 0
port = "0000"

[[rom]]
chip = 1
port = "iiii"

[[chain]]
clock = "rom0.0"
data = "rom0.1"
chips = 1

[keys]
chain = 0
first = 0
rows = 1
columns = ["rom1.0", "rom1.1", "rom1.2", "rom1.3"]

[[ram]]
bank = 0
chips = 1

[[lamp]]
line = "ram0.0.0"

[[lamp]]
line = "ram0.0.1"

[[lamp]]
line = "ram0.0.2"

[[lamp]]
line = "ram0.0.3"
"""


def pin_selector(label):
    """Returns the selector of the picture's pin whose label begins with `label`."""
    return f"#wiring-picture .at-pin[aria-label^='{label}']"


def board_text(browser):
    """Returns the text in the board's editor."""
    return browser.script(GET_TEXT_OF_EDITOR, BOARD_EDITOR)


def drag(browser, from_selector, target, kind="mouse"):
    """Drags from the centre of one element to the centre of another, or by a distance in pixels. `kind` is the kind of pointer: mouse or touch."""
    browser.scroll_to("#wiring-picture")
    time.sleep(browser.settle_seconds)
    start = browser.script(GET_CENTRE, from_selector)
    end = browser.script(GET_CENTRE, target) if isinstance(target, str) else [start[0] + target[0], start[1] + target[1]]
    points = [[round(start[axis] + fraction * (end[axis] - start[axis])) for axis in (0, 1)] for fraction in (0, 0.5, 1)]
    first_move, *other_moves = [{"type": "pointerMove", "duration": 80, "x": x, "y": y} for x, y in points]
    browser.perform_actions({"type": "pointer", "id": f"drawing {kind}", "parameters": {"pointerType": kind}, "actions": [
        first_move, {"type": "pointerDown", "button": 0}, *other_moves, {"type": "pointerUp", "button": 0}]})


def click_centre(browser, selector):
    """Clicks at the centre of an element. (A driver's click fails if another element covers the centre.)"""
    drag(browser, selector, (0, 0))


def check_drawing_by_mouse(browser):
    """Checks that a user can draw a board on an empty bench, without writing TOML, and run a program on it."""
    choose_example(browser, "empty bench")
    browser.click("#first-drawing")
    eventually(browser, "the button of an empty bench shows the shelf", "return isShown(document.getElementById('shelf'))", True)
    eventually(browser, "all parts of the shelf are enabled", GET_DISABLED_BUTTONS, [])
    browser.click("#shelf-keys")
    eventually(browser, "keys are added with the parts that they need", GET_DRAWING_STATUS, "The keys were added, with ROM 0, chain 0 and ROM 1.")
    for lamp in range(4):
        browser.click("#shelf-lamp")
        eventually(browser, f"lamp {lamp} is added", GET_DRAWING_STATUS, re.compile(f"^Lamp {lamp} was added"))
    verdict("the text of the drawn board", board_text(browser), DRAWN_BOARD)
    verdict("the shelf disables a second key matrix, with the reason", browser.script(GET_DISABLED_BUTTONS),
            ["Keys: A board has one key matrix: give it more rows and columns."])
    verdict("the picture reports that the board is not applied yet", browser.script(GET_DRAWING_STATE), re.compile("^Not applied yet"))
    browser.type_into("#chosen [aria-label=name]", "fourth one" + ENTER)
    eventually(browser, "the lamp has a new name", GET_DRAWING_STATUS, "Lamp 3 is called fourth one.")
    browser.type_into("#chosen [aria-label=colour]", "green")
    eventually(browser, "the lamp has a colour", GET_DRAWING_STATUS, "Lamp 3 is green.")
    verdict("the comments of the front panel have the name and the colour", board_text(browser).split("\n")[:3], ["# lamp 3: fourth_one", "# colour 3: green", ""])
    browser.click("#drawing-wire")
    eventually(browser, "the drawn board is applied", GET_DRAWING_STATUS, "Board applied.")
    eventually(browser, "the number of keys", COUNT_KEYS, 4)
    eventually(browser, "the lamps of the applied board", GET_LAMP_STATES, "....")
    verdict("the note that the board is not applied is gone", browser.script(GET_DRAWING_STATE), "")
    show_text(browser, "program")
    browser.script(PUT_INTO_EDITOR, "#program-editor", PROGRAM)
    browser.click("#program-editor .send")
    eventually(browser, "the program is running", GET_STATUS, re.compile("^Running"))
    time.sleep(0.3)
    browser.script("window.seen = new Set(); new MutationObserver(() => window.seen.add([...document.querySelectorAll('#front .bulb')]"
                   ".map((bulb) => (bulb.classList.contains('lit') ? '*' : '.')).join(''))).observe(document.getElementById('lamps'),"
                   " { subtree: true, attributes: true })")
    browser.type_keys(["3"], 400)
    eventually(browser, "a key turns its lamp on", "return [...window.seen].join(' ')", re.compile(r"\.\.\*\."))


def check_wires(browser):
    """Checks that wires can be drawn by dragging and by clicks, and undone, and that impossible wires are not drawn."""
    choose_example(browser, "lock")
    show_text(browser, "wiring")
    text_before = board_text(browser)
    eventually(browser, "the lines at 1 are coloured", "return document.querySelectorAll('#wiring-picture .high').length > 0", True)
    drag(browser, f"{pin_selector('ROM 0 · 4001, out 2')} circle", f"{pin_selector('Lamps · 3, open')} circle")
    eventually(browser, "dragging from pin to pin draws a wire", GET_DRAWING_STATUS, "Line rom0.2 is wired to lamp 1.")
    verdict("the wire changes one word of the text", board_text(browser), text_before.replace('"ram0.0.1"', '"rom0.2"'))
    eventually(browser, "the picture has the wire", GET_WIRING_LINES, re.compile("open is at rom0.2"))
    verdict("the picture of a board that is not applied shows no levels", browser.script(COUNT_HIGH_LINES) <= 1, True)
    drag(browser, f"{pin_selector('ROM 1 · 4001, in 0')} circle", f"{pin_selector('Chain 0 · 1 × 4003, clock')} circle")
    eventually(browser, "no wire is drawn from an input to a clock", GET_DRAWING_STATUS, "No wire was drawn.")
    click_centre(browser, f"{pin_selector('ROM 1 · 4001, in 0')} circle")
    eventually(browser, "the pins at which a wire from an input can end", GET_OFFERED_PINS, ["Keys · 4 × 3, column 1, at rom1.1", "Keys · 4 × 3, column 2, at rom1.2"])
    click_centre(browser, f"{pin_selector('Keys · 4 × 3, column 2')} circle")
    eventually(browser, "two clicks draw a wire", GET_DRAWING_STATUS, "Line rom1.0 is wired to column 2 of the keys.")
    browser.click("#drawing-undo")
    eventually(browser, "Undo removes the last wire", GET_DRAWING_STATUS, "Undone.")
    browser.click("#drawing-undo")
    eventually(browser, "Undo removes the wire before it", GET_WIRING_LINES, re.compile("open is at ram0.0.1"))
    verdict("the text is the same as before the wires", board_text(browser), text_before)
    browser.click("#drawing-redo")
    eventually(browser, "Redo restores the wire", GET_WIRING_LINES, re.compile("open is at rom0.2"))
    browser.click("#shelf-ram")
    eventually(browser, "a click on the shelf adds a RAM chip", GET_WIRING_LINES, re.compile("RAM 0.1"))
    browser.press_chord(CONTROL, "z")
    eventually(browser, "Ctrl+Z removes the RAM chip", GET_DRAWING_STATUS, "Undone.")
    verdict("the wire is still there after Ctrl+Z", browser.script(GET_WIRING_LINES), re.compile("open is at rom0.2"))
    check_moving_part(browser)
    check_chain_keeps_its_position(browser)


def check_buzzer(browser):
    """Checks that a buzzer can be added, wired, named, deleted, and restored by undo. It can also be wired by keyboard and by touch."""
    choose_example(browser, "empty bench")
    show_text(browser, "wiring")
    verdict("a board without a buzzer has no sound button", browser.script(GET_SOUND_LABEL), "")
    browser.click("#shelf-buzzer")
    eventually(browser, "the buzzer is added with the parts that it needs", GET_DRAWING_STATUS, "The buzzer was added, with ROM 0.")
    verdict("the comment of the buzzer in the text", board_text(browser).split("\n")[0], "# buzzer rom0.0: buzzer")
    verdict("the shelf disables a second buzzer, with the reason", browser.script(GET_DISABLED_BUTTONS), ["Buzzer: A board can have only one buzzer: delete the present one first."])
    drag(browser, f"{pin_selector('ROM 0 · 4001, out 3')} circle", f"{pin_selector('Buzzer, buzzer')} circle")
    eventually(browser, "dragging draws a wire to the buzzer", GET_DRAWING_STATUS, "Line rom0.3 is wired to the buzzer.")
    eventually(browser, "the picture has the wire to the buzzer", GET_WIRING_LINES, re.compile("buzzer sounds at each edge of rom0.3"))
    browser.script("const name = document.querySelector('#chosen [aria-label=name]'); name.focus(); name.select()")
    browser.type_keys([*"the horn", ENTER], 10, 10)
    eventually(browser, "the buzzer has a new name", GET_DRAWING_STATUS, "The buzzer is called the horn.")
    verdict("the comment of the buzzer has the new name", board_text(browser).split("\n")[0], "# buzzer rom0.3: the horn")
    browser.click("#drawing-wire")
    eventually(browser, "the sound button of the applied board", GET_SOUND_LABEL, "Sound of the horn")
    browser.wait_until(GET_DRAWING_STATUS, "Board applied.")
    browser.script("document.querySelector('#wiring-picture .of-buzzer').focus()")
    browser.type_keys([DELETE])
    eventually(browser, "the Delete key deletes the buzzer", GET_DRAWING_STATUS, "The buzzer was deleted.")
    browser.press_chord(CONTROL, "z")
    eventually(browser, "Ctrl+Z restores the buzzer", GET_WIRING_LINES, re.compile("the horn sounds at each edge of rom0.3"))
    browser.script("document.querySelector(arguments[0]).focus()", pin_selector("Buzzer, the horn"))
    browser.type_keys([ENTER])
    eventually(browser, "Enter begins a wire at the buzzer", GET_DRAWING_STATUS, "Wire from the buzzer: it can end at 3 pins.")
    browser.type_keys([UP, ENTER])
    eventually(browser, "Enter ends the wire at another line", GET_DRAWING_STATUS, "Line rom0.2 is wired to the buzzer.")
    if browser.can_multitouch:
        browser.touch_together([f"{pin_selector('ROM 0 · 4001, out 1')} circle"], 60)
        browser.touch_together([f"{pin_selector('Buzzer, the horn')} circle"], 60)
        eventually(browser, "touches draw a wire to the buzzer", GET_DRAWING_STATUS, "Line rom0.1 is wired to the buzzer.")


def check_moving_part(browser):
    """Checks that a part can be dragged to another position, that a reload keeps this position, and that Tidy restores the old one."""
    position_before = browser.script(GET_KEYS_POSITION)
    drag(browser, "#wiring-picture .of-keys .title", (-30, 90))
    eventually(browser, "a part moves when it is dragged", f"{GET_KEYS_POSITION}[1] > {position_before[1] + 40}", True)
    new_position = browser.script(GET_KEYS_POSITION)
    time.sleep(1)
    browser.reload()
    wait_until_ready(browser)
    eventually(browser, "a reload keeps the position of the part", GET_KEYS_POSITION, new_position)
    browser.click("#drawing-tidy")
    eventually(browser, "Tidy moves the part back", GET_KEYS_POSITION, position_before)


def check_chain_keeps_its_position(browser):
    """Checks that deleting a chain leaves the later chain at its position in the picture."""
    choose_example(browser, "calculator")
    show_text(browser, "wiring")
    eventually(browser, "the calculator has two chains", GET_WIRING_LINES, re.compile("Chain 0 .*Chain 1 "))
    chain_positions_script = "return [...document.querySelectorAll('#wiring-picture .of-chain rect')].map((box) => Number(box.getAttribute('y')))"
    first_position, second_position = browser.script(chain_positions_script)
    browser.script("document.querySelectorAll('#wiring-picture .of-chain')[1].focus()")
    for _ in range(5):
        browser.press_chord(SHIFT, DOWN)
    eventually(browser, "Shift and the Down arrow move the second chain", f"{chain_positions_script}[1] > {second_position}", True)
    _, moved_position = browser.script(chain_positions_script)
    browser.script("document.querySelector('#wiring-picture .of-chain').focus()")
    browser.type_keys([DELETE])
    eventually(browser, "the first chain is deleted", GET_DRAWING_STATUS, re.compile("^Chain 0 was deleted"))
    eventually(browser, "the second chain keeps its position", chain_positions_script, [moved_position])
    browser.click("#drawing-undo")
    eventually(browser, "the positions of both chains after Undo", chain_positions_script, [first_position, moved_position])


def check_drawing_by_keyboard(browser):
    """Checks that the keyboard alone suffices to add a part, begin and end a wire, delete, and undo."""
    choose_example(browser, "lock")
    browser.script("document.getElementById('wiring-tab').click(); document.getElementById('wiring-tab').focus()")
    text_before = board_text(browser)
    verdict("the Tab key reaches the shelf", move_focus_until(browser, TAB, "e.id === 'shelf-lamp'", 14), True)
    browser.type_keys([ENTER])
    eventually(browser, "Enter adds a lamp", GET_DRAWING_STATUS, "Lamp 3 was added.")
    verdict("the Tab key reaches the picture", move_focus_until(browser, TAB, "e.closest('#wiring-picture') !== null", 20), True)
    eventually(browser, "the focus is at the new lamp", GET_FOCUSED_LABEL, re.compile("^Lamps · 4, lamp 3"))
    browser.type_keys([UP, UP, UP, UP])
    eventually(browser, "the Up arrow moves the focus from the pin to the part", GET_FOCUSED_LABEL, re.compile("^Lamps · 4: locked is at"))
    browser.type_keys([LEFT, LEFT, LEFT])
    eventually(browser, "the Left arrow moves the focus from part to part", GET_FOCUSED_LABEL, re.compile("^RAM 0.0 · 4002: line"))
    browser.type_keys([RIGHT])
    eventually(browser, "the Right arrow moves the focus back", GET_FOCUSED_LABEL, re.compile("^Chain 0"))
    browser.type_keys([DOWN])
    eventually(browser, "the Down arrow moves the focus to the clock", GET_FOCUSED_LABEL, re.compile("clock, at rom0.0$"))
    browser.type_keys([ENTER])
    eventually(browser, "Enter begins a wire", GET_DRAWING_STATUS, re.compile("^Wire from the clock of chain 0: it can end at 8 pins"))
    browser.type_keys([UP])
    eventually(browser, "the Up arrow moves the focus to the next pin at which the wire can end", GET_FOCUSED_LABEL, "RAM 0.0 · 4002, out 3, wired to lamp 3")
    browser.type_keys([ENTER])
    eventually(browser, "Enter ends the wire", GET_DRAWING_STATUS, "Line ram0.0.3 is wired to the clock of chain 0.")
    eventually(browser, "the pin keeps the focus", GET_FOCUSED_LABEL, "RAM 0.0 · 4002, out 3, wired to clock 0 and lamp 3")
    browser.type_keys([ENTER])
    eventually(browser, "Enter begins another wire", GET_DRAWING_STATUS, re.compile("^Wire from"))
    browser.type_keys([ESCAPE])
    eventually(browser, "Escape cancels the wire", GET_DRAWING_STATUS, "No wire was drawn.")
    browser.type_keys([DELETE])
    eventually(browser, "a line cannot be deleted without its chip", GET_DRAWING_STATUS, re.compile("is deleted only with its chip"))
    browser.press_chord(CONTROL, "z")
    eventually(browser, "Ctrl+Z removes the wire", GET_DRAWING_STATUS, "Undone.")
    browser.press_chord(CONTROL, "z")
    eventually(browser, "Ctrl+Z removes the lamp", GET_WIRING_LINES, re.compile("Lamps · 3"))
    verdict("the text is the same as before", board_text(browser), text_before)
    browser.script("document.querySelector('#wiring-picture .of-chain').focus()")
    browser.type_keys([DELETE])
    eventually(browser, "deleting a chain also deletes the keys that need it", GET_DRAWING_STATUS, "Chain 0 was deleted, and with it the keys.")
    browser.press_chord(CONTROL, "z")
    eventually(browser, "Ctrl+Z also restores the keys", GET_WIRING_LINES, re.compile("Keys · 4 × 3"))
    verdict("the text is unchanged after Ctrl+Z", board_text(browser), text_before)


GET_PICTURE_WIDTH = "return Math.round(document.querySelector('#wiring-picture svg').getBoundingClientRect().width)"
GET_ZOOM_BOUNDS = "return ['picture-smaller', 'picture-larger'].map((id) => document.getElementById(id).getAttribute('aria-disabled'))"
IS_WHOLE_PICTURE_IN_VIEW = """
const root = document.getElementById("wiring-picture");
return root.scrollWidth <= root.clientWidth && root.scrollHeight <= root.clientHeight"""
TURN_WHEEL = """
const picture = document.getElementById("wiring-picture");
const { left, top } = picture.getBoundingClientRect();
const turn = { ctrlKey: arguments[1], deltaY: arguments[0], clientX: left + 50, clientY: top + 40, bubbles: true, cancelable: true };
return picture.dispatchEvent(new WheelEvent("wheel", turn))"""
# The class of the part that the picture shows at a point, or null if there is no part. The point is in pixels from the panel's upper left corner.
GET_PART_AT_POINT = """
const { left, top } = document.getElementById("wiring-picture").getBoundingClientRect();
const found = document.elementFromPoint(left + arguments[0], top + arguments[1]).closest(".part");
return found && found.getAttribute("class")"""


def check_zoom(browser):
    """Checks that buttons, keys and the wheel zoom the picture, that the wheel keeps the point under the pointer in place, and that wires can still
    be drawn."""
    choose_example(browser, "lock")
    browser.script("document.getElementById('wiring-tab').click()")
    browser.scroll_to("#wiring-picture")
    width_before = browser.script(GET_PICTURE_WIDTH)
    browser.click("#picture-larger")
    verdict("a button enlarges the picture", abs(browser.script(GET_PICTURE_WIDTH) - width_before * 1.25) <= 1, True)
    for _ in range(30):
        browser.click("#picture-larger")
    largest_width = browser.script(GET_PICTURE_WIDTH)
    browser.click("#picture-larger")
    verdict("the picture has a maximum size", (browser.script(GET_PICTURE_WIDTH), largest_width > width_before * 2), (largest_width, True))
    verdict("the button for a larger picture is disabled", browser.script(GET_ZOOM_BOUNDS), ["false", "true"])
    browser.click("#picture-fit")
    verdict("Fit restores the width of the picture", browser.script(GET_PICTURE_WIDTH), width_before)
    browser.script("document.querySelector('#wiring-picture .of-rom').focus()")
    browser.type_keys("--")
    verdict("two presses of - reduce the picture", abs(browser.script(GET_PICTURE_WIDTH) - width_before / 1.25 ** 2) <= 1, True)
    drag(browser, f"{pin_selector('RAM 0.0 · 4002, out 3')} circle", f"{pin_selector('Lamps · 3, alarm')} circle")
    eventually(browser, "a wire can be drawn in the smaller picture", GET_DRAWING_STATUS, "Line ram0.0.3 is wired to lamp 2.")
    browser.click("#drawing-undo")
    eventually(browser, "the wire is undone", GET_DRAWING_STATUS, "Undone.")
    browser.script("document.querySelector('#wiring-picture .of-rom').focus()")
    browser.type_keys("-" * 20, 2, 2)
    smallest_width = browser.script(GET_PICTURE_WIDTH)
    browser.type_keys("-", 2, 2)
    verdict("the picture has a minimum size, at which the button is disabled", (browser.script(GET_PICTURE_WIDTH), browser.script(GET_ZOOM_BOUNDS)), (smallest_width, ["true", "false"]))
    verdict("the smallest picture is completely visible, and readable", (browser.script(IS_WHOLE_PICTURE_IN_VIEW), smallest_width >= width_before / 3), (True, True))
    browser.script("document.getElementById('picture-smaller').focus()")
    browser.type_keys([ENTER])
    verdict("the disabled button does not change the picture, and keeps the focus", (browser.script(GET_PICTURE_WIDTH), browser.script("return document.activeElement.id")),
            (smallest_width, "picture-smaller"))
    browser.script("document.querySelector('#wiring-picture .of-rom').focus()")
    browser.type_keys("+" * 20, 2, 2)
    verdict("+ enlarges the picture to the maximum size", browser.script(GET_PICTURE_WIDTH), largest_width)
    browser.type_keys("0")
    verdict("0 restores the width of the picture", browser.script(GET_PICTURE_WIDTH), width_before)
    browser.script("document.getElementById('picture-fit').click()")
    part_under_pointer = browser.script(GET_PART_AT_POINT, 50, 40)
    verdict("the wheel scrolls the page", browser.script(TURN_WHEEL, -100, False), True)
    verdict("Ctrl and the wheel do not zoom the page", browser.script(TURN_WHEEL, -100, True), False)
    verdict("Ctrl and the wheel zoom the picture at the pointer", (browser.script(GET_PICTURE_WIDTH) > width_before, browser.script(GET_PART_AT_POINT, 50, 40)), (True, part_under_pointer))
    browser.click("#picture-fit")


def check_wire_by_touch(browser):
    """Checks that touching one pin and then another draws a wire."""
    browser.touch_together([f"{pin_selector('RAM 0.0 · 4002, out 3')} circle"], 60)
    eventually(browser, "a touch begins a wire", GET_DRAWING_STATUS, re.compile("^Wire from line ram0.0.3"))
    browser.touch_together([f"{pin_selector('Lamps · 3, alarm')} circle"], 60)
    eventually(browser, "another touch ends the wire", GET_DRAWING_STATUS, "Line ram0.0.3 is wired to lamp 2.")
    browser.touch_together(["#drawing-undo"], 60)
    eventually(browser, "a touch of Undo removes the wire", GET_DRAWING_STATUS, "Undone.")


# GET_POINT_ON_SHEET converts a point of the window to coordinates of the drawing. GET_HEADING_CENTRE returns the centre of a part's heading in the
# drawing's coordinates.
GET_POINT_ON_SHEET = """
const [x, y] = arguments;
const at = new DOMPoint(x, y).matrixTransform(document.querySelector("#wiring-picture svg").getScreenCTM().inverse());
return [at.x, at.y]"""
GET_HEADING_CENTRE = """
const box = document.querySelector(`#wiring-picture .part[aria-label^='${arguments[0]}'] rect`);
if (!box) return null;
const [x, y, width] = ["x", "y", "width"].map((name) => Number(box.getAttribute(name)));
return [x + width / 2, y + 13]"""
GET_SHEET_CORNER = "const { left, top } = document.getElementById('wiring-picture').getBoundingClientRect(); return [Math.round(left), Math.round(top)]"


def drag_from_shelf(browser, part, target, kind="mouse", key=""):
    """Drags a part from the shelf to a point of the window. `kind` is the kind of pointer: mouse or touch. If `key` is not empty, presses this key
    before the drop."""
    start = [round(axis) for axis in browser.script(GET_CENTRE, f"#shelf-{part}")]
    points = [[round(start[axis] + fraction * (target[axis] - start[axis])) for axis in (0, 1)] for fraction in (0, 0.3, 0.7, 1)]
    first_move, *other_moves = [{"type": "pointerMove", "duration": 60, "x": x, "y": y} for x, y in points]
    pause = {"type": "pause", "duration": 60}
    key_actions = [{"type": "key", "id": "while dragged", "actions": [
        *[pause] * 5, {"type": "keyDown", "value": key}, {"type": "keyUp", "value": key}]}] if key else []
    browser.perform_actions({"type": "pointer", "id": f"shelf {kind}", "parameters": {"pointerType": kind}, "actions": [
        first_move, {"type": "pointerDown", "button": 0}, *other_moves, *[pause] * (4 if key else 0), {"type": "pointerUp", "button": 0}]}, *key_actions)


def is_near(point, expected):
    """Returns true if each coordinate of a point differs by less than 2 from the expected coordinate. Returns false if the point is None."""
    return point is not None and all(abs(coordinate - expected_coordinate) < 2 for coordinate, expected_coordinate in zip(point, expected))


def check_drag_from_shelf(browser, kind):
    """Checks that a part dragged from the shelf is added where it is dropped, and is wired if it is dropped on a pin. A part that is dropped outside
    the sheet must not be added."""
    choose_example(browser, "empty bench")
    show_text(browser, "wiring")
    eventually(browser, "all parts of the shelf are enabled", GET_DISABLED_BUTTONS, [])
    left, top = browser.script(GET_SHEET_CORNER)
    target = [left + 330, top + 20]
    expected = browser.script(GET_POINT_ON_SHEET, *target)
    drag_from_shelf(browser, "rom", target, kind)
    eventually(browser, f"dragging with the {kind} adds a chip", GET_DRAWING_STATUS, "ROM 0 was added.")
    verdict("the chip is at the point where it was dropped", is_near(browser.script(GET_HEADING_CENTRE, "ROM 0"), expected), True)
    verdict("the text has one chip", board_text(browser), '[[rom]]\nchip = 0\nport = "0000"\n')
    drag_from_shelf(browser, "lamp", [round(coordinate) for coordinate in browser.script(GET_CENTRE, f"{pin_selector('ROM 0 · 4001, out 3')} circle")], kind)
    eventually(browser, "a lamp that is dropped on a pin is wired to it", GET_WIRING_LINES, re.compile("lamp 0 is at rom0.3"))
    browser.click("#drawing-undo")
    eventually(browser, "one step undoes the lamp", GET_DRAWING_STATUS, "Undone.")
    verdict("the text still has the chip", board_text(browser), '[[rom]]\nchip = 0\nport = "0000"\n')
    if kind == "mouse":
        drag_from_shelf(browser, "ram", target, kind, ESCAPE)
        verdict("Escape cancels the drag", "ram" in board_text(browser), False)
    left, top = (round(coordinate) for coordinate in browser.script(GET_CENTRE, "#text-tabs"))
    drag_from_shelf(browser, "ram", [left, top], kind)
    verdict("a part that is dropped outside the sheet is not added", "ram" in board_text(browser), False)
    browser.click("#shelf-ram")
    eventually(browser, "a click on the shelf adds a part", GET_DRAWING_STATUS, "RAM 0.0 was added.")


def check_shelf(browser):
    """Checks that a part dragged from the shelf by mouse or touch is added where it is dropped, and that the keyboard can also add a part."""
    for kind in ("mouse", "touch") if browser.can_multitouch else ("mouse",):
        check_drag_from_shelf(browser, kind)
    browser.script("document.getElementById('shelf-chain').focus()")
    browser.press_chord(SHIFT, ENTER)
    eventually(browser, "Shift+Enter adds a part", GET_DRAWING_STATUS, re.compile("^Chain 0 was added"))
    eventually(browser, "the new part has the focus", GET_FOCUSED_LABEL, re.compile("^Chain 0"))
    position_before = browser.script(GET_HEADING_CENTRE, "Chain 0")
    browser.press_chord(SHIFT, DOWN)
    eventually(browser, "Shift and the Down arrow move the new part", f"return ((...arguments) => {{{GET_HEADING_CENTRE}}})('Chain 0')[1] > {position_before[1] + 6}", True)


def check_scan_at_caret(browser):
    """Checks that the routine that scans the keys is inserted after the caret's line if the caret is in the source, and that one undo removes it."""
    choose_example(browser, "lock")
    source = browser.script(GET_SOURCE)
    show_text(browser, "program")
    browser.script("document.querySelector('#program-editor .cm-editor').lineEditor.setCursor({ line: 1, ch: 0 })")
    browser.click("#program-editor .cm-line:nth-child(2)")
    show_text(browser, "wiring")
    browser.click("#wiring-picture .of-keys text")
    browser.click(f"#chosen [aria-label='{INSERT_SCAN_LABEL}']")
    eventually(browser, "the routine is inserted below the caret's line", "return document.querySelector('#program-editor .status-text').textContent",
               "A routine that scans the keys is at line 4 of the source.")
    lines = browser.script(GET_SOURCE).split("\n")
    verdict("the lines before and after the routine", lines[:3] + lines[-9:], [*source.split("\n")[:2], "", *source.split("\n")[-9:]])
    browser.press_chord(CONTROL, "z")
    eventually(browser, "one Undo removes the routine", GET_SOURCE, source)


def check_scan(browser):
    """Checks that the page inserts a routine that scans a newly drawn key matrix, and that the program assembles and runs. A second routine must
    have other labels."""
    choose_example(browser, "empty bench")
    show_text(browser, "wiring")
    browser.click("#shelf-keys")
    eventually(browser, "the new keys are selected", GET_SELECTED_PART_TITLE, re.compile("^Keys"))
    verdict("the pin numbers of the chips", browser.script(GET_PIN_NUMBERS), "16 15 14 13")
    browser.click("#drawing-wire")
    eventually(browser, "the number of keys on the front panel", COUNT_KEYS, 4)
    browser.click(f"#chosen [aria-label='{INSERT_SCAN_LABEL}']")
    eventually(browser, "the routine is at the end of the source", "return document.querySelector('#program-editor .status-text').textContent",
               "A routine that scans the keys is at the end of the source.")
    source = browser.script(GET_TEXT_OF_EDITOR, "#program-editor")
    verdict("the source begins with a program that calls the routine", source.startswith("start:      JMS keys_scan"), True)
    browser.click("#program-editor .send")
    eventually(browser, "the program assembles and runs", GET_STATUS, re.compile("^Running"))
    click_centre(browser, "#keys .key:nth-child(3)")
    show_text(browser, "wiring")
    browser.click("#wiring-picture .of-keys text")
    browser.click(f"#chosen [aria-label='{INSERT_SCAN_LABEL}']")
    eventually(browser, "a second routine has other labels", GET_SOURCE, re.compile("^keys1_scan:", re.M))
    verdict("the second routine is below the first one", browser.script(GET_SOURCE).startswith(source.rstrip()), True)


def check_text_with_errors(browser):
    """Checks that the picture reports errors in the board's text, and that the report disappears when the errors are corrected. A title that is typed
    in the text must appear in the picture."""
    text = board_text(browser)
    browser.script(PUT_INTO_EDITOR, BOARD_EDITOR, f"{text}\n[[lamp]]\n")
    eventually(browser, "the picture reports that the bench rejects the text", GET_DRAWING_STATE, re.compile("^The bench rejects the board's text"))
    verdict("the number of disabled buttons", len(browser.script(GET_DISABLED_BUTTONS)), 12)
    browser.script(PUT_INTO_EDITOR, BOARD_EDITOR, text.replace("# title: Lock", "# title: Other"))
    eventually(browser, "the report is gone when the text has no errors", GET_DRAWING_STATE, "")
    browser.script("document.querySelector('#wiring-picture [tabindex=\"0\"]').focus()")
    browser.type_keys([ESCAPE])
    eventually(browser, "the picture shows a title that is typed in the text", "const field = document.querySelector('#chosen [aria-label=title]'); return field && field.value",
               "Other")


def check_other_boards(browser):
    """Checks that the picture shows the board of each session that the user opens, even if it has more or fewer chips."""
    for example, part in (("calculator", "ROM 3 · 4001"), ("die", "ROM 0 · 4001"), ("calculator", "ROM 3 · 4001"), ("lock", "Keys · 4 × 3")):
        choose_example(browser, example)
        verdict(f"{example} is opened", "No session was created" in browser.script(GET_NOTICE), False)
        eventually(browser, f"the picture shows the board of {example}", GET_WIRING_LINES, re.compile(part))


def check(browser, page, _folder, _mcs4):
    browser.open(page.as_uri())
    wait_until_ready(browser)
    check_drawing_by_mouse(browser)
    check_buzzer(browser)
    check_wires(browser)
    check_drawing_by_keyboard(browser)
    check_zoom(browser)
    if browser.can_multitouch:
        check_wire_by_touch(browser)
    check_text_with_errors(browser)
    check_other_boards(browser)
    check_shelf(browser)
    check_scan(browser)
    check_scan_at_caret(browser)
