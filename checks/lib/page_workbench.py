"""The part of checks/page about the layout of panels. Splitters move by mouse, touch and keyboard. Panels can be closed, reopened and maximised. The
page remembers the layout, and can reset it. The check also covers what a new user sees, and the number of clicks that a new user needs."""

import re

from page_basics import ENTER, ESCAPE, GET_STATUS, choose_example, reopen_page, show_text, pause_running_time, wait_until_ready
from verdicts import eventually, verdict

HOME, UP, RIGHT, LEFT, F1 = "\ue011", "\ue013", "\ue014", "\ue012", "\ue031"
END, BACKSPACE, CONTROL = "\ue010", "\ue003", "\ue009"
GET_DRAWING_STATUS = "return document.getElementById('drawing-status').textContent"
GET_SOURCE = "return document.querySelector('#program-editor .cm-editor').lineEditor.getValue()"
GET_TESTS = "return document.querySelector('#tests-editor .cm-editor').lineEditor.getValue()"
MEASURE_PANEL = """
const { width, height } = document.getElementById(arguments[0]).getBoundingClientRect();
return Math.round(arguments[1] === "vertical" ? width : height)"""
GET_CENTRE = """
const box = document.getElementById(arguments[0]).getBoundingClientRect();
return [Math.round(box.x + box.width / 2), Math.round(box.y + box.height / 2)]"""
FIND_SHOWN = "return arguments[0].filter((id) => isShown(document.getElementById(id)))"
PANELS = ["front", "texts", "dock", "processor", "calls", "watched", "breakpoints", "memory", "ports", "history"]
# Each splitter with the panel that it resizes, its direction, and the pointer movement that enlarges the panel.
SPLITTERS = (("front-splitter", "front", "vertical", (40, 0)), ("side-splitter", "side", "vertical", (-40, 0)),
           ("dock-splitter", "dock", "horizontal", (0, -40)), ("calls-splitter", "calls", "horizontal", (0, 40)))


def drag_splitter(browser, splitter, distance, kind):
    """Drags a splitter by a distance in pixels. `kind` is the kind of pointer: mouse or touch."""
    x, y = browser.script(GET_CENTRE, splitter)
    steps = [{"type": "pointerMove", "duration": 20, "x": x + distance[0] * quarter // 4, "y": y + distance[1] * quarter // 4} for quarter in range(1, 5)]
    browser.perform_actions({"type": "pointer", "id": f"drag-{kind}", "parameters": {"pointerType": kind}, "actions": [
        {"type": "pointerMove", "duration": 0, "x": x, "y": y}, {"type": "pointerDown", "button": 0}, *steps, {"type": "pointerUp", "button": 0}]})


def check_splitters(browser):
    """Checks that each splitter resizes its panel by mouse, touch and keyboard, that a reload keeps the size, and that Home restores the default
    size."""
    for splitter, panel, direction, distance in SPLITTERS:
        size_before = browser.script(MEASURE_PANEL, panel, direction)
        for kind in ("mouse", "touch") if browser.can_multitouch else ("mouse",):
            drag_splitter(browser, splitter, distance, kind)
            verdict(f"{splitter}: dragging with the {kind} enlarges {panel}", browser.script(MEASURE_PANEL, panel, direction), size_before + 40)
            drag_splitter(browser, splitter, tuple(-coordinate for coordinate in distance), kind)
            verdict(f"{splitter}: dragging back restores the size", browser.script(MEASURE_PANEL, panel, direction), size_before)
        browser.script("document.getElementById(arguments[0]).focus()", splitter)
        enlarging_key = {"front": RIGHT, "side": LEFT, "dock": UP, "calls": "\ue015"}[panel]
        browser.type_keys([enlarging_key, enlarging_key])
        verdict(f"{splitter}: the arrow keys enlarge the panel", browser.script(MEASURE_PANEL, panel, direction), size_before + 40)
        verdict(f"{splitter}: its value is the size", browser.script("return document.activeElement.getAttribute('aria-valuenow')"), str(size_before + 40))
        browser.reload()
        wait_until_ready(browser)
        verdict(f"{splitter}: a reload keeps the size", browser.script(MEASURE_PANEL, panel, direction), size_before + 40)
        browser.script("document.getElementById(arguments[0]).focus()", splitter)
        browser.type_keys([HOME])
        verdict(f"{splitter}: Home restores the default size", browser.script(MEASURE_PANEL, panel, direction), size_before)


def click_in_panel_menu(browser, panel, selector):
    """Clicks a panel's checkbox in the panel menu, or its button for full size."""
    browser.click("#view-button")
    browser.script("document.querySelectorAll(`#view-menu li`)[arguments[0]].querySelector(arguments[1]).click()", PANELS.index(panel), selector)
    browser.type_keys([ESCAPE])


def check_panels(browser):
    """Checks that each panel can be closed, reopened and maximised, and that a closed panel is still closed after a reload."""
    verdict("all panels are visible", browser.script(FIND_SHOWN, PANELS), PANELS)
    for panel in PANELS:
        click_in_panel_menu(browser, panel, "input")
        verdict(f"{panel} is closed", browser.script(FIND_SHOWN, PANELS), [other_panel for other_panel in PANELS if other_panel != panel])
        if panel in ("front", "memory"):
            browser.reload()
            wait_until_ready(browser)
            verdict(f"{panel} is still closed after a reload", browser.script(FIND_SHOWN, [panel]), [])
        click_in_panel_menu(browser, panel, "input")
        verdict(f"{panel} is open again", browser.script(FIND_SHOWN, PANELS), PANELS)
        click_in_panel_menu(browser, panel, "button")
        verdict(f"{panel} is maximised", browser.script(MEASURE_PANEL, panel, "vertical"), browser.script("return innerWidth"))
        verdict(f"no other panel is visible beside {panel}", browser.script("""
            return [...document.querySelectorAll("#front, #texts, #dock, #side > section")]
              .filter((each) => each.id !== arguments[0] && getComputedStyle(each).visibility === "visible").length""", panel), 0)
        browser.script("document.querySelector(`#${arguments[0]} .panel-tools button`).click()", panel)
        verdict(f"the panel's button restores {panel}", browser.script("return document.querySelectorAll('.full').length"), 0)


def check_layout_reset(browser):
    """Checks that the command that resets the layout reopens and unfolds all panels and restores their sizes."""
    drag_splitter(browser, "side-splitter", (-60, 0), "mouse")
    width_before = browser.script(MEASURE_PANEL, "side", "vertical")
    click_in_panel_menu(browser, "ports", "input")
    browser.click("#memory .fold")
    browser.click("#view-button")
    browser.click("#view-menu > button")
    verdict("a reset reopens closed panels", browser.script(FIND_SHOWN, PANELS), PANELS)
    verdict("a reset unfolds panels", browser.script("return document.querySelector('#memory .fold').getAttribute('aria-expanded')"), "true")
    verdict("a reset restores the sizes", browser.script(MEASURE_PANEL, "side", "vertical") <= width_before - 60, True)
    browser.reload()
    wait_until_ready(browser)
    verdict("the default layout after a reload", (browser.script(FIND_SHOWN, PANELS), browser.script(MEASURE_PANEL, "side", "vertical") <= width_before - 60), (PANELS, True))


def check_arrangement(browser):
    """Checks that the user can arrange the panels: the splitters, closing and maximising, and the reset of the layout."""
    check_splitters(browser)
    check_panels(browser)
    check_layout_reset(browser)


# --- what a new user sees first

# Defines `inView`, which returns true if a part of an element is visible, and `controls`, the visible controls.
FIND_IN_VIEW = """
const inView = (element) => {
  if (!element.getClientRects().length || getComputedStyle(element).visibility !== "visible") return false;
  let { left, top, right, bottom } = element.getBoundingClientRect();
  for (let box = element.parentElement; box; box = box.parentElement) {
    if (getComputedStyle(box).overflow === "visible") continue;
    const room = box.getBoundingClientRect();
    [left, top] = [Math.max(left, room.left), Math.max(top, room.top)];
    [right, bottom] = [Math.min(right, room.right), Math.min(bottom, room.bottom)];
  }
  return right - left > 1 && bottom - top > 1;
};
const controls = [...document.querySelectorAll("button, input, select, textarea, summary, a[href]")].filter(inView);
"""
# Groups of controls that count as one, because each group is one tab stop. They are the board's keys, each of the two lists of registers, a RAM bank,
# the call stack, and the rows of the disassembly.
CONTROL_GROUPS = "#keys, .ram, .cells, .stack, #lines-of-program"
COUNT_CONTROLS = FIND_IN_VIEW + f"return new Set(controls.map((each) => each.closest('{CONTROL_GROUPS}') || each)).size"
# Describes the controls that are narrower or lower than a number of pixels. The size of a checkbox is that of its label, because a click on the label
# also works.
FIND_SMALL_CONTROLS = FIND_IN_VIEW + """
const sizeOf = (each) => (each.type === "checkbox" && each.labels.length > 0 ? each.labels[0] : each).getBoundingClientRect();
return controls.filter((each) => sizeOf(each).width < arguments[0] - 0.5 || sizeOf(each).height < arguments[0] - 0.5)
  .map((each) => `${each.id || each.textContent || each.localName} in ${each.closest("[id]").id}`)"""
# The number of visible words with at least two letters, including words in the editor.
COUNT_WORDS = FIND_IN_VIEW + """
let words = 0;
const walker = document.createTreeWalker(document.body, NodeFilter.SHOW_TEXT);
for (let node = walker.nextNode(); node; node = walker.nextNode()) {
  if (!node.parentElement.closest("script, style") && inView(node.parentElement)) {
    words += node.data.split(/\\s+/).filter((word) => /[A-Za-z]{2}/.test(word)).length;
  }
}
return words"""
COUNT_VISIBLE_LINES = """
const room = document.querySelector("#program-editor .cm-scroller").getBoundingClientRect();
return [...document.querySelectorAll("#program-editor .cm-line")].map((line) => line.getBoundingClientRect())
  .filter(({ top, bottom }) => top >= room.top && bottom <= room.bottom).length"""
GET_WHOLE_PANELS = """
return arguments[0].filter((id) => {
  const { top, bottom, left, right } = document.getElementById(id).getBoundingClientRect();
  return bottom - top > 20 && top >= 0 && left >= 0 && bottom <= innerHeight && right <= innerWidth;
})"""
IS_TRACE_LARGE = """
const { width, height } = document.getElementById("wave-canvas").getBoundingClientRect();
return width > 400 && height > 100"""
DEBUGGER_PANELS = ["processor", "calls", "watched", "breakpoints", "memory"]
MAX_CONTROLS, MAX_WORDS, MIN_LINES = 60, 350, 25


def check_first_glance(browser, page, set_size):
    """Checks that a new user sees few controls and words, and no control smaller than 24 pixels. The debugger's panels, the source and a recording
    must be visible together."""
    browser.script("localStorage.clear()")
    set_size(browser, 1440, 900)
    reopen_page(browser, page)
    choose_example(browser, "calculator")
    verdict(f"at most {MAX_CONTROLS} controls are visible", browser.script(COUNT_CONTROLS) <= MAX_CONTROLS, True)
    # On a busy machine, the status first reports that the tab was busy.
    eventually(browser, f"at most {MAX_WORDS} words are visible", COUNT_WORDS.replace("return words", f"return words <= {MAX_WORDS}"), True)
    verdict("the controls below 24 pixels", browser.script(FIND_SMALL_CONTROLS, 24), [])
    pause_running_time(browser)
    show_text(browser, "waves")
    browser.script("document.getElementById('record-where').value = 'before'")
    browser.click("#record")
    eventually(browser, "the recording is large", IS_TRACE_LARGE, True)
    verdict(f"at least {MIN_LINES} lines of the source are visible", browser.script(COUNT_VISIBLE_LINES) >= MIN_LINES, True)
    verdict("the debugger's panels are completely visible", browser.script(GET_WHOLE_PANELS, DEBUGGER_PANELS), DEBUGGER_PANELS)
    show_text(browser, "disassembly")
    for text in ("board", "wiring", "tests", "properties", "program"):
        show_text(browser, text)
        verdict(f"the controls below 24 pixels with {text}", browser.script(FIND_SMALL_CONTROLS, 24), [])


# --- details that later changes can easily break

FIND_HIDDEN_FIELDS = """
const { left, top, right, bottom } = document.getElementById("chosen").getBoundingClientRect();
const isIn = (box) => box.left >= left && box.right <= right + 1 && box.top >= top && box.bottom <= bottom + 1;
return [...document.querySelectorAll("#chosen :is(button, input, select)")].filter((node) => !isIn(node.getBoundingClientRect()))
  .map((each) => each.getAttribute("aria-label"))"""
GET_DIGIT_FILL = """
return getComputedStyle(document.querySelector(`#examples button[aria-label='new session: ${arguments[0]}'] .digits`)).fill"""
GET_SHOWN_OFFERS = """
return ["board-offer", "hello"].filter((id) => isShown(document.getElementById(id)))"""
COUNT_BUTTONS_AT_EDGE = """
const { left, right } = document.getElementById("history").getBoundingClientRect();
return [...document.querySelectorAll("#history button")].map((node) => node.getBoundingClientRect())
  .filter((box) => box.left < left + 8 || box.right > right - 8).length"""
GET_TOP_EDGE = "return Math.round(document.querySelector(arguments[0]).getBoundingClientRect().top)"
COUNT_WATCHES = "return [...document.querySelectorAll('#watched-list .values')].filter((node) => node.querySelector('button')).length"
GET_HELP_WIDTH = "return document.getElementById('help').getBoundingClientRect().width / innerWidth"


def check_details(browser, set_size):
    """Checks details of the layout. For example, all settings of twenty keys must be visible, and displays must have different colours in the list of
    examples. An empty bench must show only the offer of a board."""
    set_size(browser, 1440, 900)
    choose_example(browser, "calculator")
    show_text(browser, "wiring")
    eventually(browser, "the picture has the keys", "return document.querySelectorAll('#wiring-picture .of-keys').length", 1)
    browser.script("document.querySelector('#wiring-picture .of-keys').focus()")
    browser.type_keys([ENTER])
    eventually(browser, "the number of fields of the selected keys", "return document.querySelectorAll('#chosen input').length", 20)
    verdict("the fields that are hidden behind the edge of their box", browser.script(FIND_HIDDEN_FIELDS), [])
    show_text(browser, "program")
    browser.click("#sessions-button")
    browser.wait_until("return document.getElementById('sessions').open", True)
    verdict("the displays of the calculator and the counter have different colours", browser.script(GET_DIGIT_FILL, "calculator")
            == browser.script(GET_DIGIT_FILL, "counter"), False)
    browser.click("#close-sessions")
    choose_example(browser, "empty bench")
    verdict("the only offer on an empty bench", browser.script(GET_SHOWN_OFFERS), ["board-offer"])
    choose_example(browser, "first")
    verdict("a session without texts shows the field for lines", browser.script(FIND_SHOWN, ["lines"]), ["lines"])
    choose_example(browser, "three lamps")
    show_text(browser, "disassembly")
    top_before = browser.script(GET_TOP_EDGE, "#program-editor .cm-scroller")
    browser.click("#program-editor .send")
    eventually(browser, "the message after assembling is shown", "return document.querySelector('#program-editor .status-text').textContent", re.compile("ssembled"))
    verdict("the message does not move the source", browser.script(GET_TOP_EDGE, "#program-editor .cm-scroller"), top_before)
    browser.click("#program-editor .cm-content")
    browser.script("document.querySelector('#program-editor .cm-editor').lineEditor.setCursor(arguments[0])", position_of_word(browser, "SRC"))
    browser.type_keys([F1])
    eventually(browser, "F1 looks up the word at the caret", "return document.getElementById('help-search').value", "SRC")
    verdict("the help uses at most a third of the width", browser.script(GET_HELP_WIDTH) <= 0.34, True)
    browser.type_keys([ESCAPE])
    check_watch_rows(browser)
    set_size(browser, 1920, 1080)
    choose_example(browser, "calculator")
    control_count = browser.script(COUNT_CONTROLS)
    verdict(f"at most {MAX_CONTROLS} controls are visible in a large window", control_count <= MAX_CONTROLS or control_count, True)
    verdict("the log is not visible", browser.script(FIND_SHOWN, ["log"]), [])
    browser.restore_size()


def check_phone_details(browser, set_size):
    """Checks that on a phone no button touches the edge of its panel, and the source begins in the upper quarter."""
    set_size(browser, 390, 844, True)
    browser.click("#region-debug")
    verdict("the number of buttons at the edge of their panel", browser.script(COUNT_BUTTONS_AT_EDGE), 0)
    browser.click("#region-source")
    verdict("the source begins in the upper quarter", browser.script(GET_TOP_EDGE, "#program-editor .cm-scroller") < 844 / 4, True)
    browser.click("#region-board")
    browser.restore_size()


def position_of_word(browser, word):
    """Returns the position after the first letter of a word, at the word's first occurrence outside the source's comments."""
    lines = browser.script("return document.querySelector('#program-editor .cm-editor').lineEditor.getValue()").split("\n")
    line = next(index for index, text in enumerate(lines) if re.search(rf"^[^;]*\b{word}\b", text))
    return {"line": line, "ch": lines[line].index(word) + 1}


def check_watch_rows(browser):
    """Checks that the rows of four watched values are 24 pixels high each."""
    pause_running_time(browser)
    for expression in ("count = R5", "R6", "acc", "P2"):
        browser.type_into("#watched-field", expression + ENTER)
    eventually(browser, "the number of watched values", COUNT_WATCHES, 4)
    verdict("the height of four watched values", browser.script("return Math.round(document.getElementById('watched-list').getBoundingClientRect().height)"), 96)
    for _ in range(4):
        browser.click("#watched-list .remove")


# --- the number of clicks that a new user needs

COUNT_CLICKS = """
window.clicks = 0;
if (!window.countsClicks) addEventListener("click", ({ isTrusted, detail }) => { window.clicks += Number(isTrusted && detail > 0); }, true);
window.countsClicks = true"""
GET_RECORDED_LAMPS = "return [...new Set(window.counted)].sort().join(' ')"
# Records which lamps are on, as digits 0 and 1, whenever the front panel changes.
RECORD_LAMPS = """
window.counted = [];
const note = () => window.counted.push([...document.querySelectorAll("#front .bulb")].map((bulb) => Number(bulb.classList.contains("lit"))).join(""));
window.noting = new MutationObserver(note);
window.noting.observe(document.getElementById("front"), { subtree: true, attributes: true })"""


def check_click_count(browser, task, max_clicks, perform):
    """Checks that a new user's task needs at most `max_clicks` clicks. Typing does not count."""
    browser.script(COUNT_CLICKS)
    perform(browser)
    click_count = browser.script("return window.clicks")
    verdict(f"{task} takes {max_clicks} clicks at most", 0 < click_count <= max_clicks or click_count, True)


def draw_board(browser):
    """Draws four by four keys, four lamps and a shift register, and inserts a program that scans the keys."""
    browser.click("#first-drawing")
    browser.click("#shelf-keys")
    eventually(browser, "the new keys are selected", "return document.querySelectorAll('#chosen [aria-label=rows]').length", 1)
    browser.type_into("#chosen [aria-label=rows]", "4")
    eventually(browser, "the keys have four rows", GET_DRAWING_STATUS, re.compile("The keys have 4 rows"))
    for lamp in range(4):
        browser.click("#shelf-lamp")
        eventually(browser, f"lamp {lamp} is added", GET_DRAWING_STATUS, re.compile(f"^Lamp {lamp} was added"))
    browser.click("#drawing-wire")
    eventually(browser, "the number of keys on the front panel", "return document.querySelectorAll('#keys .key').length", 16)
    browser.script("document.activeElement.blur()")
    browser.press_chord(CONTROL, "k")
    browser.wait_until("return document.activeElement.getAttribute('role')", "combobox")
    browser.type_keys([*"scan", ENTER], 5, 5)
    eventually(browser, "the source has the routine that scans the keys", GET_SOURCE, re.compile("keys_scan"))
    browser.click("#program-editor .send")
    eventually(browser, "the program is running", GET_STATUS, re.compile("^Running"))


def fix_bug(browser):
    """Corrects the program of the example `a fault to find`, and checks that the lamps then count from 0 to 9."""
    choose_example(browser, "a fault to find")
    eventually(browser, "the example has a breakpoint", "return document.querySelectorAll('#breakpoint-list li').length", 1)
    browser.click("#over")
    eventually(browser, "the status after a step", GET_STATUS, re.compile("^At 009"))
    browser.click("#program-editor .cm-line:nth-child(24)")
    browser.type_keys([END, BACKSPACE, "5"])
    browser.click("#breakpoint-list [aria-label^='remove']")
    browser.script(RECORD_LAMPS)
    browser.click("#program-editor .send")
    counts = [f"{number:04b}" for number in range(10)]
    eventually(browser, "the lamps count from 0 to 9", GET_RECORDED_LAMPS, re.compile("^" + " ".join(counts)), 60)
    eventually(browser, "the lamps begin again at 0", "return window.counted.lastIndexOf('0000') > window.counted.indexOf('1001')", True, 60)
    verdict("the lamps show nothing else", browser.script(GET_RECORDED_LAMPS), " ".join(counts))
    browser.script("window.noting.disconnect()")


def run_test(browser):
    """Runs the sample test of the board."""
    browser.click("#tests-tab")
    browser.click("#first-test")
    # The page runs the board to create the test. This takes a while on a busy machine.
    eventually(browser, "a sample test is in the editor", GET_TESTS, re.compile("^ *expect", re.M))
    browser.click("#tests-editor .send")
    eventually(browser, "the number of test results", "return document.querySelectorAll('#test-list li').length", 1)


def search_property(browser):
    """Searches for counterexamples to the properties, for two seconds."""
    browser.click("#properties-tab")
    if browser.script("return isShown(document.getElementById('first-properties'))"):
        browser.click("#first-properties")
    browser.script("document.getElementById('explore-seconds').value = '2'")
    browser.click("#explore")
    eventually(browser, "the results of the search are shown", "return isShown(document.getElementById('explore-results'))", True, 60)


def check_first_tasks(browser):
    """Checks that a new user needs few clicks to draw a board, correct a program, run a test, and search. page_commands checks the clicks for the
    first lamp."""
    choose_example(browser, "empty bench")
    check_click_count(browser, "a board of one's own", 12, draw_board)
    check_click_count(browser, "a bug", 6, fix_bug)
    check_click_count(browser, "a test", 3, run_test)
    check_click_count(browser, "a property", 3, search_property)
    browser.wait_until("return document.getElementById('work').hidden", True, 60)
    show_text(browser, "program")


# Returns the elements that moved without user input, if the browser measures a layout shift above 0.005. (At 0 nothing moved; 0.1 is a lot.)
MEASURE_SHIFTS = """
return new Promise((done) => {
  let sum = 0;
  const moved = [];
  new PerformanceObserver((list) => {
    for (const { hadRecentInput, value, sources, startTime } of list.getEntries()) {
      if (hadRecentInput) continue;
      sum += value;
      moved.push(`${value.toFixed(4)} at ${Math.round(startTime)} ms: ${sources.map(({ node }) => node && (node.id || node.nodeName)).join(" ")}`);
    }
  }).observe({ type: "layout-shift", buffered: true });
  setTimeout(() => done(sum < 0.005 ? [] : moved), 300);
})"""


def check_layout_shifts(browser, page, set_size):
    """Checks that nothing moves after it has been painted."""
    for width, height in ((1440, 900), (390, 844)):
        set_size(browser, width, height, width < 700)
        browser.open("about:blank")
        browser.open(f"{page.as_uri()}#example=calculator")
        wait_until_ready(browser)
        eventually(browser, "the example is running", GET_STATUS, re.compile("^Running"))
        verdict(f"the elements that move after the first paint at {width}", browser.script(MEASURE_SHIFTS), [])
    browser.restore_size()


def check_touch_targets(browser, set_size):
    """Checks that on a phone and on a tablet every visible control is at least 44 pixels wide and high, in the board view and in the wiring view."""
    browser.send_command("Emulation.setTouchEmulationEnabled", enabled=True)
    for width, height in ((390, 844), (820, 1180)):
        set_size(browser, width, height, True)
        verdict(f"the controls below 44 pixels at {width}", browser.script(FIND_SMALL_CONTROLS, 44), [])
        browser.script("document.getElementById('region-source').click(); document.getElementById('wiring-tab').click()")
        eventually(browser, f"the shelf is visible at {width}", "return isShown(document.getElementById('shelf'))", True)
        verdict(f"the controls of Wiring below 44 pixels at {width}", browser.script(FIND_SMALL_CONTROLS, 44), [])
        browser.script("document.getElementById('program-tab').click(); document.getElementById('region-board').click()")
    browser.send_command("Emulation.setTouchEmulationEnabled", enabled=False)
    browser.restore_size()
