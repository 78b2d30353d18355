"""The part of checks/page about recording and showing the levels of lines as waves. A saved recording must equal the output of `mcs4 wave` for the
same session, and the times between the cursors must be those that the examples state."""

import base64
import os
import pathlib
import re
import subprocess
import time

from page_basics import GET_NOTICE, GET_STATUS, choose_example, send_lines, choose_from_file_menu, show_text, pause_running_time, wait_until_ready
from picture import write_picture
from verdicts import eventually, verdict

TOP = pathlib.Path(__file__).resolve().parent.parent.parent
GET_SCOPE_STATUS = "return document.getElementById('scope-status').textContent"
GET_CURSOR_DISTANCE = "return document.getElementById('wave-between').textContent"
GET_FIRST_CYCLE = "return document.getElementById('wave-first').textContent"
GET_SPOKEN_VALUE = "return document.getElementById('wave-canvas').getAttribute('aria-valuetext')"
GET_ROW_NAMES = "return [...document.querySelectorAll('#wave-table th')].map((node) => node.textContent).join(' ')"
LEFT, RIGHT, DOWN, HOME, END, ENTER = "\ue012", "\ue014", "\ue015", "\ue011", "\ue010", "\ue007"

# Selects the I/O lines whose names are in the argument, and no others, for the recording.
CHOOSE_LINES = """
document.getElementById("wave-choice").open = true;
document.getElementById("wave-choice").dispatchEvent(new Event("toggle"));
document.getElementById("waves-none").click();
for (const box of document.querySelectorAll("#wave-boxes input")) if (arguments[0].includes(box.name)) box.click();
document.getElementById("wave-choice").open = false;"""
FOCUS_CANVAS = "document.getElementById('wave-canvas').focus({ preventScroll: true })"
# The number of colours on the canvas, without transparent pixels.
COUNT_COLOURS = """
const canvas = document.getElementById("wave-canvas");
const { data } = canvas.getContext("2d").getImageData(0, 0, canvas.width, canvas.height);
const found = new Set();
for (let at = 0; at < data.length; at += 4) if (data[at + 3] > 200) found.add(`${data[at]},${data[at + 1]},${data[at + 2]}`);
return found.size"""


def record(browser, cycles, where="after"):
    """Records a number of cycles in the tab Waves, and returns the status. `where` is `after` or `before` the current cycle, or `live`."""
    show_text(browser, "waves")
    browser.script("const w = document.getElementById('record-where'); w.value = arguments[0]; w.dispatchEvent(new Event('change'))", where)
    browser.script("document.getElementById('record-cycles').value = arguments[0]; document.getElementById('scope-status').firstChild.data = ''",
                   str(cycles))
    browser.click("#record")
    return browser.wait_until(GET_SCOPE_STATUS, re.compile("."), 60)


def search_lines(browser, query):
    """Types a query into the field that searches for lines."""
    browser.script("document.getElementById('wave-choice').open = true")
    browser.script("const f = document.getElementById('signal-search'); f.value = arguments[0]; f.dispatchEvent(new Event('input'))", query)


def save_file(browser, folder, selector, name):
    """Clicks a button that saves a file, and returns the contents of the file."""
    file = folder / "downloads" / name
    file.unlink(missing_ok=True)
    if selector == "#save-session-button":
        choose_from_file_menu(browser, selector)
    elif selector.startswith("#save-"):
        browser.click("#wave-files summary")
        browser.click(selector)
    else:
        browser.click(selector)
    deadline = time.monotonic() + 20
    # Some browsers first create an empty file.
    while not (file.exists() and file.stat().st_size > 0) and time.monotonic() < deadline:
        time.sleep(0.05)
    time.sleep(0.2)
    return file.read_bytes()


def output_of_wave(mcs4, *arguments):
    """Returns the output of `mcs4 wave`."""
    environment = dict(os.environ, MCS4=str(mcs4))
    return subprocess.run([TOP / "mcs4", "wave", *arguments], stdout=subprocess.PIPE, check=True, env=environment).stdout


def check_stopwatch(browser):
    """Checks that the stopwatch counts a hundredth of a second in exactly 926 cycles while TEST is 0."""
    choose_example(browser, "stopwatch")
    send_lines(browser, "test 0")
    verdict("the status after a recording", record(browser, 30000), "30,000 cycles recorded, 324.000 ms.")
    verdict("the program is paused after the recording", browser.text_of("#run"), "Continue")
    browser.script(CHOOSE_LINES, ["lamp15"])
    eventually(browser, "the selected line", GET_ROW_NAMES, "lamp15")
    browser.script(FOCUS_CANVAS)
    browser.type_keys(["n", "n", "b", HOME, "n"], 1, 1)
    eventually(browser, "the distance of two edges", GET_CURSOR_DISTANCE, "A to B: 926 cycles, 10.001 ms")
    browser.type_keys(["n", "n", "p"], 1, 1)
    eventually(browser, "n and p move the cursor to the next and the previous edge", GET_CURSOR_DISTANCE, "A to B: 0 cycles, 0.000 ms")
    browser.type_keys([*["n"] * 10], 1, 1)
    eventually(browser, "ten edges further", GET_CURSOR_DISTANCE, "A to B: 9,260 cycles, 100.008 ms")
    browser.type_keys([LEFT], 1, 1)
    eventually(browser, "the Left arrow moves the cursor by one cycle", GET_CURSOR_DISTANCE, "A to B: 9,259 cycles, 99.997 ms")
    eventually(browser, "the value at the cursor, in words", GET_SPOKEN_VALUE, re.compile(r"^lamp15 is [01], cycle [0-9,]+, [0-9A-F]{3} E1 WMP; line \d+ of the source: WMP"))
    browser.type_keys([RIGHT, "0", "+", "+", END], 1, 1)
    eventually(browser, "End moves the cursor to the end of the recording", "return document.getElementById('wave-canvas').getAttribute('aria-valuenow')", "30000")
    verdict("the canvas has several colours", browser.script(COUNT_COLOURS) > 3, True)
    browser.click("#wave-values summary")
    eventually(browser, "the table of values at the cursors", "return document.getElementById('wave-table').textContent", re.compile("^lamp15[01][01]$"))


def check_long_recording(browser):
    """Checks that in a recording of half a minute, the last hundredth of a second is as long as the first one."""
    verdict("the status after a long recording", record(browser, 3000000), "3,000,000 cycles recorded, 32.400 s.")
    browser.script(FOCUS_CANVAS)
    browser.type_keys(["a", END, "p", "b", END, "p", "p"], 1, 1)
    eventually(browser, "the distance of the last two edges", GET_CURSOR_DISTANCE, "A to B: 926 cycles, 10.001 ms")
    eventually(browser, "the cursor is at the end of the recording", GET_FIRST_CYCLE, re.compile("^A: cycle 2,999,[0-9]{3}, "))


def check_click_moves_cursor(browser):
    """Checks that a click on the waves moves the cursor there."""
    browser.script(FOCUS_CANVAS)
    browser.type_keys(["a", HOME, "b", HOME, "0"], 1, 1)
    eventually(browser, "Home moves the cursor to the beginning", "return document.getElementById('wave-canvas').getAttribute('aria-valuenow')", "0")
    box = browser.script("const b = document.getElementById('wave-canvas').getBoundingClientRect(); return [b.width, b.height]")
    browser.scroll_to("#wave-canvas")
    browser.click("#wave-canvas")
    # The driver clicks at the centre of the element. The names of the lines occupy `gutter` pixels on the left, and a click can snap to a near edge.
    gutter = 150 if box[0] >= 600 else 112
    expected_cycle = 30000 * (box[0] / 2 - gutter) / (box[0] - gutter)
    cycle = int(browser.wait_until("return document.getElementById('wave-canvas').getAttribute('aria-valuenow')", re.compile("[1-9]")))
    verdict("a click moves the cursor", abs(cycle - expected_cycle) < 30000 * 12 / (box[0] - gutter), True)
    eventually(browser, "the instruction at the cursor", "return document.getElementById('wave-second').textContent",
               re.compile(rf"^B: cycle {cycle:,}, [0-9.]+ m?s: [0-9A-F]{{3}} .*line \d+ of the source: "))
    address = browser.text_of("#wave-second").split("s: ")[1][:3]
    browser.script(FOCUS_CANVAS)
    browser.type_keys([ENTER], 1, 1)
    eventually(browser, "Enter shows the instruction in the disassembly", "return document.getElementById('lines-of-program').textContent", re.compile(address))


def check_saved_recording(browser, folder, mcs4):
    """Checks that the saved recording equals, byte for byte, the output of mcs4 wave for the saved session."""
    choose_example(browser, "calculator")
    pause_running_time(browser)
    session = folder / "waves.mcs"
    session.write_bytes(save_file(browser, folder, "#save-session-button", "calculator.mcs"))
    board, program = TOP / "examples/calculator/board.toml", TOP / "examples/calculator/calculator.asm"
    verdict("the status after recording the calculator", record(browser, 3000), re.compile("^3,000 cycles recorded"))
    verdict("the lines that are selected by default", browser.script(GET_ROW_NAMES),
            re.compile(r"^rom0\.0 rom0\.1 chain0\.0 .*shift\.chain0 .*scan\.keys pc label$"))
    browser.script(CHOOSE_LINES, ["acc", "cy", "r5", "p2", "dcl", "src"])
    for name in ("ram 0 0x12", "st 0 1 2"):
        search_lines(browser, name)
        browser.script("document.querySelector('#wave-boxes input').click()")
    search_lines(browser, "")
    eventually(browser, "newly selected values are in the next recording", "return document.getElementById('signals-status').textContent",
               "acc, cy, r5 .. will be in the next recording.")
    verdict("the status after recording with values", record(browser, 3000), re.compile("^3,000 cycles recorded"))
    browser.script("document.getElementById('waves-all').click()")
    names = browser.script(GET_ROW_NAMES).split(" ")
    values = {"acc", "cy", "r5", "p2", "dcl", "src", "ram.0.0x12", "st.0.1.2", "rom0[3:0]", "ram0.0[3:0]", "chain1[39:0]"}
    verdict("the selected values", values <= set(names), True)
    verdict("all lines are selected", {"rom1.3", "ram0.0.3", "chain1.39", "lamp.minus", "lamp42", "key.CE", "key3.3", "test", "shift.chain1"} <= set(names), True)
    saved_bytes = save_file(browser, folder, "#save-waves", "calculator.vcd")
    verdict("the saved file is the output of mcs4 wave", saved_bytes == output_of_wave(mcs4, "--board", board, "--names", program, session, "3000", *names), True)
    chosen_lines = ["rom0.0", "chain0.4", "key.CE", "rom0[3:0]", "p2", "pc"]
    browser.script(CHOOSE_LINES, chosen_lines)
    saved_bytes = save_file(browser, folder, "#save-waves", "calculator.vcd")
    verdict("the saved file with some lines is the output of mcs4 wave", saved_bytes == output_of_wave(mcs4, "--board", board, session, "3000", *chosen_lines), True)
    verdict("the session is unchanged", save_file(browser, folder, "#save-session-button", "calculator.mcs") == session.read_bytes(), True)


def check_past_cycles(browser):
    """Checks that the cycles before a pause can be recorded. The page runs these cycles again, with the key presses in them."""
    choose_example(browser, "calculator")
    pause_running_time(browser)
    send_lines(browser, "run 300\npress 0 0\nrun 5000\nrelease 0 0\nrun 3000")
    verdict("the status after recording the cycles before the stop", record(browser, 8200, "before"), "8,200 cycles recorded, 88.560 ms.")
    browser.script(CHOOSE_LINES, ["key.7", "pc"])
    browser.script(FOCUS_CANVAS)
    browser.type_keys(["a", HOME, "n"], 1, 1)
    eventually(browser, "the cursor is at the press of the key", GET_SPOKEN_VALUE, re.compile("^key.7 is 1, cycle [1-9]"))
    browser.type_keys(["b", HOME, "n", "n"], 1, 1)
    eventually(browser, "the cursor is at the release of the key", GET_SPOKEN_VALUE, re.compile("^key.7 is 0, cycle [1-9]"))
    verdict("the number of cycles for which the key is down", browser.script(GET_CURSOR_DISTANCE), "A to B: 5,000 cycles, 54.000 ms")
    browser.type_keys([HOME], 1, 1)
    browser.script("const f = document.getElementById('wave-search'); f.value = 'key scan = 7'; document.getElementById('find-after').click()")
    eventually(browser, "the search finds the key in the decoded key scan", GET_SPOKEN_VALUE, re.compile(r"^scan\.keys is row 0: 7, cycle [1-9]"))


# Sets the values of fields. The argument maps the fields' ids to values.
FILL_FIELDS = "for (const [id, value] of Object.entries(arguments[0])) document.getElementById(id).value = value"
GET_SCOPE_COUNT = "return document.getElementById('scope-count').textContent"


def check_live_recording(browser, folder, mcs4):
    """Checks that the page records a running machine while keys are pressed. The recording before and after the key press must be the output of
    `mcs4 wave` for a copy of the earlier session."""
    choose_example(browser, "calculator")
    pause_running_time(browser)
    session = folder / "live.mcs"
    session.write_bytes(save_file(browser, folder, "#save-session-button", "calculator.mcs"))
    browser.script(FILL_FIELDS, {"trigger": "", "behind": "500"})
    verdict("the status before the program is running", record(browser, 1000000, "live"), "Records as soon as the machine runs.")
    browser.click("#run")
    eventually(browser, "the status while recording", GET_SCOPE_STATUS, "Recording.")
    eventually(browser, "the number of recorded cycles is shown", GET_SCOPE_COUNT, re.compile(r"^[0-9,]{4,} cycles, [0-9.]+ m?s$"))
    eventually(browser, "the program is running", GET_STATUS, re.compile("^Running \""))
    eventually(browser, "the tab reports that it records", "return document.getElementById('waves-tab').textContent", "Wavesrecords")
    browser.click("#keys button")
    eventually(browser, "keys work while recording", "return document.getElementById('digits').textContent", re.compile("7"))
    browser.click("#run")
    eventually(browser, "Stop works while recording", GET_STATUS, re.compile("^Paused"))
    browser.click("#record")
    status = browser.wait_until(GET_SCOPE_STATUS, re.compile(r"^Recorded ([0-9,]+) cycles, .*\. You stopped it\.$"))
    count = re.match(r"Recorded ([0-9,]+) ", status)[1].replace(",", "")
    browser.script(CHOOSE_LINES, ["key.7"])
    browser.script(FOCUS_CANVAS)
    browser.type_keys(["a", HOME, "n", "b", HOME, "n", "n"], 1, 1)
    eventually(browser, "the recorded key is down for at least 4,000 cycles", GET_CURSOR_DISTANCE, re.compile(r"^A to B: ([4-9],|[0-9]+[0-9],)[0-9]{3} cycles"))
    down, up = (int(browser.script(f"return document.getElementById('{id}').textContent").split("cycle ")[1].split(", ")[0].replace(",", ""))
                for id in ("wave-first", "wave-second"))
    names = ["rom0.0", "rom0[3:0]", "chain0[9:0]", "chain1.39", "lamp.minus", "pc"]
    browser.script(CHOOSE_LINES, names)
    names = browser.script(GET_ROW_NAMES).split(" ")
    saved_bytes = save_file(browser, folder, "#save-waves", "calculator.vcd")
    board = TOP / "examples/calculator/board.toml"
    expected = output_of_wave(mcs4, "--board", board, session, count, *names)
    verdict("the live recording up to the key press is the output of mcs4 wave",
            describe_difference([change for change in changes_after(saved_bytes, 0) if change[0] <= down],
                       [change for change in changes_after(expected, 0) if change[0] <= down]), "")
    key_lines = f"run {down}\npress 0 0\nrun {up - down}\nrelease 0 0\n" if down <= 100000 else ""
    if key_lines and up - down <= 100000:
        subprocess.run([mcs4, "open", session], input=key_lines, text=True, stdout=subprocess.PIPE, check=True)
        expected_after_key = output_of_wave(mcs4, "--board", board, session, str(int(count) - up), *names)
        # Skip the first cycle: if the recording begins inside an instruction, the counter already points to the next instruction.
        verdict("the live recording after the key release is the output of mcs4 wave", describe_difference([change for change in changes_after(saved_bytes, up) if change[0] > 1],
                                            [change for change in changes_after(expected_after_key, 0) if change[0] > 1]), "")


def changes_after(file, cycle):
    """Returns the changes in a VCD file after a cycle. Each is a pair: the number of cycles since that cycle, and the file's line with the change."""
    lines = file.decode().split("$enddefinitions $end\n")[1].split("\n")
    changes, time = [], 0
    for line in lines:
        if line.startswith("#"):
            time = int(line[1:]) // 108
        elif time > cycle:
            changes.append((time - cycle, line))
    return changes


def describe_difference(actual, expected):
    """Describes the first difference between two lists of changes, or their lengths if these differ or a list is empty. Returns "" if the lists are
    equal."""
    if not actual or not expected:
        return f"{len(actual)} and {len(expected)} changes"
    for actual_change, expected_change in zip(actual, expected):
        if actual_change != expected_change:
            return f"{actual_change} and {expected_change}"
    return "" if len(actual) == len(expected) else f"{len(actual)} and {len(expected)} changes"


def check_triggers(browser):
    """Checks that a recording with a trigger has cycles before and after the trigger, and that the trigger pauses time on request."""
    choose_example(browser, "stopwatch")
    send_lines(browser, "test 0")
    pause_running_time(browser)
    browser.script(FILL_FIELDS, {"trigger": "lamp15 rises", "behind": "1000"})
    browser.script("document.getElementById('stops-time').checked = true")
    verdict("the status before the trigger", record(browser, 3000, "live"), "Records as soon as the machine runs. Waiting for lamp15 rises.")
    browser.click("#run")
    status = browser.wait_until(GET_SCOPE_STATUS, re.compile(r"^Recorded [0-9,]+ cycles, .*\. The trigger was at cycle [0-9,]+\.$"))
    eventually(browser, "the trigger pauses the program", GET_STATUS, re.compile(r"^Paused at .*, because the waves after the trigger have been recorded\.$"))
    browser.script(CHOOSE_LINES, ["lamp15"])
    trigger_cycle = re.search(r"at cycle ([0-9,]+)", status)[1]
    eventually(browser, "the cursor is at the trigger", GET_FIRST_CYCLE, re.compile(f"^A: cycle {trigger_cycle}, "))
    eventually(browser, "the lamp is on at the trigger", GET_SPOKEN_VALUE, re.compile(f"^lamp15 is 1, cycle {trigger_cycle}, "))
    browser.script(FOCUS_CANVAS)
    browser.type_keys(["b", END], 1, 1)
    eventually(browser, "the number of cycles after the trigger", GET_CURSOR_DISTANCE, "A to B: 1,000 cycles, 10.800 ms")
    browser.type_keys(["a", LEFT], 1, 1)
    eventually(browser, "the lamp is off before the trigger", GET_SPOKEN_VALUE, re.compile("^lamp15 is 0, "))
    for trigger, message in (("lamp77 rises", "The trigger is not understood: nothing here is called lamp77"),
                         ("r5 = 16", "The trigger is not understood: "), ("@nowhere", "The trigger is not understood: ")):
        browser.script(FILL_FIELDS, {"trigger": trigger})
        verdict(f"the trigger {trigger} is rejected with a message", record(browser, 3000, "live"), re.compile(f"^{re.escape(message)}"))
        verdict(f"the field of the trigger {trigger} is marked as invalid", browser.script("return document.getElementById('trigger').getAttribute('aria-invalid')"), "true")
    browser.script(FILL_FIELDS, {"trigger": "lamp15 rises", "behind": "4000"})
    verdict("more cycles after the trigger than are kept are rejected", record(browser, 3000, "live"), "3,000 cycles are kept: at most that many can follow the trigger.")
    browser.script(FILL_FIELDS, {"trigger": "", "behind": "500"})
    browser.script("document.getElementById('stops-time').checked = false")


def check_value_search(browser):
    """Checks that a value can be searched for by keyboard in both directions, and that a missing value is reported."""
    search_status_script = "return document.getElementById('wave-search-status').textContent"
    choose_example(browser, "stopwatch")
    send_lines(browser, "test 0")
    browser.script(CHOOSE_LINES, ["r3"])
    verdict("the status after recording a register", record(browser, 30000), re.compile("^30,000 cycles recorded"))
    browser.script(FOCUS_CANVAS)
    browser.type_keys(["a", HOME, "/"], 1, 1)
    eventually(browser, "/ moves the focus to the search field", "return document.activeElement.id", "wave-search")
    browser.script(FILL_FIELDS, {"wave-search": ""})
    browser.type_into("#wave-search", "r3 = 9" + ENTER)
    eventually(browser, "the value is found", GET_SPOKEN_VALUE, re.compile("^r3 is 9, cycle [1-9]"))
    first_position = browser.text_of("#wave-first")
    browser.type_into("#wave-search", ENTER)
    eventually(browser, "Enter finds the value again, at another cycle", f"return document.getElementById('wave-first').textContent === {first_position!r}", False)
    browser.click("#find-before")
    eventually(browser, "the search backwards returns to the first cycle", GET_FIRST_CYCLE, first_position)
    for query, message in (("r77 = 3", "Nothing that was recorded is called r77: select it and record again."),
                         ("r3 = 16", "r3 has 4 bits: its value is at most 15."), ("cy = 1", "Nothing that was recorded is called cy"),
                         ("@nowhere", "The program of this recording has no label nowhere.")):
        browser.script(FILL_FIELDS, {"wave-search": query})
        browser.click("#find-after")
        eventually(browser, f"the message about the search for {query}", search_status_script, re.compile(f"^{re.escape(message)}"))
    browser.script(FILL_FIELDS, {"wave-search": "lamp0 = 1"})
    browser.script(FOCUS_CANVAS)
    browser.type_keys([END], 1, 1)
    browser.click("#find-after")
    eventually(browser, "a value that is not found is reported", search_status_script, "lamp0 = 1: not found after cycle 30,000 of this recording.")


# Returns the point at half the height of a row, in window coordinates. The arguments are the distance in pixels from the canvas's left edge, and the
# row.
GET_ROW_CENTRE = """
const { left, top } = document.getElementById("wave-canvas").getBoundingClientRect();
return [Math.round(left + arguments[0]), Math.round(top + 26 * (1.35 + arguments[1]))]"""
# The stored arrangement of the rows: their order, the title of lamp13, the group of lamp15, and the folded groups.
READ_STORED_ROWS = """
return new Promise((done) => {
  indexedDB.open("fethsaim", 1).onsuccess = ({ target: { result: database } }) => {
    const request = database.transaction("sessions").objectStore("sessions").get(location.hash.slice("#session=".length));
    request.onsuccess = () => {
      const { order = [], looks = {}, folded = [] } = request.result?.rows || {};
      database.close();
      done([...order, looks.lamp13?.title, looks.lamp15?.group, ...folded]);
    };
  };
})"""
GET_MEASUREMENT = "const shown = document.getElementById('wave-measure'); return shown.hidden ? '' : shown.textContent"


def act_at_row(browser, x, row, *actions, kind="mouse"):
    """Moves the pointer to a row, `x` pixels from the canvas's left edge, and performs actions there."""
    point = dict(zip(("x", "y"), browser.script(GET_ROW_CENTRE, x, row)))
    browser.perform_actions({"type": "pointer", "id": f"waves-{kind}", "parameters": {"pointerType": kind},
                     "actions": [{"type": "pointerMove", "duration": 0, **point}, *actions]})


CLICK = ({"type": "pointerDown", "button": 0}, {"type": "pointerUp", "button": 0})


def cycles_between(browser, first_x, second_x):
    """Returns the cycles between two points of the waves, measured with the cursors. The points are distances in pixels from the canvas's left
    edge."""
    browser.script(FOCUS_CANVAS)
    for key, x in (("a", first_x), ("b", second_x)):
        browser.type_keys([key], 1, 1)
        act_at_row(browser, x, -1, *CLICK)
    time.sleep(0.1)
    return int(re.search("A to B: ([0-9,]+)", browser.script(GET_CURSOR_DISTANCE))[1].replace(",", ""))


def turn_wheel(browser, x, row, delta_y, delta_x=0):
    """Turns the mouse wheel over a row, `x` pixels from the canvas's left edge."""
    x, y = browser.script(GET_ROW_CENTRE, x, row)
    browser.perform_actions({"type": "wheel", "id": "wheel", "actions": [
        {"type": "scroll", "x": x, "y": y, "deltaX": delta_x, "deltaY": delta_y, "duration": 0, "origin": "viewport"}]})


def check_pointer_actions(browser):
    """Checks that the page shows a measurement under the pointer, that the wheel zooms, and that rows can be moved, named and grouped. A reload must
    keep the arrangement of the rows."""
    choose_example(browser, "stopwatch")
    send_lines(browser, "test 0")
    record(browser, 5000)
    browser.script(CHOOSE_LINES, ["lamp13", "lamp14", "lamp15"])
    eventually(browser, "the selected rows", GET_ROW_NAMES, "lamp13 lamp14 lamp15")
    width = browser.script("return document.getElementById('wave-canvas').clientWidth")
    act_at_row(browser, 150 + (width - 150) * 0.5, 2)
    eventually(browser, "the measurement under the pointer", GET_MEASUREMENT,
               re.compile(r"^[01] for 926 cycles, 10\.001 ms; period 1,852 cycles, 20\.002 ms, 50\.00 Hz$"))
    act_at_row(browser, 40, 2)
    eventually(browser, "no measurement at the names", GET_MEASUREMENT, "")
    cycles_before = cycles_between(browser, 250, 350)
    turn_wheel(browser, 250, 2, -100)
    cycles_now = cycles_between(browser, 250, 350)
    verdict("the wheel zooms in", 1.2 < cycles_before / cycles_now < 1.3, True)
    turn_wheel(browser, 250, 2, 100)
    verdict("the wheel zooms out", abs(cycles_between(browser, 250, 350) - cycles_before) < 2, True)
    turn_wheel(browser, 250, 2, -100)
    browser.click("#zoom-all")
    verdict("Fit shows the whole recording", abs(cycles_between(browser, 250, 350) - cycles_before) < 2, True)
    target = dict(zip(("x", "y"), browser.script(GET_ROW_CENTRE, 40, 0)))
    act_at_row(browser, 40, 2, {"type": "pointerDown", "button": 0}, {"type": "pointerMove", "duration": 50, **target}, {"type": "pointerUp", "button": 0})
    eventually(browser, "dragging the name moves a row", GET_ROW_NAMES, "lamp15 lamp13 lamp14")
    browser.right_click(*browser.script(GET_ROW_CENTRE, 40, 1))
    eventually(browser, "the secondary button opens the menu of a row", "return document.activeElement.textContent", "Rename")
    browser.type_keys([ENTER])
    browser.type_keys([*"tens", ENTER])
    eventually(browser, "Rename changes the name of a row", GET_ROW_NAMES, "lamp15 tens lamp14")
    browser.press_chord("\ue00a", DOWN)
    eventually(browser, "Alt and the Down arrow move the row at the cursor", GET_ROW_NAMES, "lamp15 lamp14 tens")
    browser.right_click(*browser.script(GET_ROW_CENTRE, 40, 0))
    browser.wait_until("return document.activeElement.textContent", "Rename")
    browser.type_keys([DOWN, ENTER])
    browser.type_keys([*"digit", ENTER])
    eventually(browser, "a new group has its first line at the cursor", GET_SPOKEN_VALUE, re.compile("^lamp15 is "))
    browser.type_keys(["\ue013"])
    eventually(browser, "the Up arrow moves to the heading of the group", GET_SPOKEN_VALUE, re.compile("^group digit, cycle "))
    browser.type_keys([ENTER])
    eventually(browser, "Enter folds the group", GET_ROW_NAMES, "lamp14 tens")
    browser.type_keys([ENTER])
    eventually(browser, "Enter unfolds the group", GET_ROW_NAMES, "lamp15 lamp14 tens")
    eventually(browser, "the saved arrangement of the rows", READ_STORED_ROWS, ["lamp15", "lamp14", "lamp13", "tens", "digit"])
    browser.reload()
    wait_until_ready(browser)
    record(browser, 5000)
    browser.script(CHOOSE_LINES, ["lamp13", "lamp14", "lamp15"])
    eventually(browser, "the arrangement of the rows after a reload", GET_ROW_NAMES, "lamp15 lamp14 tens")


def check_pictures(browser, folder):
    """Checks that the waves can be saved as an SVG file with the names of the rows, and as a PNG file with the expected height."""
    text = save_file(browser, folder, "#save-svg", "stopwatch.svg").decode()
    verdict("the SVG file has the names of the rows", [name in text for name in ("digit", "lamp15", "tens")], [True] * 3)
    data = save_file(browser, folder, "#save-png", "stopwatch.png")
    verdict("the PNG file begins with the signature", data[:8], b"\x89PNG\r\n\x1a\n")
    verdict("the height of the PNG file", int.from_bytes(data[20:24], "big"), 2 * 26 * 5)


def check_rejected_recordings(browser):
    """Checks that invalid numbers of cycles and a file without lines are rejected, that a recording can be cancelled, and that another session shows
    no recording."""
    for text in ("0", "10000001", "many", ""):
        verdict(f"{text or 'nothing'} cycles are rejected with a message", record(browser, text), "Enter a number of cycles, from 1 to 10,000,000.")
    browser.script("document.getElementById('waves-none').click()")
    browser.click("#wave-files summary")
    browser.click("#save-waves")
    eventually(browser, "a file without lines is rejected with a message", GET_SCOPE_STATUS, "No line is chosen: choose the lines for the file.")
    browser.script("document.getElementById('record-cycles').value = '10000000'; document.getElementById('scope-status').firstChild.data = ''")
    browser.script("document.getElementById('record-where').value = 'after'")
    browser.click("#record")
    browser.wait_until("return document.getElementById('work').hidden", False)
    browser.script("document.getElementById('cancel').click()")
    verdict("a recording can be cancelled", browser.wait_until(GET_SCOPE_STATUS, re.compile(".")), re.compile("cancelled, and nothing was recorded|10,000,000 cycles recorded"))
    choose_example(browser, "empty bench")
    pause_running_time(browser)
    verdict("another session shows no recording", browser.script("return document.getElementById('waves').hidden"), True)
    verdict("the status after recording without a program", record(browser, 10), re.compile("^10 cycles recorded"))
    verdict("no notice is shown", browser.script(GET_NOTICE), "")


def check(browser, page, folder, mcs4):
    browser.open(page.as_uri())
    wait_until_ready(browser)
    check_stopwatch(browser)
    check_click_moves_cursor(browser)
    check_long_recording(browser)
    check_saved_recording(browser, folder, mcs4)
    check_past_cycles(browser)
    check_live_recording(browser, folder, mcs4)
    check_triggers(browser)
    check_value_search(browser)
    check_pointer_actions(browser)
    check_pictures(browser, folder)
    check_rejected_recordings(browser)
    show_text(browser, "program")


def take_picture(browser, page, path):
    """Takes a screenshot of the stopwatch with a hundredth of a second between the cursors, and writes it to a file."""
    browser.send_command("Emulation.setDeviceMetricsOverride", width=1440, height=900, deviceScaleFactor=1, mobile=False)
    browser.open(page.as_uri())
    wait_until_ready(browser)
    choose_example(browser, "stopwatch")
    send_lines(browser, "test 0")
    record(browser, 5000)
    browser.script(CHOOSE_LINES, ["lamp12", "lamp13", "lamp14", "lamp15", "label"])
    browser.script("document.getElementById('wave-choice').open = false")
    browser.script(FOCUS_CANVAS)
    browser.type_keys(["0", "a", HOME, *[DOWN] * 3, "n", "n", "b", HOME, "n", "n", "n"], 1, 1)
    browser.wait_until(GET_CURSOR_DISTANCE, re.compile("926 cycles"))
    browser.script("document.activeElement.blur()")
    box = browser.script("const b = document.getElementById('scope').getBoundingClientRect(); return [b.x + scrollX, b.y + scrollY, b.width, b.height]")
    clip = dict(zip(("x", "y", "width", "height", "scale"), [*box, 1]))
    screenshot = browser.send_command("Page.captureScreenshot", clip=clip, captureBeyondViewport=True)
    write_picture(base64.b64decode(screenshot["data"]), path)
    browser.restore_size()
