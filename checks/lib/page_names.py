"""The part of checks/page about the source's lines, names and addresses in the machine's panels. Compares them with the output of `mcs4 listing`."""

import os
import pathlib
import re
import subprocess

from page_basics import ENTER, GET_NOTICE, GET_STATUS, PUT_INTO_EDITOR, choose_example, send_lines, show_text, pause_running_time, wait_until_ready
from verdicts import eventually, verdict

TOP = pathlib.Path(__file__).resolve().parent.parent.parent
PROGRAM = TOP / "examples/calculator/calculator.asm"
STEP_COUNT = 60
STEPS_PER_SCRIPT = 6
GET_SOURCE_STATUS = "return document.getElementById('source-status').textContent"
GET_POPUP = "const shown = document.querySelector('.popup-message'); return shown.hidden ? '' : shown.textContent"
GET_GO_TO_STATUS = "return document.getElementById('go-to-status').textContent"
IS_FOLLOW_CHECKED = "return document.getElementById('follow').checked"
GET_STACK = "return [...document.querySelectorAll('.stack button')].map((row) => [...row.children].map((part) => part.textContent).join(' '))"
# The addresses in the disassembly.
GET_ADDRESSES = "return [...document.querySelectorAll('#lines-of-program button:not([hidden])')].map((row) => row.textContent.match(/[0-9A-F]{3}/)[0])"
# The breakpoint marks in the source's margin and in the disassembly.
GET_BREAKPOINT_MARKS = """
const marks = [...document.querySelectorAll(".mark-breakpoints")].map((mark) => `${mark.textContent} ${mark.title}`);
const rows = [...document.querySelectorAll("#lines-of-program button[aria-pressed='true']")].filter((row) => !row.hidden);
return [marks.join(), rows.map((row) => row.querySelector("i").textContent).join()]"""
GET_LABELS = "return [...document.querySelectorAll('#lines-of-program .labels')].map((label) => label.textContent).join('')"
GET_BREAKPOINT_LINES = """
return document.querySelector("#program-editor .cm-editor").lineEditor.findMarkedLines("breakpoints").map((line) => line + 1).join(" ")"""

# Executes a number of steps, which is the argument. For each step, returns the program counter, and the marked source line with its number. Returns
# `not seen` in place of a line that is out of view.
STEP_THROUGH = """
// Omits the values that the page shows after a line, which are not a part of the line.
const textOf = (line) => {
  const copy = line.cloneNode(true);
  for (const values of copy.querySelectorAll(".line-values")) values.remove();
  return copy.textContent;
};
const shown = () => document.querySelector("#log").textContent;
const marked = () => [...document.querySelectorAll("#program-editor .cm-line.next")].map((line) => {
  const seen = line.getBoundingClientRect();
  const box = document.querySelector("#program-editor .cm-scroller").getBoundingClientRect();
  const isSeen = seen.top >= box.top - 1 && seen.bottom <= box.bottom + 1;
  const number = document.querySelector("#program-editor .cm-lineNumbers .at-next").textContent;
  return isSeen ? `${number} ${textOf(line)}` : "not seen";
});
const frame = () => new Promise((done) => setTimeout(done, 5));
return (async () => {
  const rows = [];
  for (let step = 0; step < arguments[0]; step++) {
    const before = shown();
    document.getElementById("step").click();
    while (shown() === before) await frame();
    await frame();
    await frame();
    rows.push([document.querySelector(".stack .value").textContent, marked().join(" and ")]);
  }
  return rows;
})();"""

# Scrolls a line's number into view.
SHOW_MARGIN = """
const editor = document.querySelector("#program-editor .cm-editor").lineEditor;
editor.scrollIntoView({ line: arguments[0] - 1, ch: 0 }, 60);
editor.view.measure();
const numbers = [...document.querySelectorAll("#program-editor .cm-lineNumbers .cm-gutterElement")];
const node = numbers.find((each) => each.textContent === String(arguments[0]));
node.scrollIntoView({ block: "center" });
"""
# Scrolls a line's number into view, and clicks it.
CLICK_MARGIN = SHOW_MARGIN + """
const { left, top, width, height } = node.getBoundingClientRect();
const at = { clientX: left + width / 2, clientY: top + height / 2, button: 0, buttons: 1, bubbles: true, cancelable: true, detail: 1 };
for (const kind of ["mousedown", "mouseup", "click"]) node.dispatchEvent(new MouseEvent(kind, at));"""

# Scrolls a line into view, and returns the position of a word in it, in pixels from the window's upper left corner. The arguments are the line's
# number, from 1, and the word.
SCROLL_TO_WORD = """
const editor = document.querySelector("#program-editor .cm-editor").lineEditor;
const [line, word] = arguments;
editor.scrollIntoView({ line: line - 1, ch: 0 }, 60);
editor.view.measure();
editor.view.dom.scrollIntoView({ block: "center" });
const at = editor.getLine(line - 1).indexOf(word);
const { left, top, bottom } = editor.view.coordsAtPos(editor.offset({ line: line - 1, ch: at + 1 }));
return [left, (top + bottom) / 2]"""
GET_EXPLANATION = "return document.querySelector('#program-editor .meaning').textContent"


def listing_of(mcs4, *options):
    """Returns the output of `mcs4 listing` for the calculator's program."""
    environment = dict(os.environ, MCS4=str(mcs4))
    return subprocess.run([TOP / "mcs4", "listing", *options, PROGRAM], stdout=subprocess.PIPE, text=True, check=True, env=environment).stdout


def read_listing(mcs4):
    """Reads the output of `mcs4 listing`. Returns two dictionaries: the number and text of the source line that begins at each address, and the
    value of each name."""
    listing = listing_of(mcs4).splitlines()
    # If a source line has several rows, only its first row has text.
    rows = [row for row in listing if row[17:] or not re.match("[0-9A-F]{3} ", row)]
    lines_by_address = {row[:3]: (number, row[17:]) for number, row in enumerate(rows, 1) if re.match("[0-9A-F]{3} [0-9A-F]{2}", row)}
    return lines_by_address, dict(line.split() for line in listing_of(mcs4, "--names").splitlines())


def with_single_spaces(text):
    """Returns `text` with one space between its words."""
    return " ".join(text.split())


def go_to(browser, text):
    """Types a name or an address into the field Go to."""
    browser.script("document.getElementById('go-to').value = ''")
    browser.type_into("#go-to", text + ENTER)


def check_marked_lines(browser, source):
    """Checks that after each of many steps, the page marks the source line that `mcs4 listing` shows at the program counter."""
    pause_running_time(browser)
    send_lines(browser, "reset")
    rows = []
    for chunk in range(STEP_COUNT // STEPS_PER_SCRIPT):
        rows += browser.script(STEP_THROUGH, STEPS_PER_SCRIPT)
        # Start each chunk in a different routine.
        send_lines(browser, f"run {20 + 61 * chunk}")
    expected = [[counter, with_single_spaces("{} {}".format(*source[counter]))] for counter, _ in rows]
    verdict(f"the marked source line at each of {STEP_COUNT} steps", [[counter, with_single_spaces(line)] for counter, line in rows], expected)
    verdict("the steps reach many addresses", len({counter for counter, _ in rows}) > STEP_COUNT // 3, True)


def check_breakpoint_at_name(browser, source, values, lines):
    """Checks that a breakpoint can be set at a name, that the program stops there, and that the return addresses are shown with names."""
    go_to(browser, "scan")
    eventually(browser, "Go to shows the address of a name", f"{GET_ADDRESSES}.includes('{values['scan']}')", True)
    verdict("Go to switches Follow off", browser.script(IS_FOLLOW_CHECKED), False)
    browser.click("#break-there")
    line = source[values["scan"]][0]
    eventually(browser, "a breakpoint that is set at a name is in the source's margin", GET_BREAKPOINT_LINES, str(line))
    browser.click("#run")
    eventually(browser, "the program stops at the name", GET_STATUS, f"Paused at {values['scan']}, at a breakpoint.")
    call_line = next(number for number, text in enumerate(lines, 1) if "JMS scan" in text.expandtabs(1))
    eventually(browser, "the counter and the return addresses are shown with names", GET_STACK, re.compile(
        rf"^\['pc {values['scan']} scan, line {line}', 'ret 1 {int(values['await'], 16) + 2:03X} await \+ 2, call on line {call_line}', "
        r"'ret 2 ... stale', 'ret 3 ... stale'\]$"))
    browser.click("#break-there")
    eventually(browser, "the same button clears the breakpoint", GET_BREAKPOINT_LINES, "")


def check_margin_clicks(browser, source, values):
    """Checks that clicks in the source's margin set and clear breakpoints. At a line without bytes, the breakpoint must move to the next
    instruction."""
    line_of_show = source[values["show"]][0]
    browser.script(CLICK_MARGIN, line_of_show)
    eventually(browser, "a click in the margin sets a breakpoint", GET_BREAKPOINT_LINES, str(line_of_show))
    browser.click("#reset")
    browser.click("#run")
    eventually(browser, "the program stops at the breakpoint's line", GET_STATUS, f"Paused at {values['show']}, at a breakpoint.")
    browser.script(CLICK_MARGIN, line_of_show)
    eventually(browser, "another click clears the breakpoint", GET_BREAKPOINT_LINES, "")
    browser.script(CLICK_MARGIN, 1)
    eventually(browser, "a breakpoint at a line without bytes moves to the next instruction, with a message", GET_POPUP,
               re.compile("^Line 1 puts no bytes into ROM: its breakpoint is at the next instruction, line "))
    breakpoint_line = browser.wait_until(GET_BREAKPOINT_LINES, re.compile("[0-9]"))
    browser.script(CLICK_MARGIN, int(breakpoint_line))
    eventually(browser, "a click at its new line clears the breakpoint", GET_BREAKPOINT_LINES, "")


def check_breakpoint_inside_instruction(browser, source, values, lines):
    """Checks that a breakpoint inside an instruction moves to the next instruction, in the source, the disassembly and the bench. Clicks must clear
    breakpoints."""
    call = next(number for number, text in enumerate(lines, 1) if "JMS scan" in text.expandtabs(1))
    address = next(candidate for candidate, (number, _) in source.items() if number == call)
    second_address, next_address = (f"{int(address, 16) + offset:03X}" for offset in (1, 2))
    go_to(browser, address)
    send_lines(browser, f"break 0x{second_address}")
    browser.script(SHOW_MARGIN, call)
    eventually(browser, "a breakpoint inside an instruction moves to the next instruction", GET_BREAKPOINT_LINES, str(source[next_address][0]))
    eventually(browser, "the mark of the breakpoint in the source and in the disassembly", GET_BREAKPOINT_MARKS, ["\u25cf breakpoint", "\u25cf"])
    verdict("the address of the breakpoint in the bench", send_lines(browser, "breaks"), re.compile(f"breaks {next_address}$"))
    browser.script(CLICK_MARGIN, source[next_address][0])
    eventually(browser, "a click in the margin clears the breakpoint", GET_BREAKPOINT_LINES, "")
    verdict("the bench has no breakpoints", send_lines(browser, "breaks"), re.compile("breaks -$"))
    send_lines(browser, f"break 0x{address}")
    browser.wait_until(GET_BREAKPOINT_LINES, str(call))
    browser.script("document.querySelector('#lines-of-program button[aria-pressed=true]').click()")
    eventually(browser, "a click on its row in the disassembly clears the breakpoint", GET_BREAKPOINT_LINES, "")


def point_at(browser, line, word):
    """Moves the pointer to a word of the source and leaves it there."""
    x, y = browser.script(SCROLL_TO_WORD, line, word)
    browser.perform_actions({"type": "pointer", "id": "mouse", "parameters": {"pointerType": "mouse"}, "actions": [
        {"type": "pointerMove", "duration": 0, "x": int(x) + shift, "y": int(y)} for shift in (1, 2)]})


def check_word_descriptions(browser, source, values, lines):
    """Checks that the page describes the word under the pointer: a label's address and line, a named number's value, an instruction, a register."""
    line_of = {word: next(number for number, text in enumerate(lines, 1) if re.search(pattern, text)) for word, pattern in {
        "scan": r"JMS scan\b", "nonzero": r"^nonzero\s*=", "JMS": r"JMS scan\b", "P1": r"FIM P1,"}.items()}
    for word, expected in {
        "scan": f"scan: address 0x{values['scan']}, line {source[values['scan']][0]}",
        "JMS": re.compile(r"^JMS t: 2 words, 2 cycles\. .*The carry does not change\.$"),
        "nonzero": re.compile(f"^nonzero = 0x{values['nonzero'][-2:]}, {int(values['nonzero'], 16)}(, {int(values['nonzero'], 16):04b})?$"),
        "P1": re.compile(r"^(?:P1 = ([0-9A-F])([0-9A-F]): R2 \1, R3 \2\. )?P1: the pair of R2 \(upper four bits\) and R3 \(lower four bits\)\.$"),
    }.items():
        point_at(browser, line_of[word], word)
        eventually(browser, f"the description of {word} under the pointer", GET_EXPLANATION, expected)


def check_go_to(browser):
    """Checks that Go to shows addresses in all formats, and reports other input."""
    for text, address in (("01E", "01E"), ("0x11E", "11E"), ("30", "01E"), ("100", "100")):
        go_to(browser, text)
        eventually(browser, f"Go to {text} shows the address", f"{GET_ADDRESSES}.includes('{address}')", True)
    for text, pattern in (("nosuch", "^nosuch is neither a name of the program nor an address"), ("4096", "^4096 is not an address")):
        go_to(browser, text)
        eventually(browser, f"Go to {text} is rejected with a message", GET_GO_TO_STATUS, re.compile(pattern))
        verdict("the field is marked as invalid", browser.script("return document.getElementById('go-to').getAttribute('aria-invalid')"), "true")
    go_to(browser, "scan")
    eventually(browser, "a valid address removes the message", GET_GO_TO_STATUS, "")


def check_names_in_lines(browser, values):
    """Checks that `@NAME` in a line of the console is replaced by the name's address, and that an unknown name is reported."""
    verdict("the answer to a line with a name", send_lines(browser, "list @scan 1"), re.compile(rf"^list 0x{values['scan']} 1{values['scan']} "))
    show_text(browser, "console")
    browser.type_into("#lines", "break @nosuch" + ENTER)
    eventually(browser, "the message about a name that the program lacks", GET_NOTICE, "@nosuch: the program has no such name.")
    verdict("the rejected line stays in the field", browser.script("return document.getElementById('lines').value"), "break @nosuch")
    browser.script("document.getElementById('lines').value = ''")
    browser.click("#notice button")
    show_text(browser, "disassembly")


def set_source(browser, text):
    """Replaces the text of the program's editor."""
    show_text(browser, "program")
    browser.script(PUT_INTO_EDITOR, "#program-editor", text)


def check_source_differs_from_rom(browser, source, lines):
    """Checks that the page reports the first line at which source and ROM differ, and shows no names then. Errors in the source must also be
    reported."""
    line = source["106"][0]
    changed_lines = [*lines[:line - 1], "\tLDM 3", *lines[line:]]
    set_source(browser, "\n".join(["; one line more", *changed_lines]) + "\n")
    message = f"Source and ROM differ from line {line + 1} (0x106). Assemble to update."
    eventually(browser, "the first line at which source and ROM differ is reported", GET_SOURCE_STATUS, message)
    eventually(browser, "the disassembly shows no names", GET_LABELS, "")
    browser.script(CLICK_MARGIN, line)
    eventually(browser, "the message about a breakpoint while source and ROM differ", GET_POPUP, f"{message} Until then this breakpoint stops nothing.")
    browser.script(CLICK_MARGIN, line)
    eventually(browser, "another click clears the breakpoint", GET_BREAKPOINT_LINES, "")
    set_source(browser, "\n".join(["; one line more", *lines]) + "\n")
    eventually(browser, "a source with another comment does not differ from ROM", GET_SOURCE_STATUS, "")
    eventually(browser, "the disassembly shows the names again", GET_LABELS, re.compile("scan:"))
    send_lines(browser, "poke rom.0x106 0xD3")
    eventually(browser, "a changed byte in ROM is reported", GET_SOURCE_STATUS, message)
    send_lines(browser, "poke rom.0x106 0xD2")
    eventually(browser, "the report disappears when the byte is restored", GET_SOURCE_STATUS, "")
    set_source(browser, "\tLDM 3\n\tJUN nowhere\n")
    eventually(browser, "an error in the source is reported", GET_SOURCE_STATUS, re.compile("^The source has an error on line 2: no 32"))
    set_source(browser, "\tORG 0xF00\n\tNOP\n")
    eventually(browser, "a source line for a missing ROM chip is reported", GET_SOURCE_STATUS, "The board has no ROM at 0xF00, where line 2 of the source goes.")


def check(browser, page, _folder, mcs4):
    source, values = read_listing(mcs4)
    lines = PROGRAM.read_text().splitlines()
    browser.open(page.as_uri())
    wait_until_ready(browser)
    choose_example(browser, "calculator")
    show_text(browser, "program")
    check_marked_lines(browser, source)
    check_breakpoint_at_name(browser, source, values, lines)
    check_margin_clicks(browser, source, values)
    check_breakpoint_inside_instruction(browser, source, values, lines)
    check_word_descriptions(browser, source, values, lines)
    check_go_to(browser)
    check_names_in_lines(browser, values)
    check_source_differs_from_rom(browser, source, lines)
    choose_example(browser, "calculator")
