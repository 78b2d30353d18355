"""The part of checks/page about the debugger: breakpoints that stay at their lines while the source is edited, conditions, hit counts, log messages,
and going back. It also covers the form and the menu for editing a breakpoint, and saving.

An earlier version of the page moved breakpoints of PROGRAM away from their lines. The addresses in this check were counted manually.
"""

import re
import time

from page_basics import ENTER, ESCAPE, GET_NOTICE, GET_STATUS, GET_WHOLE_STATUS, TAB, choose_example, send_lines, wait_until_ready
from page_names import CLICK_MARGIN, GET_BREAKPOINT_LINES
from page_texts import UNDO_BUTTON
from verdicts import eventually, verdict

PROGRAM = """        LDM 3
        WRR
        LDM 0
        WRR
        FIM P0, 0x10
        FIM P1, 0x00
loop:   SRC P0
        RDR
        KBP
        SRC P1
        WMP
        JMS wait
        JUN loop
wait:   INC R9
        BBL 0
"""
LINES = PROGRAM.split("\n")
JUN_LINE, WMP_LINE, INC_LINE = (LINES.index(next(line for line in LINES if text in line)) + 1 for text in ("JUN loop", "WMP", "INC R9"))

SET_PROGRAM = """
document.querySelector("#program-editor .cm-editor").lineEditor.setValue(arguments[0])"""
# Inserts a line before the line with this number, as an edit by the user does. The arguments are the number, from 1, and the text.
INSERT_LINE = """
const editor = document.querySelector("#program-editor .cm-editor").lineEditor;
editor.replaceRange(`        ${arguments[1]}\\n`, { line: arguments[0] - 1, ch: 0 }, undefined, "paste")"""
GET_BREAKPOINTS = """
return [...document.querySelectorAll("#breakpoint-list li")].map((row) =>
  `${row.querySelector("i").textContent} ${row.querySelector(".place").textContent}`).join("; ")"""
GET_HITS = "return [...document.querySelectorAll('#breakpoint-list .hits')].map((node) => node.textContent).join('; ')"
GET_BREAKPOINT_ERRORS = "return [...document.querySelectorAll('#breakpoint-list .fault')].map((node) => node.textContent).join('')"
GET_NOTES = "return [...document.querySelectorAll('#breakpoint-notes p')].map((node) => node.textContent).slice(0, 3).join('; ')"
GET_BREAKPOINT_DETAILS = 'return [...document.querySelectorAll("#breakpoint-list .words")].map((node) => node.textContent).join("; ")'
# The source lines that have a breakpoint in the margin, including lines that are out of view.
GET_LINES_IN_MARGIN = """
return document.querySelector("#program-editor .cm-editor").lineEditor.findMarkedLines("breakpoints").map((line) => line + 1).join(" ")"""
UNDO_EDIT = "document.querySelector('#program-editor .cm-editor').lineEditor.undo()"
# The form below a source line edits the line's breakpoint. GET_ROW_ERROR returns the error in the form, and GET_ROW_VALUES returns the values of its
# fields.
GET_ROW_ERROR = "const shown = document.querySelector('.breakpoint-row .fault'); return shown ? shown.textContent : 'no row'"
GET_ROW_VALUES = "return [...document.querySelectorAll('.breakpoint-row input')].map((node) => node.value).join('; ')"
# Sets the condition, hit count or log message of the first breakpoint in the list, through its form.
FILL_ROW = """
document.querySelector("#breakpoint-list .edit").click();
const row = document.querySelector(".breakpoint-row");
row.querySelectorAll("input")[arguments[0]].value = arguments[1];
row.requestSubmit()"""
CONDITION, HIT_COUNT, LOG_MESSAGE = range(3)
# Sets the condition of the first breakpoint to each argument in turn, and then resumes the program, before the page can do anything else.
CHANGE_AND_RUN = """
for (const condition of arguments) {
  document.querySelector("#breakpoint-list .edit").click();
  document.querySelector(".breakpoint-row input").value = condition;
  document.querySelector(".breakpoint-row").requestSubmit();
}
document.getElementById("run").click()"""
# Presses Shift+F9 at a source line (counted from 0), which opens the form with the condition of the line's breakpoint.
OPEN_CONDITION_ROW = """
const editor = document.querySelector("#program-editor .cm-editor").lineEditor;
editor.setCursor({ line: arguments[0], ch: 0 });
editor.getInputField().dispatchEvent(new KeyboardEvent("keydown", { key: "F9", keyCode: 120, shiftKey: true, bubbles: true }))"""
GET_LINE_ABOVE_FOCUSED_ROW = "const row = document.activeElement.closest('.breakpoint-row'); return row ? row.previousElementSibling.textContent : ''"
INC_LINE_PATTERN = re.compile("INC R9")
# Returns the text of the line above the breakpoint form, or "" if there is no form.
GET_LINE_ABOVE_ROW = "const row = document.querySelector('.breakpoint-row'); return row ? row.previousElementSibling.textContent : ''"
IS_FOCUS_IN_SOURCE = "return document.activeElement.closest('#program-editor .cm-content') !== null"
GET_FOCUSED_TEXT = "return document.activeElement.textContent"
# Opens the context menu of a line's margin, as a right click does.
OPEN_MARGIN_MENU = """
const number = [...document.querySelectorAll("#program-editor .cm-lineNumbers .cm-gutterElement")].find((node) => node.textContent === String(arguments[0]));
const { x, y } = number.getBoundingClientRect();
number.dispatchEvent(new MouseEvent("contextmenu", { bubbles: true, cancelable: true, clientX: x + 4, clientY: y + 4 }))"""
BACKSPACE, UP, DOWN, SHIFT, F9, F10 = "\ue003", "\ue013", "\ue015", "\ue008", "\ue039", "\ue03a"
GET_RUN_LABEL = "return document.getElementById('run').textContent"
GET_POPUP = "return document.querySelector('.popup-message').textContent"
SEND_BUTTON = "#program-editor .send"


def load_program(browser):
    """Loads the program in a new session with the board that an empty bench offers, and pauses time."""
    choose_example(browser, "empty bench")
    browser.click("#first-board")
    browser.wait_until("return document.querySelectorAll('#keys button').length", 2)
    browser.script(SET_PROGRAM, PROGRAM)
    browser.click(SEND_BUTTON)
    browser.wait_until(GET_STATUS, re.compile("^Running"))
    browser.click("#run")
    browser.wait_until(GET_RUN_LABEL, "Continue")


def check_moves_with_line(browser):
    """Checks that a breakpoint stays at its line when one or two bytes are inserted before it, and that a run stops there after each assembly."""
    browser.script(CLICK_MARGIN, JUN_LINE)
    eventually(browser, "a click in the margin sets a breakpoint", GET_BREAKPOINT_LINES, str(JUN_LINE))
    browser.script(INSERT_LINE, 2, "NOP")
    eventually(browser, "the breakpoint moves with its line", GET_BREAKPOINT_LINES, str(JUN_LINE + 1))
    browser.click(SEND_BUTTON)
    eventually(browser, "after assembly the program stops at the breakpoint, which the status names by label and line", GET_WHOLE_STATUS,
               f"Paused at 010 (loop + 7, line {JUN_LINE + 1}), at a breakpoint.")
    verdict("the address of the breakpoint", send_lines(browser, "breaks"), re.compile("breaks 010$"))
    browser.script(CLICK_MARGIN, WMP_LINE + 1)
    browser.script(CLICK_MARGIN, JUN_LINE + 1)
    eventually(browser, "the breakpoint was moved to WMP", GET_BREAKPOINT_LINES, str(WMP_LINE + 1))
    browser.script(INSERT_LINE, 3, "FIM P2, 0")
    browser.click(SEND_BUTTON)
    eventually(browser, "the breakpoint stays at WMP after two more bytes before it", GET_WHOLE_STATUS, f"Paused at 00F (loop + 4, line {WMP_LINE + 2}), at a breakpoint.")
    verdict("the list shows the breakpoint by label and line", browser.script(GET_BREAKPOINTS), f"\u25cf 00F (loop + 4, line {WMP_LINE + 2})")
    browser.script(INSERT_LINE, 1, "")
    eventually(browser, "the breakpoint keeps its line while the source differs from ROM", GET_BREAKPOINT_LINES, str(WMP_LINE + 3))
    browser.script(UNDO_EDIT)
    eventually(browser, "the line of the breakpoint after Undo", GET_BREAKPOINT_LINES, str(WMP_LINE + 2))


def check_moves_to_instruction(browser):
    """Checks that a breakpoint that is set at a line without bytes, or inside an instruction, moves to the next instruction. A message must report
    the move."""
    load_program(browser)
    browser.script(INSERT_LINE, JUN_LINE, "; what comes next")
    browser.click(SEND_BUTTON)
    browser.wait_until(GET_STATUS, re.compile("^Running"))
    browser.script(CLICK_MARGIN, JUN_LINE)
    eventually(browser, "the message about a breakpoint at a line without bytes", GET_POPUP,
               f"Line {JUN_LINE} puts no bytes into ROM: its breakpoint is at the next instruction, line {JUN_LINE + 1}.")
    eventually(browser, "the breakpoint of a line without bytes is at the next instruction", GET_BREAKPOINT_LINES, str(JUN_LINE + 1))
    eventually(browser, "the breakpoint stops the running program", GET_STATUS, "Paused at 00F, at a breakpoint.")
    browser.click("#breakpoint-list .bar button[title='removes it']")
    eventually(browser, "the breakpoint is removed in the list", GET_BREAKPOINT_LINES, "")
    send_lines(browser, "break 0x010")
    eventually(browser, "a breakpoint inside an instruction moves to the next instruction", GET_BREAKPOINT_LINES, str(JUN_LINE + 2))
    verdict("the message about a breakpoint inside an instruction", browser.script(GET_POPUP),
            f"010 is inside the instruction of line {JUN_LINE + 1}: its breakpoint is at the next one, line {JUN_LINE + 2}.")
    eventually(browser, "the breakpoint in the list", "return [...document.querySelectorAll('#breakpoint-list .place')].map((node) => node.textContent).join()",
               f"011 (wait, line {JUN_LINE + 2})")


def check_conditions_and_counts(browser):
    """Checks that a breakpoint stops if its condition is true or its hit count is reached, and that one with a log message logs and continues. A
    breakpoint with an error must always stop, and a disabled breakpoint must stay in the list."""
    load_program(browser)
    browser.script(OPEN_CONDITION_ROW, INC_LINE - 1)
    eventually(browser, "Shift+F9 sets a breakpoint, and its condition has the caret, below the line", GET_LINE_ABOVE_FOCUSED_ROW, INC_LINE_PATTERN)
    verdict("the line of the breakpoint with the condition", browser.script(GET_BREAKPOINT_LINES), str(INC_LINE))
    browser.type_keys([*"r9 = 9", ENTER])
    eventually(browser, "a breakpoint with a condition has its own mark", GET_BREAKPOINTS, re.compile("^\u25c6 "))
    browser.click("#run")
    eventually(browser, "the program stops when the condition is true", GET_STATUS, "Paused at 011, at a breakpoint, when r9 = 9.")
    verdict("the condition is true in the bench", send_lines(browser, "regs"), re.compile(" r .{9}9.{6} "))
    check_going_back(browser)
    verdict("a conditional breakpoint is not in the session file", send_lines(browser, "breaks"), re.compile("breaks -$"))
    check_console_run(browser)
    browser.script(FILL_ROW, CONDITION, "r44 = 9")
    eventually(browser, "an invalid condition shows an error in its row", GET_BREAKPOINT_ERRORS,
               "It stops every time, because of an error: r44: no such place; the registers are r0 to r15 (column 1).")
    browser.click("#run")
    eventually(browser, "a breakpoint with an invalid condition always stops", GET_STATUS,
               "Paused at 011, at a breakpoint that has an error, r44: no such place; the registers are r0 to r15 (column 1).")
    browser.script(FILL_ROW, CONDITION, "R9 == 3 || (r9 >= 0xF && lamp 1 on)")
    eventually(browser, "a corrected condition works", GET_BREAKPOINT_ERRORS, "")
    browser.script(FILL_ROW, CONDITION, "rom3 in 1")
    eventually(browser, "the error in a condition about a part that the board lacks", GET_BREAKPOINT_ERRORS,
               "It stops every time, because of an error: the board has no ROM 3 (column 1).")
    browser.script(CHANGE_AND_RUN, "r9 = 7", "", "r9 = 5")
    eventually(browser, "a run immediately after changes of the condition uses the last one", GET_STATUS, "Paused at 011, at a breakpoint, when r9 = 5.")
    browser.script(FILL_ROW, CONDITION, "")
    eventually(browser, "the breakpoint has no condition again", GET_BREAKPOINTS, re.compile("^\u25cf "))
    browser.click("#breakpoints-hits")
    browser.script(FILL_ROW, HIT_COUNT, "50")
    browser.click("#reset")
    browser.wait_until(GET_STATUS, re.compile("^The board was reset"))
    browser.click("#run")
    eventually(browser, "the hit count in the list", GET_HITS, "50 hits")
    eventually(browser, "the program stops at the hit count", GET_STATUS, "Paused at 011, at a breakpoint, at hit 50.")
    verdict("R9 at the hit count", send_lines(browser, "regs"), re.compile(" r .{9}1.{6} "))
    browser.script(FILL_ROW, HIT_COUNT, "")
    browser.script(FILL_ROW, LOG_MESSAGE, "R9 is {r9}, {lamps}")
    eventually(browser, "a breakpoint with a log message has its own mark", GET_BREAKPOINTS, re.compile("^\u25b8 "))
    browser.click("#reset")
    browser.wait_until(GET_STATUS, re.compile("^The board was reset"))
    browser.click("#run")
    eventually(browser, "the message is logged instead of a stop", GET_NOTES, re.compile(r"^011 \(wait, line \d+\) R9 is [0-9A-F], [*.]{4}; "))
    verdict("the program still runs after the log message", browser.script(GET_RUN_LABEL), "Pause")
    browser.click("#breakpoints-off")
    eventually(browser, "a disabled breakpoint is kept", GET_BREAKPOINTS, re.compile("^\u25cb "))
    browser.click("#run")
    browser.wait_until(GET_RUN_LABEL, "Continue")


def check_console_run(browser):
    """Checks that a `run` typed in the console also stops at a breakpoint, with a message."""
    browser.script(FILL_ROW, CONDITION, "r9 = 9")
    send_lines(browser, "reset")
    verdict("a `run` line stops when the condition is true", send_lines(browser, "run 100000"), re.compile(r"run (\d+)ok \d+ ran \1 end$"))
    eventually(browser, "the status after the `run` line", GET_WHOLE_STATUS,
               "Paused at 011 (wait, line 14), at a breakpoint, when r9 = 9. The line run 100000 ended there.")
    verdict("R9 after the `run` line", send_lines(browser, "regs"), re.compile(" r .{9}9.{6} "))


def check_going_back(browser):
    """Checks that going back leads to the last arrival at a breakpoint whose condition was true. If there was none, it must lead to the start of the
    history. The result must not depend on the lengths of the runs."""
    # Runs past the next arrival at which the condition is true. R9 is 9 again after 16 increments, one every 11 cycles.
    for cycles in (150, 26, 77):
        send_lines(browser, f"run {cycles}")
    browser.click("#back-breakpoint")
    eventually(browser, "the status after going back to the arrival at which the condition was true", GET_STATUS,
               re.compile(r"^Back at 011, 77 cycles, .* earlier, at a breakpoint, when r9 = 9\.$"))
    verdict("R9 after going back", send_lines(browser, "regs"), re.compile(" r .{9}9.{6} "))
    browser.click("#forward")
    browser.wait_until(GET_STATUS, re.compile("^Forward again"))
    browser.click("#back-breakpoint")
    browser.wait_until(GET_STATUS, re.compile("at a breakpoint, when r9 = 9"))
    browser.click("#back-breakpoint")
    eventually(browser, "the status after going back to the previous arrival", GET_STATUS, re.compile("^Back at 011, 176 cycles, "))
    browser.script(FILL_ROW, CONDITION, "r9 = 9 and r9 = 8")
    browser.click("#back-breakpoint")
    eventually(browser, "the status after going back if the condition is never true", GET_STATUS,
               re.compile("^Back at ..., .* at the beginning of the remembered past: no breakpoint was passed since then"))
    browser.click("#forward")
    eventually(browser, "the status after going forward", GET_STATUS, re.compile("^Forward again to 011"))


def check_reload(browser):
    """Checks that a reload keeps all breakpoints with their details, and a condition that was typed but not applied."""
    list_before = browser.script(GET_BREAKPOINTS)
    browser.script(FILL_ROW, CONDITION, "at wait")
    time.sleep(0.3)
    browser.reload()
    wait_until_ready(browser)
    eventually(browser, "a reload keeps the list of breakpoints", GET_BREAKPOINTS, list_before)
    verdict("the conditions after a reload", browser.script(GET_BREAKPOINT_DETAILS), 'if at wait: logs "R9 is {r9}, {lamps}" and continues')
    browser.click("#breakpoint-list .edit")
    browser.type_keys([*"r9 ="])
    browser.wait_until(GET_ROW_VALUES, "r9 =; ; R9 is {r9}, {lamps}")
    browser.reload()
    wait_until_ready(browser)
    eventually(browser, "a reload keeps a condition that was typed but not applied", GET_BREAKPOINT_DETAILS, re.compile('^if r9 =: logs "R9 is'))
    browser.click("#breakpoints-remove")
    eventually(browser, "all breakpoints are removed", GET_BREAKPOINT_LINES, "")


def check_replaced_source(browser, folder):
    """Checks that restoring a replaced source also restores its breakpoints with their details, through the notice and through Ctrl+Z."""
    load_program(browser)
    browser.script(OPEN_CONDITION_ROW, INC_LINE - 1)
    browser.wait_until(GET_LINE_ABOVE_FOCUSED_ROW, INC_LINE_PATTERN)
    browser.type_keys([*"r9 = 9", ENTER])
    browser.script(CLICK_MARGIN, WMP_LINE)
    margin_lines = f"{WMP_LINE} {INC_LINE}"
    browser.wait_until(GET_LINES_IN_MARGIN, margin_lines)
    list_before = browser.script(GET_BREAKPOINTS), browser.script(GET_BREAKPOINT_DETAILS)
    for length, text in (("short", "; a\n NOP\n"), ("long", "; a\n" + " NOP\n" * 40)):
        replacement_file = folder / f"{length}.asm"
        replacement_file.write_text(text)
        for action, undo in (("Undo", lambda: browser.click(UNDO_BUTTON)), ("Ctrl+Z", lambda: browser.script(UNDO_EDIT))):
            browser.type_into("#file", str(replacement_file))
            browser.wait_until(GET_NOTICE, re.compile(f"{length}.asm"))
            eventually(browser, f"a {length} source has none of the breakpoints of the source before it", GET_LINES_IN_MARGIN, "")
            undo()
            eventually(browser, f"{action} restores the lines of the breakpoints", GET_LINES_IN_MARGIN, margin_lines)
            eventually(browser, "the list after an undo", GET_BREAKPOINTS, list_before[0])
            verdict("the conditions after an undo", browser.script(GET_BREAKPOINT_DETAILS), list_before[1])
    browser.script("for (const each of document.querySelectorAll('#notice .dismiss')) each.click()")
    browser.script(CLICK_MARGIN, WMP_LINE)
    browser.wait_until(GET_LINES_IN_MARGIN, str(INC_LINE))
    browser.click("#reset")
    browser.wait_until(GET_STATUS, re.compile("^The board was reset"))
    browser.click("#run")
    eventually(browser, "the program stops when the condition is true", GET_STATUS, "Paused at 011, at a breakpoint, when r9 = 9.")
    time.sleep(1)
    browser.reload()
    wait_until_ready(browser)
    eventually(browser, "a reload keeps the breakpoint", GET_BREAKPOINT_DETAILS, "if r9 = 9")


def check_breakpoint_form(browser):
    """Checks that a breakpoint's details are edited below its line. Enter applies them, Escape cancels, and an error stays at its field."""
    load_program(browser)
    browser.script(OPEN_CONDITION_ROW, INC_LINE - 1)
    browser.wait_until(GET_LINE_ABOVE_FOCUSED_ROW, INC_LINE_PATTERN)
    browser.type_keys([*"r44 = 9", ENTER])
    eventually(browser, "an error in a condition is shown in the row", GET_ROW_ERROR,
               "It stops every time, because of an error: r44: no such place; the registers are r0 to r15 (column 1).")
    verdict("the form keeps the focus after an error", browser.script(GET_LINE_ABOVE_FOCUSED_ROW), INC_LINE_PATTERN)
    browser.type_keys([*[BACKSPACE] * 7, *"r9 = 9", TAB, *"0", ENTER])
    eventually(browser, "an invalid hit count is marked", "return document.activeElement.getAttribute('aria-invalid')", "true")
    verdict("nothing is applied after an error", browser.script(GET_BREAKPOINT_DETAILS), "if r44 = 9")
    browser.type_keys([BACKSPACE, "2", ENTER])
    eventually(browser, "Enter applies the typed values", GET_BREAKPOINT_DETAILS, "if r9 = 9 from hit 2 on")
    verdict("the form closes", browser.script(GET_ROW_VALUES), "")
    verdict("the source has the focus again", browser.script(IS_FOCUS_IN_SOURCE), True)
    browser.press_chord(SHIFT, F9)
    eventually(browser, "Shift+F9 opens the form again", GET_ROW_VALUES, "r9 = 9; 2; ")
    browser.type_keys([*"at loop", TAB, TAB, *"seen"])
    verdict("a field that lost the focus is not applied yet", browser.script(GET_BREAKPOINT_DETAILS), "if r9 = 9 from hit 2 on")
    browser.type_keys([F10, F10])
    eventually(browser, "steps keep the form open with its values", GET_ROW_VALUES, "at loop; 2; seen")
    verdict("the form keeps the focus", browser.script(GET_LINE_ABOVE_FOCUSED_ROW), INC_LINE_PATTERN)
    browser.type_keys([ESCAPE])
    eventually(browser, "Escape closes the form", GET_ROW_VALUES, "")
    verdict("Escape restores the condition", browser.script(GET_BREAKPOINT_DETAILS), "if r9 = 9 from hit 2 on")
    browser.script(OPEN_CONDITION_ROW, INC_LINE - 1)
    browser.wait_until(GET_LINE_ABOVE_FOCUSED_ROW, INC_LINE_PATTERN)
    browser.type_keys([*"at wait"])
    browser.click("#step")
    eventually(browser, "a click outside the form applies it", GET_BREAKPOINT_DETAILS, "if at wait from hit 2 on")
    browser.script("document.querySelector('#program-editor .cm-editor').lineEditor.replaceRange('\\n NOP', { line: arguments[0], ch: Infinity })", INC_LINE - 1)
    eventually(browser, "a line inserted after the breakpoint's line is below the form", GET_LINE_ABOVE_ROW, INC_LINE_PATTERN)
    browser.script(INSERT_LINE, 1, "NOP")
    eventually(browser, "the form moves with its line", GET_LINE_ABOVE_ROW, INC_LINE_PATTERN)
    browser.script("document.querySelector('#program-editor .cm-editor').lineEditor.replaceRange('', { line: arguments[0], ch: 0 }, { line: arguments[0] + 1, ch: 0 })", INC_LINE)
    eventually(browser, "the form disappears with its line", GET_LINE_ABOVE_ROW, "")


def check_menu(browser):
    """Checks that the menu of a line's margin adds a log message and disables a breakpoint. A breakpoint without a line must be edited in the
    list."""
    load_program(browser)
    browser.script(OPEN_MARGIN_MENU, INC_LINE)
    eventually(browser, "the margin menu has the focus", GET_FOCUSED_TEXT, "Add breakpointF9")
    browser.type_keys([DOWN, DOWN, DOWN, ENTER])
    eventually(browser, "Log message sets a breakpoint and opens its form", GET_LINE_ABOVE_FOCUSED_ROW, INC_LINE_PATTERN)
    browser.type_keys([*"R9 is {r9}", ENTER])
    eventually(browser, "the breakpoint has the log message", GET_BREAKPOINT_DETAILS, 'logs "R9 is {r9}" and continues')
    browser.script(OPEN_MARGIN_MENU, INC_LINE)
    browser.wait_until(GET_FOCUSED_TEXT, "Remove breakpointF9")
    browser.type_keys([UP, UP, ENTER])
    eventually(browser, "Disable breakpoint keeps the breakpoint", GET_BREAKPOINTS, re.compile("^\u25cb "))
    verdict("the margin menu is closed", browser.script("return document.getElementById('margin-menu').hidden"), True)
    browser.script(OPEN_MARGIN_MENU, INC_LINE)
    browser.wait_until(GET_FOCUSED_TEXT, "Remove breakpointF9")
    browser.type_keys([ESCAPE])
    eventually(browser, "Escape closes the margin menu, and the source has the focus", IS_FOCUS_IN_SOURCE, True)
    browser.click("#breakpoints-remove")
    send_lines(browser, "break 0x200")
    browser.wait_until(GET_BREAKPOINTS, re.compile("200"))
    browser.click("#breakpoint-list .edit")
    eventually(browser, "the form of a breakpoint without a line is in the list", "return document.activeElement.closest('#breakpoint-list .breakpoint-row') !== null", True)
    browser.type_keys([*"r9 = 1", ENTER])
    eventually(browser, "the form in the list is applied", GET_BREAKPOINT_DETAILS, "if r9 = 1")
    eventually(browser, "the breakpoint's Edit button has the focus", GET_FOCUSED_TEXT, "Edit")
    choose_example(browser, "three lamps")
    eventually(browser, "another session shows no form", GET_ROW_VALUES, "")


def check(browser, page, folder, *_):
    browser.open(page.as_uri())
    wait_until_ready(browser)
    load_program(browser)
    check_moves_with_line(browser)
    check_moves_to_instruction(browser)
    check_conditions_and_counts(browser)
    check_reload(browser)
    check_breakpoint_form(browser)
    check_menu(browser)
    check_replaced_source(browser, folder)
