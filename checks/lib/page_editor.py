"""The part of checks/page about the editors: typing, errors, completion, help, undo, limits, assembling and running."""

import re
import time

from page_basics import GET_ALL_NOTICES, GET_STATUS, GET_TEXT_OF_EDITOR, PUT_INTO_EDITOR, STEPPED_MESSAGE, choose_example, reopen_page, show_text, pause_running_time
from verdicts import eventually, verdict

CONTROL, SHIFT, ALT, ENTER, ESCAPE, TAB = "\ue009", "\ue008", "\ue00a", "\ue007", "\ue00c", "\ue004"
END, DOWN, F2, F9, F12, BACKSPACE = "\ue010", "\ue015", "\ue032", "\ue039", "\ue03c", "\ue003"
PROGRAM_EDITOR, BOARD_EDITOR = "#program-editor", "#board-editor"
# A program at the limit: 16,381 bytes without comments and indentation, 36,497 bytes with them.
LONGEST_TEXT = "; a line of a comment, with words in it, and then some more of them\n" * 240 + "\tNOP\n" * 4035 + ";\n"

GET_SCROLL_TOP = "return document.querySelector('#program-editor .cm-editor').lineEditor.getScrollInfo().top"
FIND_EDITOR = "const editor = document.querySelector(`${arguments[0]} .cm-editor`).lineEditor; "
GET_CARET = f"{FIND_EDITOR}const at = editor.getCursor(); return [at.line, at.ch, editor.getSelection()]"
SET_CARET = f"{FIND_EDITOR}editor.setCursor({{ line: arguments[1], ch: arguments[2] }}); editor.focus()"
GET_ERRORS = "return [...document.querySelectorAll('{} .fault-list li')].map((node) => node.textContent).join('|')"
GET_UNDERLINED_TEXT = "return [...document.querySelectorAll('{} .fault')].map((node) => node.textContent).join(' ')"
GET_STATUS_OF = "return document.querySelector('{} .status-text').textContent"
GET_EXPLANATION = "return document.querySelector('{} .meaning').textContent"
IS_FOCUS_IN_PROGRAM = "return document.activeElement.closest('.paper') !== null"
# Scrolls an editor to the end of its text. Returns the last line number, whether the text is wider than its box, and whether each visible line number
# is beside a line.
GET_LINE_NUMBERS = f"""{FIND_EDITOR}
editor.scrollTo(1e6);
editor.view.scrollDOM.scrollLeft = 1000;
const shown = (part) => [...editor.view.dom.querySelectorAll(part)].filter((node) => node.getBoundingClientRect().height > 0);
const lines = shown(".cm-line").map((line) => line.getBoundingClientRect().top);
const numbers = shown(".cm-lineNumbers .cm-gutterElement");
const apart = numbers.map((number) => Math.min(...lines.map((line) => Math.abs(number.getBoundingClientRect().top - line))));
const last = numbers[numbers.length - 1].textContent;
return [last, editor.getScrollInfo().width > editor.getScrollInfo().clientWidth, Math.max(...apart) < 2]"""
# Measures the time that the editor needs for each of 100 typed characters. Returns the median in milliseconds.
MEASURE_KEY_TIMES = f"""{FIND_EDITOR}
editor.setCursor({{ line: arguments[1], ch: 0 }});
const times = [];
for (let key = 0; key < 100; key++) {{
  const begun = performance.now();
  editor.replaceSelection(key % 20 === 19 ? "\\n" : "x", "input.type");
  times.push(performance.now() - begun);
}}
editor.undo();
times.sort((one, other) => one - other);
return times[50]"""
# Measures how much other programs on the machine slow the browser down: the mean time of 200 short loops, divided by the shortest time.
MEASURE_SLOWDOWN = """
const times = [];
let sum = 0;
for (let round = 0; round < 200; round++) {
  const begun = performance.now();
  for (let at = 0; at < 500000; at++) sum += at % 7;
  times.push(performance.now() - begun);
}
return times.reduce((all, time) => all + time, 0) / times.length / Math.max(0.1, Math.min(...times))"""
PASTE_TEXT = """
const data = new DataTransfer();
data.setData("text/plain", arguments[1].repeat(arguments[2]));
const input = document.querySelector(`${arguments[0]} .cm-editor`).lineEditor.getInputField();
input.focus();
const paste = new Event("paste", { bubbles: true, cancelable: true });
Object.defineProperty(paste, "clipboardData", { value: data });
input.dispatchEvent(paste)"""

FAULTY_PROGRAM = """start:  LDX 5           ; für
        FIM R0, 5
        JMP start
        LDM
loop:   NOP
loop:   NOP
"""
ERROR_MESSAGES = re.compile(r"^line 1: LDX is not an instruction; .*\|line 2: FIM takes a pair, P0 to P7\|line 3: JMP is not an instruction; JUN\?"
                   r"\|line 4: LDM takes a value, 0 to 15\|line 6: loop is already defined on line 5$")


def set_text(browser, editor, text):
    """Replaces the text in an editor."""
    browser.script(PUT_INTO_EDITOR, editor, text)


def check_errors(browser):
    """Checks that the editor shows all errors of a program while the user types."""
    set_text(browser, PROGRAM_EDITOR, "")
    browser.script(SET_CARET, PROGRAM_EDITOR, 0, 0)
    set_text(browser, PROGRAM_EDITOR, FAULTY_PROGRAM)
    browser.script(SET_CARET, PROGRAM_EDITOR, 1, 3)
    eventually(browser, "the messages about all errors of the program", GET_ERRORS.format(PROGRAM_EDITOR), ERROR_MESSAGES)
    verdict("the underlined words", browser.script(GET_UNDERLINED_TEXT.format(PROGRAM_EDITOR)), "LDX R0 JMP LDM loop")
    verdict("the caret and the selection are unchanged", browser.script(GET_CARET, PROGRAM_EDITOR), [1, 3, ""])
    verdict("the number of errors in the margin",
            browser.script("return document.querySelectorAll('#program-editor .mark-faults').length"), 5)
    verdict("the tab shows the number of errors", browser.text_of("#program-tab"), re.compile("5 errors$"))
    browser.click(f"{PROGRAM_EDITOR} .send")
    eventually(browser, "a program with errors is not assembled", GET_STATUS_OF.format(PROGRAM_EDITOR), re.compile("^line 1: LDX is not an instruction.*4 more$"))
    browser.click(f"{PROGRAM_EDITOR} .fault-list li:nth-child(3) button")
    verdict("a click on an error in the list selects its word", browser.script(GET_CARET, PROGRAM_EDITOR), [2, 8, ""])
    corrected = FAULTY_PROGRAM.replace("LDM\n", "LDM 1\t; caf\u00e9\n").replace("LDX", "LDM").replace("R0", "P0").replace("JMP", "JUN")
    corrected = corrected.replace("loop:   NOP\nloop:", "loop:   NOP\nmore:")
    set_text(browser, PROGRAM_EDITOR, corrected.replace("start\n", "strat\n").replace("LDM 1\t", "LDM 16\t"))
    eventually(browser, "errors in values are reported when no line has a syntax error", GET_ERRORS.format(PROGRAM_EDITOR),
          "line 3: strat is not defined; start?|line 4: LDM takes a value, 0 to 15")
    set_text(browser, PROGRAM_EDITOR, corrected)
    eventually(browser, "a corrected program has no errors", GET_ERRORS.format(PROGRAM_EDITOR), "")


def check_typing(browser):
    """Checks that Tab indents, that completion inserts words, that the instruction at the caret is explained, and that a search selects the word.
    Escape and then Tab must leave the editor."""
    set_text(browser, PROGRAM_EDITOR, "loop:\tNOP\n")
    browser.script(SET_CARET, PROGRAM_EDITOR, 1, 0)
    # Press a key in the editor first, so that Tab indents and does not move the focus.
    browser.type_keys([DOWN, TAB, "l", "d"], 5, 5)
    browser.press_chord(CONTROL, " ")
    eventually(browser, "completion offers the words with the typed beginning", "return [...document.querySelectorAll('.cm-tooltip-autocomplete li')]"
               ".map((each) => each.textContent.slice(0, 3)).join()", "LD ,LDM")
    browser.type_keys([DOWN, ENTER, " ", "5", ENTER, "J", "U", "N", " ", "l", "o"], 5, 5)
    browser.press_chord(CONTROL, " ")
    browser.wait_until("return document.querySelectorAll('.cm-tooltip-autocomplete li').length", 1)
    browser.type_keys([ENTER], 5, 5)
    eventually(browser, "Tab indents, and the chosen words are inserted", GET_TEXT_OF_EDITOR.replace("arguments[0]", f"'{PROGRAM_EDITOR}'"),
               "loop:\tNOP\n\tLDM 5\n\tJUN loop")
    browser.script(SET_CARET, PROGRAM_EDITOR, 1, 2)
    eventually(browser, "the instruction at the caret is explained", GET_EXPLANATION.format(PROGRAM_EDITOR),
               re.compile(r"^(acc 0, cy 0\. )?LDM d: 1 word, 1 cycle\. Load immediate: d into ACC\. The carry does not change\.$"))
    browser.press_chord(CONTROL, "f")
    browser.type_keys([*"jun", ENTER, ESCAPE], 5, 5)
    eventually(browser, "the found word is selected", GET_CARET.replace("arguments[0]", f"'{PROGRAM_EDITOR}'"), [2, 4, "JUN"])
    browser.type_keys([ESCAPE, TAB], 5, 5)
    verdict("Escape and then Tab leave the editor", browser.script(IS_FOCUS_IN_PROGRAM), False)
    verdict("the text is unchanged", browser.script(GET_TEXT_OF_EDITOR, PROGRAM_EDITOR), "loop:\tNOP\n\tLDM 5\n\tJUN loop")


def check_name_commands(browser):
    """Checks that keyboard shortcuts find a name's definition and its references, and rename it everywhere except in comments. Also checks the
    shortcuts that go to a line, comment lines out, and replace text."""
    text_script = GET_TEXT_OF_EDITOR.replace("arguments[0]", f"'{PROGRAM_EDITOR}'")
    caret_script = GET_CARET.replace("arguments[0]", f"'{PROGRAM_EDITOR}'")
    set_text(browser, PROGRAM_EDITOR, "loop:\tNOP ; loop\n\tFIM P0, loop\n\tJUN loop")
    browser.script(SET_CARET, PROGRAM_EDITOR, 2, 7)
    browser.type_keys([F12], 5, 5)
    eventually(browser, "F12 selects the definition of a name", caret_script, [0, 4, "loop"])
    browser.press_chord(SHIFT, F12)
    eventually(browser, "Shift+F12 lists the references to a name", "return [...document.querySelectorAll('#program-editor .places li')].map((node) => node.textContent).join('|')",
               "loop is at 3 places Close|line 1, where it is defined loop:\tNOP ; loop|line 2 FIM P0, loop|line 3 JUN loop")
    browser.click(f"{PROGRAM_EDITOR} .places li:nth-child(3) button")
    eventually(browser, "a click in the list selects a reference", caret_script, [1, 13, "loop"])
    browser.type_keys([F2], 5, 5)
    browser.type_keys([*"jun", ENTER], 5, 5)
    eventually(browser, "a name that is an instruction is rejected with a message", "return document.querySelector('#program-editor .search:not([hidden]) p').textContent",
               "jun is an instruction.")
    browser.type_keys([BACKSPACE, BACKSPACE, BACKSPACE, *"again", ENTER], 5, 5)
    eventually(browser, "the name is replaced in all places except comments", text_script, "again:\tNOP ; loop\n\tFIM P0, again\n\tJUN again")
    browser.press_chord(CONTROL, "g")
    browser.type_keys(["3", ENTER], 5, 5)
    eventually(browser, "Ctrl+G goes to a line by its number", caret_script, [2, 0, ""])
    browser.press_chord(CONTROL, "/")
    eventually(browser, "Ctrl+/ makes a line a comment", text_script, "again:\tNOP ; loop\n\tFIM P0, again\n; \tJUN again")
    browser.press_chord(CONTROL, "/")
    eventually(browser, "Ctrl+/ restores the line", text_script, "again:\tNOP ; loop\n\tFIM P0, again\n\tJUN again")
    browser.script(SET_CARET, PROGRAM_EDITOR, 0, 0)
    browser.press_chord(CONTROL, "h")
    browser.type_keys([*"again"], 5, 5)
    browser.script(f"document.querySelector('{PROGRAM_EDITOR} [aria-label=\"Replace with\"]').value = 'loop'")
    browser.script(f"[...document.querySelectorAll('{PROGRAM_EDITOR} .search button')].find((node) => node.textContent === 'Replace all').click()")
    eventually(browser, "Replace all replaces the name", text_script, "loop:\tNOP ; loop\n\tFIM P0, loop\n\tJUN loop")
    browser.type_keys([ESCAPE], 5, 5)


GET_FOLDED_LINES = "return [...document.querySelectorAll('#program-editor .folded-lines')].map((node) => node.textContent).join()"
FOLDABLE_PROGRAM = """; two lines
; of comment

start:  LDM 0
loop:   IAC
        JUN loop

other:  NOP
        BBL 0
"""


def check_folding(browser):
    """Checks that parts of the source can be folded by mouse and by keyboard, that folding loses no text, and that a part unfolds when it must be
    visible."""
    set_text(browser, PROGRAM_EDITOR, FOLDABLE_PROGRAM)
    browser.wait_until("return document.querySelectorAll('#program-editor .fold-open').length", 4)
    browser.click(f"{PROGRAM_EDITOR} .fold-open")
    eventually(browser, "a click in the margin folds a part", GET_FOLDED_LINES, "\u2026 1 line")
    verdict("the click sets no breakpoint", browser.script(f"return document.querySelector('{PROGRAM_EDITOR} .mark-breakpoints') === null"), True)
    browser.script(SET_CARET, PROGRAM_EDITOR, 5, 8)
    keys = [CONTROL, SHIFT, "["]
    browser.perform_actions({"type": "key", "id": "keyboard", "actions": [
        *[{"type": "keyDown", "value": key} for key in keys], *[{"type": "keyUp", "value": key} for key in reversed(keys)]]})
    eventually(browser, "Ctrl+Shift+[ folds the part at the caret", GET_FOLDED_LINES, "\u2026 1 line,\u2026 1 line")
    verdict("the innermost part is folded, and the caret is in its first line", browser.script(GET_CARET, PROGRAM_EDITOR)[:1], [4])
    verdict("folding does not change the text", browser.script(GET_TEXT_OF_EDITOR, PROGRAM_EDITOR), FOLDABLE_PROGRAM)
    browser.script(SET_CARET, PROGRAM_EDITOR, 7, 2)
    keys = [CONTROL, SHIFT, ALT, "["]
    browser.perform_actions({"type": "key", "id": "keyboard", "actions": [
        *[{"type": "keyDown", "value": key} for key in keys], *[{"type": "keyUp", "value": key} for key in reversed(keys)]]})
    browser.script(SET_CARET, PROGRAM_EDITOR, 7, 2)
    eventually(browser, "Ctrl+Shift+Alt+[ folds all parts", GET_FOLDED_LINES, "\u2026 1 line,\u2026 2 lines,\u2026 1 line")
    browser.click(f"{PROGRAM_EDITOR} .send")
    eventually(browser, "a folded program is assembled and runs", GET_STATUS, re.compile("^Running"))
    pause_running_time(browser)
    # On a busy machine, time can be paused before the first instruction, whose line is not folded.
    browser.click("#step")
    browser.wait_until(GET_STATUS, STEPPED_MESSAGE)
    # Time is paused either at the loop's label or at the line below it. In the first case, the line below the label stays folded.
    eventually(browser, "the line at which the program is paused is unfolded", GET_FOLDED_LINES, re.compile("^\u2026 1 line(,\u2026 1 line){1,2}$"))


def check_line_numbers(browser):
    """Checks that at the end of a long and wide text, each line number is beside its line."""
    set_text(browser, PROGRAM_EDITOR, "\tNOP\n" * 200 + "; " + "a long line " * 40 + "\n\tNOP")
    time.sleep(0.3)
    browser.script(GET_LINE_NUMBERS, PROGRAM_EDITOR)
    time.sleep(0.3)
    verdict("the last line number, whether the text is wider than the box, and whether the numbers are beside their lines", browser.script(GET_LINE_NUMBERS, PROGRAM_EDITOR), ["202", True, True])


def check_scroll_position_kept(browser):
    """Checks that the source keeps its scroll position while another tab is in front."""
    browser.script(FIND_EDITOR + "editor.scrollTo(2500)", "#program-editor")
    eventually(browser, "the source is scrolled", GET_SCROLL_TOP, 2500)
    for name in ("board", "program"):
        show_text(browser, name)
        time.sleep(0.3)
    verdict("a tab keeps its scroll position while it is hidden", browser.script(GET_SCROLL_TOP), 2500)


def check_opened_text(browser, page):
    """Checks that an opened text is shown from its first line, even if the previous text was scrolled, and that its visible part is coloured."""
    reopen_page(browser, page)
    choose_example(browser, "calculator")
    show_text(browser, "program")
    browser.script(FIND_EDITOR + "editor.scrollTo(4000)", PROGRAM_EDITOR)
    eventually(browser, "the source is scrolled", GET_SCROLL_TOP, 4000)
    choose_example(browser, "calculator")
    time.sleep(0.5)
    verdict("an opened text is shown from its first line", browser.script(GET_SCROLL_TOP), 0)
    lines_coloured_script = """const lines = [...document.querySelectorAll('#program-editor .cm-line')].filter((line) => line.textContent.trim() !== "");
return lines.length > 20 && lines.every((line) => line.querySelector('span') !== null)"""
    verdict("the lines of an opened text are coloured", browser.script(lines_coloured_script), True)


def check_limits(browser):
    """Checks that typing stays fast in a program of maximum length, and that a longer program is rejected with a message."""
    set_text(browser, PROGRAM_EDITOR, LONGEST_TEXT)
    eventually(browser, "the size of the text", f"return document.querySelector('{PROGRAM_EDITOR} .size').textContent", "16,381 of 16,384 bytes")
    key_time, slowdown = browser.script(MEASURE_KEY_TIMES, PROGRAM_EDITOR, 120), browser.script(MEASURE_SLOWDOWN)
    print(f"a key at the longest text takes {key_time:.1f} ms in {browser.name}, which others make {slowdown:.1f} times as slow meanwhile")
    verdict("a key takes less than 16 ms", key_time / slowdown < 16, True)
    set_text(browser, PROGRAM_EDITOR, "\tNOP\n")
    browser.script(SET_CARET, PROGRAM_EDITOR, 1, 0)
    browser.script(PASTE_TEXT, PROGRAM_EDITOR, "\tNOP\n", 1_000_000)
    eventually(browser, "a pasted text of 5 MB is rejected with a message", GET_STATUS_OF.format(PROGRAM_EDITOR), re.compile("^It was not inserted: the text would have 5,000,005 characters"))
    verdict("the rejected text changes nothing", browser.script(GET_TEXT_OF_EDITOR, PROGRAM_EDITOR), "\tNOP\n")


def check_undo_history(browser):
    """Checks that a disassembly that replaced the source can be undone in one step, and that a new session has no earlier step to undo."""
    choose_example(browser, "die")
    text_before = browser.script(GET_TEXT_OF_EDITOR, PROGRAM_EDITOR)
    browser.click("#from-rom")
    browser.wait_until("return document.getElementById('ask').open", True)
    browser.click("#ask .bar button:first-child")
    time.sleep(0.5)
    browser.script(SET_CARET, PROGRAM_EDITOR, 0, 0)
    browser.press_chord(CONTROL, "z")
    eventually(browser, "one Undo restores the source that was replaced by the disassembly", GET_TEXT_OF_EDITOR.replace("arguments[0]", f"'{PROGRAM_EDITOR}'"), text_before)
    browser.press_chord(CONTROL, "z")
    verdict("there is no earlier step to undo", browser.script(GET_TEXT_OF_EDITOR, PROGRAM_EDITOR), text_before)


def check_running(browser):
    """Checks that Ctrl+Enter assembles the source and runs it, and that the message of the button "assemble only" says what stays unchanged."""
    choose_example(browser, "traffic light")
    browser.wait_until(GET_STATUS, re.compile("^Running"))
    set_text(browser, PROGRAM_EDITOR, "\tLDM 7\nstop:\tJUN stop\n")
    browser.click("#assemble-only")
    eventually(browser, "the message of \"assemble only\" says what stays unchanged", GET_STATUS_OF.format(PROGRAM_EDITOR), re.compile(
        r"^3 bytes assembled\. \d+ bytes that the program does not replace stay in ROM, from 0x0..?\. The counter stays at ..., nothing was reset\.$".replace(", n", "; n")))
    browser.script(SET_CARET, PROGRAM_EDITOR, 0, 0)
    browser.press_chord(CONTROL, ENTER)
    eventually(browser, "Ctrl+Enter assembles and runs the source", GET_STATUS_OF.format(PROGRAM_EDITOR), "Assembled 3 bytes; running from 000.")
    eventually(browser, "the program is running", GET_STATUS, re.compile("^Running"))
    browser.wait_until("return document.querySelector('#registers').textContent", re.compile("^acc7"))
    pause_running_time(browser)
    eventually(browser, "the machine is at the end of the program", "return document.querySelector('#registers').textContent", re.compile("^acc7.*pc00[12]"))
    browser.script("document.getElementById('lines').value = 'list 3 40'")
    show_text(browser, "console")
    browser.click("#send")
    eventually(browser, "the rest of ROM is empty", "return document.querySelector('#log').textContent.split('list 3 40').pop().replace(/... 00 +NOP/g, '')", "")
    lines = browser.script("return document.querySelector('#log').textContent")
    verdict("the number of resets", len(re.findall("reset", lines)), 1)


def check_empty_bench(browser):
    """Checks that an empty bench offers a board, and that a line for a missing ROM chip has an error."""
    choose_example(browser, "empty bench")
    set_text(browser, PROGRAM_EDITOR, "; nothing yet\n\tLDM 1\n")
    eventually(browser, "a line for a missing ROM chip has an error", GET_ERRORS.format(PROGRAM_EDITOR), re.compile(r"^line 2: this line is at 000, and the board has no ROM 0: wire a \[\[rom\]\]"))
    show_text(browser, "board")
    browser.click("#first-board")
    eventually(browser, "the button of an empty bench applies a board", GET_STATUS_OF.format(BOARD_EDITOR), "Board applied.")
    verdict("the number of lamps", browser.script("return document.querySelectorAll('#lamps li').length"), 4)
    verdict("the board is not offered again", browser.script("return document.getElementById('board-offer').hidden"), True)
    show_text(browser, "program")
    eventually(browser, "the program has no errors on the new board", GET_ERRORS.format(PROGRAM_EDITOR), "")


FAULTY_BOARD = """[[rom]]
chip = 77       # für
port = "0000"
size = 3

[[lamp]]
lime = "rom0.0"
"""
# The corrections in order. Each has the wrong text, the corrected text, the error before the correction, and the underlined text.
BOARD_CORRECTIONS = [("size = 3\n", "", "line 4: size is not a key of rom, which has chip, port", "size"),
                ("lime", "line", "line 6: lime is not a key of lamp; line?", "lime"),
                ("77", "7", "line 2: chip must be a unique number from 0 to 15", "77")]


def check_board_text(browser):
    """Checks that the editor shows the error in a board's text while the user types, and that completion inserts complete parts."""
    show_text(browser, "board")
    text = FAULTY_BOARD
    for wrong_text, corrected_text, message, underlined in BOARD_CORRECTIONS:
        set_text(browser, BOARD_EDITOR, text)
        eventually(browser, "the message about the error in the board's text", GET_ERRORS.format(BOARD_EDITOR), message)
        verdict("the underlined text", browser.script(GET_UNDERLINED_TEXT.format(BOARD_EDITOR)), underlined)
        text = text.replace(wrong_text, corrected_text)
    set_text(browser, BOARD_EDITOR, text)
    eventually(browser, "the error about a lamp at a missing ROM chip", GET_ERRORS.format(BOARD_EDITOR), "line 6: the board has no line rom0.0: no [[rom]] has chip = 0")
    set_text(browser, BOARD_EDITOR, "")
    browser.script(SET_CARET, BOARD_EDITOR, 0, 0)
    for text in ("[[rom]]\nchip = 0\nport = \"0000\"", "[[lamp]]\nline = \"rom0.0\""):
        browser.press_chord(CONTROL, " ")
        browser.wait_until("return document.querySelectorAll('.cm-tooltip-autocomplete li').length", 5)
        browser.script("[...document.querySelectorAll('.cm-tooltip-autocomplete li')].find((node) => node.textContent.startsWith(arguments[0]))"
                       ".dispatchEvent(new MouseEvent('mousedown', { bubbles: true, cancelable: true }))",
                       text.split("\n")[0])
        verdict("completion in an empty line inserts a part", browser.script(GET_TEXT_OF_EDITOR, BOARD_EDITOR).endswith(text), True)
        browser.type_keys([ENTER])
    eventually(browser, "a board of inserted parts has no errors", GET_ERRORS.format(BOARD_EDITOR), "")
    set_text(browser, BOARD_EDITOR, "[[rom]]\nchip = 0\nport = 0000\n")
    eventually(browser, "the error about a text that is not TOML", GET_ERRORS.format(BOARD_EDITOR), 'line 3: a number has no leading zero; write a text in quotes: "0000"')
    show_text(browser, "program")


def compose(browser, *words, replaced_range=None):
    """Enters words as a phone's keyboard does: as one composition that takes the value of each word in turn. The composition replaces the text in
    `replaced_range`, from the first offset to the second, if this range is not None."""
    range_parameters = {"replacementStart": replaced_range[0], "replacementEnd": replaced_range[1]} if replaced_range else {}
    for word in words:
        browser.send_command("Input.imeSetComposition", text=word, selectionStart=len(word), selectionEnd=len(word), **range_parameters)
        # The editor marks errors during this time.
        time.sleep(0.4)
    browser.send_command("Input.insertText", text=words[-1])


def check_phone_keyboard(browser, page):
    """Checks that a word is inserted once if a phone's keyboard composes or corrects it while the editor marks errors. Text typed over selected
    lines must replace them. Needs Chromium's driver."""
    reopen_page(browser, page)
    choose_example(browser, "calculator")
    show_text(browser, "program")
    text_script = GET_TEXT_OF_EDITOR.replace("arguments[0]", f"'{PROGRAM_EDITOR}'")
    set_text(browser, PROGRAM_EDITOR, "\tLDM \n\tJUN nowhere\n")
    browser.script(SET_CARET, PROGRAM_EDITOR, 0, 5)
    compose(browser, "w", "wo", "wor", "word")
    eventually(browser, "a composed word is inserted while errors are marked", text_script, "\tLDM word\n\tJUN nowhere\n")
    eventually(browser, "the composed word has an error", GET_ERRORS.format(PROGRAM_EDITOR), re.compile("^line 1: .*word"))
    set_text(browser, PROGRAM_EDITOR, "lable:\tNOP\n")
    browser.script(SET_CARET, PROGRAM_EDITOR, 0, 5)
    compose(browser, "label", replaced_range=(0, 5))
    eventually(browser, "a word that the keyboard corrects appears once", text_script, "label:\tNOP\n")
    set_text(browser, PROGRAM_EDITOR, "one:\tNOP\ntwo:\tNOP\n\tNOP\n")
    browser.script(f"{FIND_EDITOR}editor.focus(); editor.setSelection({{ line: 0, ch: 5 }}, {{ line: 1, ch: 8 }})", PROGRAM_EDITOR)
    browser.send_command("Input.insertText", text="I")
    eventually(browser, "text typed over selected lines replaces them", text_script, "one:\tI\n\tNOP\n")


def check_editor(browser, page, _folder, _mcs4):
    """Runs the checks of this part, and checks that they cause only the expected notice."""
    check_opened_text(browser, page)
    reopen_page(browser, page)
    browser.script("for (const each of document.querySelectorAll('#notice .dismiss')) each.click()")
    notice_count_before = len(browser.script(GET_ALL_NOTICES))
    choose_example(browser, "calculator")
    show_text(browser, "program")
    check_errors(browser)
    check_typing(browser)
    check_name_commands(browser)
    check_folding(browser)
    check_line_numbers(browser)
    check_scroll_position_kept(browser)
    check_limits(browser)
    check_undo_history(browser)
    check_running(browser)
    check_board_text(browser)
    check_empty_bench(browser)
    notices = browser.script(GET_ALL_NOTICES)
    unexpected_notices = [words for words in notices[:len(notices) - notice_count_before] if not words.endswith("is saved.")]
    verdict("the notices of this check", unexpected_notices, ["The source was disassembled from ROM."])
