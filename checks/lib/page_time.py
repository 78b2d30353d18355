"""The part of checks/page about time: running cycles, step over, step out, run to a goal, going back and forward, and slow motion. The page's
messages are compared with the output of the program, `mcs4 trace` and `mcs4 cycles` for the same session."""

import os
import pathlib
import re
import subprocess

from page_basics import GET_DIGITS, GET_RATE, GET_STATUS, SET_SPEED, STEPPED_MESSAGE, choose_example, key, send_lines, pause_running_time, wait_until_ready
from verdicts import eventually, verdict

TOP = pathlib.Path(__file__).resolve().parent.parent.parent
GET_CYCLES_BETWEEN_MARKS = "return document.querySelector('#cycles span:last-child').textContent"
GET_CYCLES_SINCE_STOP = "return document.querySelector('#cycles span:nth-child(2) b').textContent"
GET_CYCLES_SINCE_RESET = "return document.querySelector('#cycles span:first-child b').textContent"
CHANGE_FIELD = """
const field = document.querySelector(arguments[0]);
field.value = arguments[1];
field.dispatchEvent(new Event("input"))"""
PRESS_KEY = """
document.body.dispatchEvent(new KeyboardEvent("keydown", { key: arguments[0], shiftKey: arguments[1], bubbles: true, cancelable: true }))"""
# Reads the bytes of the saved session into `keptFile`.
READ_SAVED_FILE = """
window.keptFile = "";
const id = location.hash.slice("#session=".length);
indexedDB.open("fethsaim", 1).onsuccess = (opened) => {
  const request = opened.target.result.transaction("sessions").objectStore("sessions").get(id);
  request.onsuccess = () => { window.keptFile = request.result.file.join(" "); };
}"""
GET_SAVED_FILE = "return window.keptFile"
ALL_QUERIES = "seq\nstate\nram 0\nbreaks\nwatches"


class Program:
    """The program mcs4 and its tools, which run on separate sessions for comparison with the page."""

    def __init__(self, folder, mcs4):
        self.folder = folder
        self.mcs4 = mcs4
        self.environment = dict(os.environ, MCS4=str(mcs4))

    def run_tool(self, name, *arguments, lines=""):
        """Returns the output of a tool of mcs4 with `lines` as its input."""
        run_tool = [TOP / "mcs4", name, *map(str, arguments)]
        return subprocess.run(run_tool, input=lines, stdout=subprocess.PIPE, text=True, check=True, env=self.environment).stdout

    def session(self, name, lines):
        """Creates a new session and serves lines in it. Returns its file and the answers."""
        file = self.folder / f"{name}.mcs"
        file.unlink(missing_ok=True)
        return file, subprocess.run([self.mcs4, "new", file], input=lines, stdout=subprocess.PIPE, text=True, check=True).stdout

    def cycles(self, answers):
        """Returns the number of cycles of the last run in these answers, as `mcs4 cycles` counts it."""
        line = len(answers.splitlines())
        return int(self.run_tool("cycles", line, line, lines=answers).split(" ")[0])


def setup_lines_of(name):
    """Returns the lines that apply an example's board and assemble its program."""
    folder = TOP / "examples" / name
    board, program = (folder / "board.toml").read_text(), (folder / f"{name}.asm").read_text()
    return f"wire\n{board}.\nasm\n{program}.\n"


def first_call(program, name):
    """Finds the first JMS that an example executes. Returns the number of cycles before the JMS, the number of cycles until the called subroutine
    returns, the address of the JMS, and the return address."""
    file, _ = program.session(name, setup_lines_of(name))
    lines = [line for line in program.run_tool("trace", file, 3000).splitlines() if re.match(r" *\d+  [0-9A-F]{3} ", line)]
    index = next(index for index, line in enumerate(lines) if " JMS " in line)
    cycles, address = lines[index].split()[:2]
    return_address = f"{int(address, 16) + 2:03X}"
    return_line = next(line for line in lines[index + 1:] if line.split()[1] == return_address)
    return int(cycles), int(return_line.split()[0]) - int(cycles), address, return_address


def cycles_text(cycles):
    """Returns a number of cycles and its time in the page's format, with 10.8 microseconds per cycle."""
    milliseconds = cycles * 10.8 / 1000
    return f"{cycles:,} cycles, " + (f"{milliseconds:.3f} ms" if milliseconds < 1000 else f"{milliseconds / 1000:.3f} s")


def pause_time(browser):
    """Pauses time if it is running."""
    if browser.script("return document.getElementById('run').textContent") == "Pause":
        pause_running_time(browser)


def open_paused_example(browser, name):
    """Opens a new session of an example, paused after a reset."""
    choose_example(browser, name)
    browser.wait_until("return document.getElementById('run').textContent", "Pause", 3)
    pause_time(browser)
    send_lines(browser, "reset")
    browser.wait_until(GET_CYCLES_SINCE_RESET, "0 cycles, 0.000 ms")


def query_state(browser):
    """Returns the answers to ALL_QUERIES, without an entry about runs, which can precede them in the log."""
    answers = send_lines(browser, ALL_QUERIES)
    return answers[answers.index("seqseq"):]


def check_step_over(browser, program, name, example):
    """Checks that a step over a JMS, with the button or with F10, takes the cycles that the trace shows. A step into the subroutine and a step out of
    it must together take the same number of cycles. No breakpoint or watch may remain."""
    cycles_before, call_cycles, address, return_address = first_call(program, example)
    open_paused_example(browser, name)
    send_lines(browser, f"run {cycles_before}")
    browser.click("#over")
    eventually(browser, f"{name}: Over stops at the return address of the JMS at {address}", GET_STATUS, f"Returned to {return_address}, after {cycles_text(call_cycles)}.")
    verdict("the cycles since the stop", browser.script(GET_CYCLES_SINCE_STOP), cycles_text(call_cycles))
    verdict("the cycles since the reset", browser.script(GET_CYCLES_SINCE_RESET), cycles_text(cycles_before + call_cycles))
    verdict("no breakpoints and watches are left", query_state(browser)[-len("breaksbreaks -watcheswatches -"):], "breaksbreaks -watcheswatches -")
    for action, repeat_step in {"with F10": lambda: browser.script(PRESS_KEY, "F10", False),
                        "into the subroutine with F11, and out with Shift+F11": lambda: step_into_and_out(browser)}.items():
        browser.click("#back-stop")
        eventually(browser, f"{name}: going back to the stop at the JMS", GET_STATUS, re.compile(f"^Back at the stop at {address}"))
        repeat_step()
        eventually(browser, f"{name}: the same step {action}", GET_STATUS, re.compile(f"^Returned to {return_address}, after "))
        verdict("the cycles since the reset after the same step", browser.script(GET_CYCLES_SINCE_RESET), cycles_text(cycles_before + call_cycles))


def step_into_and_out(browser):
    """Steps into a subroutine with F11, and out of it with Shift+F11."""
    browser.script(PRESS_KEY, "F11", False)
    browser.wait_until(GET_STATUS, STEPPED_MESSAGE)
    browser.script(PRESS_KEY, "F11", True)


def check_run_to_row(browser):
    """Checks that Ctrl+click on a row of the disassembly runs to that row and sets no breakpoint."""
    browser.click("#back-stop")
    browser.wait_until(GET_STATUS, re.compile("^Back at"))
    address = browser.script("""
const next = document.querySelector("#lines-of-program .next");
const row = next.nextElementSibling;
row.dispatchEvent(new MouseEvent("click", { ctrlKey: true, bubbles: true, cancelable: true }));
return row.textContent.match(/[0-9A-F]{3}/)[0]""")
    eventually(browser, "Ctrl and a click run to a row of the disassembly", GET_STATUS, re.compile(f"^Paused at {address}, as requested, after [0-9,]+ cycles?, "))
    verdict("the row has no breakpoint", browser.script("return document.querySelectorAll('#lines-of-program [aria-pressed=true]').length"), 0)


def check_run_to_source(browser):
    """Checks that Ctrl+F10 runs to the caret's source line, and that a run until a named lamp changes stops at the change."""
    open_paused_example(browser, "three lamps")
    browser.script("""
const editor = document.querySelector("#program-editor .cm-editor").lineEditor;
editor.setCursor({ line: editor.getValue().split("\\n").findIndex((line) => line.startsWith("turn:")), ch: 0 });
editor.getInputField().dispatchEvent(new KeyboardEvent("keydown", { key: "F10", ctrlKey: true, bubbles: true, cancelable: true }))""")
    eventually(browser, "Ctrl+F10 runs to the label `turn` in the source", GET_STATUS, re.compile("^Paused at 016, as requested, after 11 cycles, "))
    send_lines(browser, "reset")
    browser.script(CHANGE_FIELD, "#change-place", "right")
    browser.click("#until-change")
    eventually(browser, "a run until a named lamp changes", GET_STATUS, "Paused at 007, after lamp 2 changed, after 7 cycles, 0.076 ms.")


def check_many_steps(browser, program):
    """Checks that a step of several instructions takes the number of cycles that the trace shows, and that an invalid number of instructions is
    rejected."""
    file, _ = program.session("many", setup_lines_of("three_lamps"))
    lines = [line for line in program.run_tool("trace", file, 400).splitlines() if re.match(r" *\d+  [0-9A-F]{3} ", line)]
    open_paused_example(browser, "three lamps")
    browser.script(CHANGE_FIELD, "#step-count", "50")
    browser.click("#step-many")
    eventually(browser, "the cycles of 50 instructions", GET_STATUS, f"50 instructions were done, after {cycles_text(int(lines[50].split()[0]))}.")
    browser.script(CHANGE_FIELD, "#step-count", "many")
    browser.click("#step-many")
    eventually(browser, "a wrong number of instructions is rejected with a message", GET_STATUS, re.compile("^Nothing was done: enter a number"))


def check_delay(browser):
    """Checks that a step over a delay of 24 seconds takes the computed number of cycles, and that going back reaches changes within the delay. A
    change of a port that the board lacks must be rejected."""
    choose_example(browser, "empty bench")
    loops = "".join(f"ISZ R{register}, loop\n" for register in range(5))
    send_lines(browser, "wire\n[[rom]]\nchip = 0\nport = \"0000\"\n.\nasm\nJMS wait\nend: JUN end\n"
                   f"wait: FIM P0, 0\nFIM P1, 0\nFIM P2, 0\nloop: {loops}BBL 0\n.")
    # An ISZ takes two cycles, and each loop runs 16 times.
    cycles = 0
    for _ in range(5):
        cycles = 16 * (cycles + 2)
    browser.script(SET_SPEED, "full")
    browser.click("#over")
    eventually(browser, "the cycles of a step over a delay", GET_STATUS, f"Returned to 002, after {cycles_text(cycles + 9)}.", 60)
    browser.script(SET_SPEED, "real")
    browser.script(CHANGE_FIELD, "#change-place", "r2")
    browser.click("#back-change")
    eventually(browser, "going back to the last change of R2 in the delay", GET_STATUS, re.compile("^Back at .*: this instruction changes r2 from F to 0"), 60)
    browser.script(CHANGE_FIELD, "#change-place", "R2 == 0xF")
    browser.click("#back-change")
    eventually(browser, "going back to the instruction that makes a condition true", GET_STATUS, re.compile("^Back at .*: this instruction makes R2 == 0xF true"), 60)
    browser.script(CHANGE_FIELD, "#change-place", "ram0.0")
    browser.click("#until-change")
    eventually(browser, "a change of a missing port is rejected with a message", GET_STATUS, "Nothing was done: this board has no ram0.0.")


def check_stopwatch(browser):
    """Checks that a hundredth of a second on the stopwatch takes 926 cycles, measured between two marks. Also checks that the user can go back to a
    change of the lamps, and that an unknown name is reported."""
    open_paused_example(browser, "stopwatch")
    send_lines(browser, "test 0")
    browser.script(CHANGE_FIELD, "#change-place", "lamps")
    for _ in range(2):
        browser.script("document.getElementById('status').firstChild.data = ''")
        browser.click("#until-change")
        browser.wait_until(GET_STATUS, re.compile("after lamps changed, after"))
        browser.click("#mark")
    verdict("the cycles between two changes of the lamps", browser.script(GET_CYCLES_BETWEEN_MARKS), re.compile(r"Between the marks 926 cycles, 10\.001 ms$"))
    lamps = send_lines(browser, "lamps")
    browser.click("#back-change")
    eventually(browser, "going back to the change of the lamps", GET_STATUS, re.compile("^Back at ..., 1 cycle, 0.011 ms earlier: this instruction changes lamps"))
    verdict("the lamps have not changed yet", send_lines(browser, "lamps") != lamps, True)
    browser.click("#step")
    browser.wait_until(GET_STATUS, STEPPED_MESSAGE)
    verdict("the next step changes the lamps", send_lines(browser, "lamps"), lamps)
    browser.script(CHANGE_FIELD, "#change-place", "chain2.0")
    browser.click("#until-change")
    eventually(browser, "a change of a missing chain is rejected with a message", GET_STATUS, "Nothing was done: this board has no chain2.0.")
    browser.script(CHANGE_FIELD, "#change-place", "r99")
    browser.click("#back-change")
    eventually(browser, "an unknown name is rejected with a message", GET_STATUS, "Nothing was done: r99: no such place; the registers are r0 to r15 (column 1).")


def check_going_back(browser):
    """Checks that the user can go back past key presses and forward again, with the same answers and the same saved file afterwards. After a new
    command, going forward must no longer be possible."""
    open_paused_example(browser, "calculator")
    browser.click("#run")
    for legend in "12":
        browser.touch_together([key(legend)], 60)
    browser.wait_until(GET_DIGITS, "12")
    pause_time(browser)
    state_before = query_state(browser)
    browser.script(READ_SAVED_FILE)
    file = browser.wait_until(GET_SAVED_FILE, re.compile("."))
    browser.click("#back-stop")
    eventually(browser, "going back to the stop before the run", GET_STATUS, re.compile("^Back at the stop at 000, [0-9,]+ cycles"))
    verdict("the display at that stop", browser.script(GET_DIGITS), "0")
    browser.click("#forward")
    eventually(browser, "going forward to the end of the run", GET_STATUS, re.compile("^Forward again to ..., [0-9,]+ cycles"))
    browser.script(READ_SAVED_FILE)
    verdict("the saved file is the same as before", browser.wait_until(GET_SAVED_FILE, re.compile(".")) == file, True)
    verdict("the answers are the same as before", query_state(browser), state_before)
    for _ in range(3):
        browser.script("document.getElementById('status').firstChild.data = ''")
        browser.click("#back-instruction")
        browser.wait_until(GET_STATUS, re.compile("^Back at ..., [12] cycles?, .* earlier: this instruction has not run yet.$"))
    verdict("the answers differ three instructions earlier", query_state(browser) != state_before, True)
    verdict("the button Forward is enabled", browser.script("return document.getElementById('forward').disabled"), False)
    for _ in range(3):
        browser.click("#forward")
    eventually(browser, "three steps forward reach the end", "return document.getElementById('forward').disabled", True)
    verdict("the answers at the end are the same as before", query_state(browser), state_before)
    browser.click("#back-stop")
    browser.wait_until("return document.getElementById('forward').disabled", False)
    send_lines(browser, "poke r5 9")
    eventually(browser, "a new command removes the way forward", "return document.getElementById('forward').disabled", True)
    browser.reload()
    wait_until_ready(browser)
    verdict("the saved session has the new command", re.search("r [0-9A-F]{5}9", send_lines(browser, "regs")) is not None, True)
    browser.click("#back-stop")
    eventually(browser, "going back after a reload leads to the stop before it", GET_STATUS, re.compile("^Back at the stop at 000"))
    verdict("R5 at that stop", re.search("r [0-9A-F]{5}9", send_lines(browser, "regs")), None)


def check_unreachable_goal(browser):
    """Checks that Stop, F8 and a reload end a run to an unreachable goal. No breakpoint or watch may remain, and going back must still be
    possible."""
    choose_example(browser, "empty bench")
    send_lines(browser, 'wire\n[[rom]]\nchip = 0\nport = "0000"\n.\nasm\nJMS round\nround: JUN round\n.\nstep')
    for action, stop in {"F8": lambda: browser.script(PRESS_KEY, "F8", False), "Stop": lambda: browser.click("#run")}.items():
        browser.click("#out")
        eventually(browser, f"Out runs towards a return that never happens, before {action}", GET_STATUS, "Running to the return from the subroutine.")
        browser.wait_until(GET_RATE, re.compile("^[0-9,]+ cycles"))
        stop()
        eventually(browser, f"{action} ends the run to an unreachable goal", GET_STATUS,
                   re.compile("^Paused at 002, after [0-9,]+ cycles, .*; the return from the subroutine was not reached.$"))
    browser.click("#out")
    browser.wait_until(GET_STATUS, re.compile("^Running to"))
    browser.reload()
    wait_until_ready(browser)
    eventually(browser, "a reload ends the run, and the status reports that", GET_STATUS, re.compile("^Paused at 002: the return from the subroutine was not reached, because "
                                                                              "the page was reloaded"))
    browser.click("#back-stop")
    # The number of cycles before the last save depends on the browser.
    eventually(browser, "the history is still there after the reload", GET_STATUS, re.compile("^Back at the stop at 002"))
    verdict("no breakpoints and watches are left", query_state(browser)[-len("breaksbreaks -watcheswatches -"):], "breaksbreaks -watcheswatches -")


# A program with a subroutine that waits for the second key of the first board.
WAITING_PROGRAM = """asm
FIM P0, 0
SRC P0
LDM 2
WRR
LDM 3
WRR
LDM 9
JMS getkey
WMP
round: JUN round
getkey: RDR
RAL
JCN 10, getkey
BBL 6
."""


def check_wait_for_key(browser):
    """Checks that a step over a subroutine that waits for a key runs until the key is pressed. Also checks steps over an instruction that is not a
    call, and over a jump to itself."""
    choose_example(browser, "empty bench")
    browser.click("#first-board")
    browser.wait_until("return document.querySelectorAll('#keys button').length", 2)
    send_lines(browser, f"{WAITING_PROGRAM}\nrun 8")
    browser.script(PRESS_KEY, "F10", False)
    eventually(browser, "Over runs while the subroutine waits for a key", GET_STATUS, "Running to the return from the subroutine.")
    browser.wait_until(GET_RATE, re.compile("^9[0-4],"))
    browser.touch_together([key("right")], 60)
    eventually(browser, "Over stops after the key is pressed", GET_STATUS, re.compile("^Returned to 00A, after [0-9,]+ cycles, "))
    verdict("no breakpoints and watches are left", query_state(browser)[-len("breaksbreaks -watcheswatches -"):], "breaksbreaks -watcheswatches -")
    browser.script(PRESS_KEY, "F10", False)
    eventually(browser, "the status after a step over an instruction that is not a call", GET_STATUS, "At 00B, after 1 cycle, 0.011 ms.")
    browser.script(PRESS_KEY, "F10", False)
    eventually(browser, "the status after a step over an instruction that jumps to itself", GET_STATUS, "At 00B, after 2 cycles, 0.022 ms.")
    verdict("the lamps show the result of the subroutine", send_lines(browser, "lamps"), re.compile(r"lamps \.\*\*\."))


def check_slow_motion(browser):
    """Checks that the rate of cycles is that of the chosen speed, and that the marked row follows the program counter. At one instruction a second,
    a pause must be between two instructions."""
    open_paused_example(browser, "three lamps")
    verdict("the options of the speed field", browser.script("return [...document.getElementById('speed').options].map((each) => each.textContent).join(', ')"),
            "real time, 1/10, 1/100, 1/1,000, an instruction a second, full speed")
    browser.click("#run")
    for speed, rate in {"tenth": "^9,?[12]..$", "hundredth": "^9[0-4].$", "thousandth": "^(8[89]|9[0-6])$"}.items():
        browser.script(SET_SPEED, speed)
        eventually(browser, f"the rate of cycles at speed {speed}", GET_RATE, re.compile(rate.replace(",?", "")))
    eventually(browser, "the row of the program counter is marked", "return document.querySelectorAll('#lines-of-program .next').length", 1)
    browser.script("window.firstLine = document.querySelector('#lines-of-program .next').textContent")
    eventually(browser, "the marked row follows the program counter", "return document.querySelector('#lines-of-program .next').textContent !== window.firstLine", True)
    pause_time(browser)
    browser.script(SET_SPEED, "instruction")
    browser.click("#run")
    browser.wait_until(GET_CYCLES_SINCE_STOP, re.compile("^[3-9] cycles"))
    pause_time(browser)
    verdict("at one instruction a second, a pause is between two instructions", re.search("owed 0", send_lines(browser, "regs")) is not None, True)
    browser.script(SET_SPEED, "real")
    browser.click("#run")
    eventually(browser, "the rate of cycles in real time", GET_RATE, re.compile("^9[0-4]...$"))
    pause_time(browser)


def check(browser, page, folder, mcs4):
    program = Program(folder, mcs4)
    browser.open(page.as_uri())
    wait_until_ready(browser)
    check_step_over(browser, program, "three lamps", "three_lamps")
    check_step_over(browser, program, "calculator", "calculator")
    check_run_to_row(browser)
    check_run_to_source(browser)
    check_many_steps(browser, program)
    check_stopwatch(browser)
    check_delay(browser)
    check_going_back(browser)
    check_unreachable_goal(browser)
    check_wait_for_key(browser)
    check_slow_motion(browser)
