"""The part of checks/page about unusual input: markup in fields and names, files of all kinds, and numbers out of range. It also covers many clicks
at once, and a reload immediately after an edit. No input may become an element or a script, and the bench must still answer afterwards."""

import base64
import re

from page_basics import (ENTER, ESCAPE, GET_NOTICE, GET_STATUS, GET_TEXT_OF_EDITOR, PUT_INTO_EDITOR, choose_example, reopen_page, show_text,
                         wait_until_ready)
from verdicts import eventually, verdict

INJECTED_MARKUP = "<img src=x onerror=\"window.injected=1\"><script>window.injected=1</script>"
# Markup without spaces and quotes, for use as a name.
INJECTED_NAME = "<img/src=x/onerror=injected=1>"
# True if no injected script has run, and no input has become an element. (The editor's own images have no address.)
IS_HARMLESS = "return !window.injected && document.querySelectorAll('img[src], body script[src], iframe, object').length === 0"
IS_DIALOG_OPEN = "const box = document.getElementById('ask'); return box !== null && box.open"
CLOSE_ALL = """
for (const each of document.querySelectorAll("dialog[open]")) each.close("");
for (const each of document.querySelectorAll("#notice .dismiss")) each.click()"""
DROP_FILES = """
const data = new DataTransfer();
for (const [name, bytes] of arguments[0]) data.items.add(new File([Uint8Array.from(atob(bytes), (each) => each.charCodeAt(0))], name));
document.body.dispatchEvent(new DragEvent("drop", { dataTransfer: data, bubbles: true, cancelable: true }))"""
SEND_SEQ = """
window.before = document.getElementById("log").textContent.length;
document.getElementById("lines").value = "seq";
document.getElementById("send").click()"""
# True if the line that SEND_SEQ sends has been answered. If the log is shorter than before, another session was opened, whose log began empty.
IS_SEQ_ANSWERED = """
const text = document.getElementById("log").textContent;
return /seq \\d+/.test(text.slice(window.before > text.length ? 0 : window.before))"""
SET_FIELD = """
const field = document.getElementById(arguments[0]);
field.value = arguments[1];
for (const kind of ["input", "change"]) field.dispatchEvent(new Event(kind, { bubbles: true }))"""
PROGRAM = " NOP\n JUN 0\n"
BOARD = '[[rom]]\nchip = 0\nport = "0000"\n'


def check_bench_answers(browser, description):
    """Checks that the bench answers, and that the input has not become an element or a script."""
    if browser.script(IS_DIALOG_OPEN):
        browser.script("document.getElementById('ask').close('')")
    for _ in range(4):
        browser.script(SEND_SEQ)
        if browser.wait_until(IS_SEQ_ANSWERED, True, 10):
            break
    verdict(f"the bench answers after {description}", browser.script(IS_SEQ_ANSWERED), True)
    verdict(f"{description} adds no element and no script", browser.script(IS_HARMLESS), True)


def check_markup_in_fields(browser):
    """Checks that markup in texts, names, fields and lines does not become an element or a script."""
    choose_example(browser, "empty bench")
    browser.script(SET_FIELD, "name", INJECTED_MARKUP)
    front_panel = f"# title: {INJECTED_MARKUP}\n# row 0: {INJECTED_NAME} b\n# lamp 0: {INJECTED_NAME}\n# port rom0: {INJECTED_MARKUP}\n# test: button {INJECTED_NAME}\n"
    browser.script(PUT_INTO_EDITOR, "#board-editor", front_panel + BOARD)
    show_text(browser, "board")
    browser.click("#board-editor .send")
    check_bench_answers(browser, "a board of markup")
    texts = {"program": f"{INJECTED_NAME}: NOP ; {INJECTED_MARKUP}\nx = \"{INJECTED_MARKUP}\n{INJECTED_MARKUP}\n", "tests": f"test {INJECTED_MARKUP}\n  expect lamp {INJECTED_NAME} on\n",
             "properties": f"test {INJECTED_MARKUP}\nnever {INJECTED_MARKUP}\n"}
    for name, text in texts.items():
        show_text(browser, name)
        browser.script(PUT_INTO_EDITOR, f"#{name}-editor", text)
        browser.click(f"#{name}-editor .send")
        check_bench_answers(browser, f"markup in {name}")
    show_text(browser, "program")
    for field in ("watched-field", "go-to", "change-place", "step-count"):
        browser.script(SET_FIELD, field, "")
        browser.script("document.getElementById(arguments[0]).closest('section, [role=tabpanel]').hidden = false", field)
    show_text(browser, "disassembly")
    for field in ("watched-field", "go-to", "change-place", "step-count"):
        browser.type_into(f"#{field}", INJECTED_MARKUP + ENTER)
        check_bench_answers(browser, f"markup in {field}")
    show_text(browser, "waves")
    browser.script(SET_FIELD, "trigger", INJECTED_MARKUP)
    browser.script(SET_FIELD, "signal-search", INJECTED_MARKUP)
    browser.click("#record")
    check_bench_answers(browser, "markup in the trigger")
    show_text(browser, "console")
    browser.script("document.getElementById('lines').value = arguments[0]; document.getElementById('send').click()", INJECTED_MARKUP)
    check_bench_answers(browser, "a line of markup")


def file_drops():
    """Returns sets of unusual files. Each set, which maps names to bytes, is dropped onto the page at once."""
    single_files = {
        "page.html": b"<!doctype html>" + INJECTED_MARKUP.encode(), "picture.png": b"\x89PNG\r\n\x1a\n" + bytes(200), "empty.asm": b"", "none": b"",
        "bad.mcs": b"MCS4" + bytes(5000), "cut.mcsp": b"project 1\n", "open.mcsp": b"project 1 x\nboard\n", "empty.hex": b"",
        "bad.hex": b":zz\n", "long.bin": bytes(70000), "short.bin": bytes(256), "nul.asm": b" NOP\0\n", "wide.asm": " NOP\n".encode("utf-16"),
        "latin.asm": b"; caf\xe9\n NOP\n", "crlf.asm": b" NOP\r\n JUN 0\r\n", "large.asm": b" NOP\n" * 60000, "full.asm": b" NOP\n" * 13000,
        f"{INJECTED_NAME[1:-1].replace('/', ' ')}.asm": PROGRAM.encode(), "<b>.mcsp": b"x",
    }
    many_files = {f"{number}.asm": PROGRAM.encode() for number in range(60)}
    files_of_each_kind = {"a.asm": PROGRAM.encode(), "b.toml": BOARD.encode(), "c.hex": b"", "d.mcsp": b"x"}
    return [*({name: data} for name, data in single_files.items()), files_of_each_kind, many_files]


def check_dropped_files(browser):
    """Checks that each set of dropped files is opened, prompts the user with a question, or is rejected with a message."""
    choose_example(browser, "three lamps")
    for drop in file_drops():
        browser.script(CLOSE_ALL)
        browser.wait_until(GET_NOTICE, "")
        browser.script(DROP_FILES, [[name, base64.b64encode(data).decode()] for name, data in drop.items()])
        description = " and ".join([*drop][:2]) + (" .." if len(drop) > 2 else "")
        eventually(browser, f"{description} is opened, causes a question, or is rejected with a message",
              f"{IS_DIALOG_OPEN.replace('return', 'const asks =')}; {GET_NOTICE.replace('return', 'const text =')}; return asks || text !== ''", True)
        check_bench_answers(browser, description)
    # The last drop has 60 programs, which the page reads one after another. The last program closes any dialog that is still open.
    browser.wait_until(GET_NOTICE, re.compile(r"^59\.asm is in Source"))
    wait_until_ready(browser)
    browser.script(CLOSE_ALL)


def check_invalid_numbers(browser):
    """Checks that numbers out of range, and input that is not a number, are rejected in the fields for numbers."""
    choose_example(browser, "three lamps")
    browser.click("#run")
    browser.wait_until(GET_STATUS, re.compile("^Paused"))
    for number in ("-5", "1000000000", "99999999999999999999", "1e3", "abc"):
        browser.script(SET_FIELD, "step-count", number)
        browser.script("document.getElementById('step-many').click()")
        eventually(browser, f"{number} instructions are rejected", GET_STATUS, re.compile("^Nothing was done: enter a number"))
    show_text(browser, "waves")
    browser.script("document.getElementById('record-where').value = 'after'")
    for number in ("-5", "99999999999999999999", "abc"):
        browser.script(SET_FIELD, "record-cycles", number)
        browser.click("#record")
        eventually(browser, f"{number} cycles are rejected", "return document.getElementById('scope-status').textContent", re.compile("^Enter a number of cycles"))
    show_text(browser, "properties")
    browser.script(SET_FIELD, "explore-seconds", "abc")
    browser.click("#explore")
    check_bench_answers(browser, "numbers out of range")
    show_text(browser, "program")


CLICK_REPEATEDLY = """
for (let turn = 0; turn < 40; turn++) for (const id of arguments[0]) document.getElementById(id).click()"""
CLICK_EXAMPLES = "for (const each of [...document.querySelectorAll('#examples .card, #examples button')].slice(0, 12)) each.click()"
IS_SESSION_SHOWN = """
return document.getElementById("name").value !== "" && document.title.startsWith(document.getElementById("name").value)
  && document.getElementById("status").textContent !== "" """


def check_many_clicks(browser):
    """Checks that the bench still answers after 240 clicks on its buttons, and after twelve examples were opened at once."""
    choose_example(browser, "calculator")
    browser.script(CLICK_REPEATEDLY, ["run", "step", "reset", "back-stop", "forward", "test"])
    check_bench_answers(browser, "240 clicks in one go")
    browser.click("#sessions-button")
    browser.script(CLICK_EXAMPLES)
    browser.script("document.getElementById('sessions').close()")
    eventually(browser, "one of twelve examples that were opened at once is shown", IS_SESSION_SHOWN, True)
    check_bench_answers(browser, "twelve examples at once")


def check_reload_after_edit(browser):
    """Checks that text that was typed immediately before a reload is restored."""
    choose_example(browser, "three lamps")
    browser.script(PUT_INTO_EDITOR, "#program-editor", PROGRAM)
    browser.reload()
    wait_until_ready(browser)
    eventually(browser, "a text that was typed immediately before a reload is restored", GET_TEXT_OF_EDITOR.replace("arguments[0]", "'#program-editor'"), PROGRAM)


def check(browser, page, _folder, _mcs4):
    reopen_page(browser, page)
    check_markup_in_fields(browser)
    browser.type_keys([ESCAPE])
    check_dropped_files(browser)
    check_invalid_numbers(browser)
    check_many_clicks(browser)
    check_reload_after_edit(browser)
