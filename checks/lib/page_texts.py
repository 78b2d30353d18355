"""The part of checks/page about texts, projects and links: the page loses nothing that a user has made."""

import base64
import pathlib
import re
import subprocess
import time
import zlib

from page_basics import (ESCAPE, GET_ALL_NOTICES, GET_NOTICE, GET_STATUS, choose_example, send_lines, choose_from_file_menu, reopen_page, show_text,
                         status_of, pause_running_time, wait_until_ready)
from verdicts import eventually, verdict

TOP = pathlib.Path(__file__).resolve().parent.parent.parent
GET_NAME = "return document.getElementById('name').value"
GET_WATCHES = "return [...document.querySelectorAll('#watched-list li')].map((row) => row.title)"
ENTER = "\ue007"
# Presses Ctrl+S. Returns true if the page handles the keys instead of the browser.
PRESS_CONTROL_S = """
const event = new KeyboardEvent("keydown", { key: "s", ctrlKey: true, bubbles: true, cancelable: true });
document.body.dispatchEvent(event);
return event.defaultPrevented"""
GET_TEXTS = "return ['board', 'program'].map((name) => document.querySelector(`#${name}-editor .cm-editor`).lineEditor.getValue())"
GET_PROGRAM_TEXT = "return document.querySelector('#program-editor .cm-editor').lineEditor.getValue()"
GET_CONSOLE_FIELD = "return document.getElementById('lines').value"
GET_QUESTION = "return document.getElementById('ask').open ? document.getElementById('ask-title').textContent : ''"
COUNT_LISTED_SESSIONS = "return document.querySelectorAll('#kept li').length"
UNDO_BUTTON = "#notice button:not(.dismiss)"

# A board and a program with comments, names and non-ASCII letters, which are lost unless the page saves the texts themselves.
BOARD = (TOP / "examples/three_lamps/board.toml").read_text() + "# row 0: WALK\n"
PROGRAM = "; my own light\nstart:\tFIM P0, 0x00\t; f\u00fcr the first lamp\n\tJUN start"


def wait_for_download(folder, name):
    """Waits until the page has saved a file, for at most 20 seconds, and returns its path."""
    file = folder / "downloads" / name
    deadline = time.monotonic() + 20
    # Some browsers first create an empty file.
    while not (file.exists() and file.stat().st_size > 0) and time.monotonic() < deadline:
        time.sleep(0.05)
    time.sleep(0.1)
    return file


def rename_session(browser, name):
    """Changes the name of the session."""
    browser.script("const field = document.getElementById('name'); field.value = arguments[0]; field.dispatchEvent(new Event('change'))", name)


def check_project(browser, folder):
    """Checks that a saved project opens with its texts and watched values, and that saving it again writes the same bytes. Returns the path of a
    copy of the file."""
    status_of(browser, "#board-editor", BOARD)
    status_of(browser, "#program-editor", PROGRAM)
    browser.type_into("#watched-field", "count = R5" + ENTER)
    rename_session(browser, "my light")
    choose_from_file_menu(browser, "#save-button")
    saved_file = wait_for_download(folder, "my light.mcsp")
    project_bytes = saved_file.read_bytes()
    verdict("the project file contains both texts", BOARD in project_bytes.decode() and PROGRAM in project_bytes.decode(), True)
    saved_file.unlink()
    copy = folder / "project.mcsp"
    copy.write_bytes(project_bytes)
    rename_session(browser, "another one")
    status_of(browser, "#program-editor", "\tNOP\n")
    browser.type_into("#file", str(copy))
    eventually(browser, "the project is opened", GET_NAME, "my light")
    verdict("the texts of the opened project", browser.script(GET_TEXTS), [BOARD, PROGRAM])
    verdict("the watched values of the opened project", browser.script(GET_WATCHES), ["count = R5"])
    verdict("the page handles Ctrl+S", browser.script(PRESS_CONTROL_S), True)
    verdict("the project that is saved again has the same bytes", wait_for_download(folder, "my light.mcsp").read_bytes() == project_bytes, True)
    return copy


def check_rejected_files(browser, folder, project_bytes):
    """Checks that incomplete, damaged and foreign files are rejected with a message, and that the current texts stay unchanged."""
    texts_before = browser.script(GET_TEXTS)
    truncated_file = folder / "cut.mcsp"
    truncated_file.write_bytes(project_bytes[:-700])
    changed_file = folder / "changed.mcsp"
    changed_file.write_bytes(project_bytes.replace(b"my own", b"my 0wn"))
    newer_file = folder / "newer.mcsp"
    newer_file.write_bytes(project_bytes.replace(b"project 1", b"project 2"))
    foreign_file = folder / "foreign.png"
    foreign_file.write_bytes(b"\x89PNG\r\n\x1a\n" + bytes(100))
    for path, reason in ((truncated_file, "cut off: its last line"), (changed_file, "damaged or was edited"), (newer_file, "of version 2"),
                        (foreign_file, "not a text, a session or a project; supported are projects")):
        browser.type_into("#file", str(path))
        eventually(browser, f"{path.name} is rejected with a message", GET_NOTICE,
                   re.compile(f"Cannot open {path.name}: .*{reason}.*The session shown is unchanged"))
    plain_file = folder / "plain"
    plain_file.write_text("hello")
    browser.type_into("#file", str(plain_file))
    eventually(browser, "a file with an error in each line causes a question", GET_QUESTION, "Replace the source with plain?")
    browser.type_keys([ESCAPE])
    eventually(browser, "Escape closes the question", GET_QUESTION, "")
    verdict("the texts are unchanged", browser.script(GET_TEXTS), texts_before)


def check_undoing_replacement(browser):
    """Checks that the page asks before it replaces a text, and that replacing can be undone."""
    user_source, rom_source = "; mine\n\tLDM 5\n\tJUN 0\n", "\tLDM 5\n\tJUN 0x000\n"
    status_of(browser, "#program-editor", user_source)
    texts_before = browser.script(GET_TEXTS)
    show_text(browser, "program")
    browser.click("#from-rom")
    eventually(browser, "the page asks before it replaces a source", GET_QUESTION, "Replace the source?")
    browser.click("#ask .bar button:last-child")
    verdict("nothing changes if the user declines", browser.script(GET_TEXTS), texts_before)
    browser.click("#from-rom")
    browser.wait_until(GET_QUESTION, re.compile("."))
    browser.click("#ask .bar button:first-child")
    eventually(browser, "the source is disassembled from ROM", GET_PROGRAM_TEXT, rom_source)
    browser.click(UNDO_BUTTON)
    eventually(browser, "Undo restores the source", GET_PROGRAM_TEXT, user_source)
    browser.click(UNDO_BUTTON)
    eventually(browser, "Undo can be undone", GET_PROGRAM_TEXT, rom_source)
    browser.click(UNDO_BUTTON)
    browser.wait_until(GET_PROGRAM_TEXT, user_source)
    browser.script("document.querySelector('#program-editor .cm-editor').lineEditor.undo()")
    verdict("Ctrl+Z after Undo undoes the edit before the replacement", browser.script(GET_PROGRAM_TEXT) in (user_source, rom_source), False)
    browser.script("document.querySelector('#program-editor .cm-editor').lineEditor.undoOrRedo('redo')")
    browser.wait_until(GET_PROGRAM_TEXT, user_source)
    browser.click("#notice .dismiss")
    time.sleep(1)
    browser.reload()
    wait_until_ready(browser)
    verdict("the source is unchanged after a reload", browser.script(GET_PROGRAM_TEXT), user_source)


def count_saved_sessions(browser):
    """Returns the number of sessions in the dialog, and leaves the dialog open."""
    browser.click("#sessions-button")
    browser.wait_until("return document.getElementById('sessions').open", True)
    return browser.script(COUNT_LISTED_SESSIONS)


def check_example_saved_later(browser):
    """Checks that an example becomes a saved session only after the user has done something in it. Returns the number of saved sessions."""
    count_before = count_saved_sessions(browser)
    browser.click("#close-sessions")
    choose_example(browser, "die")
    eventually(browser, "the address names the example", "return location.hash", "#example=die")
    eventually(browser, "the title of the browser tab has the example's name", "return document.title", "die - Fethsaim")
    verdict("the example is not saved yet", count_saved_sessions(browser), count_before)
    browser.click("#close-sessions")
    browser.click("#step")
    eventually(browser, "the example is saved after a step", "return location.hash", re.compile("^#session="))
    verdict("the number of saved sessions after the step", count_saved_sessions(browser), count_before + 1)
    browser.click("#close-sessions")
    rename_session(browser, "my die")
    verdict("the title of the browser tab has the new name", browser.script("return document.title"), "my die - Fethsaim")
    choose_example(browser, "lamps")
    verdict("the example's lines are in the console's field", browser.script(GET_CONSOLE_FIELD) != "", True)
    choose_example(browser, "die")
    verdict("another example removes these lines", browser.script(GET_CONSOLE_FIELD), "")
    browser.script("document.getElementById('lines').value = 'poke r5 9'")
    choose_example(browser, "traffic light")
    verdict("another example keeps typed lines", browser.script(GET_CONSOLE_FIELD), "poke r5 9")
    browser.script("document.getElementById('lines').value = ''")
    return count_before + 1


def check_deleting(browser, count):
    """Checks that several sessions can be deleted at once and restored. `count` is the number of saved sessions."""
    verdict("the number of saved sessions after more examples were opened", count_saved_sessions(browser), count)
    browser.click("#choose-all")
    browser.click("#delete-chosen")
    eventually(browser, "all chosen sessions are deleted", COUNT_LISTED_SESSIONS, 0)
    verdict("the focus stays in the dialog", browser.script("return document.activeElement.closest('#sessions') !== null"), True)
    browser.click(UNDO_BUTTON)
    eventually(browser, "Undo restores the sessions", COUNT_LISTED_SESSIONS, count)
    browser.click("#kept li button[aria-label^='delete']")
    eventually(browser, "the number of sessions after one was deleted", COUNT_LISTED_SESSIONS, count - 1)
    browser.click("#notice .dismiss")
    browser.click("#deleted button")
    eventually(browser, "the list of deleted sessions restores the session", COUNT_LISTED_SESSIONS, count)
    browser.click("#close-sessions")


def check_notices(browser, folder):
    """Checks that notices of different kinds are shown together, that a new notice replaces the last one of its kind, and that the status is correct
    after a reset."""
    choose_example(browser, "calculator")
    pause_running_time(browser)
    browser.type_into("#file", str(folder / "cut.mcsp"))
    browser.wait_until(GET_NOTICE, re.compile("cut off"))
    status_of(browser, "#program-editor", "\tNOP\n")
    browser.click("#from-rom")
    browser.wait_until(GET_QUESTION, re.compile("."))
    browser.click("#ask .bar button:first-child")
    eventually(browser, "a notice of another kind is added", GET_NOTICE, re.compile("disassembled from ROM.*cut off"))
    browser.type_into("#file", str(folder / "changed.mcsp"))
    eventually(browser, "a notice of the same kind is replaced", GET_NOTICE, re.compile("^Cannot open changed.mcsp.*disassembled from ROM[^f]*$"))
    browser.click("#notice .dismiss")
    browser.click("#notice .dismiss")
    eventually(browser, "all notices are dismissed", GET_NOTICE, "")
    send_lines(browser, "reset\nbreak 0x024")
    browser.click("#run")
    browser.wait_until(GET_STATUS, re.compile("at a breakpoint"))
    browser.click("#reset")
    eventually(browser, "the status after a reset", GET_STATUS, "The board was reset; the program counter is at 000.")
    check_many_notices(browser, folder)


def check_many_notices(browser, folder):
    """Checks that each file causes one notice and that the newest three notices are visible. Notices disappear automatically, and the list of notices
    can show and undo them."""
    notices = [f"{number}.asm is in Source. Assemble and run puts it into ROM." for number in range(4)]
    for number in range(4):
        text = folder / f"{number}.asm"
        text.write_text(f" LDM {number}\n")
        browser.type_into("#file", str(text))
        browser.wait_until(GET_PROGRAM_TEXT, f" LDM {number}\n")
    eventually(browser, "the newest three notices are shown", GET_NOTICE, " ".join(reversed(notices[1:])))
    eventually(browser, "the notices disappear automatically", GET_NOTICE, "", 30)
    verdict("the list has all notices", browser.script(GET_ALL_NOTICES)[:4], notices[::-1])
    browser.click("#notices-button")
    browser.click("#notices li:nth-child(2) button")
    eventually(browser, "Undo in the list restores the source before the last two", GET_PROGRAM_TEXT, " LDM 1\n")
    eventually(browser, "a notice reports the restored source", GET_NOTICE, "The source is restored.")


def open_link(browser, page, link):
    """Opens the page at an address that contains a link."""
    browser.open("about:blank")
    browser.open(f"{page.as_uri()}#{link}")
    # The page does not become ready until the user answers its question.
    browser.wait_until("return Boolean(document.body.dataset.ready) || document.getElementById('ask').open", True, 90)


def check_link(browser, page):
    """Checks that a link contains a session's name and texts, that a preview appears before a linked session is opened, and that an incomplete link
    is rejected."""
    status_of(browser, "#board-editor", BOARD)
    status_of(browser, "#program-editor", PROGRAM)
    rename_session(browser, "my light")
    browser.script("navigator.clipboard.writeText = async (text) => { window.copied = text; }")
    browser.click("#share-button")
    eventually(browser, "a notice reports that the link was copied", GET_NOTICE, re.compile("A link of [0-9,]+ characters was copied"))
    link = browser.script("return window.copied").split("#")[1]
    verdict("the link is compressed", link, re.compile(r"^link=1\.[\w-]+$"))
    browser.click("#notice .dismiss")
    browser.script("navigator.clipboard.writeText = async () => { throw new DOMException('', 'NotAllowedError'); }")
    browser.click("#share-button")
    eventually(browser, "a link that cannot be copied is shown and selected", "return document.getElementById('link')"
               " ? document.getElementById('link').value.slice(document.getElementById('link').selectionStart).split('#')[1] : ''", link)
    browser.click("#ask .bar button:last-child")
    choose_example(browser, "die")
    stored_count = count_saved_sessions(browser)
    open_link(browser, page, link)
    eventually(browser, "the link causes a question with the name", GET_QUESTION, 'Open "my light" from a link?')
    verdict("the question describes the contents of the link", browser.text_of("#ask"), re.compile("Three lamps.*text has 1[0-9] lines, the source 3 lines.*1 ROM, 1 RAM chip, 3 lamps"))
    browser.click("#ask .bar button:last-child")
    eventually(browser, "the link is not opened if the user declines", "return location.hash", re.compile("^#(session|example)="))
    verdict("the number of saved sessions is unchanged", count_saved_sessions(browser), stored_count)
    open_link(browser, page, link)
    eventually(browser, "the same link causes the question again", GET_QUESTION, re.compile("my light"))
    browser.click("#ask .bar button:first-child")
    eventually(browser, "the link opens as a session", GET_NAME, "my light")
    wait_until_ready(browser)
    verdict("the session has the texts of the link", browser.script(GET_TEXTS), [BOARD, PROGRAM])
    verdict("the session is saved", count_saved_sessions(browser), stored_count + 1)
    browser.click("#close-sessions")
    open_link(browser, page, f"{link}%20")
    eventually(browser, "a space after the link is ignored", GET_QUESTION, re.compile("my light"))
    browser.click("#ask .bar button:last-child")
    open_link(browser, page, "lnk=1")
    eventually(browser, "an unknown address is reported", GET_NOTICE, re.compile("^The address ends with #lnk=1, which names nothing here"))
    for description, broken_link in (("a truncated link", link[:-9]), ("a link without a board", "link=1.aGVsbG8"), ("a link without a version", "link=hello")):
        texts_before = browser.script(GET_TEXTS)
        open_link(browser, page, broken_link)
        eventually(browser, f"{description} is rejected with a message", GET_NOTICE, re.compile("Cannot open the link: it is cut off or was changed"))
        verdict("the texts are unchanged", browser.script(GET_TEXTS), texts_before)


def make_link(name, board, program):
    """Returns a link with this name and these texts, as somebody else could write it."""
    contents = f"name {name}\nwire\n{board}.\nasm\n{program}.\n".encode()
    checksum = subprocess.run(["cksum"], input=contents, stdout=subprocess.PIPE, check=True).stdout.split()[0]
    compressor = zlib.compressobj(wbits=-15)
    compressed = compressor.compress(checksum + b"\n" + contents) + compressor.flush()
    return f"link=1.{base64.urlsafe_b64encode(compressed).decode().rstrip('=')}"


def check_foreign_links(browser, page):
    """Checks that a link that would make the page hang is rejected, and that names from links are shortened and cannot mislead the user."""
    names = [f"n{number}" for number in range(12000)]
    hanging_board = f"# lamp 0: {' '.join(names)}\n# grid 0: {' '.join(f'-{name}' for name in names)}\n"
    texts_before = browser.script(GET_TEXTS)
    open_link(browser, page, make_link("a clock", hanging_board, ""))
    eventually(browser, "a link with a text that is too long is rejected with a message", GET_NOTICE, re.compile(
        rf"^Cannot open the link: the board's text has {len(hanging_board):,} characters; at most 65,536 are accepted\. Nothing was changed\.$"))
    verdict("the texts are unchanged", browser.script(GET_TEXTS), texts_before)
    board = f"# title: {'long words ' * 20}\n# lamp 0: {' '.join(names[:400])}\n# grid 0: {' '.join(f'-{number}' for number in range(600))}\n"
    open_link(browser, page, make_link("\u202etxe\u2066\t" + "name " * 900, board, ""))
    eventually(browser, "the name in the question is shortened and has no control characters", GET_QUESTION, f'Open "txe {"name " * 10}name…" from a link?')
    verdict("the title in the question is shortened", browser.text_of("#ask"), re.compile("link\\?(long words ){5}long…The board's text has 3 lines"))
    browser.click("#ask .bar button:first-child")
    eventually(browser, "the link opens as a session", GET_NAME, re.compile("^txe name"))
    eventually(browser, "only the first errors of the front panel are listed", "return [...document.querySelectorAll('#face-faults li')].slice(20)"
               ".map((each) => each.textContent).join()", re.compile("^And [0-9,]+ more\\.$"))
    browser.open("about:blank")
    browser.open(f"{page.as_uri()}#example=%E2%80%AEhacked%2C%20go%20to%20evil.example%20{'x' * 100}")
    eventually(browser, "the name of an unknown example is shortened and has no control characters", GET_NOTICE, re.compile('^The address names an example, "hacked, go to evil.example x{32}…", that'))


def check_dropped_files(browser, project):
    """Checks that a dropped project is opened, and that dropped files of a folder are opened as its mcs4.toml describes them."""
    browser.script("""
const data = new DataTransfer();
data.items.add(new File([arguments[0]], "dropped.mcsp"));
document.body.dispatchEvent(new DragEvent("drop", { dataTransfer: data, bubbles: true, cancelable: true }))""", project.decode())
    eventually(browser, "a dropped project is opened", GET_TEXTS, [BOARD, PROGRAM])
    # A script cannot drop a folder, but dropping its files has the same effect.
    drop_files_script = """
const data = new DataTransfer();
for (const [name, text] of arguments[0]) data.items.add(new File([text], name));
document.body.dispatchEvent(new DragEvent("drop", { dataTransfer: data, bubbles: true, cancelable: true }))"""
    names = 'board = "own.toml"\nprogram = "own.asm"\nspeed = "tenth"\n'
    files = [["own.toml", BOARD], ["own.asm", "; my own\n" + PROGRAM], ["mcs4.toml", names]]
    browser.script(drop_files_script, files)
    eventually(browser, "the dropped files are opened as mcs4.toml describes them", GET_TEXTS, [BOARD, "; my own\n" + PROGRAM])
    eventually(browser, "the project has the speed in mcs4.toml", "return document.getElementById('speed').value", "tenth")
    browser.script(drop_files_script, [*files[:2], ["mcs4.toml", names + "lamps = 1\n"]])
    eventually(browser, "an error in mcs4.toml is reported with its line", GET_NOTICE, re.compile(
        r"^Cannot open the folder: mcs4\.toml: line 4: a project has no key lamps; .*The session shown is unchanged"))
    browser.script(drop_files_script, files[2:])
    eventually(browser, "mcs4.toml alone is rejected with a message", GET_NOTICE, re.compile(r"^Cannot open mcs4\.toml: it names files of a project: drop its folder"))
    browser.script("document.getElementById('speed').value = 'real'; document.getElementById('speed').dispatchEvent(new Event('change'))")


def export_file(browser, folder, suffix):
    """Saves a file through the Export dialog, returns its contents, and removes it."""
    choose_from_file_menu(browser, "#export-button")
    number = [".asm", ".toml", ".hex", ".bin"].index(suffix) + 1
    browser.click(f"#export li:nth-child({number}) button")
    file = wait_for_download(folder, f"my light{suffix}")
    contents = file.read_bytes()
    file.unlink()
    return contents


def answers_in_copy(mcs4, session, lines):
    """Returns the program's answers to lines in a copy of a session."""
    copy = session.with_suffix(".copy.mcs")
    copy.write_bytes(session.read_bytes())
    return subprocess.run([mcs4, "open", copy], input=lines, stdout=subprocess.PIPE, check=True, text=True).stdout


def check_opened_and_exported_files(browser, folder, mcs4):
    """Checks that files of boards and programs can be opened, and that exported texts and ROM images equal the opened files and the output of `mcs4
    rom`."""
    example = TOP / "examples/three_lamps"
    for name in ("board.toml", "three_lamps.asm"):
        browser.type_into("#file", str(example / name))
        eventually(browser, f"the file {name} is opened", GET_NOTICE, re.compile(f"^{name} is in (Board|Source)"))
    prose_file = folder / "notes"
    prose_file.write_text("hello there\nthis is no program\n")
    browser.type_into("#file", str(prose_file))
    eventually(browser, "a file with an error in each line causes a question", GET_QUESTION, "Replace the source with notes?")
    browser.click("#ask .bar button:last-child")
    eventually(browser, "the editors have the texts of the files", GET_TEXTS, [(example / "board.toml").read_text(), (example / "three_lamps.asm").read_text()])
    browser.click("#board-tab")
    browser.click("#board-editor .send")
    browser.wait_until("return document.querySelector('#board-editor .status-text').textContent", "Board applied.")
    browser.click("#program-tab")
    browser.click("#assemble-only")
    browser.wait_until("return document.querySelector('#program-editor .status-text').textContent", re.compile("ssembled"))
    rename_session(browser, "my light")
    verdict("the exported source", export_file(browser, folder, ".asm"), (example / "three_lamps.asm").read_bytes())
    verdict("the exported board", export_file(browser, folder, ".toml"), (example / "board.toml").read_bytes())
    image = export_file(browser, folder, ".bin")
    choose_from_file_menu(browser, "#save-session-button")
    session = wait_for_download(folder, "my light.mcs")
    rom, size = [TOP / "mcs4", "rom"], str(len(image))
    rom_queries = subprocess.run([*rom, "ask", "0", size], stdout=subprocess.PIPE, check=True, text=True).stdout
    answers = answers_in_copy(mcs4, session, rom_queries)
    for arguments, suffix, expected in ((["save"], ".bin", image), (["save", "--hex"], ".hex", None)):
        expected_file = subprocess.run([*rom, *arguments, "0", size], input=answers.encode(), stdout=subprocess.PIPE, check=True).stdout
        verdict(f"the exported {suffix} file is the output of mcs4 rom", expected or export_file(browser, folder, suffix), expected_file)
    check_rom_image(browser, folder, image)


def check_rom_image(browser, folder, image):
    """Checks that an image is loaded into ROM, and that an image with bytes outside the board's ROM chips is rejected."""
    changed_image = folder / "other.bin"
    changed_image.write_bytes(bytes(byte ^ 0x80 if index < 4 else byte for index, byte in enumerate(image)))
    browser.type_into("#file", str(changed_image))
    eventually(browser, "an image is loaded into ROM", GET_NOTICE, re.compile(f"^{len(image):,} bytes of other.bin are in ROM, from 000; nothing was reset\\."))
    verdict("the exported ROM is the image", export_file(browser, folder, ".bin"), changed_image.read_bytes())
    large_file = folder / "large.hex"
    large_file.write_text(":010F0000D11F\n:00000001FF\n")
    browser.type_into("#file", str(large_file))
    eventually(browser, "an image for a missing ROM chip is rejected with a message", GET_NOTICE, re.compile("^Cannot open large.hex: the board has no ROM 15"))
    browser.script("for (const each of document.querySelectorAll('#notice .dismiss')) each.click()")


def check_project_tool(folder, project):
    """Checks that `mcs4 project` splits a project of the page and joins it again to the same bytes."""
    tool = [TOP / "mcs4", "project"]
    parts_folder, joined_file = folder / "parts", folder / "again.mcsp"
    subprocess.run([*tool, "split", project, parts_folder], check=True)
    verdict("mcs4 project extracts the board's text", (parts_folder / "board.toml").read_text(), BOARD)
    verdict("mcs4 project extracts the source", (parts_folder / "program.asm").read_text(), PROGRAM)
    subprocess.run([*tool, "join", parts_folder, joined_file], check=True)
    verdict("mcs4 project joins the same bytes", joined_file.read_bytes() == project.read_bytes(), True)


def check_texts(browser, page, folder, mcs4):
    reopen_page(browser, page)
    pause_running_time(browser)
    project = check_project(browser, folder)
    check_rejected_files(browser, folder, project.read_bytes())
    check_project_tool(folder, project)
    check_undoing_replacement(browser)
    check_deleting(browser, check_example_saved_later(browser))
    check_notices(browser, folder)
    check_dropped_files(browser, project.read_bytes())
    check_opened_and_exported_files(browser, folder, mcs4)
    check_link(browser, page)
    check_foreign_links(browser, page)
