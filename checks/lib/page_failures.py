"""The part of checks/page about failures and missing browser features: the page describes each problem in a message, and loses nothing."""

import re
import time

from page_altered import REQUEST_FAILURE, EXPOSE_WORKER, INSTALL_FAILURES, write_altered_page
from page_basics import (ENTER, ESCAPE, GET_DIGITS, GET_NOTICE, GET_STATUS, GET_TEXT_OF_EDITOR, IS_READY, PUT_INTO_EDITOR, choose_example,
                         send_lines, reopen_page, pause_running_time, wait_until_ready)
from verdicts import eventually, verdict
from web_driver import Chromium

# Scripts that make the store of sessions (IndexedDB) unusable. Each key names one way in which a browser can lack this store.
SCRIPTS_WITHOUT_STORE = {
    "no IndexedDB": "Object.defineProperty(window, 'indexedDB', { value: undefined })",
    "IndexedDB and locks are blocked": "IDBFactory.prototype.open = () => { throw new DOMException('', 'SecurityError'); };"
                                       "LockManager.prototype.request = async () => { throw new DOMException('', 'SecurityError'); }",
    "a store that does not answer": "IDBFactory.prototype.open = () => ({})",
}
FAIL_READING = "IDBObjectStore.prototype.getAll = () => { throw new DOMException('', 'UnknownError'); }"

# Makes every write to the browser's store fail, as if the store were full.
FILL_STORE = """
window.put = IDBObjectStore.prototype.put;
IDBObjectStore.prototype.put = () => { throw new DOMException("", "QuotaExceededError"); }"""

# Returns the text of each visible button and field.
GET_SHOWN_CONTROLS = """
return [...document.querySelectorAll("button, input, select, textarea")].filter(isShown)
  .map((each) => each.textContent)"""


def cause_failure(browser, failure):
    """Makes the worker or its module fail in one of the ways that INSTALL_FAILURES defines."""
    browser.script(REQUEST_FAILURE, failure)


def dismiss_notice(browser):
    """Dismisses the visible notice."""
    browser.click("#notice .dismiss")


def check_failures(browser, page, folder):
    """Checks that the session survives a trap in the module, a lack of memory, a worker that dies or hangs, and a full store."""
    browser.open(write_altered_page(page, folder, EXPOSE_WORKER, INSTALL_FAILURES).as_uri())
    wait_until_ready(browser)
    choose_example(browser, "calculator")
    browser.type_keys([ESCAPE, "1", "2"])
    browser.wait_until(GET_DIGITS, "12")
    cause_failure(browser, "trap")
    eventually(browser, "a trap is reported", GET_NOTICE, re.compile("the module stopped during a call .unreachable. and was restarted"))
    verdict("the session is unchanged", browser.script(GET_DIGITS), "12")
    dismiss_notice(browser)
    browser.click("#run")
    browser.type_keys(["3"])
    eventually(browser, "the bench continues after a trap", GET_DIGITS, "123")
    cause_failure(browser, "no memory")
    eventually(browser, "lack of memory is reported", GET_NOTICE, re.compile("no 90: out of memory"))
    eventually(browser, "the session is unchanged after a lack of memory", GET_DIGITS, "123")
    dismiss_notice(browser)
    check_full_store(browser)
    cause_failure(browser, "trap without memory")
    browser.click("#step")
    eventually(browser, "a lack of memory after a trap is reported", GET_NOTICE, re.compile("no 90: out of memory"))
    verdict("the session is unchanged after both failures", browser.script(GET_DIGITS), "123")
    dismiss_notice(browser)
    check_worker_restart(browser)


def check_full_store(browser):
    """Checks that the page reports that it could not save a command, and saves again when the store has space."""
    browser.script(FILL_STORE)
    verdict("the answer to a command that was not saved reports that", send_lines(browser, "poke r5 9"), re.compile("not saved: "))
    verdict("a full store is reported", browser.script(GET_NOTICE), re.compile("This session is not saved: the browser has no more space"))
    browser.script("IDBObjectStore.prototype.put = window.put")
    send_lines(browser, "seq")
    verdict("the notice disappears when the session is saved", browser.script(GET_NOTICE), "")


def check_worker_restart(browser):
    """Checks that the page replaces a worker that dies while time is running, or that hangs until its work is cancelled. The session must be
    unchanged."""
    browser.click("#run")
    browser.wait_until(GET_STATUS, re.compile("^Running \""))
    cause_failure(browser, "die")
    eventually(browser, "a worker that died is reported", GET_NOTICE, re.compile("worker stopped and was restarted.*session is unchanged"), 40)
    eventually(browser, "the session is unchanged after the worker died", GET_DIGITS, "123")
    dismiss_notice(browser)
    browser.click("#run")
    browser.type_keys(["4"])
    eventually(browser, "the bench continues in a new worker", GET_DIGITS, "1234")
    pause_running_time(browser)
    answer_before = send_lines(browser, "seq")
    cause_failure(browser, "hang")
    browser.script("document.getElementById('lines').value = 'poke r5 9'")
    browser.script("document.getElementById('send').click()")
    eventually(browser, "work that hangs has a Cancel button", "return document.getElementById('work').hidden", False)
    browser.click("#cancel")
    eventually(browser, "the cancelled worker is replaced", GET_NOTICE, re.compile("worker stopped and was restarted"), 20)
    browser.script("document.getElementById('lines').value = ''")
    verdict("the session is unchanged after the cancellation", send_lines(browser, "seq"), answer_before)
    dismiss_notice(browser)


# Puts 20,000,000 bytes of slow lines into the console's field. After a cancellation, the session must be as if none of them had been executed. The
# field is hidden, because a browser would need minutes for its layout. `longest` is the longest time so far, in milliseconds, for which the page was
# blocked.
START_LONG_WORK = """
document.getElementById("lines").style.display = "none";
document.getElementById("lines").value = "run 100000".padEnd(249).concat("\\n").repeat(80000);
window.longest = 0;
let before = performance.now();
window.ticking = setInterval(() => {
  window.longest = Math.max(window.longest, performance.now() - before);
  before = performance.now();
}, 20)"""
# With `?hang` in the address, the page never finishes opening a session, and does not receive the events that report that the user leaves. With
# `?block=EVENT`, the page does not receive EVENT.
BLOCK_EVENTS = """
const block = (name) => addEventListener(name, (event) => event.stopImmediatePropagation(), true);
if (location.search.startsWith("?block=")) block(location.search.slice(7));
if (location.search === "?hang") {
  const post = Worker.prototype.postMessage;
  Worker.prototype.postMessage = function (message, ...rest) {
    if (message.call === "open") window.hung = true;
    else post.call(this, message, ...rest);
  };
  block("beforeunload");
  block("pagehide");
}"""
# A flag in the browser's storage marks a session that is being opened. A flag that remains shows that the page hung. BACKDATE_FLAGS ages all flags.
COUNT_FLAGS = "return Object.keys(localStorage).filter((key) => key.startsWith('fethsaim.opening')).length"
BACKDATE_FLAGS = "for (const key of Object.keys(localStorage)) if (key.startsWith('fethsaim.opening')) localStorage.setItem(key, '1')"
# Removes all flags, because a busy page that the user left can have left its flag behind.
REMOVE_FLAGS = "for (const key of Object.keys(localStorage)) if (key.startsWith('fethsaim.opening')) localStorage.removeItem(key)"
UNFINISHED_NOTICE = 'The session "die" was not opened automatically: the last time, opening it did not finish.'
GET_LAST_LOG_ENTRY = "return document.getElementById('log').lastElementChild.textContent"
IS_PROGRESS_SHOWN = "return document.querySelector('#work progress').value > 0"
GET_LONGEST_BLOCKED_TIME = "clearInterval(window.ticking); return window.longest"


def check_long_work(browser, page):
    """Checks that long work shows its progress and does not block the page, and that a cancellation undoes all of it."""
    reopen_page(browser, page)
    choose_example(browser, "calculator")
    pause_running_time(browser)
    # Send a line, so that the entry about the runs so far is in the log before the long work begins.
    send_lines(browser, "seq")
    answer_before = send_lines(browser, "seq")
    browser.script(START_LONG_WORK)
    browser.script("document.getElementById('send').click()")
    eventually(browser, "long work shows its progress", IS_PROGRESS_SHOWN, True, 60)
    browser.click("#cancel")
    eventually(browser, "long work can be cancelled", GET_NOTICE, re.compile("It was cancelled. The session is as it was before."), 30)
    print(f"during long work the page answers at least every {browser.script(GET_LONGEST_BLOCKED_TIME):.0f} ms in {browser.name}")
    browser.script("const area = document.getElementById('lines'); area.value = ''; area.style.display = ''")
    verdict("cancelled work has no effect", send_lines(browser, "seq"), answer_before)
    dismiss_notice(browser)
    browser.script("document.getElementById('lines').value = 'step\\n'.repeat(20000)")
    browser.script("document.getElementById('send').click()")
    eventually(browser, "work in pieces is completed", "return document.getElementById('lines').value", "", 60)
    send_lines(browser, "seq")
    verdict("each line of the work is executed once", browser.script(GET_LAST_LOG_ENTRY), f"seqseq {int(answer_before.rsplit(' ', 1)[1]) + 20000}")


SHORTEN_STORE_WAIT = """
const wait = setTimeout;
window.setTimeout = (handler, time, ...rest) => wait(handler, time === 10000 ? 300 : time, ...rest);
"""


def page_without_feature(page, folder, code):
    """Writes a copy of the page in which `code` removes a feature of the browser, and returns its path. The copy waits for a store for 0.3 seconds
    instead of ten."""
    return write_altered_page(page, folder, f"{SHORTEN_STORE_WAIT}{code}")


def notice_after_reopening(browser, page, code=GET_NOTICE, expected=re.compile(".")):
    """Opens a blank page and then the page. Waits until the script `code` returns an expected result, and returns this result. By default, the
    script returns the notice."""
    browser.open("about:blank")
    browser.open(page.as_uri())
    return browser.wait_until(code, expected)


def check_calculator_works(browser, description):
    """Checks that the page becomes ready, and that its first session, the calculator, computes 6 * 7."""
    eventually(browser, description, IS_READY, True)
    browser.type_keys([ESCAPE, "6", "*", "7", ENTER])
    eventually(browser, "the bench works despite the missing feature", GET_DIGITS, "42")


def check_missing_features(browser, page, folder):
    """Checks that the page shows only a notice if WebAssembly lacks bulk memory. The page must work in browsers where it can store nothing, and in
    browsers without the Web Locks API."""
    verdict("the notice about a browser without bulk memory", notice_after_reopening(browser, page_without_feature(page, folder, "WebAssembly.validate = () => false")),
            re.compile(r"This browser has no WebAssembly with bulk memory.*97.*102.*16"))
    verdict("the buttons of a page without a module", browser.script(GET_SHOWN_CONTROLS), ["Dismiss"])
    for description, code in SCRIPTS_WITHOUT_STORE.items():
        verdict(description, notice_after_reopening(browser, page_without_feature(page, folder, code)), re.compile("stores nothing"))
        check_calculator_works(browser, description)
        verdict("a line is answered without a store", send_lines(browser, "poke r5 9"), re.compile(r"poke r5 9ok \d+"))
        browser.click("#sessions-button")
        eventually(browser, "the number of listed sessions without a store", "return document.querySelectorAll('#kept li').length", 1)
        browser.click("#close-sessions")
    verdict("the notice about a store that cannot be read", notice_after_reopening(browser, page_without_feature(page, folder, FAIL_READING)), re.compile("could not be read"))
    check_calculator_works(browser, "a store that cannot be read")
    check_no_locks(browser, page, folder)


def check_no_locks(browser, page, folder):
    """Checks that without the Web Locks API, two tabs with the same session do not overwrite each other's changes. A closed tab must not block the
    session."""
    notice_after_reopening(browser, write_altered_page(page, folder, "Object.defineProperty(Navigator.prototype, 'locks', { value: undefined })"), IS_READY, True)
    address = browser.script("return location.href")
    first_tab = browser.current_tab()
    pause_running_time(browser)
    browser.new_tab()
    browser.open(address)
    wait_until_ready(browser)
    verdict("the second tab executes its line", send_lines(browser, "poke r5 9"), re.compile(r"poke r5 9ok \d+"))
    browser.close_tab(first_tab)
    verdict("the first tab reports that its line is not saved", send_lines(browser, "poke r5 3"), re.compile("not saved: another tab has changed"))
    browser.reload()
    wait_until_ready(browser)
    verdict("the saved session has the second tab's line", send_lines(browser, "regs"), re.compile(" r .{5}9"))
    verdict("a closed page does not prevent another page from opening the session", reopen(browser, page.as_uri()), "")


def check_blocked_data(browser_class, page, folder):
    """Checks that the page reports blocked site data and still works, in a browser whose settings block all site data."""
    browser = browser_class(folder / f"blocked{browser_class.name}", str(folder / "downloads"), **browser_class.data_blocking_settings)
    try:
        verdict("the notice about blocked site data", notice_after_reopening(browser, page), re.compile("blocked by the settings"))
        check_calculator_works(browser, "blocked data of sites")
    finally:
        browser.end()


def check_little_memory(page, folder):
    """Checks that a text is rejected if the module needs more than 80 pages of memory (5 MB) for it, and that the session stays unchanged."""
    browser = Chromium(folder / "little", str(folder / "downloads"), ["--js-flags=--wasm-max-mem-pages=80"])
    try:
        browser.open(page.as_uri())
        wait_until_ready(browser)
        pause_running_time(browser)
        # Use only the last word, because the log can get an entry about runs before the answer.
        number_before = send_lines(browser, "seq").split()[-1]
        browser.script("document.getElementById('lines').value = 'poke r5 9\\nasm\\n' + '; a comment of so many letters\\n'.repeat(150000)")
        browser.script("document.getElementById('send').click()")
        eventually(browser, "lack of memory in the module is reported", GET_NOTICE, re.compile("no 90: out of memory.*The session is as it was"), 30)
        browser.script("document.getElementById('lines').value = ''")
        verdict("the session is unchanged after the lack of memory", send_lines(browser, "seq").split()[-1], number_before)
    finally:
        browser.end()


def reopen(browser, address):
    """Leaves the page and opens it again. Returns its notice."""
    browser.open("about:blank")
    browser.open(address)
    wait_until_ready(browser)
    return browser.script(GET_NOTICE)


def open_hanging_session(browser, address):
    """Opens a session in a page that never finishes opening it. Then backdates the page's opening flag, as if the page had hung for a long time."""
    browser.open("about:blank")
    browser.open(address.replace("html", "html?hang", 1))
    browser.wait_until("return Boolean(window.hung)", True)
    browser.script(BACKDATE_FLAGS)


def check_leaving_early(browser, address, session):
    """Checks that a page that the user leaves within a second does not count as hung, whichever event reports to the page that the user leaves."""
    for query in ("", *(["?block=beforeunload"] if browser.always_calls_pagehide else []), "?block=pagehide"):
        browser.open("about:blank")
        browser.open(address.replace(".html", f".html{query}") + session)
        wait_until_ready(browser)
        text = f"; left {query}\n"
        browser.script(PUT_INTO_EDITOR, "#program-editor", text)
        browser.open("about:blank")
        # Wait two seconds, because a younger flag could belong to another tab that is still opening the session.
        time.sleep(2.1)
        verdict(f"a session whose page was left at once is opened automatically ({query})",
                [reopen(browser, address), browser.script("return location.hash")], ["", session])
        verdict("the text that was typed before leaving is restored", browser.script(GET_TEXT_OF_EDITOR, "#program-editor"), text)


def check_unfinished_opening(browser, page, folder):
    """Checks that the page does not open a session automatically if the page hung when it opened this session the last time. A message reports that,
    and the user can open or delete the session."""
    hanging_page = write_altered_page(page, folder, BLOCK_EVENTS).as_uri()
    reopen(browser, hanging_page)
    browser.script(REMOVE_FLAGS)
    choose_example(browser, "die")
    browser.click("#step")
    session = browser.wait_until("return location.hash", re.compile("^#session="))
    eventually(browser, "the flag is removed after the session was opened", COUNT_FLAGS, 0)
    verdict("the session is opened automatically", [reopen(browser, hanging_page), browser.script("return location.hash")], ["", session])
    browser.wait_until(COUNT_FLAGS, 0)
    open_hanging_session(browser, hanging_page + session)
    for address in (hanging_page, hanging_page + session):
        verdict("a session whose opening did not finish is reported", reopen(browser, address), UNFINISHED_NOTICE)
        verdict("that session is not opened automatically", browser.script("return location.hash") != session, True)
    browser.click("#notice button[aria-label^='Open it']")
    eventually(browser, "the session can be opened", "return location.hash", session)
    eventually(browser, "the flag is removed after the user opened the session", COUNT_FLAGS, 0)
    verdict("the session is opened automatically at the next start", [reopen(browser, hanging_page), browser.script("return location.hash")], ["", session])
    browser.wait_until(COUNT_FLAGS, 0)
    check_leaving_early(browser, hanging_page, session)
    browser.wait_until(COUNT_FLAGS, 0)
    open_hanging_session(browser, hanging_page + session)
    reopen(browser, hanging_page)
    browser.click("#notice button[aria-label^='Delete it']")
    eventually(browser, "the session can be deleted", GET_NOTICE, 'Deleted "die".')
    verdict("the deleted session is no longer reported", reopen(browser, hanging_page), "")


def check_failures_and_missing_features(browser, page, folder):
    """Runs the checks of failures and of missing features."""
    check_long_work(browser, page)
    check_unfinished_opening(browser, page, folder)
    check_failures(browser, page, folder)
    check_missing_features(browser, page, folder)
