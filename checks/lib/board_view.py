"""Checks the lamps and keys view of the Visual Studio Code extension: `python3 board_view.py FOLDER [PICTURE]`. FOLDER is the extension, unpacked
from its .vsix. The view's page runs in Chromium with a stand-in for the editor's interface (acquireVsCodeApi). The extension's module runs in Node
with the real debug adapter (board_view.mjs). The check passes messages between the page and the module. Prints `ok TEXT` or `failed: TEXT` for each
check, and writes a screenshot to the file PICTURE."""

import json
import pathlib
import queue
import subprocess
import sys
import tempfile
import threading
import time

sys.dont_write_bytecode = True
from web_driver import Chromium  # noqa: E402

LIB = pathlib.Path(__file__).resolve().parent
INSTALL_STUB = """window.messages = [];
window.acquireVsCodeApi = () => ({ postMessage: (message) => window.messages.push(message) });
window.broken = [];
addEventListener("securitypolicyviolation", (event) => window.broken.push(event.violatedDirective));
addEventListener("error", (event) => window.broken.push(event.message));
"""
TAKE_MESSAGES = "return window.messages.splice(0)"
POST_MESSAGE = "dispatchEvent(new MessageEvent('message', { data: arguments[0] }))"
GET_KEYS = "return [...document.querySelectorAll('#keys button')].map((node) => node.textContent).join(' ')"
GET_KEYS_DOWN = "return [...document.querySelectorAll('#keys [aria-pressed=true]')].map((node) => node.textContent).join(' ')"
GET_LAMPS = "return [...document.querySelectorAll('.bulb')].map((node) => node.getAttribute('aria-label')).join('; ')"
GET_HIDDEN = "return [document.getElementById('front').hidden, document.getElementById('nothing').hidden]"
TIMEOUT_SECONDS = 60


def expect_equal(actual, expected, description):
    """Prints `ok` if a value equals the expected one, and otherwise `failed` with both values."""
    print(f"ok {description}" if actual == expected else f"failed: {description}: is {actual!r}, must be {expected!r}")


class Bridge:
    """A connection that passes messages between the view's page in the browser and the extension in Node."""

    def __init__(self, folder, browser):
        self.browser = browser
        self.child = subprocess.Popen(["node", LIB / "board_view.mjs", folder], stdin=subprocess.PIPE, stdout=subprocess.PIPE, text=True)
        self.lines = queue.Queue()
        threading.Thread(target=lambda: [self.lines.put(line) for line in self.child.stdout], daemon=True).start()
        self.html = json.loads(self.lines.get(timeout=TIMEOUT_SECONDS))["html"]
        self.messages = []

    def send(self, **message):
        """Sends a message to the extension."""
        self.child.stdin.write(json.dumps(message) + "\n")
        self.child.stdin.flush()

    def pass_messages(self):
        """Passes the messages so far. Stores the extension's messages that are not for the page."""
        for posted in self.browser.script(TAKE_MESSAGES):
            self.send(fromPage=posted)
        while not self.lines.empty():
            message = json.loads(self.lines.get())
            if "toPage" in message:
                self.browser.script(POST_MESSAGE, message["toPage"])
            else:
                self.messages.append(message)

    def expect_result(self, code, expected, description):
        """Waits until a script returns the expected value. Passes messages in the meantime."""
        deadline = time.monotonic() + TIMEOUT_SECONDS
        result = None
        while time.monotonic() < deadline:
            self.pass_messages()
            result = self.browser.script(code)
            if result == expected:
                break
            time.sleep(0.02)
        expect_equal(result, expected, description)

    def request(self, name, **arguments):
        """Sends a request to the debug adapter. Returns the body of its answer, or None if there is no answer in time."""
        self.send(request=name, args=arguments)
        deadline = time.monotonic() + TIMEOUT_SECONDS
        while time.monotonic() < deadline:
            self.pass_messages()
            answer = next((message for message in self.messages if message.get("response") == name), None)
            if answer:
                self.messages.remove(answer)
                return answer.get("body")
            time.sleep(0.02)
        return None


def main():
    folder = pathlib.Path(sys.argv[1]).resolve()
    with tempfile.TemporaryDirectory() as profile:
        browser = Chromium(profile, profile, ["--window-size=500,800"])
        try:
            bridge = Bridge(folder, browser)
            (folder / "stub.js").write_text(INSTALL_STUB)
            page = folder / "opened.html"
            page.write_text(bridge.html.replace('<link rel', '<script src="stub.js"></script>\n<link rel', 1))
            browser.open(page.as_uri())
            bridge.expect_result(GET_HIDDEN, [False, True], "the view shows the board when debugging starts")
            expect_equal(browser.script(GET_KEYS), "1 2 3 4 5 6 7 8 9 * 0 #", "the view shows the names of the keys")
            bridge.expect_result(GET_LAMPS, "locked, dark; open, dark; alarm, dark", "the view shows the lamps")
            browser.click("#keys button:nth-child(5)")
            bridge.expect_result(GET_KEYS_DOWN, "5", "a click presses a key while the program is paused")
            state = bridge.request("evaluate", expression="state", context="repl")["result"]
            expect_equal(" keys 1.1 " in state, True, "the key is also down in the machine")
            browser.click("#keys button:nth-child(5)")
            bridge.expect_result(GET_KEYS_DOWN, "", "another click releases the key")
            bridge.request("continue", threadId=1)
            bridge.expect_result(GET_LAMPS, "locked, lit; open, dark; alarm, dark", "the lamps are on while the program runs")
            browser.type_keys([*"4711#"])
            bridge.expect_result(GET_LAMPS, "locked, dark; open, lit; alarm, dark", "keys on the keyboard open the lock")
            if len(sys.argv) > 2:
                pathlib.Path(sys.argv[2]).write_bytes(browser.screenshot())
            bridge.expect_result(GET_LAMPS, "locked, lit; open, dark; alarm, dark", "the lock closes again after its time")
            bridge.request("pause", threadId=1)
            expect_equal(browser.script("return window.broken"), [], "the page breaks no security policy and has no error")
            bridge.send(end=True)
            bridge.expect_result(GET_HIDDEN, [True, False], "the view says when nothing is being debugged")
            bridge.child.wait(TIMEOUT_SECONDS)
            expect_equal([message for message in bridge.messages if "error" in message], [], "the view shows no error")
        finally:
            browser.end()


main()
