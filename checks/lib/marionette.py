"""Drives Firefox with its own protocol (Marionette) over TCP, using only Python's standard library."""

import base64
import json
import pathlib
import socket
import subprocess
import time

from browser_driver import SCRIPT_PRELUDE, ELEMENT_KEY, BrowserDriver, DriverError

SECONDS_TO_START = 90
SECONDS_TO_ANSWER = 120


def preferences(download_folder):
    """Returns the preferences of a Firefox profile that uses a free port and downloads files without a dialog."""
    return {
        "marionette.port": 0,
        "browser.download.folderList": 2,
        "browser.download.dir": download_folder,
        "browser.download.useDownloadDir": True,
        "browser.download.alwaysOpenPanel": False,
        "browser.helperApps.neverAsk.saveToDisk": "application/octet-stream",
    }


class Firefox(BrowserDriver):
    """Firefox, controlled through its own protocol."""
    name = "Firefox"
    # Firefox 153 often does not call `pagehide` listeners, but it always calls `beforeunload` listeners.
    always_calls_pagehide = False
    # With these settings, Firefox stores no site data.
    data_blocking_settings = {"network.cookie.cookieBehavior": 2}

    def __init__(self, folder, download_folder, **settings):
        profile = pathlib.Path(folder)
        profile.mkdir(parents=True, exist_ok=True)
        all_preferences = {**preferences(download_folder), **settings}
        lines = [f"user_pref({json.dumps(name)}, {json.dumps(value)});\n" for name, value in all_preferences.items()]
        (profile / "user.js").write_text("".join(lines))
        self.program = subprocess.Popen(["firefox-esr", "--marionette", "--headless", "--no-remote", "--profile", profile],
                                        stdout=subprocess.DEVNULL, stderr=subprocess.DEVNULL)
        self.command_number = 0
        self.connection = self._connect(profile / "MarionetteActivePort")
        self.version = self.send_command("WebDriver:NewSession")["capabilities"]["browserVersion"]
        self.restore_size()

    def _connect(self, port_file):
        """Connects to Firefox at the port in a file, which Firefox writes when it has started. Returns the connection."""
        deadline = time.monotonic() + SECONDS_TO_START
        while time.monotonic() < deadline and self.program.poll() is None:
            try:
                connection = socket.create_connection(("127.0.0.1", int(port_file.read_text())), SECONDS_TO_ANSWER)
                self.input = connection.makefile("rb")
                self._read()
                return connection
            except (OSError, ValueError):
                time.sleep(0.1)
        self.program.kill()
        raise DriverError("Firefox did not start")

    def _read(self):
        """Reads the next message: its length in digits, a colon, and its bytes in JSON."""
        digits = b""
        while (digit := self.input.read(1)) not in (b":", b""):
            digits += digit
        if not digits:
            raise DriverError("Firefox has gone")
        return json.loads(self.input.read(int(digits)))

    def send_command(self, command, **parameters):
        """Sends a command, and returns its result. Raises DriverError if Firefox answers with an error."""
        self.command_number += 1
        message = json.dumps([0, self.command_number, command, parameters]).encode()
        self.connection.sendall(b"%d:%s" % (len(message), message))
        _, _, error, result = self._read()
        if error:
            raise DriverError(f"{error['error']}: {error['message']}".split("\n")[0])
        return result["value"] if isinstance(result, dict) and list(result) == ["value"] else result

    def open(self, address):
        """Opens a page at an address."""
        self.send_command("WebDriver:Navigate", url=address)

    def reload(self):
        """Reloads the page."""
        self.send_command("WebDriver:Refresh")

    def go_back(self):
        """Goes back to the previous page."""
        self.send_command("WebDriver:Back")

    def script(self, code, *arguments):
        """Runs a script in the page, and returns its result."""
        return self.send_command("WebDriver:ExecuteScript", script=SCRIPT_PRELUDE + code, args=list(arguments))

    def find(self, selector):
        """Returns the id of the first element that a selector matches."""
        return self.send_command("WebDriver:FindElement", using="css selector", value=selector)[ELEMENT_KEY]

    def click_element(self, element):
        """Clicks the element with an id."""
        self.send_command("WebDriver:ElementClick", id=element)

    def send_to_element(self, element, text):
        """Types text into the element with an id."""
        self.send_command("WebDriver:ElementSendKeys", id=element, text=text)

    def perform_actions(self, *sources):
        """Performs sequences of input actions, one for each input device, at the same time."""
        self.send_command("WebDriver:PerformActions", actions=list(sources))

    def window_size(self):
        """Returns the width and the height of the window in pixels."""
        window_rect = self.send_command("WebDriver:GetWindowRect")
        return window_rect["width"], window_rect["height"]

    def set_window_size(self, width, height):
        self.send_command("WebDriver:SetWindowRect", width=width, height=height)

    def current_tab(self):
        """Returns the handle of the current tab."""
        return self.send_command("WebDriver:GetWindowHandle")

    def new_tab(self):
        """Opens a new tab in the foreground and switches to it."""
        handle = self.send_command("WebDriver:NewWindow", type="tab", focus=True)["handle"]
        self.show_tab(handle)

    def show_tab(self, handle):
        """Switches to the tab with a handle."""
        self.send_command("WebDriver:SwitchToWindow", handle=handle, focus=True)

    def close_tab(self, handle):
        """Closes the current tab and switches to the tab `handle`."""
        self.send_command("WebDriver:CloseWindow")
        self.show_tab(handle)

    def screenshot(self):
        """Returns a screenshot as the bytes of a PNG file."""
        return base64.b64decode(self.send_command("WebDriver:TakeScreenshot", full=False))

    def process_id(self):
        """Returns the browser's process id."""
        return self.program.pid

    def end(self):
        """Ends Firefox, and waits until it has ended."""
        try:
            self.send_command("Marionette:Quit", flags=["eForceQuit"])
        except (DriverError, OSError):
            self.program.terminate()
        self.program.wait()
