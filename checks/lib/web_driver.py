"""Drives browsers with WebDriver, a protocol over HTTP, using only Python's standard library. Chromium is driven through chromedriver. WebKit, the
engine of Safari and of all browsers on an iPhone, is driven through WebKitWebDriver."""

import base64
import glob
import json
import os
import pathlib
import socket
import subprocess
import time
import urllib.error
import urllib.request

from browser_driver import SCRIPT_PRELUDE, ELEMENT_KEY, BrowserDriver, DriverError

# Scripts that dispatch the events of a touch, and of a click with the right mouse button, for drivers that cannot perform these actions.
TOUCH_ELEMENT = """
const [selector, time] = arguments;
const node = document.querySelector(selector);
const send = (kind) => node.dispatchEvent(new PointerEvent(kind, { pointerType: "touch", bubbles: true, cancelable: true }));
send("pointerdown");
return new Promise((done) => setTimeout(() => done(["pointerup", "click"].forEach(send)), time))"""
RIGHT_CLICK = """
const [clientX, clientY] = arguments;
const at = { clientX, clientY, pointerType: "mouse", button: 2, bubbles: true, cancelable: true };
for (const kind of ["pointerdown", "contextmenu", "pointerup"]) {
  document.elementFromPoint(clientX, clientY).dispatchEvent(new PointerEvent(kind, at));
}"""


def free_port():
    """Returns a free TCP port. (A driver could choose a port itself, but not all drivers report it.)"""
    with socket.socket() as listener:
        listener.bind(("127.0.0.1", 0))
        return listener.getsockname()[1]


class WebDriver(BrowserDriver):
    """A browser that a WebDriver server controls. `self.driver_address` is the address of this server, and `self.session_path` the path of the
    browser's session there."""

    def _request(self, method, path, body=None):
        """Sends a request to the driver, and returns the value in its answer. Raises DriverError if the driver answers with an error."""
        data = None if body is None else json.dumps(body).encode()
        request = urllib.request.Request(self.driver_address + path, data, {"Content-Type": "application/json"}, method=method)
        try:
            with urllib.request.urlopen(request, timeout=120) as answer:
                return json.load(answer)["value"]
        except urllib.error.HTTPError as http_error:
            error_value = json.load(http_error)["value"]
            raise DriverError(f"{error_value['error']}: {error_value['message']}".split("\n")[0]) from None

    def _request_session(self, method, path, body=None):
        """Sends a request for the browser's session, and returns the value in the answer."""
        return self._request(method, self.session_path + path, body)

    def open(self, address):
        """Opens a page at an address."""
        self._request_session("POST", "/url", {"url": address})

    def reload(self):
        """Reloads the page."""
        self._request_session("POST", "/refresh", {})

    def go_back(self):
        """Goes back to the previous page."""
        self._request_session("POST", "/back", {})

    def script(self, code, *arguments):
        """Runs a script in the page, and returns its result."""
        return self._request_session("POST", "/execute/sync", {"script": SCRIPT_PRELUDE + code, "args": list(arguments)})

    def find(self, selector):
        """Returns the id of the first element that a selector matches."""
        return self._request_session("POST", "/element", {"using": "css selector", "value": selector})[ELEMENT_KEY]

    def click_element(self, element):
        """Clicks the element with an id."""
        self._request_session("POST", f"/element/{element}/click", {})

    def send_to_element(self, element, text):
        """Types text into the element with an id."""
        self._request_session("POST", f"/element/{element}/value", {"text": text})

    def perform_actions(self, *sources):
        """Performs sequences of input actions, one for each input device, at the same time."""
        self._request_session("POST", "/actions", {"actions": list(sources)})

    def window_size(self):
        """Returns the width and the height of the window in pixels."""
        rect = self._request_session("GET", "/window/rect")
        return rect["width"], rect["height"]

    def set_window_size(self, width, height):
        self._request_session("POST", "/window/rect", {"x": 0, "y": 0, "width": width, "height": height})

    def current_tab(self):
        """Returns the handle of the current tab."""
        return self._request_session("GET", "/window")

    def new_tab(self):
        """Opens a new tab in the foreground, and switches to it."""
        self.show_tab(self._request_session("POST", "/window/new", {"type": "tab"})["handle"])

    def show_tab(self, handle):
        """Switches to the tab with a handle."""
        self._request_session("POST", "/window", {"handle": handle})

    def close_tab(self, handle):
        """Closes the current tab, and shows the tab `handle`."""
        self._request_session("DELETE", "/window")
        self.show_tab(handle)

    def screenshot(self):
        """Returns a screenshot as the bytes of a PNG file."""
        return base64.b64decode(self._request_session("GET", "/screenshot"))

    def process_id(self):
        """Returns the process id of the driver."""
        return self.driver.pid

    def end(self):
        """Closes the browser, and ends its driver."""
        try:
            self._request_session("DELETE", "")
        except (DriverError, OSError):
            pass
        self.driver.terminate()
        self.driver.wait()


class Chromium(WebDriver):
    """Chromium, controlled through chromedriver."""
    name = "Chromium"
    # With these settings, Chromium stores no site data.
    data_blocking_settings = {"profile.default_content_setting_values.cookies": 2}

    def __init__(self, folder, downloads, flags=(), **settings):
        port = free_port()
        self.driver_address = f"http://127.0.0.1:{port}"
        self.driver = subprocess.Popen(["chromedriver", f"--port={port}"], stdout=subprocess.PIPE, stderr=subprocess.DEVNULL, text=True)
        if not any("started successfully" in line for line in self.driver.stdout):
            raise DriverError("chromedriver did not start")
        options = {
            "args": ["--headless=new", "--no-sandbox", "--disable-gpu", "--hide-scrollbars", "--window-size=1280,900",
                     f"--user-data-dir={folder}", *flags],
            "prefs": {"download.default_directory": downloads, "download.prompt_for_download": False, **settings},
        }
        request = {"capabilities": {"alwaysMatch": {"goog:chromeOptions": options, "goog:loggingPrefs": {"browser": "ALL"}}}}
        answer = self._request("POST", "/session", request)
        self.session_path = "/session/" + answer["sessionId"]
        self.version = answer["capabilities"]["browserVersion"]

    def send_command(self, name, **parameters):
        """Sends a command of the browser's own protocol, and returns the result."""
        return self._request_session("POST", "/goog/cdp/execute", {"cmd": name, "params": parameters})

    def resize(self, width, height, mobile=False):
        self.send_command("Emulation.setDeviceMetricsOverride", width=width, height=height, deviceScaleFactor=1, mobile=mobile)

    def restore_size(self):
        self.send_command("Emulation.clearDeviceMetricsOverride")

    def log(self):
        """Returns the messages in the browser's log."""
        return [entry["message"] for entry in self._request_session("POST", "/se/log", {"type": "browser"})]


class WebKit(WebDriver):
    """WebKit's MiniBrowser: the one of Debian's WebKitGTK, or the one that MINIBROWSER names. It has no headless mode, so it runs on an Xvfb
    display."""

    name = "WebKit"
    # WebKit has no setting that blocks site data.
    data_blocking_settings = None
    # WebKit's driver has only a mouse pointer, and no touch. It opens each tab as a separate window, so a page in a background tab still counts as
    # visible.
    can_multitouch = False
    hides_background_tabs = False
    settle_seconds = 0.3

    def __init__(self, folder, downloads):
        home = pathlib.Path(folder)
        home.mkdir(parents=True, exist_ok=True)
        (home / "user-dirs.dirs").write_text(f'XDG_DOWNLOAD_DIR="{downloads}"\n')
        self.display_server = None
        self.environment = dict(os.environ, HOME=str(home), XDG_CONFIG_HOME=str(home), XDG_RUNTIME_DIR=str(home), GDK_BACKEND="x11",
                          WEBKIT_DISABLE_COMPOSITING_MODE="1", WEBKIT_DISABLE_SANDBOX_THIS_IS_DANGEROUS="1")
        self.environment["DISPLAY"] = self._start_display()
        port = free_port()
        self.driver_address = f"http://127.0.0.1:{port}"
        self.driver = subprocess.Popen(["WebKitWebDriver", f"--port={port}"], env=self.environment, stdout=subprocess.DEVNULL,
                                       stderr=subprocess.DEVNULL)
        answer = self._start_session()
        self.session_path = "/session/" + answer["sessionId"]
        self.version = answer["capabilities"]["browserVersion"]
        self.restore_size()

    def touch(self, selector, milliseconds_down):
        self.script(TOUCH_ELEMENT, selector, milliseconds_down)

    def right_click(self, x, y):
        # Dispatch the events by script, because after a press of this button the driver would type every character without Shift.
        self.script(RIGHT_CLICK, x, y)

    def _start_display(self):
        """Starts Xvfb, which chooses the number of its display. Returns the name of the display."""
        self.display_server = subprocess.Popen(["Xvfb", "-displayfd", "1", "-screen", "0", "1920x1200x24"], stdout=subprocess.PIPE,
                                       stderr=subprocess.DEVNULL, text=True)
        number = self.display_server.stdout.readline().strip()
        if not number:
            raise DriverError("Xvfb did not start")
        return f":{number}"

    def _start_session(self):
        """Starts a session of the driver, which can need a minute to start. Returns the driver's answer."""
        browser = os.environ.get("MINIBROWSER") or glob.glob("/usr/lib/*/webkit2gtk-4.*/MiniBrowser")[0]
        options = {"binary": browser, "args": ["--automation"]}
        request = {"capabilities": {"alwaysMatch": {"browserName": "MiniBrowser", "webkitgtk:browserOptions": options}}}
        end = time.monotonic() + 60
        while True:
            try:
                return self._request("POST", "/session", request)
            except OSError:
                if time.monotonic() > end:
                    raise DriverError("WebKitWebDriver did not start") from None
                time.sleep(0.2)

    def end(self):
        """Closes the browser, and ends its driver and its display."""
        super().end()
        self.display_server.terminate()
        self.display_server.wait()
