"""The actions on a page that all browser drivers share, such as clicking and typing. web_driver.py and marionette.py implement the drivers."""

import re
import time

ELEMENT_KEY = "element-6066-11e4-a52e-4f735466cecf"
# The pause in milliseconds between the touches of two fingers.
PAUSE = {"type": "pause", "duration": 10}
# JavaScript that is inserted before every script: a function that returns true if an element is visible. The oldest browsers have no
# `checkVisibility`.
SCRIPT_PRELUDE = "const isShown = (element) => element.getClientRects().length > 0;\n"
GET_POSITION_AND_TEXT = """
const element = document.querySelector(arguments[0]);
return `${element.getBoundingClientRect().top} ${element.textContent}`"""


class DriverError(Exception):
    """An error that the driver or the page returns instead of a value."""


def matches(actual, expected):
    """Returns true if a value equals the expected value, or if it matches the expected pattern."""
    return bool(expected.search(str(actual))) if isinstance(expected, re.Pattern) else actual == expected


class BrowserDriver:
    """The actions that all drivers share. Each driver's class implements its protocol."""
    # True if the driver can touch the page with several fingers.
    can_multitouch = True
    # True if `document.hidden` is true for a page in a background tab.
    hides_background_tabs = True
    # True if the browser calls a page's `pagehide` listeners every time the user leaves the page.
    always_calls_pagehide = True
    # The number of seconds after a scroll until the page has been drawn again.
    settle_seconds = 0

    def scroll_to(self, selector):
        """Scrolls an element to the middle, so that nothing covers it."""
        self.script("document.querySelector(arguments[0]).scrollIntoView({ block: 'center' })", selector)

    def click(self, selector):
        """Scrolls an element to the middle, and clicks it."""
        self.scroll_to(selector)
        time.sleep(self.settle_seconds)
        self.click_element(self.find(selector))

    def click_at_rest(self, selector):
        """Waits until an element, such as a row of the disassembly, has not moved for a third of a second, and clicks it."""
        self.scroll_to(selector)
        last_state = None
        deadline = time.monotonic() + 10
        while (state := self.script(GET_POSITION_AND_TEXT, selector)) != last_state and time.monotonic() < deadline:
            last_state = state
            time.sleep(0.3)
        self.click_element(self.find(selector))

    def hold_mouse(self, selector, milliseconds_down):
        """Holds the mouse button down on an element for a time in milliseconds."""
        self.scroll_to(selector)
        time.sleep(self.settle_seconds)
        self.perform_actions({
            "type": "pointer", "id": "mouse", "parameters": {"pointerType": "mouse"},
            "actions": [
                {"type": "pointerMove", "duration": 0, "x": 0, "y": 0, "origin": {ELEMENT_KEY: self.find(selector)}},
                {"type": "pointerDown", "button": 0},
                {"type": "pause", "duration": milliseconds_down},
                {"type": "pointerUp", "button": 0},
            ],
        })

    def type_into(self, selector, text):
        """Types text into an element."""
        self.send_to_element(self.find(selector), text)

    def text_of(self, selector):
        """Returns the text of an element."""
        return self.script("return document.querySelector(arguments[0]).textContent", selector)

    def touch_together(self, selectors, milliseconds_down):
        """Touches several elements, one finger each. The fingers go down in sequence, stay down together for a time in milliseconds, and go up."""
        self.scroll_to(selectors[0])
        self.perform_actions(*[{
            "type": "pointer", "id": f"finger{number}", "parameters": {"pointerType": "touch"},
            "actions": [
                {"type": "pointerMove", "duration": 0, "x": 0, "y": 0, "origin": {ELEMENT_KEY: self.find(selector)}},
                *[PAUSE] * number,
                {"type": "pointerDown", "button": 0},
                *[PAUSE] * (len(selectors) - 1 - number),
                {"type": "pause", "duration": milliseconds_down},
                {"type": "pointerUp", "button": 0},
            ],
        } for number, selector in enumerate(selectors)])

    def touch(self, selector, milliseconds_down):
        """Touches an element with one finger for a time in milliseconds. (For WebKit, whose driver cannot touch, a script dispatches the events.)"""
        self.touch_together([selector], milliseconds_down)

    def right_click(self, x, y):
        """Clicks a point of the window with the right mouse button."""
        self.perform_actions({"type": "pointer", "id": "mouse", "parameters": {"pointerType": "mouse"}, "actions": [
            {"type": "pointerMove", "duration": 0, "x": x, "y": y}, {"type": "pointerDown", "button": 2}, {"type": "pointerUp", "button": 2}]})

    def type_keys(self, keys, milliseconds_down=70, milliseconds_up=60):
        """Types keys on the keyboard in sequence, each down and then up for the given milliseconds."""
        steps = []
        for key in keys:
            steps += [{"type": "keyDown", "value": key}, {"type": "pause", "duration": milliseconds_down},
                      {"type": "keyUp", "value": key}, {"type": "pause", "duration": milliseconds_up}]
        self.perform_actions({"type": "key", "id": "keyboard", "actions": steps})

    def press_chord(self, held_key, typed_key):
        """Types a key while another key is held."""
        self.perform_actions({"type": "key", "id": "keyboard", "actions": [
            {"type": "keyDown", "value": held_key}, {"type": "keyDown", "value": typed_key},
            {"type": "keyUp", "value": typed_key}, {"type": "keyUp", "value": held_key}]})

    def resize(self, width, height, _mobile=False):
        """Sets the width and the height of the page in pixels, independent of the window's borders."""
        for _ in range(20):
            page_size = self.script("return [innerWidth, innerHeight]")
            if page_size == [width, height]:
                return
            window_size = self.window_size()
            self.set_window_size(width + window_size[0] - page_size[0], height + window_size[1] - page_size[1])
            time.sleep(0.1)
        raise DriverError(f"the page has {page_size[0]} x {page_size[1]} pixels, not {width} x {height}")

    def restore_size(self):
        """Restores the default size of the window."""
        self.set_window_size(1280, 900)

    def wait_until(self, code, expected, seconds=30):
        """Repeats a script until it returns the expected value, or a string that matches the expected pattern, but for at most this number of
        seconds. Returns the last result. A script that fails is also repeated, because scripts fail while the browser leaves the page."""
        deadline = time.monotonic() + seconds
        while True:
            try:
                result = self.script(code)
                if matches(result, expected) or time.monotonic() > deadline:
                    return result
            except DriverError:
                if time.monotonic() > deadline:
                    raise
            time.sleep(0.05)
