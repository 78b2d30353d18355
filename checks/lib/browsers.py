"""The browsers in which checks/page opens the page, with the programs that each browser needs and the Debian packages of these programs."""

import shutil

PROGRAMS = {"Chromium": ("chromium", "chromedriver"), "Firefox": ("firefox-esr",), "WebKit": ("WebKitWebDriver", "Xvfb")}
PACKAGES = {"Chromium": "chromium chromium-driver", "Firefox": "firefox-esr", "WebKit": "webkit2gtk-driver xvfb"}


def missing_programs(name):
    """Returns the programs of a browser that are not on the PATH."""
    return [program for program in PROGRAMS[name] if shutil.which(program) is None]


def installed_browsers():
    """Returns the names of the browsers whose programs are all on the PATH."""
    return [name for name in PROGRAMS if not missing_programs(name)]
