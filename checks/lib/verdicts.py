"""The common functions of the checks in Python. They count the passed and failed verdicts, and report the failed ones."""

import pathlib
import sys

from browser_driver import matches

CHECK_NAME = f"checks/{pathlib.Path(sys.argv[0]).name}"
# The maximum number of characters of a value that are printed. Only the end of a longer value is printed.
MAX_PRINTED = 2000

# `again` counts the topics of checks/page that passed only at the second attempt.
counts = {"passed": 0, "failed": 0, "again": 0}


def judge(is_right, description):
    """Counts a verdict. Prints its description if it failed."""
    counts["passed" if is_right else "failed"] += 1
    if not is_right:
        print(f"{CHECK_NAME}: {description}", file=sys.stderr)


def verdict(description, actual, expected):
    """Checks that a value equals the expected one, or matches it if that is a pattern. Counts the verdict, and prints an error if it failed."""
    judge(matches(actual, expected), f"{description}: is {repr(actual)[-MAX_PRINTED:]}, must be {repr(expected)[-MAX_PRINTED:]}")


def eventually(browser, description, code, expected, seconds=30):
    """Checks that a script returns the expected result within a number of seconds, and counts the verdict."""
    verdict(description, browser.wait_until(code, expected, seconds), expected)


def end_check():
    """Prints the numbers of passed and failed verdicts, and exits."""
    print(f"{counts['passed']} passed, {counts['failed']} failed")
    sys.exit(0 if counts["failed"] == 0 else 1)
