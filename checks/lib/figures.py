"""The numbers that docs/PROOF.md states about the repository, computed from the repository, each in a phrase that PROOF must contain."""

import collections
import pathlib
import re

from parallel_checks import CHECKS
from mutants import BOARD_MUTANTS, HELD_MUTANTS, LIMIT_MUTANTS, SEARCH_MUTANTS, TOOL_MUTANTS, WAIT_MUTANTS

TOP = pathlib.Path(__file__).resolve().parent.parent.parent


def edits_by_crate():
    """Returns the number of must-fail edits in each crate."""
    return collections.Counter(path.parent.parent.name for path in TOP.glob("crates/*/must-fail/*.edit"))


def phrases_about_edits():
    """Yields the phrases about the must-fail edits, and about the crates without such edits."""
    by_crate = edits_by_crate()
    crates = sorted(path.parent.name for path in TOP.glob("crates/*/src"))
    crates_without_edits = [crate for crate in crates if crate not in by_crate and not re.match("test_|mcs_fixtures", crate)]
    crates_without_edits.sort(key=lambda crate: (not crate.startswith("mcs_"), crate))
    yield f"There are {by_crate.total()} edits, at most {max(by_crate.values())} in a crate"
    yield f"nor in {', '.join(crates_without_edits)} and the test crates"


def phrases_about_sweeps():
    """Yields the table rows with the number of cases that each check tries in ./test and in ./test long."""
    arguments_by_check = {check.name: (check.arguments.split(), check.long.split()) for check in CHECKS if check.long}
    for name, index, unit in (("locks", 0, "rounds"), ("assembler", 0, "seeded programs"), ("time", 0, "seeded boards and programs"),
                               ("time", 1, "sessions of tools"), ("prove", 0, "seeded questions"), ("calculator", 0, "seeded chains"),
                               ("explore", 0, "seconds"), ("page", 3, "seeded scripts")):
        short_count, long_count = (f"{int(arguments[index]):,}" for arguments in arguments_by_check[name])
        yield f"| `{name}` | {unit} | {short_count} | {long_count} |"


def phrases_about_checks():
    """Yields the phrases about the number of faulty implementations that the checks must detect, the phrase about seeded boards, and the name of each
    check."""
    yield f"{len(BOARD_MUTANTS) + len(TOOL_MUTANTS)} wrong readings"
    yield f"{len(SEARCH_MUTANTS) + len(LIMIT_MUTANTS) + len(WAIT_MUTANTS) + len(HELD_MUTANTS)} wrong searches"
    board_count_match = re.search(r"^RANDOM_BOARD_COUNT = (\d+)$", (TOP / "checks/runs").read_text(), re.M)
    yield f"of {board_count_match[1]} seeded boards in various TOML spellings"
    for path in sorted((TOP / "checks").iterdir()):
        if path.is_file():
            yield rf"`{path.name}`"


def required_phrases():
    """Returns all phrases that PROOF must contain."""
    return [*phrases_about_edits(), *phrases_about_sweeps(), *phrases_about_checks()]
