"""Questions for mcs4-prove about the examples, with the expected answers. The conditions in the examples' properties (`never` lines, lines with a
time limit, and lines with key presses) are written as comparisons of the machine's cells. Also contains conditions that can become true only with
certain inputs, and mutants: examples with one instruction replaced."""

from __future__ import annotations

import pathlib
import random
import re
from collections.abc import Iterable
from dataclasses import dataclass

from assembler import assemble
from board4004 import CODES, TWO_WORDS
from second_search import MISTAKES, Comparison, InputLimits, Question

EXAMPLE_FILES = pathlib.Path(__file__).resolve().parent.parent.parent / "examples"
MUTANT_MAX_STATES, MUTANT_PAUSE = 120, 1000


def texts_of(props: str) -> tuple[list[str], list[str]]:
    """Returns the texts of the board and of the program that belong to a properties file."""
    path = EXAMPLE_FILES / props
    if path.with_name("board.toml").exists():
        texts = path.with_name("board.toml"), path.with_name(f"{path.parent.name}.asm")
        return texts[0].read_text().splitlines(), texts[1].read_text().splitlines()
    name = path.stem.removesuffix("_bounces")
    lines = next(path.with_name(f"{name}.{kind}") for kind in ("txt", "mcsp") if path.with_name(f"{name}.{kind}").exists()).read_text().splitlines()

    def text_after(word: str) -> list[str]:
        start = lines.index(word) + 1
        return lines[start:lines.index(".", start)]

    return text_after("wire"), text_after("asm")


def comparisons_of(text: str, names: dict[str, int]) -> list[Comparison]:
    """Parses comparisons that are joined with `&`. `@label` becomes the comparison that the program counter is at that label, between two
    instructions."""
    comparisons: list[Comparison] = []
    for term in text.split(" & "):
        if term.startswith("@"):
            page, word = divmod(names[term[1:]], 256)
            comparisons += [("in", "counter", index, "whole", number, number) for index, number in ((3, 0), (4, page), (5, word))]
        else:
            operator, name, index, part, low, high = term.split()
            comparisons.append((operator, name, int(index), part, int(low), int(high)))
    return comparisons


def question_of(props: str, conditions: list[str], max_states: int, pause: int) -> Question:
    """Returns the question of whether any of these conditions can become true in an example. `max_states` and `pause` limit the search."""
    board, program = texts_of(props)
    names = assemble(program)[2]
    return Question(board, program, [comparisons_of(never, names) for never in conditions], max_states, pause)


DIE_FACES = " & ".join(f"out ramport 0 whole {value} {value}" for value in (0, 1, 3, 7, 8, 9, 11))
DIGIT_COMPARISONS = {f"ram.0.{at} > 9": f"in character {at} whole 10 15" for at in (0, 64, 128, 192)}
GREEN, AMBER, WALK = "in ramport 0 line2 1 1", "in ramport 0 line1 1 1", "in ramport 1 line1 1 1"


@dataclass
class Example:
    """The `never` conditions of a properties file with their comparisons, the answer to all of them together, and the limits of the search."""

    props: str
    answer: str
    nevers: dict[str, str]
    max_states: int = 1000000
    pause: int = 1000000


EXAMPLES = [
    Example("a_fault_to_find.props", "may fail after 1 values", {"lamp 8 on and lamp 2 on": "in ramport 0 line3 1 1 & in ramport 0 line1 1 1"}),
    Example("counter.props", "too many", {never: DIGIT_COMPARISONS[never] for never in ("ram.0.0 > 9", "ram.0.64 > 9")}, max_states=20000),
    # Unlike the properties file, this question does not limit the duration of key presses. So the property can fail.
    Example("counter_bounces.props", "may fail after 113 values", {"@count": "@count"}),
    Example("die.props", "holds 13", {
        "not lamps ...*... and not lamps *.....* and not lamps *..*..* and not lamps **...** and not lamps **.*.** and not lamps ***.*** "
        "and not lamps none": DIE_FACES}),
    Example("lamps.props", "holds 2", {"lamp 2 on": "in ramport 0 line3 1 1"}),
    Example("running_light.props", "holds 2", {
        f"lamp {one} on and lamp {other} on": f"in chain0 {one} whole 1 1 & in chain0 {other} whole 1 1" for one, other in ((0, 1), (8, 9), (0, 9))}),
    Example("stopwatch.props", "holds 10001", DIGIT_COMPARISONS),
    Example("traffic_light.props", "holds 375558", {
        "lamp green on and lamp walk on": f"{GREEN} & {WALK}", "lamp amber on and lamp walk on": f"{AMBER} & {WALK}",
        "lamp green on and lamp amber on": f"{GREEN} & {AMBER}", "lamp stand on and lamp walk on": f"in ramport 1 line0 1 1 & {WALK}"}),
    Example("calculator/calculator.props", "too many", {
        "st.0.0.1 > 7": "in status 1 whole 8 15",
        "lamp overflow on and lamp division_by_zero on": "in ramport 0 line1 1 1 & in ramport 0 line2 1 1"}, max_states=5000),
    Example("calculator/short_press.props", "may fail after 26 values", {"@act": "@act"}),
    Example("clock/clock.props", "too many", {
        "r11 > 9": "in register 11 whole 10 15", **{f"ram0.0 out {value}": f"in ramport 0 whole {value} {value}" for value in (3, 5, 15)}}, max_states=500),
    Example("lock/lock.props", "holds 297692", {
        "lamp open on and lamp locked on": "in ramport 0 line1 1 1 & in ramport 0 line0 1 1",
        "lamp open on and lamp alarm on": "in ramport 0 line1 1 1 & in ramport 0 line2 1 1"}),
    Example("pictures/pictures.props", "holds 9", {"not ram0.2 out 0 and not ram0.3 out 0": "out ramport 2 whole 0 0 & out ramport 3 whole 0 0"}),
    Example("printing_calculator/printing_calculator.props", "too many", {
        "st.0.0.0 > 12": "in status 0 whole 13 15", "st.0.0.1 > 1": "in status 1 whole 2 15"}, max_states=5000),
    Example("three_lamps/three_lamps.props", "holds 2", {
        "lamp left on and lamp right on": "in ramport 0 line2 1 1 & in ramport 0 line0 1 1",
        "lamp left on and lamp middle on": "in ramport 0 line2 1 1 & in ramport 0 line1 1 1",
        "lamp middle on and lamp right on": "in ramport 0 line1 1 1 & in ramport 0 line0 1 1"}),
]
# The answers of longer searches, which need a gigabyte of memory. checks/prove runs these searches only with more than its default number of seeds.
LONGER_ANSWERS = {"counter.props": "holds 2240113"}
# The values that each RAM port, by its index, can output in the examples that have mutants. The lock, the traffic light and the three lamps never
# output other values, whatever is pressed.
POSSIBLE_OUTPUTS = {
    "die.props": {0: (0, 1, 3, 7, 8, 9, 11)},
    "lock/lock.props": {0: (0, 1, 2, 5)},
    "pictures/pictures.props": {2: (0, 1, 2, 4, 8), 3: (0, 1, 2, 4, 8)},
    "three_lamps/three_lamps.props": {0: (0, 1, 2, 4)},
    "traffic_light.props": {0: (0, 1, 2, 3, 4), 1: (0, 1, 2)},
}


# The comparisons that are true if the program counter has its power-on value, 0.
COUNTER_AT_POWER_ON = "in counter 3 whole 0 0 & in counter 4 whole 0 0 & in counter 5 whole 0 0"


@dataclass
class TimeLimit:
    """A line of a properties file that sets a time limit: the comparisons that start and stop the stopwatch, the limit in cycles, and the answer.
    `longest` is the longest possible time, or -1 if it is unknown because there are too many states."""

    props: str
    line: str
    begins: list[str]
    ends: list[str]
    limit: int
    answer: str
    longest: int = -1
    max_states: int = 1000000

    def question(self) -> Question:
        """Returns the question of whether the stopwatch can exceed the limit."""
        question = question_of(self.props, [], self.max_states, 1000000)
        names = assemble(question.program)[2]
        question.begins, question.ends = ([comparisons_of(row, names) for row in rows] for rows in (self.begins, self.ends))
        question.within = self.limit
        return question


def duration_question(props: str, line: str, condition: str, limit: int, answer: str, longest: int = -1, max_states: int = 1000000) -> TimeLimit:
    """Returns the time limit for the question of whether all comparisons of `condition` can be true for longer than `limit` cycles. The stopwatch
    stops when any comparison becomes false."""
    comparisons = [comparison.split(" ", 1) for comparison in condition.split(" & ")]
    ends = [f"{'out' if operator == 'in' else 'in'} {operands}" for operator, operands in comparisons]
    return TimeLimit(props, line, [condition], ends, limit, answer, longest, max_states)


def all_zero(name: str, indexes: Iterable[int]) -> str:
    """Returns the comparisons that are true if these cells of the list `name` are 0."""
    return " & ".join(f"in {name} {index} whole 0 0" for index in indexes)


CLOCK, STACKER, LOCK, PICTURES, THREE_LAMPS = (f"{name}/{name}.props" for name in ("clock", "stacker", "lock", "pictures", "three_lamps"))
TIME_LIMITS = [
    TimeLimit("counter.props", "@count to @open within 53", ["@count"], ["@open"], 53, "too many", max_states=500),
    duration_question("die.props", "never lamps none for 1 ms", all_zero("ramport", [0]), 93, "holds 13", 16),
    TimeLimit("die.props", "@hold to @hold within 15", ["@hold"], ["@hold"], 15, "holds 13", 15),
    duration_question("lamps.props", "never lamp 0 off and lamp 1 on for 1 ms", "in chain0 0 whole 0 0 & in chain0 1 whole 1 1", 93, "holds 2", 0),
    duration_question("running_light.props", "never lamps none for 1 ms", all_zero("chain0", range(10)), 93, "holds 2", 9),
    TimeLimit("running_light.props", "every 8747 @step", [COUNTER_AT_POWER_ON, "@step"], ["@step"], 8747, "holds 2", 8747),
    TimeLimit("stopwatch.props", "every 926 @wait", [COUNTER_AT_POWER_ON, "@wait"], ["@wait"], 926, "holds 20002", 926),
    duration_question("traffic_light.props", "never lamps none for 1 ms", all_zero("ramport", [0, 1]), 93, "holds 375558", 13),
    TimeLimit("traffic_light.props", "@stop to @light within 8.01 s", ["@stop"], ["@light"], 741667, "holds 375558", 740744),
    duration_question(CLOCK, "never r8 > 2 for 10 ms", "in register 8 whole 3 15", 926, "too many", max_states=500),
    duration_question(CLOCK, "never r10 > 5 for 10 ms", "in register 10 whole 6 15", 926, "too many", max_states=500),
    duration_question(CLOCK, "never not ram0.0 out 1 for 8.4 ms", "out ramport 0 whole 1 1", 778, "too many", max_states=500),
    duration_question(LOCK, "never lamps none for 1 ms", all_zero("ramport", [0]), 93, "holds 297692", 11),
    duration_question(LOCK, "never lamp open on for 1.1 s", "in ramport 0 line1 1 1", 101852, "holds 297692", 96139),
    duration_question("music_box/music_box.props", "never lamp sound on for 5 ms", "in romport 0 line0 1 1", 463, "holds 2", 193),
    duration_question(PICTURES, "never r0 < 12 for 5 ms", "in register 0 whole 0 11", 463, "holds 9", 5),
    TimeLimit(PICTURES, "every 129 @row", [COUNTER_AT_POWER_ON, "@row"], ["@row"], 129, "holds 9", 129),
    duration_question(STACKER, "never lamps none for 0.3 s", all_zero("ramport", range(16)), 27778, "too many", max_states=500),
    *(duration_question(STACKER, f"never lamp {above} on and lamp {below} off and not ram2.3 out 0 for 1 ms",
              f"in ramport 13 line{line} 1 1 & in ramport 15 line{line} 0 0 & out ramport 11 whole 0 0", 93, "too many", max_states=500)
      for above, below, line in ((52, 60, 3), (53, 61, 2))),
    duration_question(THREE_LAMPS, "never lamps none for 1 ms", all_zero("ramport", [0]), 93, "holds 2", 7),
    TimeLimit(THREE_LAMPS, "every 6 ms @next", [COUNTER_AT_POWER_ON, "@next"], ["@next"], 556, "holds 2", 538),
]
# Lines with a time limit that checks/prove does not test, because their conditions depend on the digits of a display and their programs have too many
# states.
UNTESTED_LINES = {"never display -0 and st.0.0.2 3 for 20 ms"}


@dataclass
class RequiredPresses:
    """A line of a properties file that says that a condition becomes true only after key presses. `opens` has the condition's comparisons, and `keys`
    the row and column of each key to press."""

    props: str
    line: str
    opens: str
    keys: list[tuple[int, int]]
    answer: str

    def question(self, keys: list[tuple[int, int]], max_states: int = 3000000, pause: int = 1000000) -> Question:
        """Returns the question of whether the condition can become true before these keys are pressed in this order."""
        question = question_of(self.props, [], max_states, pause)
        question.opens = [comparisons_of(self.opens, {})]
        question.marks = [(level, *key) for key in keys for level in ("up", "down")]
        return question


REQUIRED_PRESSES = [
    RequiredPresses(LOCK, "lamp open on only after press 4, press 7, press 1, press 1, press #", "in ramport 0 line1 1 1",
            [(1, 0), (2, 0), (0, 0), (0, 0), (3, 2)], "holds 2083023"),
]


@dataclass
class LimitedCondition:
    """A condition that cannot become true in an example if the inputs are limited: its comparisons, the limits, and the answer. Within wider limits,
    it can become true after the program has read `value_count` values."""

    props: str
    condition: str
    limits: InputLimits
    answer: str
    wider_limits: InputLimits
    value_count: int

    def question(self, limits: InputLimits) -> Question:
        """Returns the question of whether the condition can become true within these limits."""
        question = question_of(self.props, [self.condition], 1000000, 1000000)
        question.limits = limits
        return question


# The answers are those of the second implementation.
LIMITED_CONDITIONS = [
    # If the switch is never opened, the counter counts at most once.
    LimitedCondition("counter.props", "in character 0 whole 2 15", InputLimits(only=True), "holds 114", InputLimits(only=True, test=True), 337),
    # If the key is never pressed, the die always shows the same number.
    LimitedCondition("die.props", "in ramport 0 whole 3 3", InputLimits(only=True), "holds 3", InputLimits(only=True, keys=[(0, 0)]), 4),
    # The scan finds several keys in a row only if they are down together.
    LimitedCondition(LOCK, "in register 6 whole 14 14", InputLimits(1, True, [(0, 0), (0, 1)]), "holds 2259",
                     InputLimits(2, True, [(0, 0), (0, 1)]), 2),
    # Without the key 4, the lock cannot be opened.
    LimitedCondition(LOCK, "in ramport 0 line1 1 1", InputLimits(1, True, [(0, 0), (2, 0), (3, 2)]), "holds 8797",
                     InputLimits(1, True, [(0, 0), (1, 0), (2, 0), (3, 2)]), 201),
    # If only the keys 0, + and = can be pressed, the calculator never divides by zero. With / instead of +, it does.
    LimitedCondition("calculator/calculator.props", "in ramport 0 line2 1 1", InputLimits(1, True, [(3, 0), (3, 3), (4, 3)]), "holds 6084",
                     InputLimits(1, True, [(0, 3), (3, 0), (4, 3)]), 51),
]


def press_lines(props: str) -> list[str]:
    """Returns the lines of a properties file that require key presses before a condition becomes true."""
    return [line for line in (EXAMPLE_FILES / props).read_text().splitlines() if " only after press " in line and not line.startswith("#")]


def time_lines(props: str) -> list[str]:
    """Returns the lines of a properties file that set a time limit, except those that limit key presses and those in UNTESTED_LINES."""
    lines = (EXAMPLE_FILES / props).read_text().splitlines()
    return [line for line in lines if re.match(r"never .* for \d|every |@\S+ to ", line) and line not in UNTESTED_LINES]


def never_conditions(props: str) -> list[str]:
    """Returns the conditions of the `never` lines in a properties file, except those with a duration."""
    lines = (EXAMPLE_FILES / props).read_text().splitlines()
    return [line.removeprefix("never ") for line in lines if line.startswith("never ") and " for " not in line]


# The example programs that make mistakes, with their mistakes. lamps.txt runs on into a missing ROM chip, and its second WRR has no output line.
KNOWN_MISTAKES = {"lamps.txt": ("rom", "wrr")}
PROGRAM_MAX_STATES, PROGRAM_PAUSE = 60, 1000


def example_names() -> list[str]:
    """Returns the names of the examples with a program, which are files or folders."""
    texts = [path.name for path in EXAMPLE_FILES.glob("*") if path.suffix in (".txt", ".mcsp") and "asm" in path.read_text().splitlines()]
    return sorted([*texts, *(path.parent.name for path in EXAMPLE_FILES.glob("*/board.toml"))])


def mistakes_of(name: str, mistakes: tuple[str, ...] = MISTAKES) -> Question:
    """Returns the question of whether an example's program makes any of these mistakes."""
    path = EXAMPLE_FILES / name
    board, program = texts_of(f"{name}/{name}.props" if path.is_dir() else str(path.with_suffix(".props").name))
    return Question(board, program, [[("mistake", *mistakes)]], PROGRAM_MAX_STATES, PROGRAM_PAUSE)


def program_of(image: dict[int, int]) -> list[str]:
    """Returns the text of a program that assembles to these bytes."""
    lines: list[str] = []
    for address in sorted(image):
        if address - 1 not in image or address % 16 == 0:
            lines.append(f" ORG {address}")
        lines.append(f" DB {image[address]}")
    return lines


def mutant_question(seed: int) -> tuple[str, Question]:
    """Chooses an example at random, and replaces one of its instructions with another one of the same size. Returns a description of the change, and
    the question of whether the mutant's ports can output a value that the example cannot output."""
    rng = random.Random(seed)
    props, ports = rng.choice([*POSSIBLE_OUTPUTS.items()])
    conditions = [" & ".join(f"out ramport {port} whole {value} {value}" for value in values) for port, values in ports.items()]
    question = question_of(props, conditions, MUTANT_MAX_STATES, MUTANT_PAUSE)
    image, spans, _names = assemble(question.program)
    address = rng.choice([address for address, size in spans if size in (1, 2) and image[address] in CODES])
    is_long = CODES[image[address]][0] in TWO_WORDS
    code = rng.choice([code for code in CODES if (CODES[code][0] in TWO_WORDS) == is_long and code != image[address]])
    question.program = program_of({**image, address: code})
    return f"{props} with {CODES[code][0]}, {code:02X}, at {address:03X}", question
