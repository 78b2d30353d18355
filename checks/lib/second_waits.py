"""A second implementation of the search of mcs4-prove with `wait` and `held`. It shares no code with the program. Successive changes of the levels of
keys and TEST are at least `wait` cycles apart. The levels before the first cycle do not count as a change. With `held`, each key is up in at least
one of any `held` + 1 successive cycles, so that no key is down for more than `held` cycles in succession.

Two searches answer whether a property can fail:

- The literal search uses only this definition. It runs the board of board4004.py one cycle at a time. Before each cycle, it makes each change that is
  allowed. Its states contain the machine, the levels, the number of cycles since the last change, and the number of cycles for which each key has
  been down. It does not know which cycles read an input.
- The search by steps works like the program. Its steps are those of second_search.py. A step begins at levels that the search chooses. If they differ
  from the levels of the previous step, the change between the two steps was made as early as possible. This search counts states as the program does.

A counterexample has the levels at the beginning of each step. `replay_steps` finds the cycles in which the levels can change.

Without `held`, the two verdicts must agree. With `held`, the search by steps allows more inputs than the definition. If it answers `holds`, the
property also holds by the definition. But it can answer `may fail` although the property holds, because it does not remember

- that a key stays down when another key changes: it counts the cycles again from 0;
- what happened in a step that is longer than `wait`: the key can have been up during the step, but then the next change is later;
- that a key that was pressed must be released. If `wait` is more than `held`, no change can release it in time.

`is_search_exact` describes the sequences of steps for which the search by steps is exact. For these, there must be possible times of all changes. For
other sequences, there may be none.
"""

from __future__ import annotations

import itertools
from collections.abc import Iterator
from dataclasses import dataclass, field, replace
from typing import NamedTuple

from second_search import (
    LEVELS_AT_POWER_ON, InputLimits, Levels, Question, QuestionBoard, all_keys, allowed_keys, allowed_test_levels, level_commands, failure_condition, load_state,
    max_keys_down, power_on, run_cycle, run_lengths, run_to_next_state, set_levels, state_of)

# The maximum number of combinations of levels that the program tries. The program gives up if there are more.
MAX_LEVELS = 255


# ---- levels

def all_levels(board: QuestionBoard) -> list[Levels]:
    """Returns the combinations of key and TEST levels that the board's limits allow, sorted as mcs4-prove sorts them: by TEST, then by each key.
    Returns at most MAX_LEVELS + 1 of them."""
    keys = allowed_keys(board)
    sets_of_keys = (keys_down for count in range(min(len(keys), max_keys_down(board)) + 1) for keys_down in itertools.combinations(keys, count))
    levels = ((frozenset(keys_down), test) for keys_down in sets_of_keys for test in allowed_test_levels(board))
    return sorted(itertools.islice(levels, MAX_LEVELS + 1), key=lambda each: (each[1], [key in each[0] for key in keys]))


def levels_of_word(board: QuestionBoard, word: str) -> Levels:
    """Returns the levels that a word of an answer describes. The word has the levels of all keys, row by row, and then of TEST. Each hexadecimal
    digit has four of them, the first one in its lowest bit."""
    keys, levels = all_keys(board), [int(digit, 16) >> bit & 1 for digit in word for bit in range(4)]
    return frozenset(key for key, level in zip(keys, levels, strict=False) if level), levels[len(keys)]


def max_word(board: QuestionBoard) -> str:
    """Returns the word for levels that are all 1."""
    full_digits, levels_in_last = divmod(len(all_keys(board)) + 1, 4)
    return "f" * full_digits + (f"{(1 << levels_in_last) - 1:x}" if levels_in_last else "")


# ---- the literal search

# For each key of a board, the number of cycles for which it has been down, or 0 if it is up. Has no elements if the question has no `held`.
DownTimes = tuple[int, ...]


class LiteralSearch:
    """A search that visits all reachable states, cycle by cycle. A state consists of the machine, its levels in the next cycle, the times for which
    keys have been down, and the age of the last change in cycles. `wait` is the maximum age, and also the age if there was no change yet: both allow
    a change. States that differ only in their ages are stored as one number, which has a bit for each age."""

    def __init__(self, question: Question) -> None:
        self.board, self.is_failure = power_on(question), failure_condition(question)
        self.wait, self.held = question.limits.wait, question.limits.held
        self.levels = all_levels(self.board)
        self.limited_keys = all_keys(self.board) if self.held else []
        # The states of the machine that were seen, and the number of each. `successors` has the number of the next state, by the number of the state
        # and the index of the levels (-1 if the property fails).
        self.machines: list[tuple] = []
        self.numbers: dict[tuple, int] = {}
        self.successors: dict[tuple[int, int], int] = {}
        # For each combination of machine, levels and times, the ages that were reached. The search has not continued from those in `new_ages` yet.
        self.ages: dict[tuple[int, int, DownTimes], int] = {}
        self.new_ages: dict[tuple[int, int, DownTimes], int] = {}

    def number_of(self, machine: tuple) -> int:
        """Returns the number of a state of the machine. A new state gets the next number."""
        if machine not in self.numbers:
            self.numbers[machine] = len(self.machines)
            self.machines.append(machine)
        return self.numbers[machine]

    def next_machine(self, number: int, levels: int) -> int:
        """Returns the number of the state after one cycle at these levels, or -1 if the property fails after this cycle."""
        if (number, levels) not in self.successors:
            load_state(self.board, self.machines[number])
            set_levels(self.board, self.levels[levels])
            run_cycle(self.board)
            self.successors[number, levels] = -1 if self.is_failure(self.board) else self.number_of(state_of(self.board))
        return self.successors[number, levels]

    def reach(self, number: int, levels: int, times: DownTimes, ages: int) -> None:
        """Adds the states with this machine, these levels and times, and one of these ages. Those that are new are also added to `new_ages`."""
        if added := ages & ~self.ages.get((number, levels, times), 0):
            self.ages[number, levels, times] = self.ages.get((number, levels, times), 0) | added
            self.new_ages[number, levels, times] = self.new_ages.get((number, levels, times), 0) | added

    def times_after(self, times: DownTimes, levels: int) -> DownTimes:
        """Returns what `times` becomes after one more cycle at these levels: the times for which keys have been down."""
        keys_down = self.levels[levels][0]
        return tuple(time + 1 if key in keys_down else 0 for key, time in zip(self.limited_keys, times, strict=True))

    def ages_after(self, ages: int, times: DownTimes) -> int:
        """Returns the ages after one cycle. `times` has the times for which keys have been down after this cycle. Each age grows by one cycle, up to
        `wait`. Omits the ages at which the next change would be too late to release a key that is down."""
        older_ages = ages << 1
        older_ages = older_ages & (1 << self.wait + 1) - 1 | (older_ages >> self.wait + 1) << self.wait
        lowest_age = self.wait - self.held + max(times) if any(times) else 0
        return older_ages >> max(lowest_age, 0) << max(lowest_age, 0)

    def verdict(self, max_cycles: int) -> str:
        """Returns the verdict `holds` or `may fail`. Returns `too many` if the search runs more than `max_cycles` cycles from different states, or
        reaches several times as many states."""
        if self.is_failure(self.board):
            return "may fail"
        for levels in range(len(self.levels)):
            self.reach(self.number_of(state_of(self.board)), levels, len(self.limited_keys) * (0,), 1 << self.wait)
        while self.new_ages:
            (number, levels, times), ages = self.new_ages.popitem()
            times = self.times_after(times, levels)
            ages = self.ages_after(ages, times)
            if not ages:
                continue
            next_number = self.next_machine(number, levels)
            if next_number < 0:
                return "may fail"
            if len(self.successors) > max_cycles or len(self.ages) > 4 * max_cycles:
                return "too many"
            self.reach(next_number, levels, times, ages)
            if ages >> self.wait:
                for other_levels in range(len(self.levels)):
                    if other_levels != levels:
                        self.reach(next_number, other_levels, times, 1)
        return "holds"


def literal_verdict(question: Question, max_cycles: int) -> str:
    """Returns the verdict of the literal search on a question."""
    return LiteralSearch(question).verdict(max_cycles)


# ---- the search by steps

class Spacing(NamedTuple):
    """What the search remembers of earlier changes. `last` is the levels at which the last step began, or None before the first step. `age` is at
    most twice `wait`; as soon as it is `wait`, the levels can change again. `down` is at most `held`. If the keys are unchanged when the next step
    begins, a key has been down for at least this number of cycles. `down` is 0 if no key is down at these levels."""

    last: Levels | None
    age: int
    down: int


def can_begin_at(wait: int, spacing: Spacing, levels: Levels) -> bool:
    """Returns true if the next step can begin at these levels."""
    return spacing.last is None or levels == spacing.last or spacing.age >= wait


def age_at_begin(wait: int, spacing: Spacing, levels: Levels) -> int:
    """Returns the age at the beginning of a step at these levels. It is below `wait`, because the next change is after the beginning of the step."""
    if spacing.last is None:
        return wait - 1
    return min(spacing.age if levels == spacing.last else spacing.age - wait, wait - 1)


def age_after(wait: int, age: int, cycles: int) -> int:
    """Returns the age after a number of cycles without a change."""
    return min(age + cycles, 2 * wait)


def down_at_begin(spacing: Spacing, levels: Levels) -> int:
    """Returns a number of cycles: for at least this time, a key has been down at the beginning of a step at these levels."""
    return spacing.down if spacing.last is not None and levels[0] == spacing.last[0] else 0


def down_after(limits: InputLimits, down: int, levels: Levels, cycles: int) -> int:
    """Returns what `down_at_begin` becomes after a step at these levels, if it was `down` before. Returns 0 after a step of more than `wait` cycles,
    because the levels can change twice during such a step."""
    return min(down + cycles, limits.held) if levels[0] and cycles <= limits.wait else 0


def is_held_too_long(held: int, spacing: Spacing, levels: Levels) -> bool:
    """Returns true if a key would be down for more than `held` cycles if the next step began at these levels."""
    return held > 0 and down_at_begin(spacing, levels) >= held


@dataclass
class StepsResult:
    """The result of StepSearch: the verdict (`holds`, `may fail`, `too many` or `gave up`), and the number of states found. If the property can
    fail, `path` has the levels at the beginning of each step that leads to the failure."""

    verdict: str
    states: int
    path: list[Levels] = field(default_factory=list)

    def answer(self) -> str:
        """Returns the program's answer, without the levels of a counterexample."""
        return f"holds {self.states}" if self.verdict == "holds" else self.verdict


class StepSearch:
    """A search that decides a question step by step. A state has a machine and a spacing."""

    def __init__(self, question: Question) -> None:
        self.question, self.limits = question, question.limits
        self.board, self.is_failure = power_on(question), failure_condition(question)
        self.levels = all_levels(self.board)
        # The steps that were run, by machine and levels: the machine after the step (None if the property failed), and the number of cycles.
        self.steps: dict[tuple[tuple, Levels], tuple[tuple | None, int]] = {}

    def step(self, machine: tuple, levels: Levels) -> tuple[tuple | None, int]:
        """Returns the machine after a step at these levels, or None if the property fails, and the number of cycles."""
        if (machine, levels) not in self.steps:
            load_state(self.board, machine)
            cycles, has_failed = run_to_next_state(self.board, levels, self.is_failure, self.question.pause, counts_idle_cycles=True)
            self.steps[machine, levels] = None if has_failed else state_of(self.board), cycles
        return self.steps[machine, levels]

    def next_states(self, machine: tuple, spacing: Spacing) -> Iterator[tuple[Levels, tuple | None, Spacing]]:
        """Yields the levels at which the next step can begin, each with the machine and the spacing after the step. The machine is None if the
        property fails. As in the program, the search also chooses levels for a step that reads no input."""
        for levels in self.levels:
            if can_begin_at(self.limits.wait, spacing, levels) and not is_held_too_long(self.limits.held, spacing, levels):
                following, cycles = self.step(machine, levels)
                yield levels, following, self.spacing_after(spacing, levels, cycles)

    def spacing_after(self, spacing: Spacing, levels: Levels, cycles: int) -> Spacing:
        """Returns the spacing after a step at these levels, from the spacing before the step."""
        age = age_after(self.limits.wait, age_at_begin(self.limits.wait, spacing, levels), cycles)
        return Spacing(levels, age, down_after(self.limits, down_at_begin(spacing, levels), levels, cycles))

    def result(self) -> StepsResult:
        """Runs the search, and returns its result."""
        if self.is_failure(self.board):
            return StepsResult("may fail", 1)
        if len(self.levels) > MAX_LEVELS:
            return StepsResult("gave up", 0)
        if self.question.max_states < 1:
            return StepsResult("too many", 1)
        states = [(state_of(self.board), Spacing(None, 0, 0))]
        origins, known_states = [(0, self.levels[0])], set(states)
        for index, state in enumerate(states):
            for levels, machine, spacing in self.next_states(*state):
                if machine is None:
                    return StepsResult("may fail", len(states), [*levels_leading_to(origins, index), levels])
                if (machine, spacing) not in known_states:
                    if len(states) == self.question.max_states:
                        return StepsResult("too many", len(states) + 1)
                    known_states.add((machine, spacing))
                    states.append((machine, spacing))
                    origins.append((index, levels))
        return StepsResult("holds", len(states))


def levels_leading_to(origins: list[tuple[int, Levels]], index: int) -> list[Levels]:
    """Returns the levels at the beginning of each step that leads to the state with this index. `origins` has, for each state, the index of its
    predecessor, and the levels at the beginning of the step from there."""
    path = []
    while index:
        index, levels = origins[index]
        path.append(levels)
    return path[::-1]


def search_by_steps(question: Question) -> StepsResult:
    """Searches by steps for a failure of the question's property, and returns the result."""
    return StepSearch(question).result()


# ---- replaying a counterexample

# A change of the levels: its time in cycles, and the levels from then on.
Change = tuple[int, Levels]


def steps_of(question: Question, path: list[Levels]) -> tuple[list[Change], int, str]:
    """Replays a counterexample. Returns the levels of each step and the cycle at which the step begins, the total number of cycles, and a description
    of the error. The description is "" if the property fails after the last cycle, as it must."""
    board, is_failure, moment, step_starts = power_on(question), failure_condition(question), 0, []
    has_failed = is_failure(board)
    for index, levels in enumerate(path):
        if has_failed or not question.limits.allows(levels) or not levels[0] <= set(all_keys(board)):
            return step_starts, moment, f"step {index + 1}: " + ("the property fails before" if has_failed else f"{levels} is not allowed")
        step_starts.append((moment, levels))
        cycles, has_failed = run_to_next_state(board, levels, is_failure, question.pause, counts_idle_cycles=True)
        moment += cycles
    return step_starts, moment, "" if has_failed else "the property does not fail"


def is_search_exact(step_starts: list[Change], limits: InputLimits) -> bool:
    """Returns true if the search by steps is exact for steps that begin at these times with these levels. Without `held`, it is always exact. With
    `held`, keys may be down in two successive steps only if they are the same keys and the steps begin at most `wait` cycles apart."""
    return not limits.held or limits.wait <= limits.held and all(
        not (before[0] and levels[0]) or before[0] == levels[0] and moment - previous <= limits.wait
        for (previous, before), (moment, levels) in itertools.pairwise(step_starts))


def presses_of(changes: list[Change]) -> list[tuple[int, int]]:
    """Returns the index of each change that presses a key, with the index of the change that releases this key."""
    presses, pressed_at = [], {}
    for index, (_moment, (keys_down, _test)) in enumerate(changes):
        presses += [(pressed_at.pop(key), index) for key in [*pressed_at] if key not in keys_down]
        pressed_at.update({key: index for key in keys_down if key not in pressed_at})
    return presses


def possible_changes(step_starts: list[Change], limits: InputLimits) -> tuple[list[Change], list[int]]:
    """Returns the changes between steps, each in the earliest possible cycle. Also returns the latest possible cycle of each change. `step_starts`
    has the first cycle and the levels of each step. The first change is in cycle 0. With `held`, a last change releases all keys after the beginning
    of the last step."""
    changes, latest = step_starts[:1], [0] * len(step_starts[:1])
    for (before, levels_before), (moment, levels) in itertools.pairwise(step_starts):
        if levels != levels_before:
            changes.append((before + 1, levels))
            latest.append(moment)
    if limits.held and changes and changes[-1][1][0]:
        moment, (_keys_down, test) = step_starts[-1]
        changes.append((moment + 1, (frozenset(), test)))
        latest.append(moment + limits.held)
    return changes, latest


def earliest_changes(step_starts: list[Change], limits: InputLimits) -> list[Change] | None:
    """Returns changes that are within the limits and produce the levels at the beginning of each step. Each change is as early as possible. Returns
    None if there are no such changes."""
    changes, latest = possible_changes(step_starts, limits)
    # Each constraint (i, j, cycles) means: change `i` happens at least `cycles` cycles after change `j`.
    constraints = [(index, index - 1, limits.wait) for index in range(2, len(changes))]
    constraints += [(pressed, released, -limits.held) for pressed, released in presses_of(changes) if limits.held]
    change_cycles = [moment for moment, _levels in changes]
    previous_cycles: list[int] = []
    while change_cycles != previous_cycles:
        previous_cycles = [*change_cycles]
        for index, other, cycles in constraints:
            change_cycles[index] = max(change_cycles[index], change_cycles[other] + cycles)
        if any(moment > last for moment, last in zip(change_cycles, latest, strict=True)):
            return None
    return [(moment, levels) for moment, (_earliest, levels) in zip(change_cycles, changes, strict=True)]


def limit_error(limits: InputLimits, changes: list[Change]) -> str:
    """Returns a description of the error in changes that the limits do not allow, or "" if they are allowed. The levels are constant after the last
    change. The limits do not apply to the first change, which sets the levels from cycle 0 on."""
    moments = [moment for moment, _levels in changes[1:]]
    if any(earlier + limits.wait > later for earlier, later in itertools.combinations(moments, 2)):
        return f"the changes at {moments} are less than {limits.wait} cycles apart"
    if excluded := [levels for _moment, levels in changes if not limits.allows(levels)]:
        return f"{excluded} is not allowed"
    if limits.held and (changes and changes[-1][1][0] or any(
            changes[released][0] - changes[pressed][0] > limits.held for pressed, released in presses_of(changes))):
        return f"a key is down for more than {limits.held} cycles with {changes}"
    return ""


def change_error(question: Question, changes: list[Change], cycle_count: int) -> str:
    """Runs the machine of a question one cycle at a time with these changes. Returns a description of the error, or "" if the property fails only
    after the last cycle."""
    board, is_failure = power_on(question), failure_condition(question)
    levels_at, levels = dict(changes), (frozenset(), 0)
    for moment in range(cycle_count):
        if is_failure(board):
            return f"cycle {moment}: the property fails before"
        levels = levels_at.get(moment, levels)
        set_levels(board, levels)
        run_cycle(board)
    return "" if is_failure(board) else "the property does not fail with these changes"


def are_changes_possible(question: Question, path: list[Levels]) -> bool:
    """Returns true if the levels can change as a counterexample requires, within the limits."""
    return earliest_changes(steps_of(question, path)[0], question.limits) is not None


def replay_steps(question: Question, path: list[Levels]) -> tuple[list[str], str]:
    """Returns the session lines that replay a counterexample up to the cycle in which the property fails. Also returns a description of the error in
    the counterexample, or "" if it has none. If `held` makes the changes impossible, and the search is not exact for these steps, ignores `held`."""
    step_starts, cycle_count, error = steps_of(question, path)
    lines, limits = [*itertools.chain(*question.texts()), "reset"], question.limits
    if error:
        return lines, error
    changes = earliest_changes(step_starts, limits)
    if changes is None and not is_search_exact(step_starts, limits):
        limits = replace(limits, held=0)
        changes = earliest_changes(step_starts, limits)
    if changes is None:
        return lines, f"the levels at {step_starts} need changes that are not allowed"
    levels_before = LEVELS_AT_POWER_ON
    shown_changes = [(moment, levels) for moment, levels in changes if moment < cycle_count]
    for (moment, levels), (next_moment, _levels) in itertools.pairwise([*shown_changes, (cycle_count, LEVELS_AT_POWER_ON)]):
        lines += level_commands(levels, levels_before) + [f"run {part}" for part in run_lengths(next_moment - moment)]
        levels_before = levels
    return lines, limit_error(limits, changes) or change_error(question, changes, cycle_count)


def with_wait(question: Question, wait: int) -> Question:
    """Returns the question with another `wait`."""
    return replace(question, limits=replace(question.limits, wait=wait))


def with_held(question: Question, held: int) -> Question:
    """Returns the question with another `held`."""
    return replace(question, limits=replace(question.limits, held=held))
