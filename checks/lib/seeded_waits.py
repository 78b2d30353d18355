"""Random questions for mcs4-prove with `wait`, reproducible from a seed. Most of them are about programs that read an input several times, and ask
whether the reads can return certain levels, one after another. The time between two changes decides whether they can. The other questions are those
of seeded_questions.py. The boards have few keys, or the limits allow few keys, so that a search can try all levels. In half of the questions, `held`
also limits the time for which a key is down. Most of these ask whether several reads in succession can find a key down."""

from __future__ import annotations

import dataclasses
import random

from assembler import assemble
from seeded_questions import KeyWiring, comparisons_at_address, chord_question, seeded_question
from second_search import InputLimits, Key, Mark, Question, all_keys, power_on, search
from second_waits import search_by_steps, with_held, with_wait

# The largest `wait`, and the maximum number of keys whose levels can change.
MAX_WAIT, MAX_KEYS = 40, 3
# The largest `held`.
MAX_HELD = 70
# The maximum number of states in a search by steps, and the maximum number of cycles from different states that a literal search runs.
MAX_STATES, MAX_CYCLES = 1500, 12000
# For a seed, questions are tried until the answer to one depends on `wait`. The maximum number of tries, and of states in a search that decides this.
MAX_ATTEMPTS, FEW_STATES = 6, 300


class FewKeyWiring(KeyWiring):
    """A small board with a matrix of few keys."""

    def __init__(self, rng: random.Random) -> None:
        super().__init__(rng)
        self.rows, column_count = rng.choice([(1, 1), (1, 2), (1, 2), (1, 3), (2, 1), (2, 1), (3, 1)])
        self.columns = rng.choices(self.inputs, k=column_count)


def delay_phrases(rng: random.Random) -> list[str]:
    """Returns instructions to put between two reads, so that some cycles pass."""
    kind = rng.random()
    if kind < 0.2:
        register = rng.choice([8, 9])
        return [f" LDM {rng.randrange(10, 16)}", f" XCH R{register}", f"d%d: ISZ R{register}, d%d"]
    return rng.randrange(9) * [" NOP"]


def pattern_question(rng: random.Random, wiring: KeyWiring, levels: list[int] | None = None, of_test: bool = False) -> Question:
    """Returns a question about a program that reads an input several times, and continues only if the reads return certain levels. Usually each must
    be the opposite of the one before it. If there are `levels`, one key must have these levels, or TEST if `of_test` is true. Then the program stores
    a number in a register, or it waits. The property says that this number, this waiting time, or this number without marks cannot occur."""
    row, register, number = rng.randrange(wiring.rows), rng.randrange(8), rng.randrange(1, 16)
    program = [" FIM P7, 0", " SRC P7"]
    for bit in range(wiring.first + row + 1):
        data = 2 if bit == 0 or rng.random() < 0.2 else 0
        program += [f" LDM {data}", " WRR", f" LDM {data + 1}", " WRR"]
    program += [" FIM P6, 0x10", " SRC P6", "loop: CLB", *([f" XCH R{register}"] if rng.random() < 0.8 else [])]
    level, column, reads_test, marks = rng.randrange(2), rng.randrange(len(wiring.columns)), of_test if levels else rng.random() < 0.4, []
    # If a read returns the wrong level, the program starts again or ends.
    wrong_level_target = rng.choice(["loop", "loop", "end"])
    for n in range(len(levels) if levels else rng.choice([2, 3, 3, 3, 4])):
        level = levels[n] if levels else level
        # The program repeats some reads until they return the right level.
        target = wrong_level_target if rng.random() < 0.85 else f"read{n}"
        if reads_test:
            program += [f"read{n}: JCN {1 if level else 9}, {target}"]
        else:
            rotate_to_carry = (int(wiring.columns[column][-1]) + 1) * [" RAR"]
            program += [f"read{n}: RDR", *rotate_to_carry, f" JCN {10 if level else 2}, {target}"]
            marks.append(("down" if level else "up", row, column))
        program += [line.replace("%d", str(n)) for line in delay_phrases(rng)]
        level = 1 - level if rng.random() < 0.9 else level
        column, reads_test = (rng.randrange(len(wiring.columns)), rng.random() < 0.4) if rng.random() < 0.3 and not levels else (column, reads_test)
    question = Question(wiring.text(), program)
    # If `levels` are given, time limits and marks are rarer, because the property then often fails without them.
    kind = rng.random() * (3 if levels else 1)
    if kind < 0.2:
        question.program += ["late:", *rng.randrange(20, 60) * [" NOP"]]
    question.program += [f" LDM {number}", f" XCH R{register}", " JUN loop", "end: JUN end"]
    if kind < 0.2:
        add_time_limit(question, rng)
    elif kind < 0.45:
        add_marks(question, rng, wiring, marks)
        question.opens = [[("in", "register", register, "whole", number, number)]]
    else:
        question.nevers = [[("in", "register", register, "whole", number, number)]]
    question.pause = rng.choice([7, 20, 50, 100, 300])
    return question


def add_time_limit(question: Question, rng: random.Random) -> None:
    """Adds a stopwatch that measures each pass through the program's loop. If all reads of a pass return the right levels, it exceeds the limit."""
    names = assemble(question.program)[2]
    loop_start = comparisons_at_address({("counter", 4): names["loop"] >> 8, ("counter", 5): names["loop"] & 255})
    question.begins, question.ends = [loop_start], [loop_start]
    question.within = names["late"] - names["loop"] + rng.randrange(10, 60)


def add_marks(question: Question, rng: random.Random, wiring: KeyWiring, marks: list[Mark]) -> None:
    """Adds some of `marks`, which the program waits for. Usually also adds a mark that the program does not wait for."""
    question.marks = [mark for mark in marks if rng.random() < 0.8]
    if rng.random() < 0.7 or not question.marks:
        mark = rng.choice(["up", "down"]), rng.randrange(wiring.rows), rng.randrange(len(wiring.columns))
        question.marks.insert(rng.randrange(len(question.marks) + 1), mark)


def limits_to_few_inputs(rng: random.Random, keys: list[Key]) -> InputLimits:
    """Returns limits that allow only a few combinations of key and TEST levels."""
    if len(keys) <= MAX_KEYS and rng.random() < 0.5:
        return InputLimits(rng.choice([None, None, None, 1, 2]))
    return InputLimits(rng.choice([None, None, None, 1, 2]), True, rng.sample(keys, rng.randrange(min(len(keys), MAX_KEYS) + 1)), rng.random() < 0.7)


def random_spaced_question(rng: random.Random) -> Question:
    """Returns a random question with few levels, without `wait`."""
    kind = rng.random()
    if kind < 0.7:
        question = pattern_question(rng, FewKeyWiring(rng))
    elif kind < 0.85:
        question = chord_question(rng, FewKeyWiring(rng))
        question.pause = rng.choice([7, 30, 100])
    else:
        question = seeded_question(rng.randrange(100000), MAX_STATES)
        question.pause = min(question.pause, 50)
    question.max_states = MAX_STATES
    question.limits = limits_to_few_inputs(rng, all_keys(power_on(question)))
    return question


def largest_failing_wait(question: Question) -> int:
    """Returns the largest `wait` up to MAX_WAIT with which a short search finds a failure. Returns 1 if there is none."""
    few_states_question = dataclasses.replace(question, max_states=FEW_STATES)
    low, high = 1, MAX_WAIT if search(few_states_question).verdict == "may fail" else 1
    while low < high:
        middle = (low + high + 1) // 2
        low, high = (middle, high) if search_by_steps(with_wait(few_states_question, middle)).verdict == "may fail" else (low, middle - 1)
    return low


def spaced_question(seed: int) -> Question:
    """Returns a random question with `wait`. For seven of eight seeds, it tries a few questions and returns the first whose answer depends on `wait`.
    Then `wait` is usually the largest value with which the property can fail, or one more. For one of eight seeds, the search may visit only a few
    states."""
    rng = random.Random(f"waits {seed}")
    for _attempt in range(1 if seed % 8 == 7 else MAX_ATTEMPTS):
        question = random_spaced_question(rng)
        largest_wait = largest_failing_wait(question)
        question = with_wait(question, min(max(largest_wait + rng.choice([0, 0, 1, 1, 1, rng.randrange(-3, 4)]), 2), MAX_WAIT))
        if 2 <= largest_wait < MAX_WAIT:
            break
    if seed % 8 == 3:
        question.max_states = rng.randrange(4, 30)
    return question


def smallest_failing_held(question: Question) -> int:
    """Returns the smallest `held`, from `wait` to MAX_HELD, with which a search finds a failure. Returns MAX_HELD + 1 if there is none."""
    def can_fail(held: int) -> bool:
        return search_by_steps(with_held(question, held)).verdict == "may fail"

    low, high = question.limits.wait, MAX_HELD
    if can_fail(low):
        return low
    if not can_fail(high):
        return high + 1
    while low + 1 < high:
        middle = (low + high) // 2
        low, high = (low, middle) if can_fail(middle) else (middle, high)
    return high


def levels_of_presses(rng: random.Random) -> list[int]:
    """Returns the levels that successive reads of a key return, for one or two presses: 0 while the key is up, and then 1 while it is down."""
    levels = [level for _press in range(rng.choice([1, 1, 2])) for level in rng.randrange(3) * [0] + rng.randrange(2, 5) * [1]]
    return levels + rng.randrange(2) * [0]


def random_held_question(rng: random.Random, levels: list[int]) -> Question:
    """Returns a random question with few levels. Usually it asks whether a key can have these levels, one after the other. In most questions, at most
    one key is down at a time, and TEST is usually constant then."""
    question = pattern_question(rng, FewKeyWiring(rng), levels) if rng.random() < 0.9 else random_spaced_question(rng)
    keys = all_keys(power_on(question))
    question.limits = InputLimits(1, True, keys[:MAX_KEYS], rng.random() < 0.2) if rng.random() < 0.75 else limits_to_few_inputs(rng, keys)
    return question


def question_at_smallest_held(rng: random.Random) -> tuple[Question, bool]:
    """Returns a random question with `wait` and `held`. Its `held` is near the smallest value with which a search by steps finds a failure. Also
    returns true if this smallest value is more than `wait`."""
    question = with_wait(random_held_question(rng, levels_of_presses(rng)), rng.randrange(2, MAX_WAIT // 3))
    if rng.random() < 0.75:
        # With such a pause, every step is shorter than `wait`, so the levels cannot change twice during a step.
        question.pause = min(question.pause, question.limits.wait - 1)
    question.max_states = MAX_STATES
    smallest = smallest_failing_held(question)
    question = with_held(question, min(max(smallest + rng.choice([-1, -1, -1, 0, 0, rng.randrange(-3, 4)]), 1), MAX_HELD))
    return question, question.limits.wait < smallest <= MAX_HELD


def question_at_largest_wait(rng: random.Random) -> tuple[Question, bool]:
    """Returns a random question with the largest `wait` with which a key can be released and pressed between two reads. Its `held` does not allow a
    key to be down all the time. Also returns true if there is such a `wait`."""
    question = with_held(random_held_question(rng, rng.choice([[1, 1], [0, 1, 1], [1, 1, 0]])), 2)
    largest_wait = largest_failing_wait(question)
    return with_held(with_wait(question, max(largest_wait, 2)), max(largest_wait, 2) + rng.randrange(2)), 2 <= largest_wait < MAX_WAIT


def question_without_presses(rng: random.Random) -> tuple[Question, bool]:
    """Returns a random question about levels that `held` does not limit: a key that is up, or TEST at 1. Also returns true, because `held_question`
    must accept each of these questions."""
    of_test = rng.random() < 0.5
    question = pattern_question(rng, FewKeyWiring(rng), rng.randrange(6, 10) * [int(of_test)], of_test)
    keys = [] if of_test else all_keys(power_on(question))[:MAX_KEYS]
    question.limits = InputLimits(1, True, keys, of_test, rng.randrange(MAX_WAIT // 2, MAX_WAIT))
    question.pause = question.limits.wait - 1
    return with_held(question, question.limits.wait + rng.randrange(5)), True


def held_question(seed: int) -> Question:
    """Returns a random question with `wait` and `held`. Tries some questions, and usually returns the first whose answer depends on `held`. For one
    of eight seeds, the search may visit only a few states. For one of 16 seeds, `wait` is MAX_WAIT, so that some properties hold without `held`."""
    rng, usual_maker = random.Random(f"held {seed}"), question_at_smallest_held
    make_question = (usual_maker, usual_maker, question_at_largest_wait, usual_maker, usual_maker, usual_maker, question_at_largest_wait, question_without_presses)[seed % 8]
    for _attempt in range(3 * MAX_ATTEMPTS):
        question, is_chosen = make_question(rng)
        if is_chosen:
            break
    question.max_states = rng.randrange(4, 30) if seed % 8 == 3 else MAX_STATES
    return with_wait(question, MAX_WAIT) if seed % 16 == 12 else question


def long_wait_question() -> tuple[Question, int]:
    """Returns a question about a program that reads TEST three times, thousands of cycles apart, and stores a number after it reads 1, 0 and 1. Also
    returns the number of cycles from the first read to the last one. The program can store the number only if `wait` is less than this."""
    board = ["[[rom]]", "chip = 0", 'port = "0000"']

    def delay(name: str, passes: int) -> list[str]:
        return [f" LDM {16 - passes}", " XCH R3", *(f"{name}{n}: ISZ R{n}, {name}0" for n in range(4))]

    program = ["loop: JCN 1, other", *delay("a", 2), " JCN 9, other", *delay("b", 2), " JCN 1, other", " LDM 1", " XCH R4", "other: LDM 0",
               *delay("c", 5), " JUN loop"]
    # An instruction with two words takes two cycles.
    cycles_of_delay = 1 + 1 + 2 * (16 * (16 * (16 * 2 + 2) + 2) + 2)
    return Question(board, program, [[("in", "register", 4, "whole", 1, 1)]], MAX_STATES), 2 * (2 + cycles_of_delay)
