"""Programs for the checks: those of the examples, and random ones, with and without errors.

As a command, `seeded_programs.py FOLDER ACCEPTED REJECTED` writes random programs into a folder, as `NUMBER.asm`. ACCEPTED of them are accepted by
the second assembler (assembler.py), and REJECTED of them are rejected, in random order.
"""

import itertools
import pathlib
import random
import sys

from assembler import map_of

TOP = pathlib.Path(__file__).resolve().parent.parent.parent


def example_programs():
    """Yields the programs of the examples, each as a file name and its lines: files, and the texts after `asm` in scripts."""
    for path in sorted(TOP.glob("examples/**/*.asm")):
        yield path.name, path.read_text().splitlines()
    for path in sorted(TOP.glob("examples/**/*.txt")):
        lines = path.read_text().splitlines()
        for start in [i + 1 for i, line in enumerate(lines) if line.strip() == "asm"]:
            yield path.name, lines[start:lines.index(".", start)]


def random_program(number):
    """Returns the lines of a random program, with `number` as the seed. Most programs have no error, and some have one or more."""
    rng = random.Random(number)
    names = [f"n{i}" for i in range(8)]
    # The names that no line has defined so far. The remaining names are defined at the end, so that most programs are accepted.
    undefined_names = list(names)
    rng.shuffle(undefined_names)

    def random_value(maximum):
        return rng.choice([str(rng.randrange(maximum + 1)), f"0x{rng.randrange(maximum + 1):x}"])

    def random_target():
        return rng.choice([*names, random_value(300)]) if rng.random() < 0.7 else random_value(300)

    def random_line():
        statement = rng.choice(["NOP", "wrr", "ADD R3", "Src p1", "", f"LDM {random_value(15)}", f"FIM P2, {random_value(255)}", f"JUN {random_target()}",
                              f"JMS {random_target()}", f"ISZ r4, {random_value(255)}", f"JCN 4, {random_value(255)}",
                              "DB " + ", ".join(random_value(255) for _ in range(rng.randrange(1, 9)))])
        if rng.random() < 0.02:
            statement = rng.choice(["ORG 4096", "LDM 16", "DB 256", "DB", "NOP NOP", "ORG 4095", "JUN nowhere", "ORG 0", "n0 = 4096", "R1: NOP"])
        if rng.random() < 0.06:
            statement = f"ORG {rng.randrange(0, 4000)}"
        if undefined_names and rng.random() < 0.15:
            name = undefined_names.pop()
            statement = f"{name}: {statement}" if rng.random() < 0.8 else f"{name} = {random_value(4095)}"
        return rng.choice(["", " ", "\t"]) + statement + rng.choice(["", "", " ; a comment", "\t;"])

    lines = [random_line() for _ in range(rng.randrange(1, 60))]
    return lines + [f"{name}:" for name in undefined_names if rng.random() < 0.98]


# Lines with each kind of error. Some are always invalid, and others only in most programs.
INVALID_LINES = ("FOO", "LDM", "NOP NOP", "1: NOP", "DB 1,, 2", "ORG 4096", "n9 = 5000", "n0: NOP", "n1 = 7", "P1 = 3", "ORG 4095", "JUN n20", "LDM 16",
         "DB 256", "FIM P0, 300", "ISZ R1, 0xF00", "JCN 4, 2000", "BBL n21")


def program_with_errors(number):
    """Returns the lines of a random program with invalid lines, with `number` as the seed. In half of the programs, only the assembler's second pass
    finds the errors of these lines."""
    rng = random.Random(number)
    lines = random_program(number)
    invalid_lines = INVALID_LINES if rng.random() < 0.5 else INVALID_LINES[11:]
    count = rng.choice([1, 2, 3, 5, 150])
    for _n in range(count):
        line = rng.choice(invalid_lines)
        lines.insert(rng.randrange(len(lines) + 1), line if rng.random() < 0.9 else f"m{rng.randrange(4)}: {line}")
    return lines


def main():
    folder, missing_counts = pathlib.Path(sys.argv[1]), {True: int(sys.argv[2]), False: int(sys.argv[3])}
    number = 0
    for seed in itertools.count():
        if max(missing_counts.values()) == 0:
            break
        lines = random_program(seed)
        is_accepted = not map_of(lines)[0].startswith("no ")
        if missing_counts[is_accepted] > 0:
            missing_counts[is_accepted] -= 1
            (folder / f"{number}.asm").write_text("".join(f"{line}\n" for line in lines))
            number += 1


if __name__ == "__main__":
    main()
