"""The expected output of the tools `trace`, `wave`, `cover`, `profile` and `cycles` for a session. It is computed with the board of board4004.py, as
docs/MANUAL.md ("The workbench", "Testing a program") and the header comments of the tools describe it. The functions do not change the board that
they get.
"""

from __future__ import annotations

from collections import Counter

from assembler import ADDRESS_COUNT, assemble
from bench4004 import BRANCHES, count_instructions, instruction_text
from board4004 import CODES, TWO_CYCLES, Board, Line

# The changes in a recording: for each time at which lines change, their new levels by the names of the lines.
Changes = dict[int, dict[str, str]]


class Source:
    """A program's text, with its labels and the addresses of its lines."""

    def __init__(self, lines: list[str]) -> None:
        """Assembles a program with the second assembler. If an address has two labels, the first one is used."""
        self.lines = lines
        _image, self.spans, names = assemble(lines)
        self.labels: dict[int, str] = {}
        self.label_lines: dict[str, int] = {}
        for number, line in enumerate(lines):
            name = line.split(":")[0].strip() if ":" in line.split(";")[0] else ""
            if name:
                self.labels.setdefault(names[name], name)
                self.label_lines[name] = number
        self.line_of = {address + i: number for number, (address, size) in enumerate(self.spans) for i in range(size)}

    def label_below(self, address: int) -> tuple[int, str]:
        """Finds the label at an address, or the nearest one below it. Returns its address and its name, or -1 and "" if there is none."""
        return max((pair for pair in self.labels.items() if pair[0] <= address), default=(-1, ""))

    def is_data(self, number: int) -> bool:
        """Returns true if the bytes of a source line are data."""
        return self.code(number).split(":")[-1].split()[:1] == ["DB"]

    def code(self, number: int) -> str:
        """Returns a source line without its comment."""
        return self.lines[number].split(";")[0].rstrip()

    def starts_at(self, address: int) -> bool:
        """Returns true if an instruction of the source begins at an address."""
        return address in self.line_of and self.spans[self.line_of[address]][0] == address and not self.is_data(self.line_of[address])

    def description_of(self, address: int) -> str:
        """Describes an address by its label and its source line."""
        if address not in self.line_of:
            return f"{address:03X}, which the source does not fill"
        label_address, label = self.label_below(address)
        # The label is not used if the source has a gap between the label's address and this address.
        if any(skipped not in self.line_of for skipped in range(label_address, address)):
            label = ""
        label_text = f" ({label}{f' + {address - label_address}' if address > label_address else ''})" if label else ""
        return f"{address:03X}{label_text}, line {self.line_of[address] + 1}: {' '.join(self.code(self.line_of[address]).split())}"


# ---- trace

def changes_between(previous: Board, after: Board) -> list[str]:
    """Returns the changes that an instruction has made, in the order of the manual's list."""
    old_chips, new_chips = previous.chips, after.chips
    changes = [f"r{k} {after.r[k]:X}" for k in range(16) if previous.r[k] != after.r[k]]
    if previous.dcl != after.dcl:
        changes.append(f"dcl {after.dcl}")
    if previous.ret != after.ret:
        changes.append("ret " + " ".join(f"{address:03X}" for address in after.ret))
    for bank in range(8):
        if (old_chips.ram[bank], old_chips.status[bank]) == (new_chips.ram[bank], new_chips.status[bank]):
            continue
        changes += [f"ram.{bank}.0x{src:02X} {new_chips.ram[bank][src]:X}" for src in range(256) if old_chips.ram[bank][src] != new_chips.ram[bank][src]]
        changes += [f"st.{bank}.{high}.{k} {new_chips.status[bank][high][k]:X}" for high in range(16) for k in range(4)
                 if old_chips.status[bank][high][k] != new_chips.status[bank][high][k]]
    changes += [f"out {bank}.{chip} {latch:X}" for (bank, chip), latch in new_chips.ram_latch.items() if old_chips.ram_latch[bank, chip] != latch]
    changes += [f"rom{chip} out {latch:X}" for chip, latch in new_chips.rom_latch.items() if old_chips.rom_latch[chip] != latch]
    changes += [f"chain{n} " + "".join(str(bit) for bit in chain) for n, chain in enumerate(new_chips.chains) if old_chips.chains[n] != chain]
    return changes + ([f"lamps {new_chips.lamp_marks()}"] if old_chips.lamp_marks() != new_chips.lamp_marks() else [])


def trace_row(board: Board, cycle: int, details: str, source: Source | None, with_lines: bool) -> str:
    """Returns the row of an instruction in the trace. If the instruction has a label, the label is on the line above. A jump shows the label of its
    target. With `with_lines`, the row shows the source line instead of the disassembled instruction."""
    address, text = board.pc, "(the second cycle)" if board.owed else instruction_text(board, board.pc)
    if source is None or board.owed:
        return f"{cycle:8}  {text:<{42 if with_lines else 25}}  {details}".rstrip()
    if CODES.get(board.rom[address], ("", 0))[0] in ("JUN", "JMS", "JCN", "ISZ") and int(text[-3:], 16) in source.labels:
        text = text[:-5] + source.labels[int(text[-3:], 16)]
    is_labelled = False
    if with_lines and address in source.line_of:
        line = source.line_of[address]
        is_labelled = source.starts_at(address) and source.label_lines.get(source.labels.get(address, "")) == line
        text = f"{text[:9]}{line + 1:5}  {source.code(line) if source.starts_at(address) else text[10:]}"
    row = f"{cycle:8}  {text:<{42 if with_lines else 25}}  {details}".rstrip()
    return f"          {source.labels[address]}:\n{row}" if address in source.labels and not is_labelled else row


def trace_output(start: Board, cycles: int, last_count: int = 0, source: Source | None = None, with_lines: bool = False) -> str:
    """Returns the output of `mcs4 trace` for the next cycles. With `last_count`, stops as a run does, and returns only the last `last_count` rows."""
    board, reason, cycle, rows = start.copy(), "end", 0, []
    if last_count:
        cycles, reason = start.copy().run(cycles)
    while cycle < cycles:
        if not board.owed and board.is_at_invalid_code():
            reason = "code"
            break
        previous = board.copy()
        duration = board.step()[0]
        changes = "".join(f" {change}" for change in changes_between(previous, board))
        rows.append(trace_row(previous, cycle, f"acc {board.acc:X} cy {board.cy} {changes}", source, with_lines))
        cycle += duration
    rows = rows[-last_count:] if last_count else rows
    if reason != "end":
        rows.append(trace_row(board, cycle, "stops before it: " + ("no instruction" if reason == "code" else reason), source, with_lines))
    return "".join(f"{row}\n" for row in rows)


# ---- wave

def levels(board: Board, source: Source) -> dict[str, str]:
    """Returns the levels of everything that `mcs4 wave` can record, by name, in the order of `mcs4 wave --lines`: I/O lines, keys, TEST, the program
    counter and its label."""
    chips = board.chips
    lines: dict[str, Line] = {f"rom{chip}.{k}": ("rom", (chip, k)) for chip in chips.rom_latch for k in range(4)}
    lines |= {f"ram{bank}.{chip}.{k}": ("ram", (bank, chip, k)) for bank, chip in chips.ram_latch for k in range(4)}
    lines |= {f"chain{n}.{bit}": ("chain", (n, bit)) for n, chain in enumerate(chips.chains) for bit in range(len(chain))}
    lines |= {f"lamp{i}": line for i, line in enumerate(chips.lamps)}
    keys = [(row, column) for row in range(chips.keys["rows"]) for column in range(len(chips.columns))]
    return {name: str(chips.level(line)) for name, line in lines.items()} | {
        **{f"key{row}.{column}": str(int((row, column) in chips.pressed_keys)) for row, column in keys},
        "test": str(board.test), "pc": f"{board.pc:012b}", "label": source.label_below(board.pc)[1] or "-"}


def wave_output(start: Board, cycles: int, names: list[str], source: Source) -> tuple[Changes, int]:
    """Returns the expected result of `mcs4 wave`: the changes of the named lines by cycle, starting with their levels in cycle 0, and the last
    cycle. The program counter and its label change when an instruction is complete."""
    board = start.copy()
    current_levels = levels(board, source)
    changes, cycle = {0: {name: current_levels[name] for name in names}}, 0
    while cycle < cycles and (board.owed or not board.is_at_invalid_code()):
        board.cycle()
        cycle += 1
        previous, current_levels = current_levels, levels(board, source)
        if board.owed:
            current_levels |= {name: previous[name] for name in ("pc", "label")}
        if any(current_levels[name] != previous[name] for name in names):
            changes[cycle] = {name: current_levels[name] for name in names if previous[name] != current_levels[name]}
    return changes, cycle


def read_vcd(text: str) -> tuple[list[str], Changes, int]:
    """Parses a VCD file. Returns the names of its lines, their changes, and its end in cycles. A time that is not a whole number of cycles becomes
    -1."""
    names: dict[str, str] = {}
    changes: Changes = {}
    cycle = 0
    for line in text.splitlines():
        words = line.split()
        if words[0] == "$var":
            names[words[3]] = words[4]
        elif line.startswith("#"):
            cycle, remainder = divmod(int(line[1:]), 108)
            cycle = cycle if remainder == 0 else -1
        elif line[0] in "01":
            changes.setdefault(cycle, {})[names[line[1:]]] = line[0]
        elif line[0] in "bs" and len(words) == 2:
            changes.setdefault(cycle, {})[names[words[1]]] = words[0][1:]
    return list(names.values()), changes, cycle


# ---- cover and profile

def percentage_of(count: int, total: int) -> str:
    """Returns `count` as a percentage of `total` in parentheses, or "" if `total` is 0."""
    return f" ({100 * count / total:.1f} %)" if total else ""


def line_ranges(lines: list[int], chosen_lines: list[int]) -> str:
    """Returns text that lists the chosen lines by number, where index 0 is line 1. Chosen lines that are neighbours in `lines` form a range."""
    spans: list[list[int]] = []
    previous = None
    for line in lines:
        if line in chosen_lines and previous in chosen_lines:
            spans[-1][1] = line
        elif line in chosen_lines:
            spans.append([line, line])
        previous = line
    return ", ".join(f"{start + 1}" if start == end else f"{start + 1} to {end + 1}" for start, end in spans)


def cover_output(start: Board, cycles: int, source: Source) -> str:
    """Returns the output of `mcs4 cover`: how often each line ran, how often it jumped, the totals, and the lines that never ran or always went one
    way."""
    runs, jumps, _done, _stop = count_instructions(without_stops(start), cycles)
    lines = [i for i, (address, size) in enumerate(source.spans) if size and (not source.is_data(i) or runs[address])]
    directions = {i: (jumps[address], runs[address] - jumps[address]) for i, (address, size) in enumerate(source.spans)
            if i in lines and size == 2 and CODES[start.rom[address]][0] in BRANCHES}
    rows = []
    for i, text in enumerate(source.lines):
        runs_text = runs[source.spans[i][0]] or "never" if i in lines else ""
        taken_text = "{}/{}".format(*directions[i]) if i in directions else ""
        rows.append(f"{runs_text:>10} {taken_text:<13}  {text}".rstrip())
    lines_never_run = [i for i in lines if not runs[source.spans[i][0]]]
    taken_count = sum(1 for counts in directions.values() for taken_text in counts if taken_text)
    rows += ["", f"{len(lines) - len(lines_never_run)} of {len(lines)} instructions were run{percentage_of(len(lines) - len(lines_never_run), len(lines))}, "
             f"{taken_count} of {2 * len(directions)} branch directions{percentage_of(taken_count, 2 * len(directions))}"]
    one_way_texts = [f"{i + 1} ({'always' if taken else 'never'} taken)" for i, (taken, not_taken) in directions.items() if (taken == 0) != (not_taken == 0)]
    if lines_never_run:
        rows.append(f"never run: line{'s' if len(lines_never_run) > 1 else ''} {line_ranges(lines, lines_never_run)}")
    if one_way_texts:
        rows.append(f"only one way: line{'s' if len(one_way_texts) > 1 else ''} {', '.join(one_way_texts)}")
    return "".join(f"{row}\n" for row in rows)


def without_stops(start: Board) -> Board:
    """Returns a copy of a board without breakpoints and watches."""
    board = start.copy()
    board.breaks, board.watches = set(), set()
    return board


class Calls:
    """The open subroutine calls, and for each subroutine the number of its calls and the cycles of each completed call."""

    def __init__(self) -> None:
        self.open: list[tuple[int, int]] = []
        self.counts: dict[int, int] = {}
        self.durations: dict[int, list[int]] = {}

    def enter_subroutine(self, target: int, time: int) -> None:
        """Enters a subroutine at a JMS. A fourth nested JMS loses the first return address."""
        self.open = [*self.open[-2:], (target, time)]
        self.counts[target] = self.counts.get(target, 0) + 1

    def leave_subroutine(self, time: int) -> None:
        """Leaves a subroutine at a BBL, or at the end of the run. If calls of the same subroutine are nested, only the outermost counts."""
        target, start = self.open.pop()
        if all(open_target != target for open_target, _start in self.open):
            self.durations.setdefault(target, []).append(time - start)


def profile_output(start: Board, cycles: int, source: Source) -> str:
    """Returns the output of `mcs4 profile`: the cycles below each label, and the calls of each subroutine with their cycles."""
    own_cycles: Counter[tuple[int, str]] = Counter()
    calls = Calls()
    starts: list[tuple[int, int]] = []
    total = without_stops(start).run(cycles, lambda start_cycle, address: starts.append((start_cycle, address)))[0]
    for start_cycle, address in starts:
        name, low = CODES[start.rom[address]]
        end = min(start_cycle + 1 + (name in TWO_CYCLES), total)
        own_cycles[source.label_below(address)] += end - start_cycle
        if name == "JMS":
            calls.enter_subroutine(256 * low + start.rom[(address + 1) % ADDRESS_COUNT], end)
        elif name == "BBL" and calls.open:
            calls.leave_subroutine(end)
    while calls.open:
        calls.leave_subroutine(total)
    rows = [f"{total} cycles, {total * 0.0108:.1f} ms", "", "label             at          own  own %     calls with calls    longest"]
    for (address, label), label_cycles in sorted(own_cycles.items(), key=lambda item: (-item[1], item[0][0])):
        row = f"{label or '(no label)':<17} {f'{address:03X}' if label else '':<4} {label_cycles:10} {100 * label_cycles / total:6.1f}"
        if calls.counts.get(address):
            durations = calls.durations.get(address, [0])
            row += f" {calls.counts[address]:9} {sum(durations):10} {max(durations):10}"
        rows.append(row)
    if start.owed and total:
        rows.append(f"{'(begun earlier)':<22} {1:10} {100 / total:6.1f}")
    return "".join(f"{row}\n" for row in rows)


# ---- cycles

def duration_text(cycles: int) -> str:
    """Returns a number of cycles, and the time that a 4004 needs for them, as text."""
    tenths = 108 * cycles
    return f"{cycles} cycle{'' if cycles == 1 else 's'}, {tenths // 10}.{tenths % 10} microseconds"


def cycles_output(runs: list[tuple[int, int]], source: Source | None) -> str:
    """Returns the output of `mcs4 cycles` for runs. Each run is a number of cycles and the program counter at its end."""
    rows = [f"{duration_text(cycles)}, to {source.description_of(address)}" for cycles, address in runs] if source else []
    return "".join(f"{row}\n" for row in [*rows, duration_text(sum(cycles for cycles, _at in runs))])
