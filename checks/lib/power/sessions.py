"""The sessions that checks/power serves: their commands, and the state after each command. Also finds how many commands a session file contains."""

from __future__ import annotations

import hashlib
import os
import pathlib
import subprocess

from power.cases import VERSION_1_FILE, VERSION_1_COMMAND_COUNT, SERVED_FILE, SERVED_COMMAND_COUNT
from power.disk import PowerCheckError
from session_file import LENGTH_BYTES, SLOTS, read

ROM_COUNT = 16
BOARD = "wire\n" + "".join(f'[[rom]]\nchip = {chip}\nport = "0000"\n' for chip in range(ROM_COUNT)) + "[[ram]]\nbank = 0\nchips = 4\n."
# A program that counts in all nibbles of bank 0, so each run leaves a different state.
PROGRAM = """asm
again:  FIM P0, 0x00
next:   SRC P0
        RDM
        IAC
        WRM
        ISZ R1, next
        INC R0
        ISZ R4, next
        JUN again
."""
# Queries about everything on a board: registers and chips, RAM, ROM.
QUERIES = "state\nram 0\n" + "".join(f"list {256 * chip} 256\n" for chip in range(ROM_COUNT))
# The number of short commands at the beginning, whose cycles fill the log. The later commands have long texts, so that their bytes fill the log.
SHORT_COMMAND_COUNT = 48
# The number of lines in a long text, and the number of bytes in each of them.
LONG_TEXT_LINES, BYTES_PER_LINE = 37, 100
# The offset of the version in a state, and version 2. A state of version 1 has something else at this offset.
VERSION_OFFSET, VERSION_2 = 4, 2


def commands(count: int) -> list[str]:
    """Returns `count` commands as text. A snapshot is written at the 49th command, when cycles have filled the log. Later snapshots are written at
    every 20th command, when bytes have filled the log. Three in four of these later commands have a record of 4,213 bytes, which takes two blocks."""
    all_commands = [BOARD, PROGRAM]
    for number in range(len(all_commands), count):
        if number >= SHORT_COMMAND_COUNT and number % 4:
            line = "DB " + ",".join([str(number % 10)] * BYTES_PER_LINE) + "\n"
            all_commands.append("asm\nORG 0x100\n" + line * LONG_TEXT_LINES + ".")
        elif number % 8 == 7:
            all_commands.append(f"poke ram.0.{number % 256} {number % 16}")
        else:
            all_commands.append("run 100000")
    return all_commands[:count]


def as_version_1(data: bytes) -> bytes:
    """Converts a session file of version 2, whose snapshot has no watches, to version 1. The snapshot then lacks the version byte and the number of
    watches."""
    slot = SLOTS[data[8] % 2]
    start = slot + LENGTH_BYTES
    length = int.from_bytes(data[slot:start], "big")
    state = data[start:start + length]
    assert state[VERSION_OFFSET] == VERSION_2 and state[-1] == 0
    version_1_state = state[:VERSION_OFFSET] + state[VERSION_OFFSET + 1:-1]
    return data[:slot] + len(version_1_state).to_bytes(LENGTH_BYTES, "big") + version_1_state + bytes(2) + data[start + length:]


def has_version_1(data: bytes) -> bool:
    """Returns true if a file contains a session of version 1."""
    parsed = read(data)
    return parsed is not None and parsed[0][VERSION_OFFSET] != VERSION_2


def digest(answers: bytes) -> str:
    """Returns a short hash of a state, from the answers to QUERIES."""
    return hashlib.sha256(answers).hexdigest()


class Sessions:
    """The state of a session after no command, after the first command, and so on, as the program reports it. Session files are compared with these
    states."""

    def __init__(self, program: str, folder: pathlib.Path, count: int) -> None:
        self.program, self.folder = program, folder
        self.commands = commands(count)
        self.states: list[str] = []
        self.snapshots: set[int] = set()
        self.known_contents: dict[bytes, int | str] = {}
        self.serve_all()

    def run(self, arguments: list[str], text: str) -> tuple[str, bytes]:
        """Runs the program with this input until it ends. Returns the first line of its output, and the other lines."""
        result = subprocess.run([self.program, *arguments], input=text.encode(), stdout=subprocess.PIPE, stderr=subprocess.DEVNULL, check=False)
        first_answer, _, other_answers = result.stdout.partition(b"\n")
        return first_answer.decode(errors="replace"), other_answers

    def serve_all(self) -> None:
        """Records the state after each command, and the commands at which a snapshot is written. Creates the sessions that are copied into the
        machine."""
        file = self.folder / "model.mcs"
        slot = 0
        with subprocess.Popen([self.program, "new", str(file)], stdin=subprocess.PIPE, stdout=subprocess.PIPE) as process:
            for number in range(len(self.commands) + 1):
                first_word, state = self.state_after(process, number)
                if first_word != ("ok" if number else "session"):
                    raise PowerCheckError(f"the program does not serve command {number}: {first_word}")
                self.states.append(state)
                data = file.read_bytes()
                if data[8] != slot:
                    self.snapshots.add(number)
                slot = data[8]
                if number == SERVED_COMMAND_COUNT:
                    (self.folder / SERVED_FILE).write_bytes(data)
                if number == VERSION_1_COMMAND_COUNT:
                    (self.folder / VERSION_1_FILE).write_bytes(as_version_1(data))
        file.unlink()
        if len(set(self.states)) != len(self.states):
            raise PowerCheckError("two commands leave the same state")

    def state_after(self, process: subprocess.Popen[bytes], number: int) -> tuple[str, str]:
        """Sends the command with this number (or no command if it is 0) and QUERIES to a running program. Returns the first word of the first answer,
        and a hash of the state."""
        assert process.stdin is not None and process.stdout is not None
        text = (self.commands[number - 1] + "\n" if number else "") + QUERIES + "seq\n"
        process.stdin.write(text.encode())
        process.stdin.flush()
        answers, end = b"", f"\nseq {number}\n".encode()
        while not answers.endswith(end) and (output := os.read(process.stdout.fileno(), 1 << 16)):
            answers += output
        first_answer, _, state = answers.removesuffix(end[1:]).partition(b"\n")
        return first_answer.decode().split(" ")[0], digest(state)

    def state_in_file(self, data: bytes) -> int | str:
        """Returns the number of commands in a session file if the file has the state after these commands. Otherwise returns a description, as
        `open_file` does."""
        content_id = hashlib.sha256(data).digest()
        if content_id not in self.known_contents:
            self.known_contents[content_id] = self.open_file(data)
        return self.known_contents[content_id]

    def open_file(self, data: bytes) -> int | str:
        """Opens a session file with the program, and checks its state. Returns its number of commands, `blank` if `new` can begin a session in the
        file, or a message about the error."""
        file = self.folder / "found.mcs"
        file.write_bytes(data)
        first_answer, state = self.run(["open", str(file)], QUERIES)
        if first_answer.startswith("session "):
            count = int(first_answer.split()[1])
            return count if count < len(self.states) and digest(state) == self.states[count] else f"session {count} of another state"
        second_answer, _ = self.run(["new", str(file)], "")
        return "blank" if second_answer == "session 0" else f"no session, and none is begun ({first_answer}, {second_answer})"
