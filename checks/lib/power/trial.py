"""A trial serves a session in the machine. Then the machine mounts images that a power cut can leave, one by one, and the trial evaluates them.

Then one of the images becomes the disk, and the session is opened there and continues. The power is cut again: while the file system recovers, while
the session is opened, and later.
"""

from __future__ import annotations

import collections
import contextlib
import dataclasses
import json
import pathlib
import random
import subprocess
import time
from collections.abc import Iterator
from typing import NamedTuple

from power.cases import (MAX_COMMAND_COUNT, CASES, FEW_COMMAND_COUNT, FILE_SYSTEMS, MORE_COMMAND_COUNT, NO_BARRIER, Case, FileSystem, Trial)
from power.disk import Disk, Event, PowerCheckError
from power.images import ImageBuilder, History, Image, Phase
from power.machine import Machine
from power.sessions import Sessions, has_version_1
from session_file import FILE_BYTES

MEBIBYTE = 1 << 20
# A shell line that starts another writer on the file system, so that the file system commits between the writes of the program.
START_OTHER_WRITER = "(cd /; n=/mnt/noise; while :; do echo noise >> $n/a; mv $n/a $n/b; sleep 0.3; mv $n/b $n/a; done) & busy=$!"
# Shell lines. START_PROGRAM starts the program with its serial line as input and output, and reports if the program ends unexpectedly.
# STOP_AND_UNMOUNT ends all processes that use the file system, and unmounts it. If this fails, it tries again a second later, because a process that
# has ended can keep the file system in use for a moment.
START_PROGRAM = "{{ {environment} mcs4 {arguments} <&3 >&3; status=$?; [ -e /tmp/end ] || echo ended with status $status >&3; }} &"
STOP_AND_UNMOUNT = "cd /; : > /tmp/end; kill $busy; killall mcs4; wait; rm /tmp/end; umount /mnt || { sleep 1; umount /mnt; }"
# The allowed results if the power is cut before the first answer of `new`, on a file system that shows only written data.
ALLOWED_BEFORE_NEW = ("absent", "size 0", "blank", 0)
# The maximum number of errors to report for each generation of a trial, and of images to store in total.
MAX_REPORTED, MAX_STORED = 2, 6

# What an image contains: the number of commands in its session, or a description if it contains no session.
Contents = int | str


class ExaminedImage(NamedTuple):
    """The result of examining an image. `has_version_1` is true if the session file has version 1."""
    image: Image
    contents: Contents
    has_version_1: bool


@dataclasses.dataclass
class Outcome:
    """The result of a trial: the number of images and of errors, and a description of the first error."""
    image_count: int = 0
    error_count: int = 0
    first_error: str = ""

    def add(self, other: Outcome) -> None:
        """Adds another result."""
        self.image_count += other.image_count
        self.error_count += other.error_count
        self.first_error = self.first_error or other.first_error


@dataclasses.dataclass
class Stage:
    """A stage of a trial, which serves a session until the power is cut: the arguments of the program, and the shell command directly before the
    program starts. `initial_commands` is the number of commands in the session at the start, and `last_command` the number of the last command to
    send. `is_durable` is true if the session was already durable at the start. `image_count` is the number of images to examine after the cut."""
    arguments: str
    before: str
    initial_commands: int
    last_command: int
    is_durable: bool
    image_count: int


class TrialRunner:
    """A machine with two disks, on which trials run. Images are written to `disk`. The machine copies the session files that it finds to
    `output_disk`."""

    def __init__(self, machine: Machine, sessions: Sessions, image_folder: pathlib.Path, show_command: str, seed: int) -> None:
        """Images with errors are stored in `image_folder`. `show_command` is the command line that examines a stored image again, without the name of
        the image."""
        self.machine, self.sessions, self.image_folder, self.show_command = machine, sessions, image_folder, show_command
        self.disk, self.output_disk = machine.disks["disk"], machine.disks["out"]
        self.rng = random.Random(seed)
        self.junk = random.Random(1).randbytes(MEBIBYTE)
        self.stored_count = 0

    def run(self, trial: Trial) -> Outcome:
        """Runs a trial, and returns its result."""
        file_system, case = FILE_SYSTEMS[trial.file_system], CASES[trial.case]
        self.create_file_system(file_system, trial, case)
        last_command = MAX_COMMAND_COUNT if case.gets_all_commands else case.initial_commands + (MORE_COMMAND_COUNT if case.is_durable else FEW_COMMAND_COUNT)
        stage = Stage(case.arguments, case.before, case.initial_commands, last_command, case.is_durable, trial.image_count)
        outcome = Outcome()
        for generation in range(trial.generation_count + 1):
            start_time = time.monotonic()
            history = self.record(file_system, trial, case, stage)
            builder = ImageBuilder(self.disk, history)
            images = history.choose_images(history.all_images(), stage.image_count)
            with self.examining():
                examined_images = [self.examine(builder, file_system, trial, case, image) for image in images]
            results = self.report_results(trial, generation, history, examined_images, builder, time.monotonic() - start_time)
            outcome.add(results)
            if results.error_count or generation == trial.generation_count:
                break
            next_image = self.choose_next_disk(trial, generation, examined_images)
            builder.write_permanently(next_image.image)
            stage = self.next_stage(case, next_image.contents, max(15, trial.image_count // 4))
        return outcome

    # --- serving a session

    @staticmethod
    def options(file_system: FileSystem, trial: Trial) -> str:
        """Returns the mount options besides noatime, separated by commas."""
        return ",".join(filter(None, [file_system.options, file_system.frequent_commit_options if trial.is_busy else ""]))

    def mount(self, file_system: FileSystem, trial: Trial) -> None:
        """Mounts the disk at /mnt in the machine."""
        options = ",".join(filter(None, ["noatime", self.options(file_system, trial)]))
        self.machine.run_successfully(f"blockdev --flushbufs /dev/vda; mount -t {file_system.type} -o {options} /dev/vda /mnt")

    def create_file_system(self, file_system: FileSystem, trial: Trial, case: Case) -> None:
        """Creates a new file system, whose free blocks contain bytes other than zeros, and runs the synced shell commands of the case on it."""
        size = file_system.size_mib * MEBIBYTE
        blank = Disk(size)
        for offset in range(0, size, MEBIBYTE):
            blank.bytes[offset:offset + MEBIBYTE] = self.junk
        command = [*file_system.make_command, blank.file]
        result = subprocess.run(command, stdout=subprocess.PIPE, stderr=subprocess.STDOUT, text=True, check=False)
        if result.returncode:
            raise PowerCheckError(f"{' '.join(command)}: {result.stdout}")
        self.disk.bytes[:size] = blank.bytes[:]
        blank.close()
        if case.setup:
            self.mount(file_system, trial)
            self.machine.run_successfully(f"cd /mnt; {case.setup}; cd /; umount /mnt")

    def record(self, file_system: FileSystem, trial: Trial, case: Case, stage: Stage) -> History:
        """Serves a session, and returns the events on the disk during that time. The disk is then restored to its previous state."""
        self.disk.undo_log = []
        self.disk.events = events = list[Event]()
        self.disk.is_late = True
        self.mount(file_system, trial)
        self.machine.run_successfully("cd /mnt; mkdir -p noise; busy=")
        if trial.is_busy:
            self.machine.run_successfully(START_OTHER_WRITER)
        if stage.before:
            self.machine.run_successfully(stage.before)
        environment = f"LD_PRELOAD=/omit.so SYNC_ERROR='{trial.injected_error}'" if trial.injected_error not in ("", NO_BARRIER) else ""
        self.machine.run_successfully(START_PROGRAM.format(environment=environment, arguments=stage.arguments))
        self.serve(events, stage)
        self.disk.events = None
        self.disk.is_late = False
        self.machine.run_successfully(STOP_AND_UNMOUNT)
        self.disk.undo_writes()
        snapshots = set() if case.name.startswith("carried") else self.sessions.snapshots
        return History(events, stage.initial_commands, stage.is_durable, snapshots, file_system.needs_atomic_blocks, self.rng)

    def serve(self, events: list[Event], stage: Stage) -> None:
        """Sends the commands of a session, one after another, and adds the events `sent` and `answered` to `events`."""
        number, command = stage.initial_commands, ""
        while True:
            answer = self.machine.receive(self.machine.program)
            if not f"{answer} ".startswith(f"{'ok' if command else 'session'} {number} "):
                raise PowerCheckError(f"in place of answer {number}: {answer}; the machine's last lines:\n{self.machine.last_lines()}")
            events.append(Event("answered", number))
            if number == stage.last_command:
                return
            command = self.sessions.commands[number]
            number += 1
            events.append(Event("sent", number))
            self.machine.program.send(command)

    # --- examining images

    def examine(self, builder: ImageBuilder, file_system: FileSystem, trial: Trial, case: Case, image: Image) -> ExaminedImage:
        """Writes an image to the disk, lets the machine examine it, and returns the result. Then undoes the writes."""
        builder.build(image)
        contents = self.contents_of_disk(file_system, self.options(file_system, trial), case.file)
        self.disk.undo_writes()
        return ExaminedImage(image, contents, isinstance(contents, int) and has_version_1(bytes(self.output_disk.bytes[:FILE_BYTES])))

    def contents_of_disk(self, file_system: FileSystem, options: str, file: str) -> Contents:
        """Returns what a machine finds on its disk after a cut: a number of commands, or a description."""
        self.machine.shell.send(f"{file_system.type} {file} {options}")
        answer = self.machine.receive(self.machine.shell)
        if answer != f"size {FILE_BYTES}":
            return answer
        return self.sessions.state_in_file(bytes(self.output_disk.bytes[:FILE_BYTES]))

    @contextlib.contextmanager
    def examining(self) -> Iterator[None]:
        """While this context is active, the machine examines disks (examine_images.c)."""
        self.machine.shell.send("examine_images")
        yield
        self.machine.shell.send("")
        end = self.machine.receive(self.machine.shell)
        if end != "done 0":
            raise PowerCheckError(f"the machine cannot examine disks: {end}; its last lines:\n{self.machine.last_lines()}")

    @staticmethod
    def verdict(trial: Trial, examined_image: ExaminedImage) -> str:
        """Returns `good` if an image has the required contents, a note if it has other contents that are allowed, or "" for an error."""
        file_system, case = FILE_SYSTEMS[trial.file_system], CASES[trial.case]
        image, contents = examined_image.image, examined_image.contents
        if contents == "not mounted" and image.is_torn:
            return "not mounted, with a torn block"
        if image.min_commands is None:
            is_good = contents in ALLOWED_BEFORE_NEW if case.arguments.startswith("new") and not file_system.shows_stale_data else contents != "not mounted"
            return f"before the first answer {contents}" if is_good else ""
        return "good" if isinstance(contents, int) and image.min_commands <= contents <= image.max_commands else ""

    def report_results(self, trial: Trial, generation: int, history: History, examined_images: list[ExaminedImage], builder: ImageBuilder,
                       seconds: float) -> Outcome:
        """Prints the results for the images of a history, and stores some of the images with errors. Returns the number of images, the number of
        errors, and the first error."""
        notes: collections.Counter[str] = collections.Counter()
        images_with_errors = []
        for examined_image in examined_images:
            verdict = self.verdict(trial, examined_image)
            if verdict:
                notes[verdict] += 1
            else:
                images_with_errors.append(examined_image)
        phases = collections.Counter(examined_image.image.phase for examined_image in examined_images)
        name = f"{trial.name}{f', opened again ({generation})' if generation else ''}"
        print(f"{name}: {history.count('sent')} commands, {history.count('write')} writes, {history.count('flush')} flushes; "
              f"{len(examined_images)} images ({', '.join(f'{number} {phase}' for phase, number in phases.items())}), {len(images_with_errors)} errors; "
              f"{seconds:.1f} s", flush=True)
        del notes["good"]
        if notes:
            print("    " + "; ".join(f"{number} {note}" for note, number in sorted(notes.items())), flush=True)
        messages = [self.error_message(examined_image, len(history.events)) for examined_image in images_with_errors[:MAX_REPORTED]]
        for message, examined_image in zip(messages, images_with_errors):
            if not trial.injected_error:
                print(f"ERROR in {name}: {message}", flush=True)
                if examined_image.contents == "not mounted":
                    print(f"    the machine's last lines:\n{self.machine.last_lines()}", flush=True)
                self.store_image(trial, generation, builder, examined_image.image)
        return Outcome(len(examined_images), len(images_with_errors), messages[0] if messages else "")

    @staticmethod
    def error_message(examined_image: ExaminedImage, event_count: int) -> str:
        """Returns the message about an image with an error. `event_count` is the number of all events in its history."""
        image = examined_image.image
        acknowledged = "nothing" if image.min_commands is None else f"command {image.min_commands}"
        contents = f"{examined_image.contents} commands" if isinstance(examined_image.contents, int) else examined_image.contents
        range_end = f" to {image.last_event}" if image.last_event > image.first_event else ""
        return (f"cut at {image.first_event}{range_end} of {event_count} ({image.phase}): {acknowledged} acknowledged{' in the end' * bool(range_end)}, "
                f"command {image.max_commands} sent, found: {contents}; {image.durable_count} writes durable, of {len(image.parts)} others {image.selection}")

    # --- stored images, and the next disk

    def store_image(self, trial: Trial, generation: int, builder: ImageBuilder, image: Image) -> None:
        """Stores an image in a file, with the expected result, and prints the command line that examines it again. Does nothing if MAX_STORED images
        are already stored."""
        file_system, case = FILE_SYSTEMS[trial.file_system], CASES[trial.case]
        if self.stored_count == MAX_STORED:
            return
        self.stored_count += 1
        self.image_folder.mkdir(parents=True, exist_ok=True)
        name = self.image_folder / f"{trial.file_system}-{trial.case}-{generation}-{image.first_event}.image"
        builder.undo_all()
        builder.build(image)
        name.write_bytes(self.disk.bytes[:file_system.size_mib * MEBIBYTE])
        self.disk.undo_writes()
        description = {"file_system": trial.file_system, "options": self.options(file_system, trial), "file": case.file, "least": image.min_commands,
                       "most": image.max_commands}
        name.with_suffix(".json").write_text(json.dumps(description))
        print(f"    examine it again: {self.show_command} --show {name}", flush=True)

    def examine_stored_image(self, name: pathlib.Path) -> bool:
        """Prints the contents of a stored image. Returns true if they are as required."""
        description = json.loads(name.with_suffix(".json").read_text())
        file_system, image = FILE_SYSTEMS[description["file_system"]], name.read_bytes()
        self.disk.bytes[:len(image)] = image
        with self.examining():
            contents = self.contents_of_disk(file_system, description["options"], description["file"])
        min_commands, max_commands = description["least"], description["most"]
        is_good = isinstance(contents, int) and (min_commands or 0) <= contents <= max_commands
        print(f"{name}: {description['file']} on {file_system.name}: {min_commands} commands acknowledged, {max_commands} sent, found: {contents}")
        return is_good

    def choose_next_disk(self, trial: Trial, generation: int, examined_images: list[ExaminedImage]) -> ExaminedImage:
        """Returns the image that becomes the disk of the next generation. Alternates between an image of a cut while a snapshot was written
        and one of a cut while the session was opened, if there are any. For a session of version 1, prefers one that still has version 1.
        For the first generation of a new session, prefers a blank file."""
        case = CASES[trial.case]
        is_carried = case.name.startswith("carried")
        preferred_phase: Phase = "opening" if is_carried or generation % 2 else "snapshot"
        valid = [candidate for candidate in examined_images if self.verdict(trial, candidate) == "good"]
        if case.arguments.startswith("new") and generation == 0:
            valid = [candidate for candidate in examined_images if candidate.contents == "blank"] or valid
        if not valid:
            raise PowerCheckError(f"{trial.name}: no image holds a session")

        def rank(candidate: ExaminedImage) -> tuple[bool, bool, bool]:
            return candidate.has_version_1, candidate.image.phase == preferred_phase, candidate.image.selection == "some"

        best = max(map(rank, valid))
        return self.rng.choice([candidate for candidate in valid if rank(candidate) == best])

    @staticmethod
    def next_stage(case: Case, contents: Contents, image_count: int) -> Stage:
        """Returns the stage of the next generation. It continues the session, or creates one if the file is blank."""
        if not isinstance(contents, int):
            return Stage(case.arguments, "", 0, MORE_COMMAND_COUNT, False, image_count)
        return Stage(f"open {case.file}", "", contents, contents + MORE_COMMAND_COUNT, True, image_count)
