"""The images that a power cut can leave on a disk, computed from the list of events on it.

A write is durable once the disk has answered a flush that arrived after the answer to the write. All other writes are pending. An image has none of
the pending writes (`none`), all of them (`all`), or all, none or random sectors of each one (`some`).

The list of events also contains the program's acknowledgements. So for a cut after any event, the allowed numbers of commands are known. At least the
acknowledged commands must be found, and at most one more, which was sent after them.
"""

from __future__ import annotations

import dataclasses
import hashlib
import random
from typing import Literal

from power.disk import Disk, Event

SECTOR, BLOCK = 512, 4096
# After each write and each flush, IMAGES_PER_WRITE random images are drawn for each pending write, for at most MAX_PENDING pending writes.
IMAGES_PER_WRITE, MAX_PENDING = 12, 4
# The phase "beginning" of a session starts with its first answer, and has this number of events.
BEGINNING_EVENTS = 20

# The phase of a cut: before the program's first answer, soon after it, while a snapshot is written, or at any other time.
Phase = Literal["opening", "beginning", "snapshot", "serving"]
PHASES: tuple[Phase, ...] = ("opening", "beginning", "snapshot", "serving")
# The part of a pending write that an image contains: None if it contains the complete write. Otherwise the size of its units (sectors or blocks) in
# bytes, and a number with a bit for each unit that is new.
Part = tuple[int, int] | None


@dataclasses.dataclass
class Image:
    """Possible contents of the disk after a power cut. A cut after any event from number `first_event` to number `last_event` can leave this image.
    The session then must contain at least `min_commands` and at most `max_commands` commands. `min_commands` is None
    before the first answer if no session existed at the beginning. `durable_count` is the number of durable writes, and `parts` has the parts of the
    pending writes that are on the disk. `selection` names how the parts were selected: none, all or some."""
    first_event: int
    last_event: int
    phase: Phase
    selection: str
    durable_count: int
    parts: dict[int, Part]
    min_commands: int | None
    max_commands: int

    @property
    def is_torn(self) -> bool:
        """True if a block of the file system can be half old and half new in this image. A file system need not tolerate such a block."""
        return any(part is not None and part[0] < BLOCK for part in self.parts.values())

    def add_cut(self, event_number: int, min_commands: int | None, max_commands: int) -> None:
        """Adds another cut, after a later event, that leaves the same image. Keeps only the numbers of commands that each of the cuts allows."""
        self.last_event = event_number
        if min_commands is not None:
            self.min_commands = min_commands if self.min_commands is None else max(self.min_commands, min_commands)
        self.max_commands = min(self.max_commands, max_commands)


class History:
    """The events on a disk while a session was served on it."""

    def __init__(self, events: list[Event], initial_commands: int, is_durable: bool, snapshots: set[int], needs_atomic_blocks: bool,
                 rng: random.Random) -> None:
        """`initial_commands` is the number of commands in the session at the beginning. `is_durable` is true if the session was durable then.
        `snapshots` has the numbers of the commands at which a snapshot is written. If `needs_atomic_blocks` is true, no block of 4,096 bytes is half
        written."""
        self.events, self.initial_commands, self.snapshots, self.rng = events, initial_commands, snapshots, rng
        self.initially_acknowledged = initial_commands if is_durable else None
        self.needs_atomic_blocks = needs_atomic_blocks
        durable_at = self.durable_at()
        never = len(events) + 1
        self.writes = {event.number: event for event in events if event.kind == "write"}
        # The numbers of the writes, sorted by when the write became durable. In each image, the durable writes are therefore the first in this list.
        self.writes_by_durability = sorted(self.writes, key=lambda number: (durable_at.get(number, never), number))
        self.durability_events = [durable_at.get(number, never) for number in self.writes_by_durability]
        self.rank = {number: rank for rank, number in enumerate(self.writes_by_durability)}

    def count(self, kind: str) -> int:
        """Returns the number of events of a kind."""
        return sum(event.kind == kind for event in self.events)

    def durable_at(self) -> dict[int, int]:
        """Returns the number of the event that makes each write durable, by the number of the write. This event is the answer to a flush that arrived
        after the write was answered. Writes that never become durable are omitted."""
        durable_events: dict[int, int] = {}
        answered_writes: list[int] = []
        covered_writes: dict[int, list[int]] = {}
        for event_number, event in enumerate(self.events, 1):
            if event.kind == "wrote":
                answered_writes.append(event.number)
            elif event.kind == "flush":
                covered_writes[event.number] = answered_writes
                answered_writes = []
            elif event.kind == "flushed":
                durable_events.update(dict.fromkeys(covered_writes.pop(event.number), event_number))
        return durable_events

    def all_images(self) -> list[Image]:
        """Returns the images that cuts after each event can leave, each image once, in chronological order. For partly written data, only random
        samples are included."""
        images: dict[bytes, Image] = {}
        answered, sent, first_answer = self.initially_acknowledged, self.initial_commands, 0
        durable_count, pending = 0, list[int]()
        for event_number, event in enumerate(self.events, 1):
            if event.kind == "answered":
                answered, first_answer = event.number, first_answer or event_number
            elif event.kind == "sent":
                sent = event.number
            elif event.kind == "write":
                pending.append(event.number)
            elif event.kind == "flushed":
                while durable_count < len(self.writes_by_durability) and self.durability_events[durable_count] <= event_number:
                    pending.remove(self.writes_by_durability[durable_count])
                    durable_count += 1
            phase = self.phase(event_number, first_answer, answered, sent)
            for selection, parts in self.selections_after(event, pending):
                content_id = hashlib.sha256(repr((durable_count, sorted(parts.items()))).encode()).digest()
                image = images.setdefault(content_id, Image(event_number, event_number, phase, selection, durable_count, parts, answered, sent))
                image.add_cut(event_number, answered, sent)
        return list(images.values())

    def phase(self, event_number: int, first_answer: int, answered: int | None, sent: int) -> Phase:
        """Returns the phase of a cut after the event with this number. `first_answer` is the number of the event of the first answer, or 0.
        `answered` and `sent` are the last commands that were answered and sent."""
        if not first_answer:
            return "opening"
        if sent != answered and sent in self.snapshots:
            return "snapshot"
        return "beginning" if event_number < first_answer + BEGINNING_EVENTS else "serving"

    def selections_after(self, event: Event, pending: list[int]) -> list[tuple[str, dict[int, Part]]]:
        """Returns some of the ways in which the pending writes can have reached the disk after an event. Each has a name (none, all or some), and the
        parts of the writes that are on the disk."""
        selections: list[tuple[str, dict[int, Part]]] = [("none", {}), ("all", dict.fromkeys(pending))]
        if event.kind in ("write", "flushed"):
            selections += [("some", self.random_parts(pending)) for _ in range(IMAGES_PER_WRITE * min(len(pending), MAX_PENDING))]
        return selections

    def random_parts(self, pending: list[int]) -> dict[int, Part]:
        """Chooses at random how much of each pending write is on the disk: nothing, everything, or some of its sectors or blocks. Omits the writes
        that did not reach the disk at all."""
        unit = BLOCK if self.needs_atomic_blocks else self.rng.choice((SECTOR, BLOCK))
        parts: dict[int, Part] = {}
        for write in pending:
            choice = self.rng.randrange(3)
            if choice == 0:
                parts[write] = None
            elif choice == 1:
                parts[write] = unit, self.rng.getrandbits(-(-len(self.writes[write].data) // unit))
        return parts

    def choose_images(self, images: list[Image], count: int) -> list[Image]:
        """Returns at most `count` of these images, in chronological order. Takes the same number of images from each phase, and more if another phase
        has too few."""
        groups = sorted(([image for image in images if image.phase == phase] for phase in PHASES), key=len)
        chosen_images: list[Image] = []
        for index, group in enumerate(groups):
            chosen_images += self.rng.sample(group, min(len(group), (count - len(chosen_images)) // (len(groups) - index)))
        return sorted(chosen_images, key=lambda image: image.first_event)


class ImageBuilder:
    """Writes the images of a history to its disk one after another, in chronological order. At the start, the disk must have its content from before
    the history."""

    def __init__(self, disk: Disk, history: History) -> None:
        self.disk, self.history = disk, history
        self.order = list(history.writes.values())
        self.permanent_count = 0
        self.permanent_undo_log: list[tuple[int, bytes]] = []

    def build(self, image: Image) -> None:
        """Writes an image to the disk, in the order in which the writes arrived. The durable writes at the beginning of this order are permanent.
        `disk.undo_writes` undoes the others."""
        rank = self.history.rank
        while self.permanent_count < len(self.order) and rank[self.order[self.permanent_count].number] < image.durable_count:
            write = self.order[self.permanent_count]
            self.permanent_undo_log.append((write.offset, self.disk.bytes[write.offset:write.offset + len(write.data)]))
            self.disk.write(write.offset, write.data)
            self.permanent_count += 1
        self.disk.undo_log = []
        for write in self.order[self.permanent_count:]:
            if rank[write.number] < image.durable_count:
                self.disk.write(write.offset, write.data)
            elif write.number in image.parts:
                self.write_part(write, image.parts[write.number])

    def write_part(self, write: Event, part: Part) -> None:
        """Writes the part of a write that an image contains to the disk."""
        if part is None:
            self.disk.write(write.offset, write.data)
            return
        unit, mask = part
        for start in range(0, len(write.data), unit):
            if mask >> start // unit & 1:
                self.disk.write(write.offset + start, write.data[start:start + unit])

    def undo_all(self) -> None:
        """Undoes the permanent writes of all images since the beginning."""
        for offset, data in reversed(self.permanent_undo_log):
            self.disk.write(offset, data)
        self.permanent_count, self.permanent_undo_log = 0, []

    def write_permanently(self, image: Image) -> None:
        """Writes an image to the disk permanently, regardless of its previous contents."""
        self.undo_all()
        self.build(image)
        self.disk.undo_log = None
