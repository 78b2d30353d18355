"""Tests of images.py that need no machine: sequences of writes and flushes whose possible disk images are known in advance."""

from __future__ import annotations

import random

from power.disk import Disk, Event
from power.images import BLOCK, SECTOR, ImageBuilder, History, Image

A, B, C = b"a" * SECTOR, b"b" * SECTOR, b"c" * SECTOR
OLD = bytes(SECTOR)


def history_of(events: list[Event], atomic_blocks: bool = False, seed: int = 0, initial_commands: int = 0) -> History:
    """Returns the history of these events. The session was not durable before the first of them."""
    return History(events, initial_commands, False, set(), atomic_blocks, random.Random(seed))


def write_event(number: int, offset: int, data: bytes) -> Event:
    """Returns the event for the arrival of a write."""
    return Event("write", number, offset, data)


def event_of(kind: str, number: int) -> Event:
    """Returns the event for a request that is answered, a flush that arrives, or a command that is sent or answered."""
    return Event(kind, number)


def images_of(history: History, size: int) -> list[tuple[bytes, Image]]:
    """Returns all images of a history, each as a pair: the first `size` bytes of a disk with this image, and the image. Before the history, the disk
    has only zeros."""
    disk = Disk(BLOCK)
    builder = ImageBuilder(disk, history)
    images = []
    for image in history.all_images():
        builder.build(image)
        images.append((disk.bytes[:size], image))
        disk.undo_writes()
    builder.undo_all()
    assert not any(disk.bytes[:])
    disk.close()
    return images


def check_durable_after_flush() -> bool:
    """Checks that a write is durable after the answer to a flush that arrived after the write was answered. A write that was answered later waits for
    the next flush."""
    first_events = [write_event(1, 0, A), event_of("wrote", 1), write_event(2, SECTOR, B), event_of("flush", 3), event_of("wrote", 2), event_of("flushed", 3)]
    later_events = [write_event(4, 0, C), event_of("flush", 5), event_of("flushed", 5)]
    is_durable = history_of(first_events + later_events[:2]).durable_at() == {1: 6}
    return is_durable and history_of(first_events).durable_at() == {1: 6} and history_of(first_events + later_events).durable_at() == {1: 6, 2: 9}


def check_new_or_old_sectors() -> bool:
    """Checks that each sector of a write without an answered flush is either old or new."""
    images = [pair for seed in range(20) for pair in images_of(history_of([write_event(1, 0, A + B)], seed=seed), 2 * SECTOR)]
    torn_contents = {A + OLD, OLD + B}
    return {data for data, _ in images} == {OLD + OLD, A + B, *torn_contents} and all(image.is_torn for data, image in images if data in torn_contents)


def check_atomic_blocks() -> bool:
    """Checks that no block is torn if blocks are written atomically."""
    images = images_of(history_of([write_event(1, 0, A + B)], atomic_blocks=True), 2 * SECTOR)
    return {data for data, _ in images} == {OLD + OLD, A + B}


def check_writes_to_one_sector() -> bool:
    """Checks two writes to the same sector. An image has the later write, or only the earlier one. When both are durable, it has the later one."""
    events = [write_event(1, 0, A), event_of("wrote", 1), write_event(2, 0, B), event_of("wrote", 2)]
    pending_images = images_of(history_of(events), SECTOR)
    contents_with_both = {data for data, image in pending_images if image.parts == {1: None, 2: None}}
    last_image = history_of([*events, event_of("flush", 3), event_of("flushed", 3)]).all_images()[-1]
    return {data for data, _ in pending_images} == {OLD, A, B} and contents_with_both == {B} and last_image.durable_count == 2 and not last_image.parts


def check_command_bounds() -> bool:
    """Checks the bounds of the number of commands: at least the commands acknowledged before the cut, and at most the commands sent before it. Before
    the first answer, there is no lower bound."""
    history = history_of([write_event(1, 0, A), event_of("answered", 0), event_of("sent", 1), write_event(2, 0, B), event_of("wrote", 2),
                          event_of("flush", 3), event_of("flushed", 3), event_of("answered", 1)])
    bounds_by_image = {(image.durable_count, len(image.parts)): (image.min_commands, image.max_commands)
                       for image in history.all_images() if image.selection != "some"}
    return bounds_by_image == {(0, 0): (0, 0), (0, 1): (0, 0), (0, 2): (0, 1), (1, 0): (1, 1), (1, 1): (1, 1)}


def check_command_bounds_of_copy() -> bool:
    """Checks that a session file that was copied must contain its commands even if the power is cut before the first answer."""
    images = history_of([write_event(1, 0, A), event_of("answered", 7)], initial_commands=7).all_images()
    return {(image.min_commands, image.max_commands) for image in images if image.selection != "some"} == {(7, 7)}


def check_permanent_images() -> bool:
    """Checks that an image can be written permanently, and that the first image has no effect on a second one that is written after it."""
    history = history_of([write_event(1, 0, A), event_of("wrote", 1), event_of("flush", 2), event_of("flushed", 2), write_event(3, 0, B)])
    disk = Disk(BLOCK)
    builder = ImageBuilder(disk, history)
    images = history.all_images()
    builder.build(images[-1])
    disk.undo_writes()
    builder.write_permanently(images[0])
    is_old = disk.bytes[:SECTOR] == OLD
    builder.write_permanently(next(image for image in images if image.durable_count and image.selection == "all" and image.parts))
    return is_old and disk.bytes[:SECTOR] == B and disk.undo_log is None


TESTS = (check_durable_after_flush, check_new_or_old_sectors, check_atomic_blocks, check_writes_to_one_sector, check_command_bounds,
          check_command_bounds_of_copy, check_permanent_images)


def error_messages() -> list[str]:
    """Runs the tests. Returns a message for each that fails."""
    return [f"{check.__name__}: {check.__doc__}" for check in TESTS if not check()]
