"""A virtual machine's disk, which this process serves over NBD, and the list of the events on it.

QEMU reads and writes the disk as an NBD client over a Unix socket. Each write and each flush therefore has two events: its arrival and its
answer. A power cut between the two can lose the written data, whatever the machine assumes.
"""

from __future__ import annotations

import mmap
import os
import random
import socket
import struct
from collections.abc import Callable
from typing import NamedTuple

MAGIC, OPTION_MAGIC, REPLY_MAGIC, ANSWER_MAGIC = 0x4E42444D41474943, 0x49484156454F5054, 0x3E889045565A9, 0x67446698
FIXED_NEWSTYLE_NO_ZEROES = 3
# NBD option codes, the kinds of their replies, and the contents of a reply with information.
ABORT, INFO, GO = 2, 6, 7
ACK_REPLY, INFO_REPLY, UNSUPPORTED_REPLY = 1, 3, (1 << 31) + 1
EXPORT, BLOCK_SIZE = 0, 3
# NBD transmission flags (flags are valid; the disk accepts flushes), and the types of requests.
HAS_FLAGS, SEND_FLUSH = 1, 4
READ, WRITE, DISCONNECT, FLUSH = 0, 1, 2, 3
OPTION_HEAD, REQUEST_HEAD = 16, 28


class PowerCheckError(Exception):
    """An error that stops the check: the machine or the program in it does not behave as required."""


class Event(NamedTuple):
    """An event on the disk or in the program. On the disk, a `write` arrives and is answered later (`wrote`), and a `flush` arrives and is answered
    later (`flushed`); both events of a request have its number. In the program, the command with this number was `sent` or `answered`."""
    kind: str
    number: int
    offset: int = 0
    data: bytes = b""


class Disk:
    """Bytes in memory that a machine reads and writes as a disk. If `events` is a list, events are added to it. If `is_late` is true, writes and
    flushes are answered late and out of order, as a real disk's queue does."""

    def __init__(self, size: int, seed: int = 0) -> None:
        self.memory = os.memfd_create("disk")
        os.ftruncate(self.memory, size)
        self.bytes = mmap.mmap(self.memory, size)
        self.events: list[Event] | None = None
        self.undo_log: list[tuple[int, bytes]] | None = None
        self.is_late = False
        self.request_count = 0
        self.rng = random.Random(seed)

    @property
    def file(self) -> str:
        """The path with which other programs on this host can open the bytes of the disk."""
        return f"/proc/{os.getpid()}/fd/{self.memory}"

    def close(self) -> None:
        """Frees the memory."""
        self.bytes.close()
        os.close(self.memory)

    def write(self, offset: int, data: bytes) -> None:
        """Writes bytes. If `undo_log` is a list, adds the old bytes to it."""
        if self.undo_log is not None:
            self.undo_log.append((offset, self.bytes[offset:offset + len(data)]))
        self.bytes[offset:offset + len(data)] = data

    def undo_writes(self) -> None:
        """Undoes all writes since `undo_log` was set to a list."""
        for offset, data in reversed(self.undo_log or []):
            self.bytes[offset:offset + len(data)] = data
        self.undo_log = None

    def add_event(self, kind: str, number: int, offset: int = 0, data: bytes = b"") -> None:
        """Adds an event to `events`, if that is a list."""
        if self.events is not None:
            self.events.append(Event(kind, number, offset, data))


class Connection:
    """QEMU's connection to one of the disks: the handshake that names the disk, and the requests. `on_end` is called when the connection ends."""

    def __init__(self, disks: dict[str, Disk], channel: socket.socket, on_end: Callable[[socket.socket], None]) -> None:
        self.disks, self.channel, self.on_end = disks, channel, on_end
        self.input = bytearray()
        self.disk: Disk | None = None
        self.has_begun = False
        self.unanswered: list[tuple[str, int, int]] = []
        channel.sendall(struct.pack(">QQH", MAGIC, OPTION_MAGIC, FIXED_NEWSTYLE_NO_ZEROES))

    def serve_input(self) -> None:
        """Reads the data that has arrived, and serves the complete options and requests in it."""
        data = self.channel.recv(1 << 20)
        if not data:
            self.on_end(self.channel)
            return
        self.input += data
        while self.disk is None and self.serve_option():
            pass
        while self.disk is not None and self.serve_request(self.disk):
            pass

    def reply(self, option: int, kind: int, data: bytes = b"") -> None:
        """Sends a reply to an option of the handshake. `kind` is ACK_REPLY, INFO_REPLY or UNSUPPORTED_REPLY."""
        self.channel.sendall(struct.pack(">QIII", REPLY_MAGIC, option, kind, len(data)) + data)

    def serve_option(self) -> bool:
        """Serves an option of the handshake if it has arrived completely. Returns true if more of the input can be served."""
        if not self.has_begun and len(self.input) >= 4:
            del self.input[:4]
            self.has_begun = True
        if not self.has_begun or len(self.input) < OPTION_HEAD:
            return False
        _, option, length = struct.unpack(">QII", self.input[:OPTION_HEAD])
        if len(self.input) < OPTION_HEAD + length:
            return False
        data = bytes(self.input[OPTION_HEAD:OPTION_HEAD + length])
        del self.input[:OPTION_HEAD + length]
        if option in (INFO, GO):
            size, = struct.unpack(">I", data[:4])
            disk = self.disks[data[4:4 + size].decode()]
            self.reply(option, INFO_REPLY, struct.pack(">HQH", EXPORT, len(disk.bytes), HAS_FLAGS | SEND_FLUSH))
            self.reply(option, INFO_REPLY, struct.pack(">HIII", BLOCK_SIZE, 512, 4096, 1 << 25))
            self.reply(option, ACK_REPLY)
            self.disk = disk if option == GO else None
        elif option == ABORT:
            self.reply(option, ACK_REPLY)
            self.on_end(self.channel)
            return False
        else:
            self.reply(option, UNSUPPORTED_REPLY)
        return True

    def serve_request(self, disk: Disk) -> bool:
        """Serves a request if it has arrived completely. Returns true if more of the input can be served."""
        if len(self.input) < REQUEST_HEAD:
            return False
        _, _, kind, handle, offset, length = struct.unpack(">IHHQQI", self.input[:REQUEST_HEAD])
        request_length = REQUEST_HEAD + (length if kind == WRITE else 0)
        if len(self.input) < request_length:
            return False
        data = bytes(self.input[REQUEST_HEAD:request_length])
        del self.input[:request_length]
        if kind == READ:
            self.answer(handle, disk.bytes[offset:offset + length])
        elif kind == WRITE:
            disk.request_count += 1
            disk.add_event("write", disk.request_count, offset, data)
            disk.write(offset, data)
            self.queue_answer("wrote", handle, disk)
        elif kind == FLUSH:
            disk.request_count += 1
            disk.add_event("flush", disk.request_count)
            self.queue_answer("flushed", handle, disk)
        elif kind == DISCONNECT:
            self.on_end(self.channel)
            return False
        else:
            raise PowerCheckError(f"QEMU asks the disk for a request of kind {kind}")
        return True

    def answer(self, handle: int, data: bytes = b"") -> None:
        """Sends the answer to a request, which QEMU identifies by `handle`. `data` is the data of a read."""
        self.channel.setblocking(True)
        self.channel.sendall(struct.pack(">IIQ", ANSWER_MAGIC, 0, handle) + data)

    def queue_answer(self, kind: str, handle: int, disk: Disk) -> None:
        """Adds a write or a flush to the unanswered requests. Unless the disk is late, answers one of these immediately. `kind` is the kind of the
        event for the answer."""
        self.unanswered.append((kind, disk.request_count, handle))
        if not disk.is_late:
            self.answer_random_request()

    def answer_random_request(self) -> None:
        """Answers one of the unanswered requests, chosen at random."""
        assert self.disk is not None
        kind, number, handle = self.unanswered.pop(self.disk.rng.randrange(len(self.unanswered)))
        self.disk.add_event(kind, number)
        self.answer(handle)
