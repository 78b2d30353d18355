"""The virtual machine of checks/power: QEMU without KVM, a Debian kernel, and an initramfs with busybox, modules, the program and its libraries."""

from __future__ import annotations

import gzip
import lzma
import pathlib
import re
import selectors
import shutil
import signal
import socket
import subprocess
import time
from typing import NamedTuple

from power.disk import Connection, Disk, PowerCheckError

# The machine's init script. It loads modules, switches off the echo of its serial line, and then runs each shell line that arrives and prints its
# exit status.
INIT_SCRIPT = r"""#!/bin/busybox sh
/bin/busybox --install -s /bin
mount -t proc proc /proc
mount -t sysfs sys /sys
mount -t devtmpfs dev /dev
exec 2> /dev/ttyS0
for module in $(cat /modules/order); do insmod /modules/$module.ko; done
stty raw -echo < /dev/ttyS1
exec < /dev/ttyS1 > /dev/ttyS1 3<> /dev/vport0p1
echo ready
while read -r line; do eval "$line"; echo "done $?"; done
"""
# `clearcpuid=cx16`: Linux 6.12 triggers a bug of CMPXCHG16B in QEMU 7.2 without KVM. `no_timer_check`: on a busy host, the kernel would consider
# its timer broken. QEMU's default processor is too old for Debian's glibc.
KERNEL_ARGUMENTS = "console=ttyS0 loglevel=5 panic=-1 mitigations=off random.trust_cpu=on clearcpuid=cx16 no_timer_check cryptomgr.notests"
PROCESSOR = "Nehalem"
MEMORY_MIB = 512
BOOT_SECONDS = 900
# The seconds for which a disk holds back an answer, so that other answers can overtake it.
ANSWER_DELAY_SECONDS = 0.0005


class Kernel(NamedTuple):
    """A kernel: its file, and the folder of its modules."""
    image: pathlib.Path
    modules: pathlib.Path

    @property
    def release(self) -> str:
        """The kernel's release, as `uname -r` prints it."""
        return self.image.name.removeprefix("vmlinuz-")

    def has_module(self, module: str) -> bool:
        """Returns true if the kernel has a module, loadable or built in."""
        built_in = self.modules / "modules.builtin"
        return module in self.module_files() or (built_in.exists() and f"/{module}.ko\n" in built_in.read_text())

    def module_files(self) -> dict[str, pathlib.Path]:
        """Returns the files of the modules, by name."""
        return {file.name.split(".ko")[0].replace("-", "_"): file for file in self.modules.rglob("*.ko*")}


def module_bytes(file: pathlib.Path) -> bytes:
    """Returns the contents of a module file, unpacked."""
    data = file.read_bytes()
    return lzma.decompress(data) if file.suffix == ".xz" else gzip.decompress(data) if file.suffix == ".gz" else data


def modules_of(kernel: Kernel, names: list[str]) -> dict[str, bytes]:
    """Returns the unpacked contents of these modules and of their dependencies, by name, in loading order. Omits modules without a file, because they
    are built into the kernel."""
    files = kernel.module_files()
    order: dict[str, bytes] = {}

    def add_module(name: str) -> None:
        name = name.replace("-", "_")
        if name not in files or name in order:
            return
        data = module_bytes(files[name])
        dependencies = re.findall(rb"\0depends=([^\0]*)\0", data) + re.findall(rb"\0softdep=pre: ([^\0]*)\0", data)
        for dependency in re.split(r"[, ]+", " ".join(command.decode() for command in dependencies)):
            if dependency:
                add_module(dependency)
        order[name] = data

    for name in names:
        add_module(name)
    return order


def libraries_of(program: str) -> dict[str, str]:
    """Returns the shared libraries of a program, by their paths in the machine. There are none if it is linked statically."""
    output = subprocess.run(["ldd", program], stdout=subprocess.PIPE, stderr=subprocess.DEVNULL, text=True, check=False).stdout
    return {path.lstrip("/"): path for path in re.findall(r"(/\S+) \(0x", output)}


def create_initramfs(folder: pathlib.Path, kernel: Kernel, names: list[str], files: dict[str, str]) -> pathlib.Path:
    """Creates an initramfs with busybox, these modules and their dependencies, and these files. `files` has the path on this host for each path in
    the machine. Returns the path of the archive, which is in `folder`."""
    root = folder / "root"
    shutil.rmtree(root, ignore_errors=True)
    for name in ("bin", "dev", "proc", "sys", "mnt", "modules", "tmp"):
        (root / name).mkdir(parents=True)
    busybox = shutil.which("busybox") or "/bin/busybox"
    files = {"bin/busybox": busybox, **libraries_of(busybox), **files}
    modules = modules_of(kernel, names)
    for name, data in modules.items():
        (root / "modules" / f"{name}.ko").write_bytes(data)
    (root / "modules/order").write_text(" ".join(modules))
    for path, file in files.items():
        (root / path).parent.mkdir(parents=True, exist_ok=True)
        shutil.copy(file, root / path)
    (root / "init").write_text(INIT_SCRIPT)
    (root / "init").chmod(0o755)
    names_in_archive = "\n".join(sorted(str(path.relative_to(root)) for path in root.rglob("*")))
    result = subprocess.run(["cpio", "--quiet", "-o", "-H", "newc"], input=names_in_archive.encode(), cwd=root, stdout=subprocess.PIPE, check=True)
    archive = folder / "initramfs"
    archive.write_bytes(result.stdout)
    return archive


class SerialLine:
    """A serial line of the machine, with the text that the machine has written to it."""

    def __init__(self) -> None:
        self.channel: socket.socket | None = None
        self.texts: list[str] = []
        self.incomplete = b""

    def serve_input(self) -> None:
        """Reads the data that has arrived."""
        assert self.channel is not None
        *texts, self.incomplete = (self.incomplete + self.channel.recv(1 << 16)).split(b"\n")
        self.texts += [text.decode(errors="replace").rstrip("\r") for text in texts]

    def send(self, text: str) -> None:
        """Writes `text` and a line feed to the serial line."""
        assert self.channel is not None
        self.channel.sendall(text.encode() + b"\n")


class Machine:
    """A running machine, with its disks and its two serial lines."""

    def __init__(self, folder: pathlib.Path, kernel: Kernel, archive: pathlib.Path, disks: dict[str, Disk]) -> None:
        self.disks, self.release = disks, kernel.release
        self.console, self.errors = folder / "console", folder / "errors"
        self.console.write_bytes(b"")
        self.selector = selectors.DefaultSelector()
        self.connections: list[Connection] = []
        self.shell, self.program = SerialLine(), SerialLine()
        for name in ("disk", "shell", "program"):
            (folder / name).unlink(missing_ok=True)
            listener = socket.socket(socket.AF_UNIX)
            listener.bind(str(folder / name))
            listener.listen()
            self.selector.register(listener, selectors.EVENT_READ, name)
        self.started = time.monotonic()
        # The kernel kills QEMU when this process ends, even if this process is killed.
        command = ["setpriv", "--pdeathsig", "KILL", *self.qemu_command(folder, kernel, archive)]
        with open(self.errors, "wb") as errors:
            self.process = subprocess.Popen(command, stdin=subprocess.DEVNULL, stderr=errors)

    def qemu_command(self, folder: pathlib.Path, kernel: Kernel, archive: pathlib.Path) -> list[str]:
        """Returns the command line that starts QEMU."""
        command = ["qemu-system-x86_64", "-accel", "tcg", "-cpu", PROCESSOR, "-m", str(MEMORY_MIB), "-smp", "1", "-nodefaults", "-no-user-config",
                 "-display", "none", "-nic", "none", "-no-reboot", "-kernel", str(kernel.image), "-initrd", str(archive),
                 "-append", KERNEL_ARGUMENTS, "-chardev", f"file,id=console,path={self.console}", "-serial", "chardev:console"]
        command += ["-chardev", f"socket,id=shell,path={folder}/shell", "-serial", "chardev:shell", "-device", "virtio-serial-pci",
                  "-chardev", f"socket,id=program,path={folder}/program", "-device", "virtserialport,chardev=program"]
        for name in self.disks:
            command += ["-blockdev", f"driver=nbd,node-name={name},server.type=unix,server.path={folder}/disk,export={name}",
                      "-device", f"virtio-blk-pci,drive={name},write-cache=on"]
        return command

    def boot(self) -> float:
        """Waits until the machine accepts shell lines. Returns the number of seconds since its start."""
        if self.receive(self.shell, BOOT_SECONDS) != "ready":
            raise PowerCheckError(f"the machine does not begin; its last lines:\n{self.last_lines()}")
        return time.monotonic() - self.started

    def last_lines(self) -> str:
        """Returns the last output of the kernel and of QEMU."""
        output = self.console.read_bytes()[-4000:] + self.errors.read_bytes()[-1000:]
        return "\n".join("    " + line for line in output.decode(errors="replace").splitlines()[-12:])

    def accept_connection(self, name: str, listener: socket.socket) -> None:
        """Accepts QEMU's connection to a serial line or to a disk."""
        channel, _ = listener.accept()
        if name == "disk":
            connection = Connection(self.disks, channel, self.end_connection)
            self.connections.append(connection)
            self.selector.register(channel, selectors.EVENT_READ, connection)
        else:
            serial_line = self.shell if name == "shell" else self.program
            serial_line.channel = channel
            self.selector.register(channel, selectors.EVENT_READ, serial_line)

    def end_connection(self, channel: socket.socket) -> None:
        """Removes and closes a connection of QEMU to a disk."""
        self.connections = [connection for connection in self.connections if connection.channel is not channel]
        self.selector.unregister(channel)
        channel.close()

    def serve(self, seconds: float) -> None:
        """Waits for data for at most this number of seconds, and serves it. If some requests to the disks are unanswered, waits only
        ANSWER_DELAY_SECONDS, and then answers one for each disk. Raises PowerCheckError if QEMU has ended."""
        busy_connections = [connection for connection in self.connections if connection.unanswered]
        ready = self.selector.select(ANSWER_DELAY_SECONDS if busy_connections else seconds)
        for key, _ in ready:
            if isinstance(key.data, str):
                assert isinstance(key.fileobj, socket.socket)
                self.accept_connection(key.data, key.fileobj)
            else:
                key.data.serve_input()
        if not ready:
            for connection in busy_connections:
                connection.answer_random_request()
        if self.process.poll() is not None:
            raise PowerCheckError(f"QEMU has ended with status {self.process.returncode}; the last lines:\n{self.last_lines()}")

    def receive(self, line: SerialLine, seconds: float = 600) -> str:
        """Returns the next line of text from a serial line. Raises PowerCheckError if none arrives within this number of seconds."""
        deadline = time.monotonic() + seconds
        while not line.texts:
            if time.monotonic() > deadline:
                raise PowerCheckError(f"the machine was silent for {seconds} seconds; its last lines:\n{self.last_lines()}")
            self.serve(0.2)
        return line.texts.pop(0)

    def run(self, text: str) -> tuple[list[str], int]:
        """Runs a line of shell. Returns its lines of output and its status."""
        self.shell.send(text)
        lines: list[str] = []
        while not re.fullmatch(r"done \d+", line := self.receive(self.shell)):
            lines.append(line)
        return lines, int(line.split()[1])

    def run_successfully(self, text: str) -> list[str]:
        """Runs a line of shell that must have status 0. Returns its lines of output."""
        lines, status = self.run(text)
        if status:
            raise PowerCheckError(f"{text}: status {status}, {lines}; the machine's last lines:\n{self.last_lines()}")
        return lines

    def cut_power(self) -> None:
        """Cuts the power: kills QEMU, and closes the connections to it."""
        if self.process.poll() is None:
            self.process.send_signal(signal.SIGKILL)
        self.process.wait()
        for key in list(self.selector.get_map().values()):
            if isinstance(key.fileobj, socket.socket):
                key.fileobj.close()
        self.selector.close()
