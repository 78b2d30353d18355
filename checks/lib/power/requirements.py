"""The requirements of checks/power: programs, a kernel and space."""

from __future__ import annotations

import os
import pathlib
import re
import shutil
import subprocess
import sys

from power.machine import MEMORY_MIB, Kernel

# Programs that each machine needs, with their Debian packages.
PROGRAMS = {"qemu-system-x86_64": "qemu-system-x86", "cpio": "cpio", "busybox": "busybox-static", "setpriv": "util-linux",
            os.environ.get("CC", "cc"): "gcc libc6-dev"}
ALL_PACKAGES = "qemu-system-x86 busybox-static cpio e2fsprogs xfsprogs btrfs-progs dosfstools exfatprogs"
KERNEL_PACKAGE = "linux-image-cloud-amd64"
# The folder that `checks/power --fetch` fills.
FETCHED_KERNELS = pathlib.Path(os.environ.get("XDG_CACHE_HOME") or pathlib.Path.home() / ".cache") / "fethsaim/kernels"
MEBIBYTE = 1 << 20


def path_with_system() -> str:
    """Returns the PATH, extended by the folders in which Debian installs the programs that create file systems."""
    return os.environ.get("PATH", "") + ":/usr/sbin:/sbin"


def memory_folder() -> str | None:
    """Returns a folder in memory, or None if there is none. (The program syncs its file thousands of times, which is slow on a disk.)"""
    return "/dev/shm" if os.access("/dev/shm", os.W_OK) else None


def missing_packages(programs: dict[str, str]) -> list[str]:
    """Returns the Debian packages of missing programs."""
    return sorted({package for program, package in programs.items() if shutil.which(program, path=path_with_system()) is None})


def kernels_in(folder: pathlib.Path) -> list[Kernel]:
    """Returns the kernels in a folder with `boot` and `lib/modules`, sorted by name. Omits kernels without modules, and those that cannot be read."""
    kernels = []
    for image in sorted(folder.glob("boot/vmlinuz-*")):
        release = image.name.removeprefix("vmlinuz-")
        modules = [path for top in ("lib", "usr/lib") if (path := folder / top / "modules" / release).is_dir()]
        if modules and os.access(image, os.R_OK):
            kernels.append(Kernel(image, modules[0]))
    return kernels


def find_kernels(folders: list[str]) -> list[Kernel]:
    """Returns the kernels in these folders. Without folders, returns the newest fetched kernel, or else the newest installed one."""
    if folders:
        return [kernel for folder in folders for kernel in kernels_in(pathlib.Path(folder))]
    fetched = [kernel for folder in sorted(FETCHED_KERNELS.glob("*")) for kernel in kernels_in(folder)]
    return (fetched or kernels_in(pathlib.Path("/")))[-1:]


def fetch_kernel() -> int:
    """Downloads and unpacks Debian's kernel for virtual machines, without installing it. Returns the exit status."""
    FETCHED_KERNELS.mkdir(parents=True, exist_ok=True)
    result_of_depends = subprocess.run(["apt-cache", "depends", KERNEL_PACKAGE], stdout=subprocess.PIPE, stderr=subprocess.PIPE, text=True, check=False)
    match = re.search(r"Depends: (linux-image-\S+)", result_of_depends.stdout)
    if not match:
        print(f"checks/power: apt knows no {KERNEL_PACKAGE}; try apt-get update first. {result_of_depends.stderr.strip()}", file=sys.stderr)
        return 1
    folder = FETCHED_KERNELS / match[1]
    result = subprocess.run(["apt-get", "-o", "APT::Sandbox::User=root", "download", match[1]], cwd=FETCHED_KERNELS, stdout=subprocess.DEVNULL,
                         stderr=subprocess.PIPE, text=True, check=False)
    archives = sorted(FETCHED_KERNELS.glob(f"{match[1]}_*.deb"))
    if result.returncode or not archives:
        print(f"checks/power: {match[1]} is not downloaded: {result.stderr.strip()}", file=sys.stderr)
        return 1
    status = subprocess.run(["dpkg-deb", "-x", archives[-1], folder], check=False).returncode
    for archive in archives:
        archive.unlink()
    if status == 0:
        print(f"the kernel stands in {folder}")
    return status


def missing_space_message(folder: pathlib.Path, disk_bytes: int) -> str:
    """Returns a message if there is too little memory for a machine with a disk of this size in bytes, or too little space for its images. Returns ""
    if there is enough."""
    needed = MEMORY_MIB * MEBIBYTE + 3 * disk_bytes
    memory = pathlib.Path("/proc/meminfo").read_text()
    available = re.search(r"MemAvailable: +(\d+) kB", memory)
    if available and int(available[1]) * 1024 < needed:
        return f"{needed // MEBIBYTE} MB of memory are needed, {int(available[1]) // 1024} are available"
    free_bytes = shutil.disk_usage(folder).free_bytes
    if free_bytes < 2 * disk_bytes:
        return f"{2 * disk_bytes // MEBIBYTE} MB are needed in {folder}, {free_bytes // MEBIBYTE} are free"
    return ""
