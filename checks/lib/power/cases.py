"""The trials of checks/power: the file systems, the cases, the deliberately faulty programs, and the combinations of these that a run of the check
tries. A case prepares a file system for a session, and has the arguments with which the program is then started.
"""

from __future__ import annotations

from typing import NamedTuple

# --- file systems


class FileSystem(NamedTuple):
    """A file system. `size_mib` is the size of its disk in MiB, and `package` the Debian package of the command that creates it. `options` are the
    mount options besides noatime, and `frequent_commit_options` make it commit every second. `modules` are its kernel modules. `needs_atomic_blocks`
    is true if the file system needs each block of 4 KiB to be written completely or not at all. `shows_stale_data` is true if unwritten parts of a
    file can contain old data of the disk."""
    name: str
    size_mib: int
    make_command: tuple[str, ...]
    package: str
    type: str
    options: str
    frequent_commit_options: str
    modules: tuple[str, ...]
    needs_atomic_blocks: bool = False
    shows_stale_data: bool = False


MAKE_EXT4 = ("mkfs.ext4", "-q", "-F", "-N", "1024", "-E", "nodiscard,lazy_itable_init=0,lazy_journal_init=0")
MAKE_XFS = ("mkfs.xfs", "-q", "-f", "-K")
MAKE_BTRFS = ("mkfs.btrfs", "-q", "-f", "-K")


def ext4_file_system(name: str, options: str = "", *arguments: str) -> FileSystem:
    """Returns an ext4 file system with this name and these mount options. `arguments` are further arguments of mkfs.ext4."""
    return FileSystem(name, 64, (*MAKE_EXT4, *arguments), "e2fsprogs", "ext4", options, "commit=1", ("ext4",))


def btrfs_file_system(name: str, options: str = "") -> FileSystem:
    """Returns a btrfs file system with this name and these mount options."""
    return FileSystem(name, 128, MAKE_BTRFS, "btrfs-progs", "btrfs", options, "commit=1", ("btrfs",), needs_atomic_blocks=True)


FILE_SYSTEMS = {file_system.name: file_system for file_system in (
    ext4_file_system("ext4"),
    ext4_file_system("ext4-writeback", "data=writeback"),
    ext4_file_system("ext4-journal", "data=journal"),
    ext4_file_system("ext4-fast", "", "-O", "fast_commit"),
    ext4_file_system("ext4-async", "journal_async_commit,data=writeback"),
    ext4_file_system("ext4-1k", "", "-b", "1024"),
    FileSystem("xfs", 300, MAKE_XFS, "xfsprogs", "xfs", "", "", ("xfs",)),
    btrfs_file_system("btrfs"),
    btrfs_file_system("btrfs-nocow", "nodatacow"),
    FileSystem("vfat", 32, ("mkfs.vfat",), "dosfstools", "vfat", "", "", ("vfat", "nls_cp437", "nls_ascii"), shows_stale_data=True),
    FileSystem("exfat", 32, ("mkfs.exfat",), "exfatprogs", "exfat", "", "", ("exfat", "nls_utf8"), shows_stale_data=True),
    # Linux before 6.5 does not always flush the disk when a file on this file system is synced.
    ext4_file_system("ext4-nojournal", "", "-O", "^has_journal")._replace(frequent_commit_options="", shows_stale_data=True),
    # Without barriers the file system loses acknowledged data, which the check must detect.
    ext4_file_system("ext4-nobarrier", "nobarrier"),
)}

# --- cases


class Case(NamedTuple):
    """A scenario for a session on a file system. The effects of the shell commands in `setup` are synced, and those of the later shell commands in
    `before` are not. `arguments` are the program's arguments, and `file` is the name of the session file after the cut. `initial_commands` is the
    number of commands in the session at the beginning. `is_durable` is true if the session is already durable then. If `gets_all_commands` is true,
    the trial sends commands until the session has MAX_COMMAND_COUNT commands."""
    name: str
    setup: str
    before: str
    arguments: str
    file: str
    initial_commands: int = 0
    is_durable: bool = False
    gets_all_commands: bool = False


LONG_NAME = "a_session_with_a_long_name_that_takes_several_slots_of_a_folder_on_a_file_system_of_that_sort.mcs"
CREATE_FILE_SEED = "mcs4 new seed < /dev/null > /dev/null"
CREATE_OTHER_FILES = "for i in 1 2 3 4 5 6 7 8 9 10; do : > f$i; done"
# The names of the session files that are copied into the machine, and the number of commands in each. The second file has version 1 of the format.
SERVED_FILE, VERSION_1_FILE = "served.mcs", "first.mcs"
SERVED_COMMAND_COUNT, VERSION_1_COMMAND_COUNT = 60, 30

CASES = {case.name: case for case in (
    Case("new", "", "", "new s.mcs", "s.mcs", gets_all_commands=True),
    Case("new-long", "", "", f"new {LONG_NAME}", LONG_NAME),
    Case("new-full", "mkdir d; for i in $(seq 1 250); do : > d/a_name_that_fills_the_folder_$i; done", "", "new d/s.mcs", "d/s.mcs"),
    Case("new-empty", "", ": > s.mcs", "new s.mcs", "s.mcs"),
    Case("new-folder", "", "mkdir d", "new d/s.mcs", "d/s.mcs"),
    Case("new-link", "mkdir a b; ln -s ../b/real.mcs a/s.mcs", "", "new a/s.mcs", "a/s.mcs"),
    Case("linked", CREATE_FILE_SEED, "ln seed s.mcs || cp seed s.mcs", "open s.mcs", "s.mcs"),
    Case("copied", CREATE_FILE_SEED, "cp seed s.mcs", "open s.mcs", "s.mcs"),
    Case("moved", CREATE_FILE_SEED, "mv seed s.mcs", "open s.mcs", "s.mcs"),
    Case("replaced", f"mcs4 new s.mcs < /dev/null > /dev/null; {CREATE_FILE_SEED}", "mv seed s.mcs", "open s.mcs", "s.mcs"),
    Case("long-copied", f"{CREATE_FILE_SEED}; {CREATE_OTHER_FILES}", f"cp seed {LONG_NAME}", f"open {LONG_NAME}", LONG_NAME),
    Case("long-moved", f"{CREATE_FILE_SEED}; {CREATE_OTHER_FILES}", f"mv seed {LONG_NAME}", f"open {LONG_NAME}", LONG_NAME),
    Case("folder-copied", CREATE_FILE_SEED, "mkdir d; cp seed d/s.mcs", "open d/s.mcs", "d/s.mcs"),
    Case("folder-moved", "mkdir d; mcs4 new d/s.mcs < /dev/null > /dev/null", "mv d e", "open e/s.mcs", "e/s.mcs"),
    Case("served", f"cp /{SERVED_FILE} s.mcs", "", "open s.mcs", "s.mcs", initial_commands=SERVED_COMMAND_COUNT, is_durable=True),
    Case("carried", f"cp /{VERSION_1_FILE} s.mcs", "", "open s.mcs", "s.mcs", initial_commands=VERSION_1_COMMAND_COUNT, is_durable=True),
    Case("carried-copied", "", f"cp /{VERSION_1_FILE} s.mcs", "open s.mcs", "s.mcs", initial_commands=VERSION_1_COMMAND_COUNT),
    # The program syncs only the file's own folder, so new folders above it can be lost.
    Case("folders", "", "mkdir -p d/e", "new d/e/s.mcs", "d/e/s.mcs"),
)}
NEW_CASES = ("new-long", "new-full", "new-empty", "new-folder")
OPEN_CASES = ("linked", "copied", "moved", "replaced", "long-copied", "long-moved", "folder-copied", "folder-moved", "carried-copied")

# --- the trials of a run of the check

# The numbers of commands that a trial sends. In a case with `gets_all_commands`, MAX_COMMAND_COUNT is the number of the last command. A session that
# is already durable or is opened again gets MORE_COMMAND_COUNT commands, and any other session gets FEW_COMMAND_COUNT.
MAX_COMMAND_COUNT, MORE_COMMAND_COUNT, FEW_COMMAND_COUNT = 110, 24, 12


class Trial(NamedTuple):
    """A case on a file system. `image_count` is the number of images to examine after the first cut. `generation_count` is how many times one of them
    becomes the disk and the power is cut again. `is_busy` is true if another program writes to the file system, which then commits every second.
    `injected_error` names the error of the program or of the mount, if any: a step that is omitted or moved. The trial must then detect that data is
    lost."""
    file_system: str
    case: str
    image_count: int
    generation_count: int = 0
    is_busy: bool = False
    injected_error: str = ""

    @property
    def name(self) -> str:
        """The trial's name in messages."""
        return f"{self.file_system}, {self.case}{', ' * bool(self.injected_error)}{self.injected_error}"


NO_BARRIER = "no barrier"
# Trials with an omitted or moved step, which must detect that data is lost. In the last but one, `open` does not sync the file's folder.
FAULTY_TRIALS = (
    Trial("ext4-nobarrier", "served", 60, injected_error=NO_BARRIER),
    Trial("ext4", "served", 60, injected_error="no sync"),
    Trial("ext4", "served", 200, injected_error="no first sync"),
    Trial("xfs", "served", 60, injected_error="no second sync"),
    Trial("ext4", "carried", 300, injected_error="no snapshot sync"),
    Trial("vfat", "carried", 300, injected_error="no snapshot sync"),
    Trial("ext4", "served", 60, injected_error="second sync first"),
    Trial("xfs", "served", 60, injected_error="answer first"),
    Trial("ext4", "copied", 40, injected_error="no opening sync"),
    Trial("vfat", "long-copied", 40, injected_error="no folder sync"),
    Trial("vfat", "new-folder", 40, injected_error="no folder sync"),
)


def cases_of(file_system: str) -> list[str]:
    """Returns the names of the cases of NEW_CASES and OPEN_CASES for a file system. Omits `new-link` if the file system shows stale data: the only
    such file system here is vfat, and it has no links."""
    return [*NEW_CASES, *([] if FILE_SYSTEMS[file_system].shows_stale_data else ["new-link"]), *OPEN_CASES]


def long_trials() -> list[Trial]:
    """Returns the trials of `checks/power --long`."""
    trials = [Trial(file_system, case, 20) for file_system in ("ext4", "xfs", "btrfs", "vfat") for case in cases_of(file_system)]
    for file_system in ("ext4", "ext4-writeback", "xfs", "btrfs", "vfat", "exfat"):
        trials.append(Trial(file_system, "new", 150, 1, is_busy=True))
        trials.append(Trial(file_system, "served", 60, 5, is_busy=True))
        trials.append(Trial(file_system, "carried", 60, 5))
    return [*trials, *FAULTY_TRIALS]


def short_trials() -> list[Trial]:
    """Returns the trials of `checks/power`: ext4 and vfat, each with the cases in which data is most easily lost."""
    trials = [Trial("vfat", case, 10) for case in ("new-folder", "long-copied", "folder-copied", "folder-moved")]
    trials += [Trial(file_system, "carried", 30, 2) for file_system in ("ext4", "vfat")]
    trials += [Trial(file_system, "new", 60, 1, is_busy=True) for file_system in ("ext4", "vfat")]
    return [*trials, *(trial for trial in FAULTY_TRIALS
                       if trial.injected_error in ("no sync", "no second sync", "no folder sync") and trial.file_system != "xfs")]
