#!/usr/bin/env python3
"""Runs the gate and the checks in parallel: `checks/lib/parallel_checks.py all|gate|checks|long|quick FOLDER`, for ./test.

Environment variables name the program to check. Without a gate, it is MCS4. After the gate, it is BUILT_PROGRAM, which the gate builds. While the
gate runs, it is SHIPPED_PROGRAM. If that is empty, the checks start after the gate.

As many checks run at the same time as there are processors, the longest first. While the gate runs, one check runs at a time, or more while
processors are idle, and none on fewer than four processors. Checks that read what the gate builds run after it. Checks that type at a terminal run at
the end, in parallel with each other but with no other check, because one of them measures time. The whole output of a check is printed when the check
has ended. The output of the gate is printed line by line. On a terminal, a line shows what is running and the remaining time, estimated from the
times of the last run (in the cache folder) or from the table below. As root, it installs missing packages with apt-get; otherwise the check counts as
not run. Processes that a check leaves running are ended. FOLDER/summed gets the numbers of passed and failed verdicts, and FOLDER/left_out the lines
'not run: ..'.

Status 0: all checks have ended, with any results. 130: interrupted. The results so far are printed.
"""

import argparse
import json
import os
import pathlib
import re
import shlex
import shutil
import signal
import subprocess
import sys
import time
from dataclasses import dataclass, field

sys.dont_write_bytecode = True
from browsers import installed_browsers  # noqa: E402

TOP = pathlib.Path(__file__).resolve().parent.parent.parent
CACHE_FILE = pathlib.Path(os.environ.get("XDG_CACHE_HOME") or pathlib.Path.home() / ".cache") / "fethsaim/check_seconds.json"
# The time limit of a check is MIN_SECONDS plus TIME_FACTOR times its usual time.
MIN_SECONDS, TIME_FACTOR = 900, 5
END_TIMEOUT_SECONDS = 5
# The time between two updates. A check that ends leaves its processor idle for at most this time.
UPDATE_SECONDS = 0.05
# The minimum number of processors for running checks at the same time as the gate.
MIN_PROCESSORS = 4
COUNTS_PATTERN = re.compile(r"^(\d+) passed, (\d+) failed", re.M)

# The Debian packages of commands and files. A command that is not listed is in the package of the same name.
PACKAGES = {
    "aarch64-linux-gnu-gcc": "gcc-aarch64-linux-gnu",
    "/usr/aarch64-linux-gnu/lib/libc.a": "libc6-dev-arm64-cross",
    "cc": "gcc libc6-dev",
    "node": "nodejs",
    "nvim": "neovim",
    "tsc": "node-typescript",
    "prove": "perl",
    "flock": "util-linux",
    "vcd2fst": "gtkwave",
}


@dataclass(frozen=True)
class Check:
    """A script in checks/, with the commands and files that it needs, and the commands and files that only some of its parts need. Its times are the
    usual seconds, and the seconds that each installed browser adds. Its arguments can differ by mode: `long` and `quick` have those of these modes.
    It may type at a terminal, or read what the gate builds. If the parts of a script run in parallel, each part is a separate check, named by
    `part`."""

    name: str
    needs: str = ""
    seconds: int = 10
    arguments: str = ""
    long: str | None = None
    quick: str | None = None
    types_at_terminal: bool = False
    reads_gate_output: bool = False
    needs_of_parts: str = ""
    part: str = ""
    browser_seconds: int = 0

    @property
    def label(self):
        """Returns the name of the check, followed by its part if it has one."""
        return f"{self.name} {self.part}".rstrip()

    def command(self, mode):
        """Returns the command line of the check in a mode."""
        arguments = self.long if mode == "long" and self.long is not None else self.quick if mode == "quick" else self.arguments
        # The page's module is compiled again if the kit is installed.
        return [f"checks/{self.name}", *(word for word in shlex.split(arguments or "") if word != "--anew" or shutil.which("rt"))]

    def title(self, mode):
        """Returns the command line of the check in a mode as text."""
        return " ".join(self.command(mode))

    def usual_seconds(self):
        """Returns the usual time of the check in seconds, with the installed browsers."""
        return self.seconds + self.browser_seconds * len(installed_browsers())

    def limit_seconds(self):
        """Returns the number of seconds after which the check is ended."""
        return int(os.environ.get("CHECK_SECONDS", MIN_SECONDS + TIME_FACTOR * self.usual_seconds()))


CHECKS = [
    Check("page", "python3 node esbuild", 20, "--half 1", quick="--only layout basics --browser Chromium", part="1", browser_seconds=350),
    Check("page", "python3 node esbuild", 20, "--half 2 --scripts 100", long="--half 2 --scripts 400 --anew", part="2", browser_seconds=350),
    Check("power", "python3 cc", 240, "--seconds 240", long="--long"),
    Check("tools", "flock", 190, "command files manual module", part="1"),
    Check("tools", "flock", 190, "arguments cycles display environment escapes examples explain faces full import joined keys listing names replaced "
          "resume rom script speed texts trace", part="2"),
    Check("prove", "python3", 150, "200", long="2000", quick="30"),
    Check("page_source", "python3 node", 150, needs_of_parts="tsc eslint esbuild", quick=""),
    Check("explore", "node parallel", 110, "2", long="60"),
    Check("installed", "flock", 90, "tools", part="tools"),
    Check("installed", "lintian", 60, "package", part="package"),
    Check("allocations", "cc", 60, reads_gate_output=True),
    Check("time", "python3", 60, "300 30", long="2000 200", quick="30 5"),
    Check("installed", "zsh fish", 45, "use rejected lists elsewhere upgrade kept", part="files"),
    Check("hostile", "python3", 45, quick=""),
    Check("host", "cc", 45),
    Check("debugging", "node", 45, quick=""),
    Check("aarch64", "aarch64-linux-gnu-gcc /usr/aarch64-linux-gnu/lib/libc.a", 40, reads_gate_output=True),
    Check("session_prompt", "python3 node", 40, quick="", types_at_terminal=True),
    Check("installed", "prove", 30, "testing", part="testing"),
    Check("locks", "", 30, "100", long="1000"),
    Check("panel", "tmux node", 30, types_at_terminal=True),
    Check("prompt", "python3 node", 30, quick="", types_at_terminal=True),
    Check("testing", "prove", 25, quick=""),
    Check("waves", "vcd2fst sigrok-cli sox", 25),
    Check("shipped", "", 25, quick="", reads_gate_output=True),
    Check("stopped", "python3", 40),
    Check("wiring", "python3", 20, "2000", long="20000", quick="200"),
    Check("editors", "node nvim", 20, quick=""),
    Check("grammars", "python3 node nvim esbuild", 20, quick=""),
    Check("back", "flock", 20, quick=""),
    Check("project", "node", 15, quick=""),
    Check("documents", "python3", 15, quick=""),
    Check("runs", "python3", 10, quick=""),
    Check("sizes", "python3", 10, quick=""),
    Check("assembler", "python3", 5, "300", long="2000", quick="30"),
    Check("calculator", "", 5, "300", long="2000", quick="30"),
    Check("scripts", "python3", 5, quick=""),
    Check("memory", "", 5, quick=""),
]
# The gate, `rt ci`. It has no time limit, because without cached proofs it takes an hour or more.
GATE = Check("lib/gate", "rt", 3000)


@dataclass
class RunningCheck:
    """A running check: its process, the file for its output, and its start time. Its mark is an environment variable that all its processes inherit.
    After the check has ended, `processor_seconds` is its processor time, including that of the child processes for which it waited."""

    check: Check
    process: subprocess.Popen
    output: pathlib.Path
    mark: str
    start_time: float = field(default_factory=time.monotonic)
    processor_seconds: float = 0

    def seconds(self):
        """Returns the number of seconds since the start."""
        return time.monotonic() - self.start_time

    def is_over(self, options=os.WNOHANG):
        """Returns true if the process has ended. With 0 as `options`, waits for its end."""
        if self.process.returncode is None:
            number, status, usage = os.wait4(self.process.pid, options)
            if number:
                self.process.returncode = os.waitstatus_to_exitcode(status)
                self.processor_seconds = usage.ru_utime + usage.ru_stime
        return self.process.returncode is not None

    def is_late(self):
        """Returns true if a check exceeds its time limit. The gate has none."""
        return self.check is not GATE and self.seconds() > self.check.limit_seconds()


def is_available(need):
    """Returns true if a command, or a file named by its path, exists."""
    return pathlib.Path(need).exists() if need.startswith("/") else shutil.which(need) is not None


def install_packages(checks):
    """As root, installs the missing packages of these checks, each with a separate apt-get."""
    missing = sorted({PACKAGES.get(need, need) for check in checks for need in f"{check.needs} {check.needs_of_parts}".split() if not is_available(need)})
    if not missing or os.geteuid() != 0 or not shutil.which("apt-get"):
        return
    print(f"test: apt-get installs {' '.join(missing)}", flush=True)
    quiet_options = {"stdin": subprocess.DEVNULL, "stdout": subprocess.DEVNULL, "stderr": subprocess.DEVNULL, "check": False}
    subprocess.run(["apt-get", "update"], **quiet_options)
    for packages in missing:
        subprocess.run(["apt-get", "install", "-y", "--no-install-recommends", *packages.split()], **quiet_options)


def processes_with(mark):
    """Returns the IDs of the processes that have this mark in their environment."""
    processes = []
    for folder in pathlib.Path("/proc").glob("[0-9]*"):
        try:
            if f"CHECK_MARK={mark}".encode() in (folder / "environ").read_bytes().split(b"\0"):
                processes.append(int(folder.name))
        except OSError:
            continue
    return processes


def command_of(process):
    """Returns the command line of a process."""
    try:
        return pathlib.Path(f"/proc/{process}/cmdline").read_bytes().replace(b"\0", b" ").decode(errors="replace")
    except OSError:
        return "(ended)"


def end_processes(mark):
    """Ends the processes that a check has left running. Sends them two signals, so that they can clean up, and then kills them."""
    for number in (signal.SIGINT, signal.SIGTERM, signal.SIGKILL):
        end = time.monotonic() + END_TIMEOUT_SECONDS
        processes = processes_with(mark)
        for process in processes:
            try:
                os.kill(process, number)
            except OSError:
                continue
        while processes and time.monotonic() < end:
            processes = processes_with(mark)
            time.sleep(0.05)
        if not processes:
            return


class Run:
    """A run of the gate and the checks of a mode."""

    def __init__(self, mode, folder):
        self.mode = mode
        self.folder = folder
        self.checks = [] if mode == "gate" else [check for check in CHECKS if mode != "quick" or check.quick is not None]
        self.expected_seconds = {**{check.label: check.usual_seconds() for check in [*CHECKS, GATE]}, **last_times(mode)}
        self.waiting = sorted(self.checks, key=lambda check: -self.expected_seconds[check.label])
        self.gate = None
        self.processors = len(os.sched_getaffinity(0))
        self.running, self.ended_checks, self.times = [], [], {}
        self.processor_seconds = 0
        self.passed = self.failed = 0
        self.not_run_lines = []
        self.start_time = time.monotonic()

    def program(self):
        """Returns the program that a check uses if it starts now."""
        if self.mode not in ("all", "gate"):
            return os.environ["MCS4"]
        return os.environ["SHIPPED_PROGRAM"] if self.gate and not self.gate.is_over else os.environ["BUILT_PROGRAM"]

    def start_process(self, check, arguments):
        """Starts a check, or the gate, with its output in a file."""
        output = self.folder / f"output.{check.label.replace('/', '.')}"
        mark = f"{os.getpid()}.{check.label}"
        environment = {**os.environ, "CHECK_MARK": mark}
        if check is not GATE:
            environment["MCS4"] = self.program()
        with output.open("wb") as file:
            # A check must receive the signals that this process ignores, for example in the background. `env` restores them.
            process = subprocess.Popen(["env", "--default-signal=INT,QUIT", *arguments], cwd=TOP, env=environment, stdin=subprocess.DEVNULL,
                                       stdout=file, stderr=subprocess.STDOUT)
        self.running.append(RunningCheck(check, process, output, mark))
        return self.running[-1]

    def start(self, check):
        """Starts a check, or records that it is not run."""
        missing = [PACKAGES.get(need, need) for need in check.needs.split() if not is_available(need)]
        if missing:
            self.not_run_lines.append(f"not run: checks/{check.name} (Debian's packages: {' '.join(missing)})")
            self.ended_checks.append(check)
            self.show(f"== {check.title(self.mode)}\n{self.not_run_lines[-1]}")
            return
        self.start_process(check, check.command(self.mode))

    def end(self, running):
        """Counts the results of a check, or of the gate, and prints the output of a check."""
        self.running.remove(running)
        end_processes(running.mark)
        self.ended_checks.append(running.check)
        status, seconds = running.process.returncode, running.seconds()
        self.processor_seconds += running.processor_seconds
        text = running.output.read_text(errors="replace")
        counts = COUNTS_PATTERN.findall(text)
        passed, failed = map(int, counts[-1]) if counts else (0, 1)
        self.passed += passed
        self.failed += failed if status == 0 or failed else 1
        self.not_run_lines += [line for line in re.findall(r"^not run: .*$", text, re.M) if line not in self.not_run_lines]
        if counts:
            self.times[running.check.label] = seconds
        if running.check is GATE:
            self.gate.end()
            if self.waiting and not pathlib.Path(os.environ["BUILT_PROGRAM"]).exists():
                self.waiting.clear()
                self.show("test: the gate built no program, so no more checks run")
            self.show(f"the gate took {seconds / 60:.0f} min on {self.processors} processors, load {os.getloadavg()[2]:.0f}; {self.gate.proved_count} of "
                      f"{self.gate.passed_crates} crates were proved anew")
            if self.checks:
                self.show(f"the checks run on {self.program()}")
        else:
            self.show(f"== {running.check.title(self.mode)}\n{text}checks/{running.check.label} took {seconds:.0f} s, "
                      f"{running.processor_seconds:.0f} s of processor time")

    def max_running(self):
        """Returns the number of checks that may run now, including the gate."""
        if self.gate is None or self.gate.is_over:
            return self.processors
        if self.processors < MIN_PROCESSORS or not os.environ["SHIPPED_PROGRAM"]:
            return 1
        return self.processors if os.getloadavg()[0] < self.processors - 1 else 2

    def take_next_check(self):
        """Removes and returns the next waiting check that can start now, or returns None."""
        is_gate_over = self.gate is None or self.gate.is_over
        if len(self.running) >= self.max_running():
            return None
        for check in self.waiting:
            if not check.types_at_terminal and (is_gate_over or not check.reads_gate_output):
                self.waiting.remove(check)
                return check
        if is_gate_over and self.waiting and all(running.check.types_at_terminal for running in self.running):
            return self.waiting.pop(0)
        return None

    def update(self):
        """Ends checks that exceed their time limit, counts the checks that have ended, and starts the next ones."""
        for running in list(self.running):
            if not running.is_over() and running.is_late():
                with running.output.open("a") as file:
                    file.write(f"checks/{running.check.label}: not done after {running.check.limit_seconds()} s. It was running:\n")
                    file.writelines(f"  {command_of(process)}\n" for process in processes_with(running.mark))
                end_processes(running.mark)
                running.is_over(options=0)
            is_over = running.is_over()
            if running.check is GATE:
                self.gate.show(self.show)
            if is_over:
                self.end(running)
        while (check := self.take_next_check()) is not None:
            self.start(check)

    def run_all(self):
        """Runs the gate and all checks. The checks that type at a terminal come last."""
        if self.mode in ("all", "gate"):
            self.show("== rt ci")
            self.gate = Gate(self.start_process(GATE, [f"checks/{GATE.name}"]).output)
        install_packages(self.checks)
        while self.waiting or self.running:
            self.update()
            self.show_progress()
            time.sleep(UPDATE_SECONDS)

    def show(self, text):
        """Prints text in place of the progress line."""
        print(f"\r\033[K{text}" if sys.stdout.isatty() else text, flush=True)

    def show_progress(self):
        """On a terminal, prints the progress line: the number of finished checks, the running ones, and the estimated remaining time."""
        if not sys.stdout.isatty():
            return
        elapsed_seconds = {running.check.label: running.seconds() for running in self.running}
        remaining = {check: max(self.expected_seconds[check.label] - elapsed_seconds.get(check.label, 0), 5)
                     for check in [*self.checks, GATE] if check in self.waiting or check.label in elapsed_seconds}
        check_seconds = sum(seconds for check, seconds in remaining.items() if check is not GATE) / min(self.processors, max(len(remaining), 1))
        names = ", ".join(name for name in elapsed_seconds if name != GATE.label)
        gate_text = f"gate {self.gate.passed_crates} of {self.gate.crate_count} crates, " if self.gate and not self.gate.is_over else ""
        finished_count = sum(check is not GATE for check in self.ended_checks)
        minutes = max(check_seconds, remaining.get(GATE, 0)) / 60
        line = f"{gate_text}checks {finished_count} of {len(self.checks)} done, running: {names or 'none'}, about {minutes:.0f} min left"
        print(f"\r\033[K{line[: shutil.get_terminal_size().columns - 1]}", end="", flush=True)

    def write_totals(self):
        """Writes the totals for ./test, and prints the longest checks."""
        (self.folder / "summed").write_text(f"{self.passed} {self.failed}\n")
        (self.folder / "left_out").write_text("".join(f"{line}\n" for line in self.not_run_lines))
        longest = sorted(self.times.items(), key=lambda pair: -pair[1])[:10]
        self.show("longest: " + ", ".join(f"{name} {seconds:.0f} s" for name, seconds in longest))
        self.show(f"all took {(time.monotonic() - self.start_time) / 60:.0f} min on {self.processors} processors, and "
                  f"{self.processor_seconds / 60:.0f} min of processor time")


class Gate:
    """The gate while it runs: its growing output, the number of crates that it has finished, and how many of these it has proved again."""

    def __init__(self, output):
        self.output = output
        self.shown_bytes = 0
        self.passed_crates = self.proved_count = 0
        self.is_over = False
        self.crate_count = len(re.findall(r"^\w+:", (TOP / "crates.txt").read_text(), re.M))

    def show(self, show):
        """Shows the complete lines that the gate has printed since the last call. `show` is the function that prints them."""
        with self.output.open("rb") as file:
            file.seek(self.shown_bytes)
            text = file.read()
        lines = text[: text.rfind(b"\n") + 1]
        if lines:
            self.shown_bytes += len(lines)
            ends = re.findall(rb"^rt: \w+ (proved|is kept)", lines, re.M)
            self.passed_crates += len(ends)
            self.proved_count += ends.count(b"proved")
            show(lines.decode(errors="replace").rstrip("\n"))

    def end(self):
        """Records that the gate has ended."""
        self.is_over = True


def last_times(mode):
    """Returns the number of seconds that each check took in the last run in a mode, by the check's label. Returns no times if they cannot be read."""
    try:
        times = json.loads(CACHE_FILE.read_text())[mode]
        return {name: float(seconds) for name, seconds in times.items()}
    except (OSError, ValueError, KeyError, TypeError, AttributeError):
        return {}


def store_times(mode, times):
    """Stores the times for the next run, if the cache folder is writable."""
    try:
        stored = json.loads(CACHE_FILE.read_text()) if CACHE_FILE.exists() else {}
        CACHE_FILE.parent.mkdir(parents=True, exist_ok=True)
        temporary_file = CACHE_FILE.with_name(f"{CACHE_FILE.name}.{os.getpid()}")
        temporary_file.write_text(json.dumps({**stored, mode: {**stored.get(mode, {}), **times}}))
        temporary_file.replace(CACHE_FILE)
    except (OSError, ValueError, TypeError, AttributeError):
        return


def main():
    parser = argparse.ArgumentParser()
    parser.add_argument("mode", choices=("all", "gate", "checks", "long", "quick"))
    parser.add_argument("folder", type=pathlib.Path)
    arguments = parser.parse_args()
    signal.signal(signal.SIGTERM, signal.default_int_handler)
    signal.signal(signal.SIGINT, signal.default_int_handler)
    run = Run(arguments.mode, arguments.folder)
    try:
        run.run_all()
    except KeyboardInterrupt:
        for number in (signal.SIGINT, signal.SIGTERM):
            signal.signal(number, signal.SIG_IGN)
        for running in run.running:
            end_processes(running.mark)
        ended = sum(check is not GATE for check in run.ended_checks)
        gate_text = f", and the gate {run.gate.passed_crates} of {run.gate.crate_count} crates" if run.gate else ""
        print(f"test: stopped. {ended} of {len(run.checks)} checks had ended{gate_text}: {run.passed} passed, {run.failed} failed so far", flush=True)
        return 130
    run.write_totals()
    store_times(arguments.mode, run.times)
    return 0


if __name__ == "__main__":
    sys.exit(main())
