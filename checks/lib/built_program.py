"""Finds the programs that the checks run."""

import os
import pathlib
import subprocess
import sys

TOP = pathlib.Path(__file__).resolve().parent.parent.parent
FIND_PROVER = 'top=$0; . "$top/tools/lib/start.sh"; find_prover; printf "%s\\n%s" "$program" "$reason"'


def built_prover():
    """Returns the path of the program that `mcs4 prove` starts, and a message. The program is the one that MCS4_PROVE names, or the one that
    tools/lib/start.sh finds. If there is none, the path is empty and the message says why."""
    if path := os.environ.get("MCS4_PROVE"):
        return path, ""
    return subprocess.run(["/bin/sh", "-c", FIND_PROVER, TOP], stdout=subprocess.PIPE, text=True, check=True).stdout.split("\n")


def built_program():
    """Returns the path of the program mcs4, as checks/lib/program prints it. If there is no program, that script prints the reason, and the check
    ends."""
    result = subprocess.run([pathlib.Path(__file__).resolve().parent / "program"], stdout=subprocess.PIPE, text=True, check=False)
    if result.returncode != 0:
        sys.exit(1)
    return result.stdout.strip()
