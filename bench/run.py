#!/usr/bin/env python3
"""Run a program several times with a file as its standard input; print the least elapsed time and the greatest peak memory.

Usage: run.py SECONDS_FILE FILE PROGRAM ARGUMENT..

The least time, in seconds, is also written to SECONDS_FILE. The environment variable RUNS is the number of runs (default: 5).
"""
from __future__ import annotations

import os
import subprocess
import sys
import time

RUNS = int(os.environ.get("RUNS", "5"))


def run_once(path: str, command: list[str]) -> tuple[float, float]:
    """Return the elapsed seconds and the peak memory in MiB."""
    with open(path, "rb") as script:
        start = time.monotonic()
        process = subprocess.Popen(command, stdin=script, stdout=subprocess.DEVNULL)
        _, status, usage = os.wait4(process.pid, 0)
        seconds = time.monotonic() - start
    if status != 0:
        sys.exit(f"{command[0]} ended with status {os.waitstatus_to_exitcode(status)}")
    return seconds, usage.ru_maxrss / 1024


def main() -> None:
    seconds_file, path, command = sys.argv[1], sys.argv[2], sys.argv[3:]
    runs = [run_once(path, command) for _ in range(RUNS)]
    seconds, peak = min(run[0] for run in runs), max(run[1] for run in runs)
    print(f"{os.path.basename(path):28} {seconds:8.3f} s {peak:8.1f} MiB")
    with open(seconds_file, "w", encoding="ascii") as out:
        out.write(f"{seconds}\n")


main()
