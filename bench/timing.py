"""Times programs on a script, in turns, and prints what they took."""

import os
import re
import shlex
import shutil
import subprocess
import sys
import tempfile
import time
from pathlib import Path

PROGRAM = Path(__file__).resolve().parent.parent / "crates/glreplay/out/glreplay"
RUNS = 15


def peer():
    """The words of another program that the variable PEER names, or None. Its path is made absolute."""
    words = shlex.split(os.environ.get("PEER", ""))
    if words and "/" in words[0]:
        words[0] = str(Path(words[0]).resolve())
    return words or None


def write(path, make):
    """Writes the bytes that a function makes, in a process of its own, whose memory then doesn't count in a peak. Gives
    how many there are."""
    child = os.fork()
    if child == 0:
        path.write_bytes(make())
        os._exit(0)
    if os.waitpid(child, 0)[1]:
        sys.exit(f"{path.name} wasn't written")
    return path.stat().st_size


def run(words, script, folder, status):
    """Seconds and peak kilobytes of one run, which has to end with this status."""
    with open(script, "rb") as given, open(folder / "report", "wb") as report:
        began = time.perf_counter()
        child = subprocess.Popen(words, stdin=given, stdout=report, stderr=subprocess.DEVNULL, cwd=folder)
        _, ended, used = os.wait4(child.pid, 0)
        seconds = time.perf_counter() - began
    if os.waitstatus_to_exitcode(ended) != status:
        sys.exit(f"{words[0]} ended with status {os.waitstatus_to_exitcode(ended)}")
    return seconds, used.ru_maxrss


def instructions(words, make):
    """How many instructions each function of a program carries out, by valgrind, or None without it."""
    if not shutil.which("valgrind"):
        return None
    with tempfile.TemporaryDirectory() as room:
        folder = Path(room)
        write(folder / "script.gls", make)
        counting = ["valgrind", "--tool=callgrind", "--callgrind-out-file=counts", *words]
        with open(folder / "script.gls", "rb") as given:
            subprocess.run(counting, stdin=given, capture_output=True, cwd=folder)
        told = subprocess.run(["callgrind_annotate", "counts"], capture_output=True, text=True, cwd=folder).stdout
    rows = re.findall(r"^ *([\d,]+) \(.*?\)  \S+?:(\S+)", told, re.M)
    return {function: int(count.replace(",", "")) for count, function in rows} or None


def least(programs):
    """The least seconds of each program, given as name: (words, function that makes the script, status). Prints them,
    and a bound on each peak memory, in which that of this process counts."""
    if not PROGRAM.exists():
        sys.exit("first build the program: ./run")
    seconds, peak = {}, {}
    with tempfile.TemporaryDirectory() as room:
        folder = Path(room)
        for name, (_, make, _) in programs.items():
            size = write(folder / f"{name}.gls", make)
            print(f"{name}: a script of {size} bytes")
        for _ in range(RUNS):
            for name, (words, _, status) in programs.items():
                took, memory = run(words, folder / f"{name}.gls", folder, status)
                seconds[name] = min(took, seconds.get(name, took))
                peak[name] = max(memory, peak.get(name, 0))
    for name in programs:
        print(f"{name}: {seconds[name]:.3f} s, peak at most {peak[name] / 1024:.1f} MB")
    return seconds
