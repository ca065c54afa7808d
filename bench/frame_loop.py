#!/usr/bin/env python3
"""Times the program `frame_loop`, which clears frames of 256 by 256 pixels with work of its own between the calls, over the
rail with a worker beside the one without threads, where its own work and the renderer's take equally long.

    bench/frame_loop.py [--pin 0,1] [--frames 10000] [--asks 0] [--program PATH]

How much work that is, is found over the rail without threads: with none, the time is the renderer's and the start's, and what
a run with some takes longer is work. Prints the ratio of the two times, of which 0.5 is the least there can be and 0.65 is to
be reached on two free processors, and the share of its time in which the program waited over the rail with a worker: all of it
that isn't work, so that what the front and the rail do in the program's own thread counts as waiting, too. The seconds that
all threads were carried out are told beside it; a thread that waits gives up its time slice and looks again, and so counts.
--pin leaves the program these processors, --asks has it ask for an error every so many frames, for which it waits. The
least of fifteen runs counts, which are taken in turns. Nothing here is claimed by a theorem.
"""

import argparse
import os
import subprocess
import sys
import time
from pathlib import Path

PROGRAM = Path(__file__).resolve().parent.parent / "crates/frame_loop/out/frame_loop"
RUNS = 15
SOME = 20000  # steps of work before a frame, by which a step is timed


def run(words):
    """Seconds of one run, seconds of all its threads, and what it printed."""
    began = time.perf_counter()
    child = subprocess.Popen(words, stdin=subprocess.DEVNULL, stdout=subprocess.PIPE)
    printed = child.stdout.read()
    _, ended, used = os.wait4(child.pid, 0)
    seconds = time.perf_counter() - began
    child.returncode = os.waitstatus_to_exitcode(ended)
    child.stdout.close()
    if child.returncode:
        sys.exit(f"{' '.join(words)} ended with status {child.returncode}")
    return seconds, used.ru_utime + used.ru_stime, printed


def least(programs):
    """The least run of each program, given as name: words."""
    runs = {name: [] for name in programs}
    for _ in range(RUNS):
        for name, words in programs.items():
            runs[name].append(run(words))
    return {name: min(taken) for name, taken in runs.items()}


def main():
    reader = argparse.ArgumentParser(description=__doc__.splitlines()[0])
    reader.add_argument("--pin", help="processors, as 0,1")
    reader.add_argument("--frames", type=int, default=10000)
    reader.add_argument("--asks", type=int, default=0)
    reader.add_argument("--program", type=Path, default=PROGRAM)
    asked = reader.parse_args()
    if not asked.program.exists():
        sys.exit("first build the program: rt run in crates/frame_loop")
    if asked.pin:
        os.sched_setaffinity(0, {int(number) for number in asked.pin.split(",")})

    def words(rail, work, frames=asked.frames):
        return [str(asked.program), rail, str(frames), str(work), str(asked.asks)]

    alone = least({"start": words("inline", 0, 1), "none": words("inline", 0), "some": words("inline", SOME)})
    renderer = alone["none"][0] - alone["start"][0]
    step = (alone["some"][0] - alone["none"][0]) / asked.frames / SOME
    work = round(renderer / asked.frames / step)
    print(f"the renderer: {renderer / asked.frames * 1e6:.1f} microseconds a frame, as long as {work} steps of work")

    equal = least({"none": words("inline", 0), "inline": words("inline", work), "epoch": words("epoch", work)})
    if equal["inline"][2] != equal["epoch"][2]:
        sys.exit("the two rails print different lines")
    own = equal["inline"][0] - equal["none"][0]
    for rail in ("inline", "epoch"):
        print(f"{rail}: {equal[rail][0]:.3f} s, all threads {equal[rail][1]:.3f} s")
    print(f"work: {own / equal['inline'][0]:.2f} of the time of inline")
    print(f"epoch: {equal['epoch'][0] / equal['inline'][0]:.2f} of the time of inline")
    print(f"waited: {1 - own / equal['epoch'][0]:.2f} of the time of epoch")


if __name__ == "__main__":
    main()
