#!/usr/bin/env python3
"""Times 2,000 calls that each wait, behind a clear: over the rail without threads, and over the one with a worker.

    bench/waiting_calls.py

Over the rail with a worker each of them ends an interval: the worker is joined, and the next clear starts one. Prints seconds
of each, and microseconds that an interval costs: the difference of the two by the number of calls. The least of fifteen runs
counts, which are taken in turns. Nothing here is claimed by a theorem.
"""

import timing

WAITS = 2000


def waiting_calls():
    """The whole script: a clear of one pixel, and a call that waits for it."""
    lines = ["glscript 1", "context 0 1 1 0", *["0 Clear COLOR_BUFFER_BIT", "0 GetError"] * WAITS, "end"]
    return "".join(line + "\n" for line in lines).encode()


def main():
    run = [str(timing.PROGRAM), "run", "--rail"]
    seconds = timing.least({rail: ([*run, rail], waiting_calls, 0) for rail in ("inline", "epoch")})
    print(f"epoch: {seconds['epoch'] / seconds['inline']:.2f} of the time of inline")
    print(f"an interval costs {(seconds['epoch'] - seconds['inline']) / WAITS * 1e6:.1f} microseconds")


if __name__ == "__main__":
    main()
