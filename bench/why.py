#!/usr/bin/env python3
"""Times `glwhy trace`, `glwhy counts` and `glreplay direct` on a script of 262,144 lines, prints the ratios, and fails where one is
above 2. Both programs have to be built."""

import subprocess
import sys
import tempfile
import time
from pathlib import Path

TOP = Path(__file__).resolve().parent.parent
REPLAY = TOP / "crates/glreplay/out/glreplay"
WHY = TOP / "crates/glwhy/out/glwhy"
LINES = 262_144
RUNS = 5
MOST = 2


def timed(words, text, folder):
    begun = time.monotonic()
    subprocess.run(words, input=text, stdout=subprocess.DEVNULL, cwd=folder, check=True)
    return time.monotonic() - begun


def main():
    body = b"0 ClearColorx 65536 0 0 65536\n" * (LINES - 3)
    text = b"glscript 1\ncontext 0 4 4 64\n" + body + b"end\n"
    with tempfile.TemporaryDirectory() as folder:
        direct, trace, counts = (
            min(timed(words, text, folder) for _ in range(RUNS))
            for words in ([REPLAY, "direct"], [WHY, "trace"], [WHY, "counts"])
        )
    print(f"direct {direct:.3f} s, trace {trace:.3f} s ({trace / direct:.2f}), counts {counts:.3f} s ({counts / direct:.2f})")
    return 1 if max(trace, counts) > MOST * direct else 0


if __name__ == "__main__":
    sys.exit(main())
