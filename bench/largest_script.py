#!/usr/bin/env python3
"""Times the proved program on the largest script, beside another program where the variable PEER names one.

    PEER='path/of/program words' bench/largest_script.py

PEER reads a script on standard input, too. Prints seconds of each, a bound on its peak memory, and the ratio of the
seconds. The least of fifteen runs counts, which are taken in turns. Nothing here is claimed by a theorem.
"""

import timing

LINES = 262144  # the most that a script may have, and the most bytes
BYTES = 8388608


def largest_script():
    """As many lines and as many bytes as a script may have."""
    body = []
    for number in range(LINES - 4):
        if number % 1024 == 1023:
            body.append("0 GetError")
        elif number % 64 == 63:
            body.append("0 Clear COLOR_BUFFER_BIT")
        else:
            body.append(f"0 ClearColorx {number % 65537:05} 0 65536 0")
    lines = ["glscript 1", "context 0 16 16 0", *body, "#", "end", ""]
    missing = BYTES - len("\n".join(lines))
    for place in range(2, len(lines)):  # blanks fill it up, two a line
        if missing > 1 and lines[place].startswith("0 ClearColorx"):
            lines[place] += "  "
            missing -= 2
    lines[-3] += "-" * missing
    text = "\n".join(lines)
    assert text.count("\n") == LINES and len(text) == BYTES
    return text.encode()


def main():
    programs = {"glreplay": ([str(timing.PROGRAM), "run", "--rail", "inline"], largest_script, 0)}
    if timing.peer():
        programs["peer"] = (timing.peer(), largest_script, 0)
    seconds = timing.least(programs)
    if "peer" in seconds:
        print(f"ratio: {seconds['glreplay'] / seconds['peer']:.2f} of the peer's time")


if __name__ == "__main__":
    main()
