#!/usr/bin/env python3
"""Replays cuts and changes of five scripts, and compares what glreplay says of each with the table in refusals.txt.

    docs/check_refusals.py                  compares the built program with the table
    docs/check_refusals.py --write PROGRAM  writes the table anew, with the answers of another program

The table's answers are those of another program, a plain one, written from the rules of FORMATS.md.
"""

import hashlib
import re
import subprocess
import sys
import tempfile
from concurrent.futures import ThreadPoolExecutor
from pathlib import Path

TOP = Path(__file__).resolve().parent.parent
PROGRAM = TOP / "crates/glreplay/out/glreplay"
TABLE = TOP / "docs/refusals.txt"

SCRIPTS = {
    "red": b"glscript 1\ncontext 0 4 4 0\n0 ClearColorx 65536 0 0 65536\n0 Clear COLOR_BUFFER_BIT\nend\n",
    "errors": b"glscript 1\ncontext 0 1 1 0\n0 Clear 1\n0 GetError\n0 Flush\n0 Finish\n0 GetError\nend\n",
    "matrices": b"glscript 1\ncontext 0 1 1 0\n0 PopMatrix\n0 MatrixMode PROJECTION\n0 Frustumx -1 1 -1 1 1 2\n0 GetError\nend\n",
    "pixels": b"glscript 1\ncontext 0 2 1 64\n0 mem 4 0aFF10\n0 ReadPixels 0 0 1 1 RGBA UNSIGNED_BYTE 8\n0 GetIntegerv MATRIX_MODE 0\n0 image shot-1 2 1 3\nend\n",
    "spelled otherwise": b"\n# red\r\nglscript 1\r\n context\t0 0x2 03 -0\n00 ClearColorx 0xFfff -1 ONE 9\n0 Clear 0x4000\nend\r\n#",
}
# What a byte is replaced by.
BYTES = b"\n\r\t #05-xA_9\x7f\x80"
# The letters of the table: one for each fault.
LETTERS = {
    "NotText": "T", "BadHeader": "H", "UnknownWord": "U", "WrongCount": "W", "BadNumber": "N", "OutOfRange": "R",
    "NoSuchContext": "S", "TooMany": "M", "NoEnd": "E", "AfterEnd": "A",
}


def changed(script, place):
    """The script cut before this place, without the byte there, with it twice, and with each other byte in its stead."""
    front, byte, back = script[:place], script[place : place + 1], script[place + 1 :]
    return [front, front + back, front + byte * 2 + back, *(front + bytes([other]) + back for other in BYTES)]


def answer(words, script):
    """`3N` for a BadNumber at line 3, or eight digits of a sum over report and images."""
    with tempfile.TemporaryDirectory() as folder:
        done = subprocess.run(words, input=script, capture_output=True, cwd=folder)
        images = sorted(Path(folder).iterdir())
        if done.returncode == 0 and not done.stderr:
            told = done.stdout + b"".join(image.name.encode() + image.read_bytes() for image in images)
            return hashlib.sha256(told).hexdigest()[:8]
        said = re.fullmatch(r"glreplay: line (\d+): ((?!TooMany)\w+|TooMany Contexts)\n", done.stderr.decode())
        if done.returncode != 4 or done.stdout or images or not said:
            return f"status {done.returncode}, {done.stderr!r}, {len(done.stdout)} bytes of report, {len(images)} images"
        return said.group(1) + LETTERS.get(said.group(2).split()[0], said.group(2))


def rows(program):
    """Each place of each script, with the answers to its changes."""
    with ThreadPoolExecutor() as pool:
        for name, script in SCRIPTS.items():
            for place in range(len(script)):
                answers = pool.map(lambda other: answer([*program, "direct"], other), changed(script, place))
                yield f"{name}, {place}: {' '.join(answers)}"


def main():
    if sys.argv[1:2] == ["--write"]:
        TABLE.write_text("".join(row + "\n" for row in rows(sys.argv[2:])))
        return 0
    if not PROGRAM.exists():
        print("docs/check_refusals.py: skipped, since glreplay isn't built; ./run builds it")
        return 0
    wrong = 0
    for wanted, given in zip(TABLE.read_text().splitlines(), rows([str(PROGRAM)]), strict=True):
        if wanted != given:
            wrong += 1
            print(f"wanted: {wanted}\ngiven:  {given}")
    print(f"docs/check_refusals.py: {f'{wrong} rows FAILED' if wrong else 'every refusal is that of the table'}")
    return 1 if wrong else 0


if __name__ == "__main__":
    sys.exit(main())
