#!/usr/bin/env python3
"""Runs the built program glwhy, and compares its exit statuses and texts. No clause speaks of main: this does. Expected values
follow from FORMATS.md."""

import json
import os
import pty
import random
import re
import subprocess
import sys
import tempfile
from pathlib import Path

TOP = Path(__file__).resolve().parent.parent
PROGRAM = TOP / "crates/glwhy/out/glwhy"
REPLAY = TOP / "crates/glreplay/out/glreplay"
EXAMPLES = TOP / "examples"
RED = EXAMPLES / "red.gls"
SECONDS = 60

wrong = []


def wants(what, given, wanted):
    if given != wanted:
        wrong.append(f"{what}: {given!r} and not {wanted!r}")


def run(*words, text=b"", **more):
    pipes = {"stdout": subprocess.PIPE, "stderr": subprocess.PIPE} | more
    return subprocess.run([PROGRAM, *words], input=text, timeout=SECONDS, **pipes)


def check_statuses():
    red = RED.read_bytes()
    for words, text, status, start in (
        (("check",), red, 0, b"accepted: "),
        (("check", RED), b"", 0, b"accepted: "),
        (("trace",), red, 0, b"3 0 ClearColorx 65536 0 0 65536: put off into batch 1 (slots 5 of 1024)\n"),
        (("counts",), red, 0, b"2 calls: 2 put off, 0 waited, 0 answered by the shadow\n"),
    ):
        done = run(*words, text=text)
        wants(words, (done.returncode, done.stderr), (status, b""))
        wants(words, done.stdout[: len(start)], start)
    for command in ("check", "trace", "counts"):
        done = run(command, text=b"glscript 2\n")
        wants(command, (done.returncode, done.stdout), (4, b""))
        wants(command, done.stderr.split(b"\n")[0], b"<stdin>:1:10: BadHeader: the script doesn't begin with 'glscript 1'")
        done = run(command, text=red.replace(b"COLOR_BUFFER_BIT", b"COLOUR_BUFFER_BIT"))
        wants(command, (done.returncode, done.stdout), (4, b""))
        wants(command, done.stderr.split(b"\n")[0], b"<stdin>:4:9: BadNumber: 'COLOUR_BUFFER_BIT' is no number and no known name")


def check_words():
    for words in (("-h",), ("--help",), ("help",), ("--version",), ("help", "trace")):
        done = run(*words)
        wants(words, (done.returncode, done.stderr, done.stdout != b""), (0, b"", True))
    for words, named, near in (
        (("chekc",), b"'chekc'", b"'check'"),
        (("trace", "--onyl", "waits"), b"'--onyl'", b"'--only'"),
        (("trace", "--only", "error"), b"'error'", b"'errors'"),
        (("counts", "--batch", "15"), b"'15'", b"16"),
        ((), b"", b"Usage"),
    ):
        done = run(*words)
        wants(words, (done.returncode, done.stdout), (2, b""))
        wants(words, (named in done.stderr, near in done.stderr), (True, True))


def check_outside():
    done = run("check", "nowhere.gls")
    wants("no file", (done.returncode, done.stdout), (3, b""))
    wants("no file", done.stderr, b"glwhy: nowhere.gls: No such file or directory (os error 2)\n")
    done = run("check", str(EXAMPLES))
    wants("a folder", (done.returncode, done.stderr.startswith(b"glwhy: ")), (3, True))
    with open("/dev/full", "wb") as full:
        done = run("trace", str(RED), stdout=full)
    wants("full output", (done.returncode, done.stderr), (6, b"glwhy: standard output failed\n"))
    read, write = os.pipe()
    os.close(read)
    done = run("trace", str(RED), stdout=write)
    os.close(write)
    wants("closed output", done.returncode, 6)
    main, terminal = pty.openpty()
    done = subprocess.run([PROGRAM, "trace"], stdin=terminal, capture_output=True, timeout=SECONDS)
    wants("a terminal", (done.returncode, done.stdout), (2, b""))
    wants("a terminal", b"Usage: glwhy trace" in done.stderr, True)
    os.close(main)
    os.close(terminal)


def check_counts():
    """The counts of traces beside those of runs, as words, as JSON, and as lines of a trace."""
    for script in sorted(EXAMPLES.glob("*.gls")):
        if script.stem == "refused":
            continue
        for size in ("16", "1024"):
            with tempfile.TemporaryDirectory() as folder, script.open("rb") as source:
                done = subprocess.run(
                    [REPLAY, "run", "--batch", size, "--rail", "inline"],
                    stdin=source, capture_output=True, cwd=folder, timeout=SECONDS,
                )
            line = next(line for line in done.stdout.decode().splitlines() if line.startswith("counts "))
            wanted = tuple(map(int, line.split()[2:]))
            sums = json.loads(run("counts", "--json", "--batch", size, str(script)).stdout)
            wants(script.stem, tuple(sums[key] for key in ("deferred", "synchronised", "answered", "batches")), wanted)
            lines = run("trace", "--batch", size, str(script)).stdout.decode().splitlines()
            forms = (": .*put off into", ": .*waits because", ": .*answered by the shadow", r"^  batch \d+ ends ")
            wants(script.stem, tuple(sum(bool(re.search(form, line)) for line in lines) for form in forms), wanted)


def check_only():
    """The lines that `--only` lists beside those of the whole trace, and the sums of `--json` beside the same lines."""
    for script in sorted(EXAMPLES.glob("*.gls")):
        if script.stem == "refused":
            continue
        for size in ("16", "1024"):
            lines = run("trace", "--batch", size, str(script)).stdout.decode().splitlines()
            calls = [line for line in lines if not line.startswith("  batch ")]
            errors = [line for line in calls if re.search(r": (replied [^;]*; )?(INVALID_|STACK_|OUT_OF_)\w+(, but \w+ is recorded already)?; ", line)]
            waits = [line for line in calls if "waits because " in line]
            for only, wanted in (("errors", errors), ("waits", waits)):
                listed = run("trace", "--only", only, "--batch", size, str(script)).stdout.decode().splitlines()
                wants(f"{script.stem} --only {only}", listed, wanted)
            sums = json.loads(run("counts", "--json", "--batch", size, str(script)).stdout)
            wants(script.stem, (sums["calls"], sums["slots"]), (len(calls), int(size)))
            wants(script.stem, sum(row["count"] for row in sums["waits"]), len(waits))
            wants(script.stem, sum(row["count"] for row in sums["errors"]), len(errors))
            ends = [line.split(" ends ", 1)[1] for line in lines if line.startswith("  batch ")]
            wants(script.stem, (sum(sums["ends"].values()), sum(sums["used"])), (len(ends), len(ends)))
            wants(script.stem, sums["ends"]["wait"], sum(end.startswith("by a call that waits") for end in ends))


def strings(path, name):
    """The texts between the brackets of a list of a source file."""
    listed = path.read_text().split(f" {name}: ", 1)[1].split("= [", 1)[1].split("];", 1)[0]
    return re.findall(r'"(\w+)"', listed)


def check_names():
    """The calls that this profile leaves out, beside the table of calls. It runs where the program isn't built too."""
    built = re.findall(r"^ +(?:does|asks) \d+ (\w+) ", (TOP / "crates/gl_words/src/table.rt").read_text(), re.M)
    left_out = strings(TOP / "crates/script_verdict/src/calls.rt", "LEFT_OUT")
    wants("calls that are left out", left_out, sorted(set(left_out) - set(built)))
    wants("calls of OpenGL ES 1.1.12", len(built) + len(left_out), 145)


def random_script(dice):
    """A script with calls of many kinds: some wait, some err, some fill a batch."""
    lines = ["glscript 1", f"context 0 {dice.randint(1, 8)} {dice.randint(1, 8)} 4096"]
    for _ in range(dice.randint(1, 120)):
        lines.append("0 " + dice.choice((
            lambda: f"Clear {dice.choice((0x4000, 0x100, 0x4100, 1))}",
            lambda: f"ClearColorx {dice.randint(0, 65536)} 0 {dice.randint(0, 65536)} 65536",
            lambda: f"Enable {dice.choice(('BLEND', 'DEPTH_TEST', 'SCISSOR_TEST', '7'))}",
            lambda: f"MatrixMode {dice.choice(('MODELVIEW', 'PROJECTION', '5000'))}",
            lambda: f"Viewport 0 0 {dice.randint(-1, 8)} {dice.randint(-1, 8)}",
            lambda: f"mem {dice.randint(0, 4000)} {dice.randbytes(dice.randint(1, 40)).hex()}",
            lambda: f"GetIntegerv {dice.choice(('MATRIX_MODE', 'VIEWPORT', '9'))} {dice.randint(0, 500) * 4}",
            lambda: f"LoadMatrixx {dice.randint(0, 500) * 4}",
            lambda: f"Rotatex {dice.randint(0, 10**6)} 0 0 65536",
            lambda: f"GenBuffers {dice.randint(-1, 3)} {dice.randint(0, 500) * 4}",
            lambda: f"BindBuffer ARRAY_BUFFER {dice.randint(0, 4)}",
            lambda: f"BufferData ARRAY_BUFFER {dice.randint(-1, 300)} 0 STATIC_DRAW",
            lambda: "GetError",
            lambda: "PushMatrix",
            lambda: "PopMatrix",
            lambda: "Flush",
            lambda: "Finish",
        ))())
    return ("\n".join([*lines, "end"]) + "\n").encode()


def check_random():
    """The counts of traces on 500 scripts that are made of a seed, beside those of runs."""
    dice = random.Random(1)
    for number in range(500):
        text = random_script(dice)
        size = str(dice.choice((16, 24, 64, 1024)))
        with tempfile.TemporaryDirectory() as folder:
            done = subprocess.run(
                [REPLAY, "run", "--batch", size, "--rail", "inline"],
                input=text, capture_output=True, cwd=folder, timeout=SECONDS,
            )
        line = next(line for line in done.stdout.decode().splitlines() if line.startswith("counts "))
        sums = json.loads(run("counts", "--json", "--batch", size, text=text).stdout)
        given = tuple(sums[key] for key in ("deferred", "synchronised", "answered", "batches"))
        wants(f"script {number}", given, tuple(map(int, line.split()[2:])))


def main():
    check_names()
    if PROGRAM.exists():
        for check in (check_statuses, check_words, check_outside):
            check()
        if REPLAY.exists():
            check_counts()
            check_random()
        check_only()
    else:
        print("docs/check_why.py: crates/glwhy/out/glwhy isn't built, and only names are compared")
    for line in wrong:
        print(line)
    return 1 if wrong else 0


if __name__ == "__main__":
    sys.exit(main())
