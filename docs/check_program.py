#!/usr/bin/env python3
"""Runs the built program, and compares its exit statuses, texts and files. No clause speaks of main, nor of what the
adapters do at the real thing: this does. Expected values follow from FORMATS.md, or are another program's, as those of
the examples."""

import fcntl
import hashlib
import os
import resource
import shutil
import signal
import subprocess
import sys
import tempfile
import termios
import time
from pathlib import Path

TOP = Path(__file__).resolve().parent.parent
PROGRAM = TOP / "crates/glreplay/out/glreplay"
EXAMPLES = TOP / "examples"
SECONDS = 60  # for one run; the slowest takes less than one
RED = (EXAMPLES / "red.gls").read_bytes()
REPORT = b"glreport 1\ncounts 0 2 0 0 1\nimages 1\nend\n"
IMAGE = b"P6\n4 4\n255\n" + b"\xff\0\0" * 16
HELP = b"""glreplay replays a script of OpenGL ES 1.1 calls from standard input.

    glreplay run [--batch SLOTS] [--ring BATCHES] [--rail RAIL] < SCRIPT
    glreplay direct < SCRIPT
    glreplay --help
    glreplay --version

The report goes to standard output, the images into the current folder.

run replays the script through the threaded layer. Its options may stand in any order, each at most once:

    --batch SLOTS     slots of eight bytes in a batch, 16 to 8192 (1024)
    --ring BATCHES    batches on their way at once, 1 to 64 (8)
    --rail RAIL       how batches are handed over: epoch, inline (epoch)

With epoch a worker in a thread of its own carries batches out while the script goes on. A new one is started behind each
call that waits, so that a script with many of these is quicker with inline, where each batch is carried out as it is
handed over, and --ring has no use. Report and images are the same with both.

direct carries out each call as its line is read, and its report has no line of counts.

Exit statuses and the form of scripts and reports are told in docs/FORMATS.md.
"""
BAD_WORDS = b"glreplay: bad words\n"
READ_FAULT = b"glreplay: read fault\n"
WRITE_FAULT = b"glreplay: write fault\n"
NO_MEMORY = b"glreplay: no memory\n"
PIPES = {"stdout": subprocess.PIPE, "stderr": subprocess.PIPE}
RAILS = ("epoch", "inline")
# Takes two images of client memory, the second by the name of the first and once the frame was read into it.
SHOTS = b"""glscript 1
context 0 1 1 4
0 image a 1 1 0
0 ReadPixels 0 0 1 1 RGBA UNSIGNED_BYTE 1
0 mem 0 0102
0 image a 1 1 0
end
"""
SHOTS_REPORT = b"glreport 1\n4 0 ReadPixels 4\nimages 3\nend\n"
# A triangle in a frame of 4 by 3, whose corners are written over once it was issued: below the line from the lower right
# corner of the frame to the upper left one lie the middles of three pixels, of two and of one.
TRIANGLE = b"""glscript 1
context 0 4 3 8
0 mem 0 ffff01ffff01
0 EnableClientState VERTEX_ARRAY
0 VertexPointer 2 BYTE 0 0
0 Color4x 65536 32768 0 65536
0 DrawArrays TRIANGLES 0 3
0 mem 0 000000000000
end
"""
TRIANGLE_ROWS = ("ff8000 000000 000000 000000", "ff8000 ff8000 000000 000000", "ff8000 ff8000 ff8000 000000")
LONG = "abcdefghijklmnopqrstuvwxyz-_012"  # one letter fewer than the name of an image may have
MANY = 1000  # of an image with more bytes the hash stands here
# The images of the examples, by their bytes from the top row on, three a pixel; another program's, as the reports are.
EXAMPLE_IMAGES = {
    "batches": {"frame-0": "2 2 ff0000ff0000ff0000ff0000"},
    "clears": {"frame-0": "2 1 0080ff0080ff", "image-half": "2 1 0080ff0080ff"},
    "errors": {"frame-0": "2 2 " + "000000" * 4},
    "images": {
        "frame-0": "2 2 000000000000000000000000",
        "image-again": "1 1 0000ff",
        "image-column": "1 2 ff0000808080",
        "image-upper": "2 1 ff0000ffffff",
        "image-whole": "2 2 ff0000ffffff000000808080",
    },
    "matrices": {"frame-0": "4 2 " + "000000" * 8},
    "memory": {
        "frame-0": "1 1 000000",
        "image-answered": "2 1 ff0000001700",
        "image-edge": "2 1 0000ff000000",
        "image-written": "2 1 ff000000ff00",
    },
    "read_back": {"frame-0": "4 2 " + "00ff00" * 8, "image-read": "4 2 " + "00ff00" * 8},
    "red": {"frame-0": "4 4 " + "ff0000" * 16},
    "refused": {},
    "rows": {
        "frame-0": "3 2 " + "00ffff" * 6,
        "image-between": "4 2 00ffff00ffff00ffff11111100ffff00ffff00ffff111111",
        "image-outside": "4 1 00000000ffff00ffff000000",
    },
    "settings": {"frame-0": "4 2 " + "000000" * 8},
    "stacks": {"frame-0": "1 1 000000"},
    "textured": {"frame-0": "128 128 sha256 f98b5ac11b20931ca0ddb247165c5b5ffddbd4b86b486b12211f6842bf94c158"},
    "tracked": {"frame-0": "1 1 000000"},
    "triangle": {"frame-0": "128 128 sha256 466e332292b05f15594ac8c876c57191d453ea3f3e1488b255d0621b097df0d3"},
    "viewport": {"frame-0": "8 4 " + "ffff00" * 32},
}

wrong = []


def wants(what, given, wanted):
    if given != wanted:
        wrong.append(f"{what}: {short(given)} and not {short(wanted)}")


def short(value):
    text = repr(value)
    return text if len(text) < 300 else f"{text[:140]} .. {text[-140:]}"


def run(words, script, folder, **streams):
    """Exit status, standard output and standard error of one run; closed and full streams are given by `streams`."""
    given = {**PIPES, "cwd": folder, "timeout": SECONDS, **streams}
    if "stdin" not in given:
        given["input"] = script
    try:
        done = subprocess.run([PROGRAM, *words], **given)
    except subprocess.TimeoutExpired:
        return "no end", b"", b""
    return done.returncode, done.stdout, done.stderr


def ended(process):
    """Exit status, standard output and standard error of a run that was begun."""
    try:
        taken, told = process.communicate(timeout=SECONDS)
    except subprocess.TimeoutExpired:
        process.kill()
        return "no end", *process.communicate()
    return process.returncode, taken, told


def script_of(size, memory, lines):
    """A script of one context with a square frame."""
    return "".join(f"{line}\n" for line in ["glscript 1", f"context 0 {size} {size} {memory}", *lines, "end"]).encode()


def report_of(answers, counts, images):
    lines = ["glreport 1", *answers, f"counts 0 {counts}", f"images {images}", "end"]
    return "".join(f"{line}\n" for line in lines).encode()


def without_counts(report):
    return b"".join(line for line in report.splitlines(True) if not line.startswith(b"counts"))


def image_of(width, height, pixels):
    return b"P6\n%d %d\n255\n" % (width, height) + pixels


def files_in(folder):
    return {image.name: image.read_bytes() if image.is_file() else None for image in folder.iterdir()}


def emptied(folder):
    for path in folder.iterdir():
        shutil.rmtree(path) if path.is_dir() and not path.is_symlink() else path.unlink()
    return folder


def texts_and_statuses(folder):
    wants("--help", run(["--help"], b"", folder), (0, HELP, b""))
    wants("--version", run(["--version"], b"", folder), (0, b"glreplay 0.1.0\n", b""))
    for words in ([], ["--help", "run"], ["--version", "--help"], ["run", "--batch", "15"], [b"run\xff"]):
        wants(f"words {words}", run(words, RED, folder), (2, b"", BAD_WORDS))
    wants("a refused script", run(["run"], b"", folder), (4, b"", b"glreplay: line 1: NoEnd\n"))
    wants("files so far", files_in(folder), {})
    wants("standard input closed", run(["run"], None, folder, **closed("stdin", 0)), (3, b"", READ_FAULT))
    wants("standard output closed", run(["--help"], b"", folder, **closed("stdout", 1)), (6, None, WRITE_FAULT))
    wants("standard error closed", run([], b"", folder, **closed("stderr", 2))[0], 2)
    with open("/dev/full", "wb") as full:
        wants("standard output full", run(["run"], RED, folder, stdout=full), (6, None, WRITE_FAULT))
    wants("the image beside a full output", files_in(folder), {"frame-0.ppm": IMAGE})
    wants("run", run(["run"], RED, emptied(folder)), (0, REPORT, b""))
    wants("the image", files_in(folder), {"frame-0.ppm": IMAGE})
    directory = os.open(folder, 0)
    wants("a folder as standard input", run(["run"], None, folder, stdin=directory), (3, b"", READ_FAULT))
    os.close(directory)


def files_in_the_way(folder):
    """What stands in an image's place, or where it is written before, is replaced; a folder stays."""
    image, part = folder / "frame-0.ppm", folder / "frame-0.ppm.part"
    image.mkdir()
    wants("a folder in the image's place", run(["run"], RED, folder), shelf_fault(0))
    wants("the third put of three failing", run(["run"], SHOTS, folder), shelf_fault(2))
    wants("the images beside it", sorted(files_in(folder)), ["frame-0.ppm", "image-a.ppm"])
    image.rmdir()
    wants("images of lines", run(["direct"], SHOTS, folder), (0, SHOTS_REPORT, b""))
    images = {"frame-0.ppm": image_of(1, 1, b"\0" * 3), "image-a.ppm": image_of(1, 1, b"\1\2\0")}
    wants("a name that comes again", files_in(folder), images)
    for path in (image, part):
        os.mkfifo(emptied(folder) / path.name)
        wants(f"a pipe at {path.name}", run(["run"], RED, folder), (0, REPORT, b""))
        wants(f"the files after a pipe at {path.name}", files_in(folder), {"frame-0.ppm": IMAGE})
        other = emptied(folder) / "other"
        other.write_bytes(b"stays")
        path.symlink_to("other")
        wants(f"a link at {path.name}", run(["run"], RED, folder), (0, REPORT, b""))
        wants(f"the files after a link at {path.name}", files_in(folder), {"frame-0.ppm": IMAGE, "other": b"stays"})
    # Two of the longest names, which differ in their last letter, and a short one that both begin with.
    names = [LONG[:8], LONG + "3", LONG + "4"]
    lines = ["0 mem 0 0102030405060708090a0b0c", *(f"0 image {name} 1 1 {4 * k}" for k, name in enumerate(names))]
    report = report_of([], "0 0 0 0", 4)
    wants("the longest names", run(["run"], script_of(1, 12, lines), emptied(folder)), (0, report, b""))
    images = {f"image-{name}.ppm": image_of(1, 1, bytes(range(4 * k + 1, 4 * k + 4))) for k, name in enumerate(names)}
    wants("their files", files_in(folder), images | {"frame-0.ppm": image_of(1, 1, b"\0" * 3)})
    emptied(folder)


def closed(name, number):
    return {name: None, "preexec_fn": lambda: os.close(number)}


def too_many(limit, line):
    return 4, b"", b"glreplay: line %d: TooMany %s\n" % (line, limit.encode())


def shelf_fault(count):
    return 5, b"", b"glreplay: shelf fault after %d images\n" % count


def limited(size):
    """Before a run: files may have so many bytes. A write past the end is short, and the next one fails."""

    def limit():
        signal.signal(signal.SIGXFSZ, signal.SIG_IGN)
        resource.setrlimit(resource.RLIMIT_FSIZE, (size, size))

    return {"preexec_fn": limit, "restore_signals": False}


def short_writes(folder):
    script = script_of(256, 0, ["0 ClearColorx 65536 0 0 0", "0 Clear COLOR_BUFFER_BIT"])
    wants("an image that is cut short", run(["run"], script, folder, **limited(4096)), shelf_fault(0))
    wants("what is left of it", files_in(folder), {})
    (folder / "frame-0.ppm").write_bytes(b"an older one")
    wants("another that is cut short", run(["run"], script, folder, **limited(100000)), shelf_fault(0))
    wants("what stands in its place", files_in(folder), {"frame-0.ppm": b"an older one"})

    # 6000 answers, at least 17 bytes each: more than a pipe holds.
    script = script_of(1, 0, ["0 GetError"] * 6000)
    report = report_of([f"{3 + k} 0 GetError 0" for k in range(6000)], "0 6000 0 0", 1)
    wants("a long report", run(["run"], script, emptied(folder)), (0, report, b""))
    with tempfile.TemporaryFile() as taken:
        cut = run(["run"], script, folder, stdout=taken, **limited(30000))
        wants("a report that is cut short", cut, (6, None, WRITE_FAULT))
        taken.seek(0)
        wants("the beginning that was written", taken.read(), report[:30000])
    # A program that waits at a full pipe, is stopped and goes on, is told that the write was short.
    (folder / "script").write_bytes(script)
    with open(folder / "script", "rb") as source:
        waits = subprocess.Popen([PROGRAM, "run"], cwd=folder, stdin=source, **PIPES)
    seen, deadline = 0, time.monotonic() + SECONDS
    while waits.poll() is None and time.monotonic() < deadline:
        before, seen = seen, held_in(waits.stdout)
        if 0 < seen == before:
            waits.send_signal(signal.SIGSTOP)
            os.waitid(os.P_PID, waits.pid, os.WSTOPPED | os.WEXITED | os.WNOWAIT)
            waits.send_signal(signal.SIGCONT)
            break
        time.sleep(0.05)
    wants("a report through a pipe that is full for a while", ended(waits), (0, report, b""))
    emptied(folder)


def held_in(pipe):
    return int.from_bytes(fcntl.ioctl(pipe, termios.FIONREAD, b"\0" * 4), sys.byteorder)


def large_things(folder):
    # 200 KB of calls, of which the last colour counts. Each has five slots: three are a batch of 16, 204 one of 1024.
    lines = [f"0 ClearColorx {k} 65536 0 65536" for k in range(6999)]
    script = script_of(4, 0, lines + ["0 ClearColorx 65536 0 0 65536", "0 Clear COLOR_BUFFER_BIT"])
    sizes = ([], ["--batch", "16"], ["--batch", "16", "--ring", "1"])
    given = [["run", "--rail", rail, *size] for rail in RAILS for size in sizes]
    for words, batches in ((words, 2334 if "16" in words else 35) for words in [["run"], *given]):
        report = report_of([], f"7001 0 0 {batches}", 1)
        writes = subprocess.Popen([PROGRAM, *words], cwd=emptied(folder), stdin=subprocess.PIPE, **PIPES)
        try:
            for at in range(0, len(script), 4999):
                writes.stdin.write(script[at : at + 4999])
                writes.stdin.flush()
                time.sleep(0.003)
        except BrokenPipeError:
            wrong.append(f"a script through a pipe that pauses, {words}: not read to its end")
        wants(f"a script through a pipe that pauses, {words}", ended(writes), (0, report, b""))
        wants(f"its image, {words}", files_in(folder), {"frame-0.ppm": IMAGE})

    # An image of 256 rows, the lowest first, of 1,024 bytes each: four a pixel.
    number, rows = 1, []
    for _ in range(256):
        row = bytearray()
        for _ in range(1024):
            number = number * 1103515245 + 12345 & 0x7FFFFFFF
            row.append(number >> 16 & 0xFF)
        rows.append(bytes(row))
    lines = [f"0 mem {1024 * k} {row.hex()}" for k, row in enumerate(rows)]
    lines += ["0 image all 256 256 0", "0 ClearColorx 65536 16448 0 0", "0 Clear COLOR_BUFFER_BIT"]
    colours = b"".join(bytes(byte for at, byte in enumerate(row) if at % 4 < 3) for row in reversed(rows))
    # 16448 is 64 * 257, so the byte is 64.
    wanted = {"image-all.ppm": image_of(256, 256, colours), "frame-0.ppm": image_of(256, 256, b"\xff\x40\0" * 65536)}
    script, report = script_of(256, 262144, lines), report_of([], "2 0 0 1", 2)
    wants("large images", run(["run"], script, emptied(folder)), (0, report, b""))
    wants("their bytes", files_in(folder), wanted)

    # As many bytes as a script may have, most of them in a comment, and one more; then a thousand images.
    for size, wanted in ((8388608, (0, report_of([], "0 0 0 0", 1), b"")), (8388609, too_many("SourceBytes", 4))):
        script = script_of(1, 0, ["#" + "-" * (size - len(script_of(1, 0, ["#"])))])
        wants(f"a script of {size} bytes", run(["run"], script, emptied(folder)), wanted)
    script, report = script_of(1, 0, ["0 image a 1 1 0"] * 1000), report_of([], "0 0 0 0", 1001)
    wants("a thousand images", run(["run"], script, emptied(folder)), (0, report, b""))
    emptied(folder)


def options(folder):
    script = (EXAMPLES / "batches.gls").read_bytes()
    answers = ["12 0 GetIntegerv 5888", "20 0 GetError 0"]
    small, large = report_of(answers, "8 2 1 3", 1), report_of(answers, "8 2 1 2", 1)
    for rail in RAILS:
        for given, wanted in (
            (f"--batch 16 --rail {rail}", (0, small, b"")),
            (f"--rail {rail} --ring 1 --batch 0000000016", (0, small, b"")),
            (f"--ring 64 --batch 16 --rail {rail}", (0, small, b"")),
            (f"--rail {rail}", (0, large, b"")),
            (f"--batch 1024 --rail {rail}", (0, large, b"")),
            (f"--rail {rail} --batch 8192 --ring 8", (0, large, b"")),
            (f"--rail {rail} --rail {rail}", (2, b"", BAD_WORDS)),
            (f"--rail {rail} --batch 16 --ring 65", (2, b"", BAD_WORDS)),
            (f"--batch 16 --ring 8 --rail {rail} x", (2, b"", BAD_WORDS)),
            (rail, (2, b"", BAD_WORDS)),
        ):
            wants(f"run {given}", run(["run", *given.split()], script, folder), wanted)
    for given in ("run --rail", "run --rail none", "run --rail ring", "direct --batch 16", "direct direct"):
        wants(given, run(given.split(), script, folder), (2, b"", BAD_WORDS))
    wants("run", run(["run"], script, folder), (0, large, b""))
    wants("run --batch 16", run(["run", "--batch", "16"], script, folder), (0, small, b""))
    wants("direct", run(["direct"], script, folder), (0, without_counts(large), b""))
    emptied(folder)


def triangle(folder):
    """The frame of a draw, with its rows from the top and its columns from the left."""
    image = {"frame-0.ppm": image_of(4, 3, b"".join(map(bytes.fromhex, TRIANGLE_ROWS)))}
    report = report_of([], "4 0 0 1", 1)
    for words in (["run"], *(["run", "--rail", rail] for rail in RAILS), ["direct"]):
        wanted = without_counts(report) if words == ["direct"] else report
        wants(f"a triangle, {words}", run(words, TRIANGLE, emptied(folder)), (0, wanted, b""))
        wants(f"the frame of a triangle, {words}", files_in(folder), image)
    emptied(folder)


def examples(folder):
    """Each script prints what stands beside it over each rail, and puts the images that stand above."""
    scripts = sorted(EXAMPLES.glob("*.gls"))
    for path in scripts:
        script, wanted = path.read_bytes(), path.with_suffix(".txt").read_bytes()
        words = []
        for line in script.decode().splitlines():
            if line.startswith(f"# ./run examples/{path.name}"):
                words = line.split()[3:]
        status, report, told = run(["run", *words], script, emptied(folder))
        good = wanted.startswith(b"glreport")
        wants(path.name, (status, report, told), (0, wanted, b"") if good else (4, b"", wanted))
        images = files_in(folder)
        given = {}
        for name, image in images.items():
            head, size, most, pixels = image.split(b"\n", 3)
            wants(f"{path.name}, {name}: the head", (head, most), (b"P6", b"255"))
            short_form = pixels.hex() if len(pixels) <= MANY else f"sha256 {hashlib.sha256(pixels).hexdigest()}"
            given[name.removesuffix(".ppm")] = f"{size.decode()} {short_form}"
        wants(f"{path.name}: the images", given, EXAMPLE_IMAGES.get(path.stem))
        for rail in RAILS:
            over = run(["run", *words, "--rail", rail], script, emptied(folder))
            wants(f"{path.name} over {rail}", over, (status, report, told))
            wants(f"{path.name}: the images over {rail}", files_in(folder), images)
        run(["direct"], script, emptied(folder))
        wants(f"{path.name}: the images of direct", files_in(folder), images)
    emptied(folder)
    return len(scripts)


REFUSER = r"""
/* Refuses the allocation with the number REFUSED, from 1, with LATER each one after it too, and makes the file TOLD; with
   UNMOVED each file that is to be renamed. */
#define _GNU_SOURCE
#include <errno.h>
#include <fcntl.h>
#include <stddef.h>
#include <stdlib.h>
#include <sys/syscall.h>
#include <unistd.h>

extern void *__libc_malloc(size_t);
extern void *__libc_calloc(size_t, size_t);
extern void *__libc_realloc(void *, size_t);
extern void *__libc_memalign(size_t, size_t);

static long all, chosen = -1;

static int refused(void) {
    if (chosen < 0) chosen = getenv("REFUSED") ? atol(getenv("REFUSED")) : 0;
    long made = __atomic_add_fetch(&all, 1, __ATOMIC_SEQ_CST);
    if (chosen == 0 || made < chosen || (made > chosen && !getenv("LATER"))) return 0;
    if (made == chosen) close(open(getenv("TOLD"), O_CREAT | O_WRONLY, 0600));
    errno = ENOMEM;
    return 1;
}

void *malloc(size_t n) { return refused() ? NULL : __libc_malloc(n); }
void *calloc(size_t n, size_t m) { return refused() ? NULL : __libc_calloc(n, m); }
void *realloc(void *p, size_t n) { return refused() ? NULL : __libc_realloc(p, n); }
void *memalign(size_t a, size_t n) { return refused() ? NULL : __libc_memalign(a, n); }
void *aligned_alloc(size_t a, size_t n) { return refused() ? NULL : __libc_memalign(a, n); }
int renameat(int from, const char *old, int to, const char *new) {
    if (!getenv("UNMOVED")) return (int)syscall(SYS_renameat2, from, old, to, new, 0);
    errno = EACCES;
    return -1;
}
int rename(const char *old, const char *new) { return renameat(AT_FDCWD, old, AT_FDCWD, new); }
int posix_memalign(void **p, size_t a, size_t n) {
    void *got = refused() ? NULL : __libc_memalign(a, n);
    if (!got) return ENOMEM;
    *p = got;
    return 0;
}
"""
# Answers, a get with a list of numbers, images of client memory and of the frame, and so a report of several lines.
STARVED = script_of(
    2,
    64,
    [
        "0 ClearColorx 65536 0 0 65536",
        "0 Clear COLOR_BUFFER_BIT",
        "0 mem 0 0102030405060708",
        "0 image a 2 1 0",
        "0 PushMatrix",
        "0 GetFixedv MODELVIEW_MATRIX 0",
        "0 GetIntegerv MATRIX_MODE 0",
        "0 ReadPixels 0 0 2 2 RGBA UNSIGNED_BYTE 0",
        "0 image b 2 2 0",
        "0 GetError",
    ],
)


def built(source, room, name):
    """A library to be loaded before the program, or None where no compiler builds it."""
    compiler = shutil.which("cc") or shutil.which("gcc")
    text, library = Path(room) / f"{name}.c", Path(room) / f"{name}.so"
    text.write_text(source)
    made = [compiler, "-shared", "-fPIC", "-O1", "-fno-builtin", "-o", library, text, "-ldl"]
    done = compiler and subprocess.run(made, capture_output=True)
    return library if done and done.returncode == 0 else None


COUNTER = r"""
/* Adds a letter to the file TOLD, which it makes, for each thread that is asked for, started, joined and let go. With ALONE
   none can be started. */
#define _GNU_SOURCE
#include <dlfcn.h>
#include <errno.h>
#include <fcntl.h>
#include <pthread.h>
#include <stdlib.h>
#include <unistd.h>

static void tell(const char *letter, int count) {
    int told = open(getenv("TOLD"), O_CREAT | O_APPEND | O_WRONLY, 0600);
    if (write(told, letter, count) != count) abort();
    close(told);
}
__attribute__((constructor)) static void begin(void) { tell("", 0); }

int pthread_create(pthread_t *thread, const pthread_attr_t *how, void *(*run)(void *), void *given) {
    int (*create)(pthread_t *, const pthread_attr_t *, void *(*)(void *), void *) = dlsym(RTLD_NEXT, "pthread_create");
    tell("a", 1);
    int refused = getenv("ALONE") ? EAGAIN : create(thread, how, run, given);
    if (!refused) tell("s", 1);
    return refused;
}
int pthread_join(pthread_t thread, void **result) {
    int (*join)(pthread_t, void **) = dlsym(RTLD_NEXT, "pthread_join");
    int refused = join(thread, result);
    if (!refused) tell("j", 1);
    return refused;
}
int pthread_detach(pthread_t thread) {
    int (*detach)(pthread_t) = dlsym(RTLD_NEXT, "pthread_detach");
    tell("d", 1);
    return detach(thread);
}
"""


def threads_of_runs(folder):
    """Counts the threads of a run: over epoch one for each time from a batch that is submitted on until the driver is
    asked by a call that waits, or the end; and none else. Returns how many runs were counted."""
    colour, clear = "0 ClearColorx 65536 0 0 65536", "0 Clear COLOR_BUFFER_BIT"
    waits = "0 ReadPixels 0 0 1 1 RGBA UNSIGNED_BYTE 0"
    rows = (
        ("no call", [], 0),
        ("calls that wait, with nothing before them", [waits, "0 GetError", "0 Finish"], 0),
        ("a Flush, which is put off and ends its batch", ["0 Flush"], 1),
        ("a batch that is submitted at the end", [colour, clear], 1),
        ("batches until a call waits", [*[clear, "0 Flush"] * 3, clear, waits], 1),
        ("five calls that wait", [colour, *[clear, waits] * 5], 5),
        ("five calls that wait, and a batch behind them", [colour, *[clear, waits] * 5, clear], 6),
        ("a get that waits for nobody", [clear, "0 GetIntegerv MATRIX_MODE 0", clear, "0 Finish"], 1),
        ("a thousand batches of a ring of one", [colour] * 3000, 1),
    )
    runs = 0
    with tempfile.TemporaryDirectory() as room:
        library, told = built(COUNTER, room, "counter"), Path(room) / "told"
        if not library:
            return 0
        given = {**os.environ, "LD_PRELOAD": str(library), "TOLD": str(told)}
        for name, lines, wanted in rows:
            script = script_of(2, 8, lines)
            size = ["--batch", "16", "--ring", "1"] if len(lines) > 1000 else []
            same = run(["run", "--rail", "inline", *size], script, emptied(folder)), files_in(folder)
            wants(f"{name}: status", (same[0][0], same[0][2]), (0, b""))
            bare = (0, without_counts(same[0][1]), b"")
            for words, alone, threads in (
                (["run", *size], False, wanted),
                (["run", "--rail", "epoch", *size], False, wanted),
                (["run", "--rail", "epoch", *size], True, 0),
                (["run", "--rail", "inline", *size], False, 0),
                (["direct"], False, 0),
            ):
                what = f"{name}, {words}{', alone' if alone else ''}"
                told.unlink(missing_ok=True)
                done = run(words, script, emptied(folder), env=given | ({"ALONE": "1"} if alone else {}))
                wants(what, (done, files_in(folder)), (bare if words == ["direct"] else same[0], same[1]))
                if not told.exists():
                    return 0
                counted = tuple(told.read_text().count(letter) for letter in "asjd")
                if alone:
                    # Each batch asks anew, since none was started.
                    wants(f"{what}: threads", (counted[0] >= wanted, counted[1:]), (True, (0, 0, 0)))
                else:
                    wants(f"{what}: threads", counted, (threads, threads, threads, 0))
                runs += 1
    emptied(folder)
    return runs


def allocations(folder):
    """Has a file not take its place, and each allocation of the program fail in turn, alone and with all that follow.
    Returns how many there are."""
    with tempfile.TemporaryDirectory() as room:
        library, told = built(REFUSER, room, "refuser"), Path(room) / "told"
        if not library:
            return None
        (emptied(folder) / "frame-0.ppm").write_bytes(b"an older one")
        unmoved = run(["run"], RED, folder, env={**os.environ, "LD_PRELOAD": str(library), "UNMOVED": "1"})
        wants("a file that can't be renamed", unmoved, shelf_fault(0))
        wants("what stands in its place", files_in(folder), {"frame-0.ppm": b"an older one"})
        answers = ["8 0 GetFixedv 65536" + " 0 0 0 0 65536" * 3, "9 0 GetIntegerv 5888", "10 0 ReadPixels 16"]
        images = {"image-a.ppm": image_of(2, 1, b"\1\2\3\5\6\7")}
        images |= {name: image_of(2, 2, b"\xff\0\0" * 4) for name in ("image-b.ppm", "frame-0.ppm")}
        report = report_of([*answers, "12 0 GetError 0"], "3 3 1 1", 3)
        most = 0
        rails = [(["run", "--rail", rail], report) for rail in RAILS]
        for words, wanted in (*rails, (["direct"], without_counts(report)), (["--help"], None)):
            wanted = wanted or run(words, STARVED, folder)[1]
            whole = {} if words == ["--help"] else images
            for later in (False, True):
                number = 0
                while True:
                    number += 1
                    what = f"{words}, allocation {number} {'and all later' if later else 'alone'} refused"
                    told.unlink(missing_ok=True)
                    given = {**os.environ, "LD_PRELOAD": str(library), "REFUSED": str(number), "TOLD": str(told)}
                    given |= {"LATER": "1"} if later else {}
                    status, taken, text = run(words, STARVED, emptied(folder), env=given)
                    files = files_in(folder)
                    if not told.exists():
                        wants(f"{what}, which it has not", (status, taken, text, files), (0, wanted, b"", whole))
                        break
                    most = max(most, number)
                    if status == 0:
                        wants(what, (taken, text, files), (wanted, b"", whole))
                    else:
                        wants(what, (status, text), (7, NO_MEMORY))
                        wants(f"{what}: the files are whole", {name: whole.get(name) for name in files}, files)
                        wants(f"{what}: a beginning of what is written", taken, wanted[: len(taken)])
                        wants(f"{what}: no report before all images", taken == b"" or files == whole, True)
                    if number > 5000 or len(wrong) > 20:
                        wrong.append(f"{what}: no end")
                        return most
    emptied(folder)
    return most


def main():
    if not PROGRAM.exists():
        print("docs/check_program.py: skipped, since glreplay isn't built; ./run builds it")
        return 0
    with tempfile.TemporaryDirectory() as room:
        folder = Path(room)
        for check in (texts_and_statuses, files_in_the_way, short_writes, large_things, options, triangle):
            check(emptied(folder))
        count = examples(folder)
        counted = threads_of_runs(folder)
        most = allocations(folder)
    for line in wrong:
        print(line)
    if not counted:
        print("docs/check_program.py: no thread was counted, for want of a C compiler, or of pthread_create in the program")
    if not most:
        print("docs/check_program.py: no allocation was refused, for want of a C compiler, or of malloc in the program")
    told = f"statuses, texts, files, {count} examples, the threads of {counted or 'no'} runs"
    told += f" and {most or 'no'} refused allocations are as told"
    print(f"docs/check_program.py: {'FAILED' if wrong else told}")
    return 1 if wrong else 0


if __name__ == "__main__":
    sys.exit(main())
