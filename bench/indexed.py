#!/usr/bin/env python3
"""Times draws by indices, names and uploads on one thread, by the direct machine and over the rail without threads.

    bench/indexed.py [client|buffers|names|upload]..

- client: a mesh of 20,000 triangles that 60,000 indices name is drawn 50 times, its vertices and indices in client memory
- buffers: the same with both in buffers, into which they are put once
- names: 1,000 names of buffers are given and deleted, 250 a call, 50 times, and then 4,000
- upload: 64 KB are put into a buffer, 200 times

Prints seconds of each, what the layer takes beside the direct machine, what a draw that is captured takes beside one from
buffers, and how the time of names grows with their number. The time of the script without what is measured is taken off. The
least of fifteen runs counts, which are taken in turns. Nothing here is claimed by a theorem.
"""

import struct
import sys

import timing

SIDE = 100
DRAWS = 50
VERTICES = 16
INDICES = VERTICES + (SIDE + 1) * (SIDE + 1) * 8


def memory(place, data):
    """Lines that write bytes into client memory."""
    step = 4096
    return [f"0 mem {place + at} {data[at : at + step].hex()}" for at in range(0, len(data), step)]


def script(lines):
    """A script of these lines over a frame of 256 by 256 pixels and a megabyte of client memory."""
    return "".join(line + "\n" for line in ["glscript 1", "context 0 256 256 1048576", *lines, "end"]).encode()


def mesh():
    """Lines that write the mesh into client memory: its vertices, of two FIXED numbers each, and its indices, of two bytes."""
    places = [round((at * 2 / SIDE - 1) * 65536) for at in range(SIDE + 1)]
    vertices = b"".join(struct.pack("<2i", x, y) for y in places for x in places)
    indices = []
    for row in range(SIDE):
        for column in range(SIDE):
            first = row * (SIDE + 1) + column
            above = first + SIDE + 1
            indices += [first, first + 1, above, above, first + 1, above + 1]
    return [*memory(VERTICES, vertices), *memory(INDICES, struct.pack(f"<{len(indices)}H", *indices))]


def draws(indices, done):
    """Lines that draw the mesh, each time in another colour."""
    lines = []
    for number in range(DRAWS):
        lines.append(f"0 Color4x {number * 1000} 0 65536 65536")
        lines += [f"0 DrawElements TRIANGLES {SIDE * SIDE * 6} UNSIGNED_SHORT {indices}"] * done
    return lines


def client(done=True):
    return script([*mesh(), "0 EnableClientState VERTEX_ARRAY", f"0 VertexPointer 2 FIXED 0 {VERTICES}", *draws(INDICES, done)])


def buffers(done=True):
    lines = [*mesh(), "0 EnableClientState VERTEX_ARRAY", "0 BindBuffer ARRAY_BUFFER 1", "0 BindBuffer ELEMENT_ARRAY_BUFFER 2"]
    lines.append(f"0 BufferData ARRAY_BUFFER {INDICES - VERTICES} {VERTICES} STATIC_DRAW")
    lines.append(f"0 BufferData ELEMENT_ARRAY_BUFFER {SIDE * SIDE * 12} {INDICES} STATIC_DRAW")
    return script([*lines, "0 VertexPointer 2 FIXED 0 0", *draws(0, done)])


def names(done=True, count=1000):
    lines = []
    for _ in range(DRAWS):
        for call in ("GenBuffers", "DeleteBuffers"):
            lines += [f"0 {call} 250 {first * 4}" for first in range(0, count, 250)] * done
    return script(lines)


def more_names(done=True):
    return names(done, 4000)


def upload(done=True):
    lines = [*memory(16, bytes(at % 251 for at in range(65536))), "0 BindBuffer ARRAY_BUFFER 1"]
    return script([*lines, *["0 BufferData ARRAY_BUFFER 65536 16 STATIC_DRAW"] * (200 * done)])


SCRIPTS = {"client": client, "buffers": buffers, "names": names, "more names": more_names, "upload": upload}


def measured(make):
    """Seconds of what is measured in a script: by the direct machine, and over the rail."""
    direct, run = ([str(timing.PROGRAM), *words] for words in (["direct"], ["run", "--rail", "inline"]))
    without = lambda: make(False)
    programs = {"direct": (direct, make, 0), "direct without": (direct, without, 0)}
    programs |= {"layer": (run, make, 0), "layer without": (run, without, 0)}
    seconds = timing.least(programs)
    return seconds["direct"] - seconds["direct without"], seconds["layer"] - seconds["layer without"]


def main():
    took = {}
    for name in [name for name in SCRIPTS if not sys.argv[1:] or name.split()[-1] in sys.argv[1:]]:
        print(f"-- {name}")
        direct, layer = took[name] = measured(SCRIPTS[name])
        print(f"{name}: {direct:.4f} s by the direct machine, {layer / direct:.2f} of it over the rail")
    if "client" in took and "buffers" in took:
        print(f"captured from client memory: {took['client'][1] / took['buffers'][1]:.2f} of the time from buffers over the rail (at most 1.5)")
    if "names" in took:
        print(f"four times as many names: {took['more names'][0] / took['names'][0]:.2f} of the time by the direct machine (linear: 4)")
    if "upload" in took:
        each = took["upload"][0] / 200
        print(f"64 KB: {each * 1e6:.1f} microseconds an upload by the direct machine, {65536 / each / 1e9:.1f} GB a second")


if __name__ == "__main__":
    main()
