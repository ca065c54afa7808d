#!/usr/bin/env python3
"""Times triangles on one thread, by the direct machine, and by another program where the variable PEER names one.

    PEER='path/of/program words' bench/triangles.py [flat|smooth|small|captured]..

PEER reads a script on standard input, too. What is drawn into 256 by 256 pixels:

- flat: strips of two triangles that fill the frame, each in one colour
- smooth: such strips with a colour a corner, the depth test and blending
- small: 10,000 triangles of 8 by 8 pixels, each in one colour
- captured: draws of 300 elements of three arrays in client memory, by the direct machine and over the rail without threads

Prints seconds of each, pixels a second as a ratio to the peer's, and what a captured draw takes beside a direct one. The time of
the script without its draws is taken off. The least of fifteen runs counts, which are taken in turns. To reach: flat at least
40 times the peer's pixels a second, smooth 20 times, small 10 times, and a captured draw at most 1.5 times the direct one.
Nothing here is claimed by a theorem.
"""

import struct
import sys

import timing

FILLS = 60
SMALL = 10000
DRAWS = 100
TO_REACH = {"flat": 40, "smooth": 20, "small": 10}


def fixed(*numbers):
    """Numbers as 16.16 fixed ones in memory."""
    return struct.pack(f"<{len(numbers)}i", *(round(number * 65536) for number in numbers))


def memory(place, data):
    """Lines that write bytes into client memory."""
    step = 4096
    return [f"0 mem {place + at} {data[at : at + step].hex()}" for at in range(0, len(data), step)]


def script(lines):
    """A script of these lines over a frame of 256 by 256 pixels and a megabyte of client memory."""
    return "".join(line + "\n" for line in ["glscript 1", "context 0 256 256 1048576", *lines, "end"]).encode()


def flat(draws=True):
    corners = b"".join(fixed(x, y) for x, y in ((-1, -1), (1, -1), (-1, 1), (1, 1)))
    lines = [*memory(0, corners), "0 EnableClientState VERTEX_ARRAY", "0 VertexPointer 2 FIXED 0 0"]
    for number in range(FILLS):
        lines.append(f"0 Color4x {number * 1000} 0 65536 65536")
        lines += ["0 DrawArrays TRIANGLE_STRIP 0 4"] * draws
    return script(lines)


def smooth(draws=True):
    corners = b""
    for x, y, z, colour in ((-1, -1, -0.9, "ff0000ff"), (1, -1, 0.5, "00ff00c0"), (-1, 1, 0.9, "0000ff80"), (1, 1, -0.5, "ffffff40")):
        corners += fixed(x, y, z) + bytes.fromhex(colour)
    lines = [*memory(0, corners), "0 EnableClientState VERTEX_ARRAY", "0 EnableClientState COLOR_ARRAY", "0 VertexPointer 3 FIXED 16 0"]
    lines += ["0 ColorPointer 4 UNSIGNED_BYTE 16 12", "0 Enable DEPTH_TEST", "0 DepthFunc LEQUAL", "0 Enable BLEND"]
    lines.append("0 BlendFunc SRC_ALPHA ONE_MINUS_SRC_ALPHA")
    for number in range(FILLS):
        lines.append(f"0 Color4x {number * 1000} 0 65536 65536")
        lines += ["0 DrawArrays TRIANGLE_STRIP 0 4"] * draws
    return script(lines)


def small(draws=True):
    corners = b""
    for number in range(SMALL):
        left, bottom = number % 32 / 16 - 1, number // 32 % 32 / 16 - 1
        corners += fixed(left, bottom, left + 1 / 16, bottom, left, bottom + 1 / 16)
    lines = [*memory(0, corners), "0 EnableClientState VERTEX_ARRAY", "0 VertexPointer 2 FIXED 0 0"]
    lines += ["0 Color4x 65536 32768 0 65536", *[f"0 DrawArrays TRIANGLES 0 {3 * SMALL}"] * draws]
    return script(lines)


def captured(draws=True):
    corners = b""
    for number in range(300):
        corners += fixed(number % 7 / 64, number % 5 / 64, 0) + bytes([number % 256, 0, 128, 255]) + fixed(0, 0)
    lines = [*memory(0, corners), "0 EnableClientState VERTEX_ARRAY", "0 EnableClientState COLOR_ARRAY"]
    lines += ["0 EnableClientState TEXTURE_COORD_ARRAY", "0 VertexPointer 3 FIXED 24 0", "0 ColorPointer 4 UNSIGNED_BYTE 24 12"]
    lines += ["0 TexCoordPointer 2 FIXED 24 16", *["0 DrawArrays TRIANGLES 0 300"] * (DRAWS * draws)]
    return script(lines)


SCRIPTS = {"flat": flat, "smooth": smooth, "small": small, "captured": captured}


def main():
    direct, run = ([str(timing.PROGRAM), *words] for words in (["direct"], ["run", "--rail", "inline"]))
    for name in sys.argv[1:] or SCRIPTS:
        make = SCRIPTS[name]
        programs = {"draws": (direct, make, 0), "without": (direct, lambda: make(False), 0)}
        if name == "captured":
            programs["layer"], programs["layer without"] = (run, make, 0), (run, lambda: make(False), 0)
        elif timing.peer():
            programs["peer"], programs["peer without"] = (timing.peer(), make, 0), (timing.peer(), lambda: make(False), 0)
        print(f"-- {name}")
        seconds = timing.least(programs)
        took = seconds["draws"] - seconds["without"]
        if "layer" in programs:
            print(f"captured: {(seconds['layer'] - seconds['layer without']) / took:.2f} of the time of direct, to reach 1.5")
        if "peer" in programs:
            print(f"{name}: {(seconds['peer'] - seconds['peer without']) / took:.1f} times the peer's pixels a second, to reach {TO_REACH[name]}")


if __name__ == "__main__":
    main()
