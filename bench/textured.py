#!/usr/bin/env python3
"""Times textured triangles on one thread, by the direct machine, and by another program where the variable PEER names one.

    PEER='path/of/program words' bench/textured.py [nearest|linear|two|perspective]..

PEER reads a script on standard input, too. Strips of two triangles fill 256 by 256 pixels with a texture of 64 by 64 texels,
repeated, by MODULATE, with a colour a corner, and are blended by their alpha under the depth test:

- nearest: one unit, NEAREST
- linear: one unit, LINEAR
- two: two units, NEAREST and LINEAR
- perspective: one unit, NEAREST, with a q of its own at each corner

Prints seconds of each, nanoseconds a pixel, and pixels a second as a ratio to the peer's. The time of the script without its
draws is taken off. The least of fifteen runs counts, which are taken in turns. To reach: nearest at least 20 times the peer's
pixels a second. Nothing here is claimed by a theorem.
"""

import sys

import timing
from triangles import fixed, memory, script

FILLS = 60
PIXELS = 256 * 256
SIDE = 64
IMAGE = 4096
TO_REACH = {"nearest": 20}
CORNERS = ((-1, -1, -0.9, "ff0000ff"), (1, -1, 0.5, "00ff00c0"), (-1, 1, 0.9, "0000ff80"), (1, 1, -0.5, "ffffff40"))


def texels():
    """An image of red, green, blue and alpha."""
    return b"".join(bytes([4 * x, 4 * y, (x ^ y) * 4, 255 - x - y]) for y in range(SIDE) for x in range(SIDE))


def unit(number, linear):
    """Lines that let a unit take part, with the image that lies in client memory."""
    wanted = "LINEAR" if linear else "NEAREST"
    return [
        f"0 ActiveTexture TEXTURE{number}",
        f"0 BindTexture TEXTURE_2D {number + 1}",
        "0 TexParameteri TEXTURE_2D TEXTURE_MIN_FILTER NEAREST",
        f"0 TexParameteri TEXTURE_2D TEXTURE_MAG_FILTER {wanted}",
        f"0 TexImage2D TEXTURE_2D 0 RGBA {SIDE} {SIDE} 0 RGBA UNSIGNED_BYTE {IMAGE}",
        "0 Enable TEXTURE_2D",
        "0 TexEnvi TEXTURE_ENV TEXTURE_ENV_MODE MODULATE",
        f"0 ClientActiveTexture TEXTURE{number}",
        "0 EnableClientState TEXTURE_COORD_ARRAY",
        "0 TexCoordPointer 4 FIXED 32 16",
    ]


def filled(filters, draws, shares=(1, 1, 1, 1)):
    """Frames that are filled with so many units; s, t and q are scaled by a share a corner."""
    corners = b""
    for (x, y, z, colour), share in zip(CORNERS, shares):
        corners += fixed(x, y, z) + bytes.fromhex(colour) + fixed((x + 1) * 2 * share, (y + 1) * 2 * share, 0, share)
    lines = [*memory(0, corners), *memory(IMAGE, texels()), "0 EnableClientState VERTEX_ARRAY", "0 EnableClientState COLOR_ARRAY"]
    lines += ["0 VertexPointer 3 FIXED 32 0", "0 ColorPointer 4 UNSIGNED_BYTE 32 12"]
    for number, linear in enumerate(filters):
        lines += unit(number, linear)
    lines += ["0 Enable DEPTH_TEST", "0 DepthFunc LEQUAL", "0 Enable BLEND", "0 BlendFunc SRC_ALPHA ONE_MINUS_SRC_ALPHA"]
    for number in range(FILLS):
        lines.append(f"0 Color4x {number * 1000} 0 65536 65536")
        lines += ["0 DrawArrays TRIANGLE_STRIP 0 4"] * draws
    return script(lines)


SCRIPTS = {
    "nearest": lambda draws=True: filled([False], draws),
    "linear": lambda draws=True: filled([True], draws),
    "two": lambda draws=True: filled([False, True], draws),
    "perspective": lambda draws=True: filled([False], draws, (1, 1.5, 0.75, 2)),
}


def main():
    direct = [str(timing.PROGRAM), "direct"]
    for name in sys.argv[1:] or SCRIPTS:
        make = SCRIPTS[name]
        programs = {"draws": (direct, make, 0), "without": (direct, lambda: make(False), 0)}
        if timing.peer():
            programs["peer"], programs["peer without"] = (timing.peer(), make, 0), (timing.peer(), lambda: make(False), 0)
        print(f"-- {name}")
        seconds = timing.least(programs)
        took = seconds["draws"] - seconds["without"]
        print(f"{name}: {took / FILLS / PIXELS * 1e9:.1f} ns a pixel")
        if "peer" in programs:
            wanted = f", to reach {TO_REACH[name]}" if name in TO_REACH else ""
            print(f"{name}: {(seconds['peer'] - seconds['peer without']) / took:.1f} times the peer's pixels a second{wanted}")


if __name__ == "__main__":
    main()
