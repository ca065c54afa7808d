#!/usr/bin/env python3
"""Times whole runs of a script as a program might make it, beside another program where the variable PEER names one.

    PEER='path/of/program words' bench/realistic.py [--seed NUMBER] [--print]

40 frames of 256 by 256 pixels with depth, 160 draws of 300 indices each: two arrays of a mesh lie in buffers, a third and the
indices in client memory, where the colours of each frame are written, and each draw has one of two textures. Every second frame
is read back and kept as an image. Altogether 2,103 calls, of one context; all numbers come from the seed. PEER reads a script on
standard input, too. `--print` prints the script alone.

Prints seconds of each, the ratio to the peer, and what a run takes beside the direct machine. The least of fifteen runs counts,
which are taken in turns. Nothing here is claimed by a theorem.
"""

import argparse
import math
import random
import struct

import timing

CALLS = 2103
FRAMES = 40
DRAWS = 4
ROWS, COLUMNS = 5, 10  # of a mesh: 50 squares of two triangles each
SIDE = 64  # of a texture, in texels
# Places in client memory, which has so many bytes: a frame that is read back comes last.
VERTICES, COORDINATES, COLOURS, INDICES, TEXELS, FRAME, MEMORY = 16, 4096, 8192, 12288, 16384, 65536, 393216


def fixed(*numbers):
    """These numbers in 16.16 fixed, in bytes."""
    return struct.pack(f"<{len(numbers)}i", *(round(number * 65536) for number in numbers))


def write(place, data, step=1024):
    """Lines that write bytes into client memory."""
    return [f"mem {place + at} {data[at : at + step].hex()}" for at in range(0, len(data), step)]


def mesh():
    """The corners of a shell, their coordinates in a texture, and the indices of its triangles."""
    corners = coordinates = b""
    for row in range(ROWS + 1):
        for column in range(COLUMNS + 1):
            around, up = math.pi * (2 * column / COLUMNS - 1), row / ROWS - 0.5
            corners += fixed(math.sin(around) * (1.2 - up), 2 * up, math.cos(around) * (1.2 - up))
            coordinates += fixed(3 * column / COLUMNS, row / ROWS)
    indices = []
    for row in range(ROWS):
        for column in range(COLUMNS):
            first = row * (COLUMNS + 1) + column
            above = first + COLUMNS + 1
            indices += [first, first + 1, above, above, first + 1, above + 1]
    return corners, coordinates, struct.pack(f"<{len(indices)}H", *indices)


def texture(chance, colour):
    """The texels of a chequered texture, red, green, blue and alpha, no two alike."""
    texels = bytearray()
    for row in range(SIDE):
        for column in range(SIDE):
            light = 1.0 if (row // 8 + column // 8) % 2 else 0.5
            texels += bytes(max(0, min(255, round(part * light) + chance.randint(-20, 20))) for part in colour) + b"\xff"
    return bytes(texels)


def prepared(chance):
    """Lines before the first frame: arrays, buffers, textures and the first matrices."""
    corners, coordinates, indices = mesh()
    lines = [*write(VERTICES, corners), *write(COORDINATES, coordinates), *write(INDICES, indices)]
    for name, place, data, pointer in (1, VERTICES, corners, "VertexPointer 3"), (2, COORDINATES, coordinates, "TexCoordPointer 2"):
        lines += [f"BindBuffer ARRAY_BUFFER {name}", f"BufferData ARRAY_BUFFER {len(data)} {place} STATIC_DRAW", f"{pointer} FIXED 0 0"]
    lines += ["BindBuffer ARRAY_BUFFER 0", f"ColorPointer 4 UNSIGNED_BYTE 0 {COLOURS}"]
    lines += [f"EnableClientState {array}" for array in ("VERTEX_ARRAY", "TEXTURE_COORD_ARRAY", "COLOR_ARRAY")]
    for name, colour, filtering in (1, (220, 90, 60), "LINEAR"), (2, (70, 130, 230), "NEAREST"):
        lines += [f"BindTexture TEXTURE_2D {name}"]
        lines += [f"TexParameteri TEXTURE_2D TEXTURE_{size}_FILTER {filtering}" for size in ("MIN", "MAG")]
        lines += [f"TexParameteri TEXTURE_2D TEXTURE_WRAP_{way} REPEAT" for way in "ST"]
        lines += write(TEXELS, texture(chance, colour))
        lines += [f"TexImage2D TEXTURE_2D 0 RGBA {SIDE} {SIDE} 0 RGBA UNSIGNED_BYTE {TEXELS}"]
    lines += ["TexEnvi TEXTURE_ENV TEXTURE_ENV_MODE MODULATE", "Enable TEXTURE_2D", "Enable DEPTH_TEST", "DepthFunc LEQUAL"]
    lines += ["ShadeModel SMOOTH", "Enable CULL_FACE", "FrontFace CCW", "DepthMask 1", "ColorMask 1 1 1 1", "AlphaFuncx ALWAYS 0", "BlendFunc SRC_ALPHA ONE_MINUS_SRC_ALPHA", "ClearColorx 6554 9830 16384 65536", "ClearDepthx 65536"]
    lines += ["Viewport 0 0 256 256", "MatrixMode PROJECTION", "LoadIdentity", "Frustumx -32768 32768 -32768 32768 65536 1310720"]
    return [*lines, "MatrixMode MODELVIEW", "GetError"]


def draw(chance, number):
    """Lines that draw the mesh once: where it stands, how it is turned, and with which texture."""
    place = [(-1.3, 1.2), (1.3, 1.2), (-1.3, -1.3), (1.3, -1.3)][number]
    return [
        "PushMatrix",
        f"Translatex {round(place[0] * 65536)} {round(place[1] * 65536)} {chance.randint(-8, -5) * 65536}",
        f"Rotatex {chance.randint(0, 359) * 65536} {chance.randint(-65536, 65536)} 65536 {chance.randint(-65536, 65536)}",
        f"Scalex {chance.randint(50000, 70000)} 65536 {chance.randint(50000, 70000)}",
        f"BindTexture TEXTURE_2D {chance.randint(1, 2)}",
        f"{chance.choice(['Enable', 'Disable'])} BLEND",
        f"CullFace {chance.choice(['FRONT', 'BACK'])}",
        "GetIntegerv TEXTURE_BINDING_2D 0",
        f"DrawElements TRIANGLES {ROWS * COLUMNS * 6} UNSIGNED_SHORT {INDICES}",
        "IsEnabled BLEND",
        "PopMatrix",
    ]


def frame(chance, number):
    """Lines of one frame."""
    colours = bytes(chance.randint(128, 255) for _ in range(4 * (ROWS + 1) * (COLUMNS + 1)))
    lines = [*write(COLOURS, colours), "Clear 0x4100", "LoadIdentity", f"TexEnvi TEXTURE_ENV TEXTURE_ENV_MODE {chance.choice(['MODULATE', 'DECAL'])}"]
    lines += [f"DepthRangex 0 {chance.randint(60000, 65536)}", f"Rotatex {(number * 9 - 180) * 16384 // 90} 0 0 65536"]
    for each in range(DRAWS):
        lines += draw(chance, each)
    lines += ["GetError", "Flush"]
    if number % 2:
        lines += [f"ReadPixels 0 0 256 256 RGBA UNSIGNED_BYTE {FRAME}", f"image frame-{number} 256 256 {FRAME}"]
    return lines


def realistic(seed):
    """The script of this seed."""
    chance = random.Random(seed)
    lines = prepared(chance)
    for number in range(FRAMES):
        lines += frame(chance, number)
    calls = sum(not line.startswith(("mem ", "image ")) for line in lines)
    lines += ["Finish"] * (CALLS - calls)
    assert CALLS - calls in range(4), calls
    return "".join(line + "\n" for line in ["glscript 1", f"context 0 256 256 {MEMORY}", *(f"0 {line}" for line in lines), "end"]).encode()


def main():
    words = argparse.ArgumentParser()
    words.add_argument("--seed", type=int, default=1)
    words.add_argument("--print", action="store_true")
    words = words.parse_args()
    make = lambda: realistic(words.seed)
    if words.print:
        print(make().decode(), end="")
        return
    program = str(timing.PROGRAM)
    programs = {"direct": ([program, "direct"], make, 0), "inline": ([program, "run", "--rail", "inline"], make, 0)}
    programs["epoch"] = ([program, "run", "--rail", "epoch"], make, 0)
    if timing.peer():
        programs["peer"] = (timing.peer(), make, 0)
    seconds = timing.least(programs)
    for rail in ("inline", "epoch"):
        more = seconds[rail] - seconds["direct"]
        print(f"run over {rail}: {more * 1000:+.1f} ms beside direct, {seconds[rail] / seconds['direct']:.2f} of its time")
    if "peer" in seconds:
        for name in ("direct", "inline", "epoch"):
            print(f"{name}: {seconds[name] / seconds['peer']:.2f} of the peer's time")


if __name__ == "__main__":
    main()
