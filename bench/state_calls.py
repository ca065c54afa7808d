#!/usr/bin/env python3
"""Times 250,000 calls that set state, every 8th a get of it: through the layer over the rail without threads and over the one
with a worker, by the direct machine, and by another program where the variable PEER names one.

    PEER='path/of/program words' bench/state_calls.py

PEER reads a script on standard input, too. Prints seconds of each, a bound on its peak memory, and ratios; over the rail with
a worker 1.1 times the time of that without threads is to be reached. Reading alone is timed with the last line left out,
so that the script is refused once it is read. What the layer adds to a call, the front and the rail together, is the time
over the rail without threads less that of the direct machine. Where valgrind is there, the front's own instructions are
told beside those of reading. The least of fifteen runs counts, which are taken in turns. Nothing here is claimed by a
theorem.
"""

import timing

CALLS = 250000
FEW = 25000  # for counting instructions
SETTERS = [
    "MatrixMode PROJECTION", "LoadIdentity", "Translatex 65536 0 -65536", "ClearColorx 0 65536 0 65536",
    "EnableClientState VERTEX_ARRAY", "VertexPointer 3 FIXED 12 64", "PixelStorei PACK_ALIGNMENT 4",
    "MatrixMode MODELVIEW", "PushMatrix", "Scalex 65536 65536 65536", "PopMatrix", "ClientActiveTexture TEXTURE1",
    "TexCoordPointer 2 SHORT 0 16", "ClientActiveTexture TEXTURE0",
]
GETS = [
    "GetIntegerv MATRIX_MODE 0", "IsEnabled VERTEX_ARRAY", "GetIntegerv MODELVIEW_STACK_DEPTH 4",
    "GetIntegerv VERTEX_ARRAY_SIZE 8", "GetPointerv VERTEX_ARRAY_POINTER 12", "GetIntegerv PACK_ALIGNMENT 16",
]


def unended(count=CALLS):
    """Lines of so many calls, without the last line."""
    lines = ["glscript 1", "context 0 1 1 128"]
    for number in range(count):
        calls = GETS if number % 8 == 7 else SETTERS
        lines.append(f"0 {calls[(number // 8 if calls is GETS else number - number // 8) % len(calls)]}")
    return "".join(line + "\n" for line in lines).encode()


def state_calls():
    """The whole script."""
    return unended() + b"end\n"


def front_share(run, direct, reading):
    """The front's instructions by those of reading: packing, and what run does more than direct in the functions that hold
    the front and the shadow. What takes batches to the driver, and the driver, stand in others."""

    def more(name):
        return sum(count for function, count in run.items() if name in function) - sum(
            count for function, count in direct.items() if name in function
        )

    front = more("Batch::pack") + more("replay_alone") + max(0, more("gl_tracked::tracked"))
    return front / sum(reading.values())


def main():
    glreplay = str(timing.PROGRAM)
    programs = {
        "run": ([glreplay, "run", "--rail", "inline"], state_calls, 0),
        "epoch": ([glreplay, "run", "--rail", "epoch"], state_calls, 0),
        "direct": ([glreplay, "direct"], state_calls, 0),
        "reading": ([glreplay, "run", "--rail", "inline"], unended, 4),
    }
    if timing.peer():
        programs["peer"] = (timing.peer(), state_calls, 0)
    seconds = timing.least(programs)
    added = seconds["run"] - seconds["direct"]
    print(f"run: {seconds['run'] / seconds['direct']:.2f} of the time of direct")
    print(f"epoch: {seconds['epoch'] / seconds['run']:.2f} of the time of run, {seconds['epoch'] / seconds['direct']:.2f} of direct")
    print(f"a call: the layer adds {added / CALLS * 1e9:.0f} ns, reading takes {seconds['reading'] / CALLS * 1e9:.0f} ns")
    print(f"the layer: {added / seconds['reading']:.2f} of the time of reading")
    if "peer" in seconds:
        print(f"run: {seconds['run'] / seconds['peer']:.2f} of the peer's time")
    few = {"run": lambda: unended(FEW) + b"end\n", "direct": lambda: unended(FEW) + b"end\n", "reading": lambda: unended(FEW)}
    counts = [timing.instructions(programs[name][0], few[name]) for name in few]
    if all(counts):
        print(f"the front alone: {front_share(*counts):.3f} of the instructions of reading, in {FEW} calls")


if __name__ == "__main__":
    main()
