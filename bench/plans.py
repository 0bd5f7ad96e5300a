#!/usr/bin/env python3
"""Holds the plans of the program against host.py, and against what its renders land.

    plans.py [COUNT [SEED]]     100 graphs, or COUNT, of a number

The graphs are those of agree.py. Each is planned with tiles of 16, 64 and 1,024 pixels, at its whole size and at a fraction
of it. The report is to be that of host.py, and each frame, rendered alone with room for all its tiles, is to land as many as
its plan has entries. It prints each that differs, and at the end how many plans and frames there were; its status is 1 if any
differed.
"""
import re
import sys

import agree
import host

SIDES = (16, 64, 1024)
SCALES = (2, 4, 8)


def landed_by(graph, files, frame, options):
    """How many tiles a frame lands that is rendered alone."""
    said, _, why = agree.left_by(graph, files, ["render", "g.json", "--first", frame, "--last", frame, *options])
    return why or int(re.search(r"^landed (\d+)", said, re.MULTILINE)[1])


def differs(graph, files, options):
    """How many frames were planned, and the first thing that is otherwise than it should be, if any."""
    words = ["plan", "g.json", *options]
    _, wanted = host.run(graph, lambda name: host.Frame(files[name]), words)
    said, left, why = agree.left_by(graph, files, words)
    if why or left or said != wanted:
        return 0, why or (f"puts {sorted(left)}" if left else f"plans {said!r} in place of {wanted!r}")
    frames = re.findall(r"^frame (\d+) entries (\d+)$", said, re.MULTILINE)
    for frame, entries in frames:
        landed = landed_by(graph, files, frame, options)
        if landed != int(entries):
            return 0, f"frame {frame} has {entries} entries and lands {landed}"
    return len(frames), None


def main(words):
    count, seed = (int(it) for it in [*words, *["100", "1"][len(words):]])
    plans = frames = failed = 0
    for number in range(seed, seed + count):
        _, graph, files, _ = agree.made(number)
        for side in SIDES:
            for scale in (1, SCALES[number % len(SCALES)]):
                options = ["--tile", str(side), "--scale", str(scale)]
                planned, why = differs(graph, files, options)
                plans, frames, failed = plans + 1, frames + planned, failed + bool(why)
                if why:
                    print(f"graph {number}, {' '.join(options)}: {why}")
    print(f"plans {plans} frames {frames} differing {failed}")
    return 1 if failed else 0


if __name__ == "__main__":
    sys.exit(main(sys.argv[1:]))
