#!/usr/bin/env python3
"""Holds the program against host.py, which works each pixel out by itself from the documents alone.

    agree.py [COUNT [SEED]]     100 graphs, or COUNT, of a number

Each graph is made of a number: nodes of all effects, sources of all forms, keys, masks, projects of both depths and
components. Its frames are rendered with tiles, a cache, workers and a scale of that number too. Each file, and the report, are to be
those of host.py. It prints each graph that differs, and at the end how many there were; its status is 1 if any differed.
"""
import json
import os
import random
import subprocess
import sys
import tempfile

sys.path.insert(0, os.path.dirname(os.path.abspath(__file__)))
import host

PROGRAM = os.environ.get("OFXR", os.path.join(os.path.dirname(os.path.abspath(__file__)), "../crates/ofxr/out/ofxr"))
# the range of each parameter, narrower than the program's where a pixel would have too many taps to be worked out alone
RANGES = {
    "size": (1, 9), "seed": (0, 999999), "levels": (2, 256), "rx": (0, 4), "ry": (0, 3), "radius": (0, 3), "divisor": (1, 12),
    "x": (-6, 12), "y": (-6, 12), "width": (0, 20), "height": (0, 20), "offset": (-3, 3), "count": (0, 4), "gap": (1, 3),
}
REALS = {"gain": 3, "amount": 2, "dx": 9, "dy": 9}
CHOICES = {
    "axis": ["x", "y"],
    "operation": ["over", "plus", "multiply", "screen", "min", "max", "minus"],
    **{c: ["r", "g", "b", "a", "zero"] for c in "rgba"},
}


def frame(dice):
    """A PAM file of any form."""
    width, height, depth = dice.randint(1, 22), dice.randint(1, 18), dice.randint(1, 4)
    maxval = dice.choice([1, 100, 255, 255, 255, 256, 1000, 65535])
    size = 1 if maxval < 256 else 2
    samples = [dice.randint(0, maxval) for _ in range(width * height * depth)]
    header = f"P7\nWIDTH {width}\nHEIGHT {height}\n# of no meaning\nDEPTH {depth}\nMAXVAL {maxval}\nENDHDR\n"
    return header.encode() + b"".join(v.to_bytes(size, "big") for v in samples)


def plain(dice, effect, kind, name):
    if kind == "choice":
        return dice.choice(CHOICES[name])
    if kind == "fix":
        if name in ("dx", "dy"):
            return dice.choice([0, dice.randint(-9, 9), f"{dice.uniform(-9, 9):.3f}"])
        if name in ("gain", "amount") and effect in ("gain", "saturation"):
            return dice.choice([1, f"{dice.uniform(0, REALS[name]):.4f}"])
        return dice.choice([0, 1, f"{dice.uniform(0, 1):.5f}"])
    if name.startswith("k"):
        return dice.randint(-4, 4)
    low, high = RANGES[name]
    if effect in ("erode", "dilate", "frameblend"):
        high = 2
    return dice.randint(low, high)


def keyed(dice, effect, kind, name):
    frames = sorted(dice.sample(range(-3, 6), dice.randint(1, 3)))
    said = {"keys": [[at, plain(dice, effect, kind, name)] for at in frames]}
    return {**said, "step": True} if dice.random() < 0.3 else said


def source(dice, name, files):
    first = dice.randint(0, 1)
    last = dice.randint(first, 3)
    said = {"name": name, "source": f"{name}.#.pam", "first": first, "last": last}
    for at in range(first, last + 1):
        files[f"{name}.{at}.pam"] = frame(dice)
    if dice.random() < 0.5:
        said["outside"] = dice.choice(["black", "hold"])
    if dice.random() < 0.3:
        said["depth"] = dice.choice(["byte", "short"])
    if dice.random() < 0.3:
        said["components"] = dice.choice(["RGBA", "Alpha"])
    return said


def node(dice, name, names):
    effect = dice.choice(sorted(host.PARAMS))
    while host.clips_of(effect) and not names:
        effect = dice.choice(sorted(host.PARAMS))
    said = {"name": name, "effect": effect}
    clips = {clip: dice.choice(names) for clip in host.clips_of(effect) if clip != "Mask" or dice.random() < 0.7}
    if clips:
        said["clips"] = clips
    params = {}
    for kind, param, _ in host.PARAMS[effect]:
        if dice.random() < 0.75:
            params[param] = (keyed if dice.random() < 0.25 else plain)(dice, effect, kind, param)
    if params:
        said["params"] = params
    return said


def graph_of(dice):
    files, nodes = {}, []
    for place in range(dice.randint(1, 9)):
        name = f"n{place}"
        is_source = dice.random() < 0.3
        nodes.append(source(dice, name, files) if is_source else node(dice, name, [it["name"] for it in nodes]))
    first = dice.randint(0, 2)
    said = {
        "ofxr": 1,
        "project": {
            "width": dice.randint(1, 24), "height": dice.randint(1, 20),
            "depth": dice.choice(["byte", "short"]), "components": dice.choice(["RGBA", "RGBA", "Alpha"]),
        },
        "output": {"node": nodes[-1]["name"], "file": "o#.pam", "format": dice.choice(["RGB_ALPHA", "RGB_ALPHA", "RGB", "GRAYSCALE"])},
        "range": {"first": first, "last": first + dice.randint(0, 2)},
        "nodes": nodes,
    }
    return said, files


def options(dice):
    cache = dice.choice([0, 1, 4096, 4096, 4096])
    side = dice.choice([1, 3, 5, 16, 64])
    workers = 1 if cache == 1 else dice.choice([1, 2, 4, 9])
    scale = dice.choice([1, 1, 2, 4, 8])
    return ["--tile", str(side), "--cache", str(cache), "--workers", str(workers), "--scale", str(scale)]


def made(number):
    """The graph of a number, its files, and the words of a run."""
    dice = random.Random(number)
    graph, files = graph_of(dice)
    return str(number), graph, files, ["render", "g.json", *options(dice)]


def left_by(graph, files, words):
    """What the program prints and the files that it puts, or how it ended otherwise than well."""
    given = {**files, "g.json": json.dumps(graph).encode()}
    with tempfile.TemporaryDirectory() as folder:
        for name, data in given.items():
            with open(f"{folder}/{name}", "wb") as it:
                it.write(data)
        ran = subprocess.run([PROGRAM, *words], cwd=folder, capture_output=True, text=True)
        if ran.returncode:
            return None, {}, f"status {ran.returncode}: {ran.stderr}"
        left = {}
        for name in sorted(set(os.listdir(folder)) - set(given)):
            with open(f"{folder}/{name}", "rb") as it:
                left[name] = it.read()
    return ran.stdout, left, None


def other_files(left, wanted):
    """The first name under which there is another file than is wanted, if there is one."""
    return next((f"{name} differs" for name in sorted({*left, *wanted}) if left.get(name) != wanted.get(name)), None)


def kept(graph, words):
    """How many renders are kept at least: tiles, or where a node renders whole images, of these."""
    cache, side, scale = (host.option(words, *it) for it in (("--cache", 4096), ("--tile", 64), ("--scale", 1)))
    if not any(node.get("effect") in host.WHOLE for node in host.expanded(graph)["nodes"]):
        return cache
    width, height = (-(-graph["project"][it] // scale) for it in ("width", "height"))
    return cache // len(host.tiles((0, 0, width, height), side))


def other_report(graph, said, report, words):
    """Whether another report was printed."""
    said, wanted = said.splitlines(), report.splitlines()
    # a cache that lets renders go has its own count of those that landed or were found
    landed = int(wanted[-1].split()[1])
    if host.option(words, "--cache", 4096) > 0 and kept(graph, words) < landed:
        said, wanted = said[:-1], wanted[:-1]
    return None if said == wanted else f"reports {said} in place of {wanted}"


def differs(graph, files, words, wanted, report):
    """What the program leaves otherwise than host.py does, if anything."""
    said, left, why = left_by(graph, files, words)
    return why or other_files(left, wanted) or other_report(graph, said, report, words)


def hold(runs):
    """Holds the program against host.py over runs, each with what it is called, its graph, its files and its words."""
    graphs = files = failed = 0
    for name, graph, given, words in runs:
        wanted, report = host.run(graph, lambda it: host.Frame(given[it]), words)
        why = differs(graph, given, words, wanted, report)
        graphs += 1
        if why:
            failed += 1
            print(f"graph {name}, {' '.join(words)}: {why}\n{json.dumps(graph)}")
        else:
            files += len(wanted)
    print(f"graphs {graphs} files {files} differing {failed}")
    return 1 if failed else 0


def main(words):
    count, seed = (int(it) for it in [*words, *["100", "1"][len(words):]])
    return hold(made(number) for number in range(seed, seed + count))


if __name__ == "__main__":
    sys.exit(main(sys.argv[1:]))
