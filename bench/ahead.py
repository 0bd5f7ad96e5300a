#!/usr/bin/env python3
"""ahead.py [RUNS [FRAMES [FOLDER]]]: what reading ahead is worth, each the best of 3 runs or of RUNS: 24 frames, or FRAMES,
of 1,920 by 1,080 pixels, r, g, b and a in bytes, of graphs of one, seven and twelve nodes, by one, two and four workers,
with --ahead 0, 1, 2 and 4. It tells milliseconds a frame, and how much of what reading and writing takes is hidden: that is
what a render of the source alone takes by one worker. The frames
are read from and written to files in a folder of its own in memory, or in FOLDER."""
import json
import os
import subprocess
import sys
import tempfile
import time

HERE = os.path.dirname(os.path.dirname(os.path.abspath(__file__)))
PROGRAM = os.environ.get("OFXR", f"{HERE}/crates/ofxr/out/ofxr")
RUNS = int(sys.argv[1]) if len(sys.argv) > 1 else 3
FRAMES = int(sys.argv[2]) if len(sys.argv) > 2 else 24
FOLDER = sys.argv[3] if len(sys.argv) > 3 else "/dev/shm" if os.path.isdir("/dev/shm") else None
ANEW = len(sys.argv) > 3
WIDTH, HEIGHT = 1920, 1080
AHEAD = (0, 1, 2, 4)
WORKERS = (1, 2, 4)


def node(name, effect, clips, **params):
    return {"name": name, "effect": effect, "clips": clips, "params": params}


PLATE = {"name": "plate", "source": "plate.#.pam", "first": 0, "last": FRAMES - 1, "outside": "hold"}
ONE = [PLATE]
FADE = [
    PLATE,
    node("blur", "boxblur", {"Source": "plate"}, rx=2, ry=2),
    node("gain", "gain", {"Source": "blur"}, gain="1.2"),
    node("colour", "saturation", {"Source": "gain"}, amount="1.5"),
    node("blend", "frameblend", {"Source": "plate"}, radius=1),
    node("fade", "dissolve", {"SourceFrom": "colour", "SourceTo": "blend"}, Transition="0.5"),
]
SEVEN = FADE + [node("moved", "translate", {"Source": "fade"}, dx="10.25")]
TWELVE = FADE + [
    node("order", "shuffle", {"Source": "fade"}, r="b", b="r"),
    node("moved", "translate", {"Source": "order"}, dx="10.25"),
    node("squares", "checker", {}),
    node("grain", "grain", {}, amount="0.1"),
    node("over", "merge", {"A": "moved", "B": "squares"}, operation="over"),
    node("sum", "merge", {"A": "over", "B": "grain"}, operation="plus"),
]


def write_frames():
    header = f"P7\nWIDTH {WIDTH}\nHEIGHT {HEIGHT}\nDEPTH 4\nMAXVAL 255\nTUPLTYPE RGB_ALPHA\nENDHDR\n".encode()
    noise = os.urandom(WIDTH * HEIGHT * 4 + FRAMES)
    for frame in range(FRAMES):
        with open(f"plate.{frame}.pam", "wb") as file:
            file.write(header)
            file.write(noise[frame : frame + WIDTH * HEIGHT * 4])


def write_graph(nodes):
    graph = {
        "ofxr": 1,
        "project": {"width": WIDTH, "height": HEIGHT, "depth": "byte", "components": "RGBA"},
        "output": {"node": nodes[-1]["name"], "file": "out.#.pam", "format": "RGB_ALPHA"},
        "range": {"first": 0, "last": FRAMES - 1},
        "nodes": nodes,
    }
    with open("g.json", "w") as file:
        json.dump(graph, file)


def drop_caches():
    os.sync()
    try:
        with open("/proc/sys/vm/drop_caches", "w") as file:
            file.write("3")
    except OSError:
        pass


def timed(*options):
    best = None
    for _ in range(RUNS):
        if ANEW:
            drop_caches()
        begun = time.perf_counter()
        subprocess.run([PROGRAM, "render", "g.json", *options], check=True, stdout=subprocess.DEVNULL)
        took = time.perf_counter() - begun
        best = took if best is None else min(best, took)
    return best / FRAMES * 1000


def copied():
    """What it takes to copy each frame's file to another."""
    best = None
    for _ in range(RUNS):
        begun = time.perf_counter()
        for frame in range(FRAMES):
            subprocess.run(["cp", f"plate.{frame}.pam", f"out.{frame}.pam"], check=True)
        took = time.perf_counter() - begun
        best = took if best is None else min(best, took)
    return best / FRAMES * 1000


def main():
    if not os.access(PROGRAM, os.X_OK):
        sys.exit("ahead.py: build the program first: ./ofxr check examples/first/g.json")
    with tempfile.TemporaryDirectory(prefix="ahead.", dir=FOLDER) as folder:
        os.chdir(folder)
        write_frames()
        print(f"cp of a frame: {copied():.1f} ms")
        write_graph(ONE)
        alone = timed("--workers", "1")
        print(f"a frame read and written alone, by one worker: {alone:.1f} ms")
        for nodes in (ONE, SEVEN, TWELVE):
            write_graph(nodes)
            for workers in WORKERS:
                plain, line = None, []
                for ahead in AHEAD:
                    took = timed("--workers", str(workers), "--ahead", str(ahead))
                    plain = took if plain is None else plain
                    line.append(f"{ahead}: {took:.1f}")
                    if ahead:
                        line[-1] += f" ({(plain - took) / alone:.0%} hidden)"
                print(f"{len(nodes):2} nodes, {workers} workers, --ahead " + ", ".join(line), flush=True)
        os.chdir("/")


main()
