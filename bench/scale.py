#!/usr/bin/env python3
"""scale.py [RUNS [FRAMES]] [--limit | --all]: what --scale is worth, and that its files are the same whatever the tiles
and workers.

It renders frames of 1,920 by 1,080 pixels, r, g, b and a in bytes, through twelve nodes, from and to files in a folder of
its own in memory. First one frame at each scale, with tiles of 32, 64 and 1,024 and with one and four workers: of each
scale all files are to be the same bytes. Then 24 frames, or FRAMES, at each scale by one and four workers, each the best of
3 runs or of RUNS, the scales by turns: milliseconds a frame, what share of the whole that is, and how much memory a run
takes; beside it a render of the plate alone, which is what reading, reducing and writing take. At a quarter and four workers
a fifth of the whole is the limit.

With --limit it has, in place of that, and with --all behind it, five frames of 8,192 by 8,192 pixels in two bytes a sample,
of 2^29 bytes each, wanted at once: the fifth is above what may be held, at an eighth as at the whole. That takes 3 GB.

The status is 1 where files differ, the limit isn't met, or the fifth isn't refused."""
import hashlib
import json
import os
import subprocess
import sys
import tempfile
import time

HERE = os.path.dirname(os.path.dirname(os.path.abspath(__file__)))
PROGRAM = os.environ.get("OFXR", f"{HERE}/crates/ofxr/out/ofxr")
NUMBERS = [int(word) for word in sys.argv[1:] if word.isdecimal()]
RUNS = NUMBERS[0] if NUMBERS else 3
FRAMES = NUMBERS[1] if len(NUMBERS) > 1 else 24
WIDTH, HEIGHT = 1920, 1080
SCALES = (1, 2, 4, 8)
LIMIT = 0.2


def node(name, effect, clips, **params):
    return {"name": name, "effect": effect, "clips": clips, "params": params}


PLATE = {"name": "plate", "source": "p#.pam", "first": 0, "last": FRAMES - 1, "outside": "hold"}
TWELVE = [
    PLATE,
    node("blur", "boxblur", {"Source": "plate"}, rx=2, ry=2),
    node("gain", "gain", {"Source": "blur"}, gain="1.2"),
    node("colour", "saturation", {"Source": "gain"}, amount="1.5"),
    node("blend", "frameblend", {"Source": "plate"}, radius=1),
    node("fade", "dissolve", {"SourceFrom": "colour", "SourceTo": "blend"}, Transition={"keys": [[0, 0], [23, 1]]}),
    node("order", "shuffle", {"Source": "fade"}, r="b", b="r"),
    node("moved", "translate", {"Source": "order"}, dx="10.25"),
    node("squares", "checker", {}),
    node("grain", "grain", {}, amount="0.1"),
    node("over", "merge", {"A": "moved", "B": "squares"}, operation="over"),
    node("sum", "merge", {"A": "over", "B": "grain"}, operation="plus"),
]


def write_frames():
    header = f"P7\nWIDTH {WIDTH}\nHEIGHT {HEIGHT}\nDEPTH 4\nMAXVAL 255\nTUPLTYPE RGB_ALPHA\nENDHDR\n".encode()
    noise = os.urandom(WIDTH * HEIGHT * 4 + FRAMES)
    for frame in range(FRAMES):
        with open(f"p{frame}.pam", "wb") as file:
            file.write(header)
            file.write(noise[frame : frame + WIDTH * HEIGHT * 4])


def write_graph(nodes, width=WIDTH, height=HEIGHT, last=FRAMES - 1):
    graph = {
        "ofxr": 1,
        "project": {"width": width, "height": height, "depth": "byte", "components": "RGBA"},
        "output": {"node": nodes[-1]["name"], "file": "out.#.pam", "format": "RGB_ALPHA"},
        "range": {"first": 0, "last": last},
        "nodes": nodes,
    }
    with open("g.json", "w") as file:
        json.dump(graph, file)


def render(*options):
    """Its seconds, and the most memory that it took, in MB."""
    begun = time.perf_counter()
    run = subprocess.Popen([PROGRAM, "render", "g.json", *map(str, options)], stdout=subprocess.DEVNULL)
    _, status, usage = os.wait4(run.pid, 0)
    run.returncode = os.waitstatus_to_exitcode(status)
    if run.returncode:
        sys.exit(f"scale.py: status {run.returncode} of {options}")
    return time.perf_counter() - begun, usage.ru_maxrss // 1024


def file_of(*options):
    """The header and the sum of the bytes that a run of one frame puts."""
    render("--last", 0, *options)
    with open("out.0.pam", "rb") as file:
        text = file.read()
    os.remove("out.0.pam")
    header = text.split(b"\n")
    return f"{header[1].decode()} {header[2].decode()}, {len(text):,} bytes, {hashlib.sha256(text).hexdigest()[:16]}"


def same_files():
    """Whether at each scale one frame has the same bytes whatever the tiles and workers."""
    same = True
    for scale in SCALES:
        found = {
            file_of("--scale", scale, "--tile", side, "--workers", workers, *cache)
            for side in (32, 64, 1024)
            for workers in (1, 4)
            for cache in ((), ("--cache", 0))
        }
        same &= len(found) == 1
        print(f"--scale {scale}, 12 runs: {len(found)} file{'s' if len(found) > 1 else ''}: {'; '.join(sorted(found))}", flush=True)
    return same


def times(nodes, workers):
    """The least milliseconds a frame of each scale, and the memory of it."""
    write_graph(nodes)
    best = {}
    for _ in range(RUNS):
        for scale in SCALES:
            took = render("--scale", scale, "--workers", workers)
            best[scale] = min(best.get(scale, took), took)
    return {scale: (took / FRAMES * 1000, memory) for scale, (took, memory) in best.items()}


def is_fast():
    """Whether a quarter takes a fifth of the whole at most, by four workers."""
    share = None
    for nodes in ([PLATE], TWELVE):
        for workers in (1, 4):
            best = times(nodes, workers)
            said = ", ".join(f"{q}: {ms:.1f} ms ({ms / best[1][0]:.3f}), {mb} MB" for q, (ms, mb) in best.items())
            print(f"{len(nodes):2} nodes, {workers} workers, --scale {said}", flush=True)
            share = best[4][0] / best[1][0]
    print(f"12 nodes, 4 workers, a quarter: {share:.3f} of the whole, where {LIMIT} is the limit")
    return share <= LIMIT


def is_counted_whole():
    """Whether a frame that is too much is refused by its file's size, though it would be reduced."""
    side, count = 8192, 5
    with open("deep.pam", "wb") as file:
        file.write(f"P7\nWIDTH {side}\nHEIGHT {side}\nDEPTH 1\nMAXVAL 65535\nENDHDR\n".encode())
        file.truncate(file.tell() + side * side * 2)
    sources = [{"name": f"s{k}", "source": "deep.pam", "first": 0, "last": 0} for k in range(count)]
    nodes = list(sources)
    for k in range(1, count):
        nodes.append(node(f"m{k}", "merge", {"A": nodes[-1]["name"] if k > 1 else "s0", "B": f"s{k}"}, operation="plus"))
    right = True
    for scale in (8, 1):
        write_graph(nodes, 64, 64, 0)
        begun = time.perf_counter()
        run = subprocess.run([PROGRAM, "render", "g.json", "--scale", str(scale)], capture_output=True, text=True)
        said = f"status {run.returncode}, {run.stderr.strip()}"
        right &= said == f"status 3, ofxr: frame: s{count - 1} 0 P6 {count << 29}"
        print(f"five frames of 2^29 bytes, --scale {scale}: {said} ({time.perf_counter() - begun:.1f} s)", flush=True)
    write_graph(nodes[: count - 1] + [it for it in nodes[count:-1]], 64, 64, 0)
    took, memory = render("--scale", 8)
    print(f"four of them, --scale 8: status 0 ({took:.1f} s, {memory} MB)", flush=True)
    return right


def main():
    if not os.access(PROGRAM, os.X_OK):
        sys.exit("scale.py: build the program first: ./ofxr check examples/first/g.json")
    right = True
    with tempfile.TemporaryDirectory(prefix="scale.", dir="/dev/shm" if os.path.isdir("/dev/shm") else None) as folder:
        os.chdir(folder)
        if "--limit" not in sys.argv:
            write_frames()
            write_graph(TWELVE)
            right = same_files()
            right &= is_fast()
        if "--limit" in sys.argv or "--all" in sys.argv:
            right &= is_counted_whole()
        os.chdir("/")
    sys.exit(0 if right else 1)


main()
