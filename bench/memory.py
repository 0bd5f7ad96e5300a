#!/usr/bin/env python3
"""Refuses the program memory, and looks at what it leaves.

    memory.py [NAME..]      first, diamond, whole, ahead, scale, hd and edges, or those that are named

Of the first six each allocation is refused once, by one worker and then by four, whose order is another at each run;
all allocations from each one on are refused; and each thread is refused once. Of the last two the program is given less
memory than it needs, in twenty steps from what it needs to start, by the system's limit of its address space. A run is
right where its status is 0, and the report and all files are those of host.py, or 6, and the files that are there are the
first ones, each whole and right, the report is not there and the line is, or a part of it. It prints how many runs there
were of each kind, and each that was not right: then its status is 1.
"""
import json
import os
import resource
import shutil
import subprocess
import sys
import tempfile

HERE = os.path.dirname(os.path.abspath(__file__))
sys.path.insert(0, HERE)
import host

PROGRAM = os.path.realpath(os.path.join(HERE, "../crates/ofxr/out/ofxr"))
LINE = b"ofxr: memory\n"


def source(name, last=0):
    return {"name": name, "source": f"{name}#.pam", "first": 0, "last": last, "outside": "hold"}


def node(name, effect, clips=(), **params):
    return {"name": name, "effect": effect, "clips": dict(clips), "params": params}


def graph(nodes, width, height, last=0, **members):
    return {
        "ofxr": 1,
        "project": {"width": width, "height": height, "depth": "byte", "components": "RGBA"},
        "output": {"node": nodes[-1]["name"], "file": "o#.pam", "format": "RGB_ALPHA"},
        "range": {"first": 0, "last": last},
        "nodes": nodes,
        **members,
    }


def twelve_nodes():
    """What a compositor's graph has: a plate, seven effects over it, a dissolve, two generators and two merges."""
    fade = {"keys": [[0, 0], [1, 1]]}
    return [
        source("p", 1),
        node("blur", "boxblur", {"Source": "p"}, rx=2, ry=2),
        node("gain", "gain", {"Source": "blur"}, gain="1.2"),
        node("saturation", "saturation", {"Source": "gain"}, amount="1.5"),
        node("blend", "frameblend", {"Source": "p"}, radius=1),
        node("dissolve", "dissolve", {"SourceFrom": "saturation", "SourceTo": "blend"}, Transition=fade),
        node("shuffle", "shuffle", {"Source": "dissolve"}),
        node("translate", "translate", {"Source": "shuffle"}, dx="10.25"),
        node("checker", "checker"),
        node("grain", "grain", {}, amount="0.1"),
        node("over", "merge", {"A": "translate", "B": "checker"}),
        node("plus", "merge", {"A": "over", "B": "grain"}, operation="plus"),
    ]


# A graph, the sides of its source frames, and the side of its tiles.
GRAPHS = {
    "first": (graph([node("s", "solid", {}, r=1, g="0.5", b=0, a=1)], 2, 1), (0, 0), 64),
    "diamond": (
        graph(
            [source("s"), node("b", "boxblur", {"Source": "s"}, rx=1, ry=1), node("m", "merge", {"A": "b", "B": "b"}, operation="plus")],
            16, 16,
        ),
        (16, 16), 8,
    ),
    "whole": (
        graph([source("s", 1), node("a", "autogain", {"Source": "s"}), node("b", "boxblur", {"Source": "a"}, rx=1, ry=1)], 12, 9, 1),
        (12, 9), 8,
    ),
    "ahead": (graph([source("s", 4), node("n", "invert", {"Source": "s"})], 4, 2, 4), (4, 2), 64),
    "scale": (graph([source("s", 1), node("b", "boxblur", {"Source": "s"}, rx=3, ry=1)], 13, 9, 1), (13, 9), 4),
    "hd": (graph(twelve_nodes(), 96, 54, 1), (96, 54), 32),
    "edges": (graph([source("p", 2), node("b", "boxblur", {"Source": "p"}, rx=1, ry=1)], 160, 160, 2), (160, 160), 64),
}
# Those whose allocations are refused one after another, and those that need much more than the program needs to start.
COUNTED, LIMITED = ("first", "diamond", "whole", "ahead", "scale", "hd"), ("hd", "edges")
# What is ordered besides.
OPTIONS = {"ahead": ["--ahead", "2"], "scale": ["--scale", "2"]}


def frame(number, width, height):
    raster = bytes((x * 7 + y * 3 + number * 31 + c * 5) % 256 for y in range(height) for x in range(width) for c in range(4))
    return f"P7\nWIDTH {width}\nHEIGHT {height}\nDEPTH 4\nMAXVAL 255\nENDHDR\n".encode() + raster


class Trial:
    """A graph in a folder, what a render of it leaves by host.py, and what was found."""

    def __init__(self, name, folder, refuser):
        made, sides, self.tile = GRAPHS[name]
        self.name, self.at, self.refuser, self.told = name, folder, refuser, os.path.join(folder, "told")
        self.runs, self.wrong, self.statuses = 0, 0, {}
        self.write("g.json", json.dumps(made).encode())
        for one in made["nodes"]:
            for number in range(one.get("last", -1) + 1):
                self.write(one["source"].replace("#", str(number)), frame(number, *sides))
        words = ["render", "g.json", "--tile", str(self.tile), *OPTIONS.get(name, [])]
        self.files, self.report = host.run(made, lambda it: host.Frame(self.read(it)), words)

    def write(self, name, data):
        with open(os.path.join(self.at, name), "wb") as it:
            it.write(data)

    def read(self, name):
        with open(os.path.join(self.at, name), "rb") as it:
            return it.read()

    def run(self, workers, limit=None, **refused):
        """A render of which this allocation, each from it on, or this thread is refused, or that has so much memory."""
        for name in self.files:
            if os.path.exists(os.path.join(self.at, name)):
                os.remove(os.path.join(self.at, name))
        words = [PROGRAM, "render", "g.json", "--tile", str(self.tile), "--workers", str(workers)]
        words += OPTIONS.get(self.name, [])
        how = {"cwd": self.at, "stdin": subprocess.DEVNULL, "capture_output": True, "timeout": 100}
        if limit:
            return subprocess.run(words, preexec_fn=lambda: resource.setrlimit(resource.RLIMIT_AS, (limit, limit)), **how)
        told = {f"REFUSE_{name.upper()}": str(number) for name, number in refused.items()}
        return subprocess.run(words, env={"LD_PRELOAD": self.refuser, "REFUSE_TOLD": self.told, **told}, **how)

    def judge(self, ran, what, workers):
        """Notes a run, and tells it where it isn't right."""
        there = [name for name in self.files if os.path.exists(os.path.join(self.at, name))]
        right = there == list(self.files)[: len(there)] and all(self.read(name) == self.files[name] for name in there)
        if ran.returncode == 0:
            said, wanted = ran.stdout.decode(), self.report
            if workers > 1:
                # which tiles are found kept depends on who comes first
                said, wanted = (it.split("landed")[0] for it in (said, wanted))
            right &= len(there) == len(self.files) and said == wanted and ran.stderr == b""
        else:
            right &= ran.returncode == 6 and ran.stdout == b"" and LINE.startswith(ran.stderr)
        self.runs += 1
        self.statuses[ran.returncode] = self.statuses.get(ran.returncode, 0) + 1
        if not right:
            self.wrong += 1
            print(f"{self.name}: {what}: status {ran.returncode}, {ran.stdout!r}, {ran.stderr!r}, files {there}", flush=True)

    def tell(self, what):
        statuses = ", ".join(f"{count} of status {status}" for status, count in sorted(self.statuses.items()))
        print(f"{self.name}: {what}: {self.runs} runs, {statuses}, {self.wrong} not right", flush=True)
        found = (self.runs, self.wrong)
        self.runs, self.wrong, self.statuses = 0, 0, {}
        return found

    def counts(self, workers):
        """How many allocations and threads a run has, of a few the most."""
        found = []
        for _ in range(3 if workers > 1 else 1):
            self.judge(self.run(workers), "nothing is refused", workers)
            found.append([int(it) for it in self.read("told").split()])
        return [max(it) for it in zip(*found)]


def refuse_each(trial):
    found = []
    for workers in (1, 4):
        memory, threads = trial.counts(workers)
        for number in range(1, memory + 1):
            trial.judge(trial.run(workers, memory=number), f"allocation {number} by {workers}", workers)
        found.append(trial.tell(f"{memory} allocations, each refused, {workers} workers"))
        for number in range(1, memory + 1):
            trial.judge(trial.run(workers, **{"from": number}), f"all from allocation {number} on by {workers}", workers)
        found.append(trial.tell(f"{memory} allocations, all from each on refused, {workers} workers"))
        for number in range(1, threads + 1):
            trial.judge(trial.run(workers, thread=number), f"thread {number} of {workers}", workers)
        if threads:
            found.append(trial.tell(f"{threads} threads, each refused, {workers} workers"))
    return found


def least(works):
    """The least memory, to 4 KiB, with which this works."""
    low, high = 1 << 16, 1 << 32
    while high - low > 1 << 12:
        middle = (low + high) // 2
        high, low = (middle, low) if works(middle) else (high, middle)
    return high


def limit_in_steps(trial):
    found = []
    for workers in (1, 4):
        limited = lambda most: lambda: resource.setrlimit(resource.RLIMIT_AS, (most, most))
        start = least(lambda most: subprocess.run([PROGRAM], preexec_fn=limited(most), capture_output=True).returncode == 1)
        need = least(lambda most: trial.run(workers, limit=most).returncode == 0)
        for step in range(20):
            most = start + (need - start) * step // 19
            trial.judge(trial.run(workers, limit=most), f"{most} bytes, {workers} workers", workers)
        found.append(trial.tell(f"from {start >> 10} to {need >> 10} KiB in twenty steps, {workers} workers"))
    return found


def main():
    names = sys.argv[1:] or list(GRAPHS)
    folder = tempfile.mkdtemp(dir="/dev/shm" if os.path.isdir("/dev/shm") else None)
    found = []
    try:
        refuser = os.path.join(folder, "refuse.so")
        subprocess.run(["cc", "-O1", "-shared", "-fPIC", "-o", refuser, os.path.join(HERE, "refuse.c"), "-ldl"], check=True)
        for name in names:
            at = os.path.join(folder, name)
            os.mkdir(at)
            trial = Trial(name, at, refuser)
            found += refuse_each(trial) if name in COUNTED else []
            found += limit_in_steps(trial) if name in LIMITED else []
    finally:
        shutil.rmtree(folder)
    runs, wrong = map(sum, zip(*found))
    print(f"runs {runs} not right {wrong}")
    return 1 if wrong else 0


if __name__ == "__main__":
    sys.exit(main())
