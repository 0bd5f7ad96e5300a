#!/usr/bin/env bash
# graph.sh: how long the program that users run takes to check a graph, from its start to its end, and in how much memory it
# does so: graphs of 1,024 nodes, in one list and by groups, and graphs whose groups stand for far more nodes, which are
# refused. Behind that, how long the text of a graph of 256 nodes takes to be read, and what is read to be accepted, with
# 10, 100 and 1,000 keys a node. The least of several times is told, and the status is 1 where one is over its bound.
set -eu
here=$(cd "$(dirname "${BASH_SOURCE[0]}")/.." && pwd)
program=${OFXR:-$here/crates/ofxr/out/ofxr}
speed=$here/crates/fx_speed/out/fx_speed

if [ ! -x "$program" ]; then
  echo "graph.sh: build the program first: ./ofxr check examples/first/g.json" >&2
  exit 2
fi

status=0
python3 - "$program" <<'PYTHON' || status=1
import json
import os
import resource
import subprocess
import sys
import tempfile
import time

PROGRAM, TIMES = sys.argv[1], 20
BASE = {
    "ofxr": 2,
    "project": {"width": 1920, "height": 1080, "depth": "byte", "components": "RGBA"},
    "output": {"node": "n", "file": "o#.pam", "format": "RGB"},
    # of one frame: which source frames a range wants is found frame by frame, behind what is timed here
    "range": {"first": 0, "last": 0},
}
SOURCE = {"name": "s", "source": "s.pam", "first": 0, "last": 0}
EFFECTS = [
    {"effect": "boxblur", "params": {"rx": 4, "ry": {"keys": [[0, 1], [50, 9], [99, 0]]}}},
    {"effect": "gain", "params": {"gain": "1.25"}},
    {"effect": "translate", "params": {"dx": {"keys": [[0, "-10.5"], [99, "10.5"]]}, "dy": 3}},
    {"effect": "saturation", "params": {"amount": "0.75"}},
]
REFUSED = (2, b"", b"ofxr: graph: G17 nodes\n")


def chain(first, names):
    """Effects one behind another, of these names."""
    before = [first, *names]
    return [{"name": name, "clips": {"Source": before[k]}, **EFFECTS[k % len(EFFECTS)]} for k, name in enumerate(names)]


def listed():
    return {**BASE, "ofxr": 1, "nodes": [SOURCE, *chain("s", [f"n{k}" for k in range(1022)] + ["n"])]}


def grouped():
    """A source, and three uses one behind another of a group of 341 effects, which are in two groups themselves."""
    names = [f"n{k}" for k in range(255)]
    low = {"name": "low", "inputs": ["in"], "nodes": chain("in", names), "output": names[-1]}
    rest = [{"name": "u", "group": "low", "clips": {"in": "in"}}, *chain("u", names[:86])]
    high = {"name": "high", "inputs": ["in"], "nodes": rest, "output": names[85]}
    uses = [{"name": to, "group": "high", "clips": {"in": of}} for of, to in ("sa", "ab", "bn")]
    return {**BASE, "groups": [low, high], "nodes": [SOURCE, *uses]}


def powers(uses):
    """64 groups, each of which uses the one before so often, and a main list that does too."""
    of = lambda name: [{"name": f"n{k}" if k else "n", "group": name} for k in range(uses)]
    solids = [{"name": f"n{k}" if k else "n", "effect": "solid"} for k in range(uses)]
    groups = [{"name": f"g{k}", "inputs": [], "nodes": of(f"g{k - 1}") if k else solids, "output": "n"} for k in range(64)]
    return {**BASE, "groups": groups, "nodes": of("g63")}


def ended(folder, memory=None):
    """What a check told."""
    limit = lambda: resource.setrlimit(resource.RLIMIT_AS, (memory, memory))
    ran = subprocess.run([PROGRAM, "check", "g.json"], cwd=folder, capture_output=True, preexec_fn=limit if memory else None)
    return ran.returncode, ran.stdout, ran.stderr


def took(folder):
    """The milliseconds of a check."""
    words = [PROGRAM, "check", os.path.join(folder, "g.json")]
    void = [(os.POSIX_SPAWN_OPEN, stream, "/dev/null", os.O_RDWR, 0) for stream in (1, 2)]
    begun = time.perf_counter()
    os.waitpid(os.posix_spawn(PROGRAM, words, {}, file_actions=void), 0)
    return 1000 * (time.perf_counter() - begun)


def least_memory(folder, wanted):
    """The least address space, to 64 KiB, in which a check tells what is wanted."""
    low, high = 1 << 20, 1 << 28
    while high - low > 1 << 16:
        middle = (low + high) // 2
        low, high = (low, middle) if ended(folder, middle) == wanted else (middle, high)
    return high


def measure(name, graph, wanted, most_time=None, most_memory=None):
    """Whether a check tells what is wanted, in so many milliseconds and MB at most."""
    with tempfile.TemporaryDirectory() as folder:
        with open(os.path.join(folder, "g.json"), "w", encoding="utf-8") as it:
            size = it.write(json.dumps(graph, separators=(",", ":")))
        if ended(folder) != wanted:
            print(f"{name}: tells {ended(folder)} in place of {wanted}")
            return False
        least, memory = min(took(folder) for _ in range(TIMES)), least_memory(folder, wanted) / 1e6
    right = (most_time is None or least < most_time) and (most_memory is None or memory < most_memory)
    bounds = [f"under {most} {unit}" for most, unit in ((most_time, "ms"), (most_memory, "MB")) if most is not None]
    over = "" if right else f", and not {' and '.join(bounds)}"
    print(f"{name}, {size // 1000} KB of text: {least:.1f} ms, {memory:.1f} MB{over}")
    return right


told = (0, b"nodes 1024\nframes 1\nwanted 1\n", b"")
right = [
    measure("1,024 nodes in a list", listed(), told, 20),
    measure("1,024 nodes by groups", grouped(), told, 20),
    measure("64 groups that stand for 2^64 nodes", powers(2), REFUSED, 5, 20),
    measure("64 groups of 256 uses each", powers(256), REFUSED),
]
sys.exit(not all(right))
PYTHON

if [ ! -x "$speed" ]; then
  echo "graph.sh: for the rest, build fx_speed first: rt run, in crates/fx_speed" >&2
  exit 2
fi

# The least nanoseconds of five times that the program takes with these words.
took() {
  local least=0 from to
  for _ in 1 2 3 4 5; do
    from=$(date +%s%N)
    "$speed" "$@" >/dev/null
    to=$(date +%s%N)
    if [ $least -eq 0 ] || [ $((to - from)) -lt $least ]; then least=$((to - from)); fi
  done
  echo $least
}

for keys in 10 100 1000; do
  bytes=$("$speed" graph $keys | sed 's/.*: //')
  made=$(took graph $keys)
  read=$(took parse $keys)
  accepted=$(took accept $keys)
  nanoseconds=$((read - made))
  echo "256 nodes with $keys keys each, $((bytes / 1000)) KB: $((nanoseconds / 1000)) microseconds to read, $((bytes * 1000 / nanoseconds)) MB a second, and $(((accepted - read) / 1000)) to accept"
done
exit $status
