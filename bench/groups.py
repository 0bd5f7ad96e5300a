#!/usr/bin/env python3
"""Graphs with groups, each made of a number, and what they leave by host.py, which replaces each use by its group's nodes.

    groups.py                  writes a hundred as cases: crates/fx_cases/data/numbered_groups.json
    groups.py COUNT [SEED]     holds the program against host.py over so many, the first of this number, as agree.py does

Beside each graph stands the same without groups: what its uses mean, found by asking for each node of a group which node a
clip of it shows. Both are to leave the same files and the same report. The lists of a graph take their names from the same
few letters, so that a name which is looked up in the wrong list is often found there.
"""
import json
import os
import random
import sys

sys.path.insert(0, os.path.dirname(os.path.abspath(__file__)))
import agree
import host

COUNT = 100
DATA = os.path.join(os.path.dirname(os.path.abspath(__file__)), "../crates/fx_cases/data/numbered_groups.json")
LETTERS = "abcdefgh"
MOST_SIDE, MOST_NODES, MOST_TILES = 7, 16, 3000
PATTERNS, LAST = 8, 2


class Instances:
    """What the groups of a graph mean. An instance is a list of names: of uses, from the main list down, and a node."""

    def __init__(self, graph):
        self.graph, self.groups = graph, {it["name"]: it for it in graph.get("groups", [])}

    def nodes(self, uses):
        """The list of nodes that these uses lead to."""
        return self.group(uses)["nodes"] if uses else self.graph["nodes"]

    def node(self, uses, name):
        return next(it for it in self.nodes(uses) if it["name"] == name)

    def group(self, uses):
        return self.groups[self.node(uses[:-1], uses[-1])["group"]]

    def shown(self, uses, text):
        """The instance that a text shows within these uses: an input is what the last of them connects, outside of it."""
        if uses and text in self.group(uses)["inputs"]:
            return self.shown(uses[:-1], self.node(uses[:-1], uses[-1])["clips"][text])
        if "group" in self.node(uses, text):
            within = [*uses, text]
            return self.shown(within, self.group(within)["output"])
        return [*uses, text]

    def flat(self, uses):
        """The nodes of these uses and those within them, in order, as a graph without groups has them."""
        found = []
        for said in self.nodes(uses):
            if "group" in said:
                found += self.flat([*uses, said["name"]])
                continue
            clips = {clip: "/".join(self.shown(uses, text)) for clip, text in said.get("clips", {}).items()}
            found.append({**said, "name": "/".join([*uses, said["name"]]), **({"clips": clips} if clips else {})})
        return found

    def graph_without(self):
        """The same graph in format 1, as it is rendered."""
        output = self.graph["output"]["node"]
        node = output if "/" in output else "/".join(self.shown([], output))
        left = {key: it for key, it in self.graph.items() if key not in ("groups", "takes")}
        return {**left, "ofxr": 1, "nodes": self.flat([]), "output": {**self.graph["output"], "node": node}}


# ---- graphs of a number


def frame(dice):
    """A PAM file of any form, of a few pixels: its header and its rows."""
    width, height, depth = dice.randint(1, MOST_SIDE), dice.randint(1, MOST_SIDE), dice.randint(1, 4)
    maxval = dice.choice([1, 100, 255, 255, 255, 1000, 65535])
    size = 1 if maxval < 256 else 2
    row = lambda: b"".join(dice.randint(0, maxval).to_bytes(size, "big") for _ in range(width * depth))
    return f"WIDTH {width}, HEIGHT {height}, DEPTH {depth}, MAXVAL {maxval}", [row() for _ in range(height)]


def bytes_of(frame):
    header, rows = frame
    return ("P7\n" + header.replace(", ", "\n") + "\nENDHDR\n").encode() + b"".join(rows)


# the files that the sources of all graphs read: of each pattern one for each frame
FILES = {f"{pattern}.{at}": frame(random.Random(f"{pattern}.{at}")) for pattern in range(PATTERNS) for at in range(LAST + 1)}


class Maker:
    """Makes the lists of one graph."""

    def __init__(self, dice):
        self.dice, self.groups = dice, []

    def source(self, name):
        dice, first = self.dice, self.dice.randint(0, LAST)
        last = dice.randint(first, LAST)
        one = first == last and dice.random() < 0.5
        said = {"name": name, "source": f"{dice.randrange(PATTERNS)}.{first if one else '#'}", "first": first, "last": last}
        for key, values in (("outside", ["black", "hold"]), ("depth", ["byte", "short"]), ("components", ["RGBA", "Alpha"])):
            if dice.random() < 0.3:
                said[key] = dice.choice(values)
        return said

    def use(self, name, names):
        """A use of a group that stands before, where there is one that these names can be connected to."""
        fit = [it for it in self.groups if names or not it["inputs"]]
        if not fit:
            return None
        group = self.dice.choice(fit)
        clips = {clip: self.dice.choice(names) for clip in group["inputs"]}
        return {"name": name, "group": group["name"], **({"clips": clips} if clips else {})}

    def nodes(self, inputs, count, uses):
        """A list of nodes whose clips name these inputs or earlier nodes, so many of a hundred of them uses."""
        dice, names, found = self.dice, list(inputs), []
        for name in dice.sample([it for it in LETTERS if it not in inputs], count):
            said = self.use(name, names) if dice.randrange(100) < uses else None
            if said is None:
                said = self.source(name) if dice.random() < 0.2 else agree.node(dice, name, names)
            found.append(said)
            names.append(name)
        return found

    def group(self, name):
        dice = self.dice
        inputs = dice.sample(LETTERS, dice.randint(0, 2))
        nodes = self.nodes(inputs, dice.randint(1, 3), 45)
        output = dice.choice([*nodes, nodes[-1], nodes[-1]])["name"]
        return {"name": name, "inputs": inputs, "nodes": nodes, "output": output}

    def take(self, number, nodes):
        """A take of a few edits of the nodes that the graph's uses stand for."""
        dice, edits = self.dice, []
        for _ in range(dice.randint(1, 2)):
            said = dice.choice(nodes)
            kind, param, _ = dice.choice(host.PARAMS[said["effect"]])
            edits.append({"node": said["name"], "param": param, "value": agree.plain(dice, said["effect"], kind, param)})
        return {"file": f"{'tu'[number]}#.pam", "edits": edits}

    def graph(self):
        dice = self.dice
        for name in dice.sample(LETTERS, dice.randint(1, 4)):
            self.groups.append(self.group(name))
        nodes = self.nodes([], dice.randint(2, 5), 60)
        form = dice.choice(["RGB_ALPHA", "RGB_ALPHA", "RGB", "GRAYSCALE"])
        first = dice.randint(0, 1)
        said = {
            "ofxr": 2,
            "project": {
                "width": dice.randint(1, MOST_SIDE), "height": dice.randint(1, MOST_SIDE),
                "depth": dice.choice(["byte", "short"]), "components": dice.choice(["RGBA", "RGBA", "Alpha"]),
            },
            "output": {"node": nodes[-1]["name"], "file": "o#.pam", "format": form},
            "range": {"first": first, "last": first + dice.randint(0, 2)},
            "groups": self.groups,
            "nodes": nodes,
        }
        flat = Instances(said).flat([])
        if dice.random() < 0.2:
            said["output"]["node"] = flat[-1]["name"]
        edited = [it for it in flat if host.PARAMS.get(it.get("effect"))]
        if edited and dice.random() < 0.3:
            said["takes"] = [self.take(number, edited) for number in range(dice.randint(1, 2))]
        return said


def is_telling(graph, flat):
    """Whether the graph is small, and its picture is made of nodes that uses stand for."""
    if len(flat["nodes"]) > MOST_NODES:
        return False
    reached = {flat["output"]["node"]}
    for said in reversed(flat["nodes"]):
        if said["name"] in reached:
            reached |= set(said.get("clips", {}).values())
    return len(reached) >= 4 and any("/" in name for name in reached)


def options(dice):
    cache = dice.choice([[], [], ["--cache", "0"]])
    return ["--tile", str(dice.choice([1, 2, 3, 5, 64])), *cache, "--workers", str(dice.choice([1, 2, 4, 9]))]


def frame_of(name):
    return host.Frame(bytes_of(FILES[name]))


def tried(dice):
    """A graph, the same without groups, the words of a run, and what that is to leave; none that is large or plain."""
    graph = Maker(dice).graph()
    flat = Instances(graph).graph_without()
    if not is_telling(graph, flat):
        return None
    words = ["render", "g.json", *options(dice)]
    left = host.run(graph, frame_of, words)
    if left != host.run(flat, frame_of, words):
        sys.exit(f"groups.py: host.py takes this graph otherwise:\n{json.dumps(graph)}\n{json.dumps(flat)}")
    landed = int(left[1].split("landed ")[1].split()[0])
    if landed > MOST_TILES or all(len(set(text.split(b"ENDHDR\n", 1)[1])) == 1 for text in left[0].values()):
        return None
    return graph, flat, words, left


def numbered(number):
    """The graph of a number: the first that serves of those that the number gives one after another."""
    dice = random.Random(number)
    found = None
    while found is None:
        found = tried(dice)
    return found


# ---- the cases


def written(text):
    """A PAM file as cases write it."""
    header, raster = text.split(b"ENDHDR\n", 1)
    lines = header.decode().split("\n")[1:-1]
    height = int(lines[1].split()[1])
    row = len(raster) // height
    return {"pam": ", ".join(lines), "rows": [raster[at : at + row].hex() for at in range(0, len(raster), row)]}


def cases_of(number, frames):
    """The two cases of a graph. The files that they are to leave are added to the frames that all cases share."""
    graph, flat, words, (texts, report) = numbered(number)
    wanted = {name: f"{number}: {name}" for name in texts}
    frames.update((wanted[name], written(text)) for name, text in texts.items())
    said = {"words": words, "wanted": {"out": report, "files": wanted}}
    return [{"name": f"graph {number}{less}", "graph": it, **said} for less, it in (("", graph), (" without groups", flat))]


def text_of(value):
    return json.dumps(value, separators=(",", ":"))


def object_of(items):
    return "{\n" + ",\n".join(f"  {text_of(name)}: {text_of(it)}" for name, it in items.items()) + "}"


def write_cases():
    frames = {}
    cases = [case for number in range(COUNT) for case in cases_of(number, frames)]
    files = {name: written(bytes_of(it)) for name, it in FILES.items()}
    about = "Graphs with groups, each made of a number, and the same without: bench/groups.py makes them, and what they leave."
    listed = ",\n".join(f"  {text_of(it)}" for it in cases)
    shared = f' "about": {text_of(about)},\n "files": {object_of(files)},\n "frames": {object_of(frames)},\n'
    with open(DATA, "w", encoding="utf-8") as it:
        it.write(f'{{\n{shared} "cases": [\n{listed}]}}\n')
    print(f"cases {len(cases)}")


def both(number):
    """The graph of a number and the same without groups, with their files and words."""
    graph, flat, words, _ = numbered(number)
    files = {name: bytes_of(it) for name, it in FILES.items()}
    return [(f"{number}", graph, files, words), (f"{number} without groups", flat, files, words)]


def main(words):
    if not words:
        write_cases()
        return 0
    count, seed = (int(it) for it in [*words, *["100", "1000"][len(words):]])
    return agree.hold(it for number in range(seed, seed + count) for it in both(number))


if __name__ == "__main__":
    sys.exit(main(sys.argv[1:]))
