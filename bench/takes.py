#!/usr/bin/env python3
"""Holds mode `takes` against renders of each take by itself, and against host.py.

    takes.py [COUNT [SEED]]     100 graphs, or COUNT, of a number

Each graph is made of a number, as agree.py's are, or as those of groups.py; and so is a list of takes: edits of any
parameters, to plain values, to keys, and back to what the graph has, under files of their own or of a take before. The
program renders it by `takes`. Then each take is written as a graph of its own, without takes and groups and with its
parameters edited, and the program renders that by `render`. The files of `takes` are to be those of these renders one
after the other, and its window tiles theirs together. No more tiles land than in these renders, where none is let go,
and as many where none is kept; and as many land or are found, at least, as are asked for. The files, and the report,
are also to be those of host.py, which works each pixel out by itself. It prints each graph that differs, and at the end
how many there were; its status is 1 if any differed.
"""
import json
import os
import random
import re
import sys

sys.path.insert(0, os.path.dirname(os.path.abspath(__file__)))
import agree
import groups
import host

REPORT = re.compile(
    r"(?:takes (?P<takes>\d+)\n)?frames (?P<frames>\d+)\n"
    r"tiles (?P<tiles>\d+) void (?P<void>\d+) passed (?P<passed>\d+) asked (?P<asked>\d+)\n"
    r"landed (?P<landed>\d+) hits (?P<hits>\d+)\n"
)
WINDOW = ("frames", "tiles", "void", "passed", "asked")
# what the sources of graphs with groups read
FRAMES = {name: groups.bytes_of(it) for name, it in groups.FILES.items()}


# ---- graphs of a number


def value(dice, nodes, node, kind, param, default):
    """What an edit puts in place of a parameter: a plain value, keys, or what the graph has."""
    if dice.random() < 0.2:
        return nodes[node].get("params", {}).get(param, default)
    return (agree.keyed if dice.random() < 0.25 else agree.plain)(dice, nodes[node]["effect"], kind, param)


def takes(dice, flat):
    """Takes of a graph without groups, of which some node has a parameter."""
    nodes = {it["name"]: it for it in flat["nodes"]}
    reached = {flat["output"]["node"]}
    for said in reversed(flat["nodes"]):
        if said["name"] in reached:
            reached |= set(said.get("clips", {}).values())
    every = [name for name, it in nodes.items() if host.PARAMS.get(it.get("effect"))]
    shown = [name for name in every if name in reached] or every
    found, patterns = [], [flat["output"]["file"]]
    for number in range(dice.choice([1, 1, 2, 3, 5])):
        patterns.append(dice.choice(patterns) if dice.random() < 0.25 else f"t{number}.{'#' * dice.randint(1, 3)}.pam")
        edits = []
        for _ in range(dice.randint(1, 3)):
            node = dice.choice(every if dice.random() < 0.15 else shown)
            kind, param, default = dice.choice(host.PARAMS[nodes[node]["effect"]])
            edits.append({"node": node, "param": param, "value": value(dice, nodes, node, kind, param, default)})
        found.append({"file": patterns[-1], "edits": edits})
    return found


def tried(dice):
    """A graph with the same without groups, and their files."""
    if dice.random() < 0.25:
        graph = groups.Maker(dice).graph()
        flat = groups.Instances(graph).graph_without()
        return (graph, flat, FRAMES) if groups.is_telling(graph, flat) else None
    graph, files = agree.graph_of(dice)
    return graph, graph, files


def made(number):
    """The graph of a number with takes, the same as one for each take, their files, and the options of their runs."""
    dice = random.Random(f"takes {number}")
    found = None
    while found is None or not any(host.PARAMS.get(it.get("effect")) for it in found[1]["nodes"]):
        found = tried(dice)
    graph, flat, files = found
    listed = takes(dice, flat)
    words = agree.options(dice)
    if dice.random() < 0.2:
        words += [dice.choice(["--first", "--last"]), str(dice.randint(0, 3))]
    return {**graph, "takes": listed}, each_alone(flat, listed), files, words


def each_alone(flat, listed):
    """The graph as it is written and at each take, each without takes."""
    found = [{key: it for key, it in flat.items() if key != "takes"}]
    for take in listed:
        # (nodes of one group have their parameters in common)
        graph = json.loads(json.dumps(found[-1]))
        graph["output"]["file"] = take["file"]
        nodes = {it["name"]: it for it in graph["nodes"]}
        for edit in take["edits"]:
            nodes[edit["node"]].setdefault("params", {})[edit["param"]] = edit["value"]
        found.append(graph)
    return found


# ---- what is left, and what is told


def numbers(report):
    """The numbers of a report, by their names."""
    told = REPORT.fullmatch(report)
    return {name: int(number) for name, number in told.groupdict().items() if number} if told else None


def alone(graphs, files, words):
    """The files of renders one after the other, their numbers together, or how one of them failed."""
    wanted, sums = {}, dict.fromkeys((*WINDOW, "landed", "hits"), 0)
    for graph in graphs:
        said, left, why = agree.left_by(graph, files, ["render", "g.json", *words])
        told = None if why else numbers(said)
        if told is None:
            return {}, {}, why or f"reports {said!r}"
        wanted.update(left)
        sums = {name: number + told[name] for name, number in sums.items()}
    return wanted, sums, None


def other_numbers(told, sums, takes, cache):
    """What of the report of all takes doesn't go with those of the renders of each, if anything."""
    if told is None or told.get("takes") != takes:
        return "doesn't report its takes"
    for name in WINDOW:
        if told[name] != sums[name]:
            return f"{name} {told[name]}, and in renders of each take {sums[name]}"
    if told["landed"] + told["hits"] < told["asked"]:
        return "fewer landed or were found than are asked for"
    more = told["landed"] - sums["landed"]
    if cache == 0 and (more or told["hits"]) or cache != 1 and more > 0:
        return f"landed {told['landed']} hits {told['hits']}, and in renders of each take landed {sums['landed']}"
    return None


def differs(graph, graphs, files, words):
    """What a run of all takes leaves otherwise than renders of each, or than host.py, if anything; and its files."""
    run, cache = ["takes", "g.json", *words], host.option(words, "--cache", 4096)
    said, left, why = agree.left_by(graph, files, run)
    if why:
        return why, left
    wanted, sums, why = alone(graphs, files, words)
    why = why or agree.other_files(left, wanted) or other_numbers(numbers(said), sums, len(graphs), cache)
    if why:
        return f"beside a render of each take: {why}", left
    wanted, report = host.run(graph, lambda name: host.Frame(files[name]), run)
    return agree.other_files(left, wanted) or agree.other_report(graph, said, report, run), left


def main(words):
    count, seed = (int(it) for it in [*words, *["100", "1"][len(words):]])
    rendered = files = failed = 0
    for number in range(seed, seed + count):
        graph, graphs, given, options = made(number)
        why, left = differs(graph, graphs, given, options)
        rendered += len(graphs)
        files += len(left)
        if why:
            failed += 1
            print(f"graph {number}, {' '.join(options)}: {why}\n{json.dumps(graph)}")
    print(f"graphs {count} takes {rendered} files {files} differing {failed}")
    return 1 if failed else 0


if __name__ == "__main__":
    sys.exit(main(sys.argv[1:]))
