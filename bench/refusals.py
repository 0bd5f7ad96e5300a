#!/usr/bin/env python3
"""Which fault of a graph file is the first: docs/graph.md read anew, in Python, with no line of the program.

    refusals.py FILE..    the line of each as `check` writes it, or `accepted`

`fuzz.py` holds the program against it.
"""
import json
import os
import re
import sys

sys.path.insert(0, os.path.dirname(os.path.abspath(__file__)))
import host


class Fault(Exception):
    """A code and a path."""


class Unlike(Exception):
    """Readers may differ here, so nothing is said."""


class Other(float):
    """A number that is no whole number of 64 bits."""


def refuse(code, path):
    raise Fault(f"{code} {path}" if path else code)


# ---- the text


def depth_of(text):
    """How deep lists and objects are nested."""
    deepest = depth = 0
    for mark in re.sub(r'"(?:[^"\\]|\\.)*"', "", text, flags=re.S):
        depth += (mark in "[{") - (mark in "]}")
        deepest = max(deepest, depth)
    return deepest


def whole(word):
    if len(word) > 300:
        raise Unlike
    return Other(word) if word == "-0" or not -(2**63) <= int(word) < 2**64 else int(word)


def other(word):
    if abs(float(word)) > 1e300:
        raise Unlike
    return Other(word)


def no_constant(word):
    raise ValueError(word)


def has_surrogate(value):
    if isinstance(value, str):
        return any("\ud800" <= it <= "\udfff" for it in value)
    if isinstance(value, list):
        return any(map(has_surrogate, value))
    return isinstance(value, dict) and any(has_surrogate(it) for pair in value.items() for it in pair)


def value_of(data):
    try:
        text = data.decode("utf-8")
        if depth_of(text) > 127:
            refuse("G1", "")
        value = json.loads(text, parse_int=whole, parse_float=other, parse_constant=no_constant)
    except ValueError:
        refuse("G1", "")
    if has_surrogate(value):
        refuse("G1", "")
    return value


# ---- forms


def order(names):
    return sorted(names, key=lambda it: it.encode("utf-8"))


def below(path, member):
    return f"{path}.{member}" if path else member


def members(value, path, known):
    """That it is an object, with no member but these."""
    if not isinstance(value, dict):
        refuse("G2", path)
    for name in order(value):
        if name not in known:
            refuse("G2", below(path, name))


def member(value, path, name, read, *ranges):
    """A member that is required."""
    if name not in value:
        refuse("G2", below(path, name))
    return read(value[name], below(path, name), *ranges)


def number(value, path, least, most):
    if isinstance(value, (bool, Other)) or not isinstance(value, int):
        refuse("G2", path)
    if not least <= value <= most:
        refuse("G3", path)
    return value


def text(value, path, most=None):
    if not isinstance(value, str):
        refuse("G2", path)
    if most and not 1 <= len(value.encode("utf-8")) <= most:
        refuse("G3", path)
    return value


def word(value, path, words):
    if not isinstance(value, str) or value not in words:
        refuse("G2", path)


def items(value, path, least, most, read):
    if not isinstance(value, list):
        refuse("G2", path)
    if not least <= len(value) <= most:
        refuse("G3", path)
    for k, it in enumerate(value):
        read(it, f"{path}[{k}]")


def is_plain(value):
    return isinstance(value, (str, bool)) or isinstance(value, int)


def check_key(item, path):
    if not (isinstance(item, list) and len(item) == 2):
        refuse("G2", path)
    frame, value = item
    if isinstance(frame, bool) or not isinstance(frame, int) or not is_plain(value):
        refuse("G2", path)
    if not -999_999 <= frame <= 999_999 or not isinstance(value, (str, bool)) and value >= 2**63:
        refuse("G3", path)


def check_value(value, path):
    """A value of a parameter; all its faults have its own path."""
    if not isinstance(value, dict):
        if not is_plain(value):
            refuse("G2", path)
        if not isinstance(value, (str, bool)) and value >= 2**63:
            refuse("G3", path)
        return
    if not set(value) <= {"keys", "step"} or not isinstance(value.get("keys"), list):
        refuse("G2", path)
    if not 1 <= len(value["keys"]) <= 1000:
        refuse("G3", path)
    for item in value["keys"]:
        check_key(item, path)
    if not isinstance(value.get("step", False), bool):
        refuse("G2", path)


def check_forms(value, path, optional=True):
    for name, words in (("depth", ("byte", "short")), ("components", ("RGBA", "Alpha"))):
        if name in value:
            word(value[name], below(path, name), words)
        elif not optional:
            refuse("G2", below(path, name))


def check_texts(value, path):
    if not isinstance(value, dict):
        refuse("G2", path)
    for name in order(value):
        text(value[name], below(path, name))


def check_node(node, path, format_):
    if isinstance(node, dict) and format_ == 2 and "group" in node:
        members(node, path, ("name", "group", "clips"))
        member(node, path, "name", text, 64)
        member(node, path, "group", text)
        check_texts(node.get("clips", {}), below(path, "clips"))
    elif isinstance(node, dict) and "source" in node:
        check_source(node, path)
    else:
        check_effect_form(node, path)


def check_source(node, path):
    members(node, path, ("name", "source", "first", "last", "outside", "depth", "components"))
    member(node, path, "name", text, 64)
    member(node, path, "source", text)
    first = member(node, path, "first", number, 0, 999_999)
    member(node, path, "last", number, first, 999_999)
    if "outside" in node:
        word(node["outside"], below(path, "outside"), ("black", "hold"))
    check_forms(node, path)


def check_effect_form(node, path):
    members(node, path, ("name", "effect", "context", "clips", "params"))
    member(node, path, "name", text, 64)
    member(node, path, "effect", text)
    if "context" in node:
        word(node["context"], below(path, "context"), ("generator", "filter", "transition", "general"))
    check_texts(node.get("clips", {}), below(path, "clips"))
    params = node.get("params", {})
    if not isinstance(params, dict):
        refuse("G2", below(path, "params"))
    for name in order(params):
        check_value(params[name], below(below(path, "params"), name))


def check_group(group, path):
    members(group, path, ("name", "inputs", "nodes", "output"))
    member(group, path, "name", text, 64)
    member(group, path, "inputs", items, 0, 16, lambda it, at: text(it, at, 64))
    member(group, path, "nodes", items, 1, 256, lambda it, at: check_node(it, at, 2))
    member(group, path, "output", text)


def check_edit(edit, path):
    members(edit, path, ("node", "param", "value"))
    member(edit, path, "node", text)
    member(edit, path, "param", text)
    member(edit, path, "value", check_value)


def check_take(take, path):
    members(take, path, ("file", "edits"))
    member(take, path, "file", text)
    member(take, path, "edits", items, 1, 64, check_edit)


def check_project(value, path):
    members(value, path, ("width", "height", "depth", "components"))
    member(value, path, "width", number, 1, 8192)
    member(value, path, "height", number, 1, 8192)
    check_forms(value, path, optional=False)


def check_output(value, path):
    members(value, path, ("node", "file", "format"))
    member(value, path, "node", text)
    member(value, path, "file", text)
    member(value, path, "format", word, ("RGB_ALPHA", "RGB", "GRAYSCALE"))


def check_range(value, path):
    members(value, path, ("first", "last"))
    first = member(value, path, "first", number, 0, 999_999)
    member(value, path, "last", number, first, min(999_999, first + 99_999))


def check_form(graph):
    format_ = graph.get("ofxr") if isinstance(graph, dict) else None
    format_ = 2 if type(format_) is int and format_ == 2 else 1
    known = ("ofxr", "project", "output", "range", "nodes", "takes") + (("groups",) if format_ == 2 else ())
    members(graph, "", known)
    member(graph, "", "ofxr", number, 1, 2)
    member(graph, "", "project", check_project)
    member(graph, "", "output", check_output)
    member(graph, "", "range", check_range)
    if "groups" in graph:
        items(graph["groups"], "groups", 0, 64, check_group)
    member(graph, "", "nodes", items, 1, 1024, lambda it, at: check_node(it, at, format_))
    if "takes" in graph:
        items(graph["takes"], "takes", 0, 64, check_take)
    return format_


# ---- groups


def check_use(node, path, earlier, groups, inputs):
    """A use's group and clips. `groups` are those that may be used, with their inputs."""
    if node["group"] not in groups:
        refuse("G16", below(path, "group"))
    clips, wanted = node.get("clips", {}), groups[node["group"]]["inputs"]
    for name in order(clips):
        if name not in wanted:
            refuse("G7", f"{path}.clips.{name}")
    for name in wanted:
        if name not in clips:
            refuse("G8", f"{path}.clips.{name}")
    check_slashes(node, path)
    for name in order(clips):
        if clips[name] not in inputs and clips[name] not in earlier:
            refuse("G9", f"{path}.clips.{name}")


def check_slashes(node, path):
    for name in order(node.get("clips", {})):
        if "/" in node["clips"][name]:
            refuse("G18", f"{path}.clips.{name}")


def check_list(nodes, path, groups, inputs):
    earlier = set()
    for k, node in enumerate(nodes):
        at = f"{path}[{k}]"
        if "/" in node["name"]:
            refuse("G18", below(at, "name"))
        if node["name"] in earlier or node["name"] in inputs:
            refuse("G4", below(at, "name"))
        if "group" in node:
            check_use(node, at, earlier, groups, inputs)
        else:
            check_slashes(node, at)
        earlier.add(node["name"])
    return earlier


def check_groups(graph):
    groups = {}
    for g, group in enumerate(graph.get("groups", [])):
        path = f"groups[{g}]"
        if "/" in group["name"]:
            refuse("G18", below(path, "name"))
        if group["name"] in groups:
            refuse("G4", below(path, "name"))
        for i, name in enumerate(group["inputs"]):
            if "/" in name:
                refuse("G18", f"{path}.inputs[{i}]")
            if name in group["inputs"][:i]:
                refuse("G4", f"{path}.inputs[{i}]")
        names = check_list(group["nodes"], f"{path}.nodes", groups, group["inputs"])
        if group["output"] not in names:
            refuse("G13", below(path, "output"))
        groups[group["name"]] = group
    check_list(graph["nodes"], "nodes", groups, [])
    sizes = {}
    for name, group in groups.items():
        sizes[name] = sum(sizes[it["group"]] if "group" in it else 1 for it in group["nodes"])
    if sum(sizes[it["group"]] if "group" in it else 1 for it in graph["nodes"]) > 1024:
        refuse("G17", "nodes")


class Listed:
    """A list of nodes as it is used: its nodes by their names in the whole, and what a clip's text in it names there."""

    def __init__(self, graph, nodes, path, prefix, given):
        self.prefix, self.given, self.uses, self.all = prefix, given, {}, []
        groups = graph.get("groups", [])
        for k, node in enumerate(nodes):
            if "group" in node:
                g = next(i for i, it in enumerate(groups) if it["name"] == node["group"])
                clips = {name: self.named(shown) for name, shown in node.get("clips", {}).items()}
                within = Listed(graph, groups[g]["nodes"], f"groups[{g}].nodes", f"{prefix}{node['name']}/", clips)
                self.uses[node["name"]] = within.named(groups[g]["output"])
                self.all += within.all
            else:
                clips = node.get("clips", {})
                self.all.append((f"{prefix}{node['name']}", f"{path}[{k}]", node, {name: (clips[name], self) for name in clips}))

    def named(self, shown):
        return self.given.get(shown) or self.uses.get(shown) or f"{self.prefix}{shown}"


# ---- what nodes name


RANGES = {
    ("solid", "r"): (0, 1), ("solid", "g"): (0, 1), ("solid", "b"): (0, 1), ("solid", "a"): (0, 1),
    ("checker", "size"): (1, 4096), ("checker", "level"): (0, 1), ("grain", "seed"): (0, 999_999), ("grain", "amount"): (0, 1),
    ("gain", "gain"): (0, 16), ("saturation", "amount"): (0, 4), ("posterise", "levels"): (2, 256),
    ("boxblur", "rx"): (0, 64), ("boxblur", "ry"): (0, 64), ("erode", "radius"): (0, 32), ("dilate", "radius"): (0, 32),
    ("convolve3", "divisor"): (1, 65_536), ("crop", "x"): (-16_384, 16_384), ("crop", "y"): (-16_384, 16_384),
    ("crop", "width"): (0, 16_384), ("crop", "height"): (0, 16_384), ("translate", "dx"): (-16_384, 16_384),
    ("translate", "dy"): (-16_384, 16_384), ("timeoffset", "offset"): (-100_000, 100_000), ("frameblend", "radius"): (0, 16),
    ("framediff", "gap"): (1, 16), ("echo", "count"): (0, 8), ("echo", "gap"): (1, 8),
    ("dissolve", "Transition"): (0, 1), ("wipe", "Transition"): (0, 1),
    **{("convolve3", f"k{i}"): (-256, 256) for i in range(1, 10)},
}
CHOICES = {
    ("ramp", "axis"): "x y", ("mirror", "axis"): "x y", ("merge", "operation"): "over plus multiply screen min max minus",
    **{("shuffle", it): "r g b a zero" for it in "rgba"},
}
DECIMAL = re.compile(r"-?[0-9]{1,9}(\.[0-9]{1,6})?")


def contexts_of(effect):
    if effect in ("solid", "checker", "ramp", "grain"):
        return ("generator", "general")
    if effect in ("dissolve", "wipe"):
        return ("transition",)
    return ("general",) if effect in ("merge", "keymix") else ("filter", "general")


def is_taken(effect, name, kind, value):
    if kind == "choice":
        return isinstance(value, str) and value in CHOICES[effect, name].split()
    if isinstance(value, bool) or isinstance(value, str) and (kind == "int" or not DECIMAL.fullmatch(value)):
        return False
    least, most = RANGES[effect, name]
    return 65536 * least <= host.fix(value) <= 65536 * most


def check_param(effect, name, value, path, at_value=None):
    kinds = {it[1]: it[0] for it in host.PARAMS[effect]}
    if name not in kinds:
        refuse("G10", path)
    keys = value["keys"] if isinstance(value, dict) else [[0, value]]
    if not all(is_taken(effect, name, kinds[name], it) for _, it in keys):
        refuse("G11", at_value or path)
    if any(first >= second for (first, _), (second, _) in zip(keys, keys[1:])):
        refuse("G12", at_value or path)


def is_pattern(text_, runs):
    return 1 <= len(text_.encode("utf-8")) <= 1024 and "\0" not in text_ and len(re.findall("#+", text_)) in runs


def check_effect(node, path, clips, earlier):
    effect = node["effect"]
    if effect not in host.PARAMS:
        refuse("G5", below(path, "effect"))
    if "context" in node and node["context"] not in contexts_of(effect):
        refuse("G6", below(path, "context"))
    for name in order(clips):
        if name not in host.clips_of(effect):
            refuse("G7", f"{path}.clips.{name}")
    for name in host.clips_of(effect):
        if name not in clips and name != "Mask":
            refuse("G8", f"{path}.clips.{name}")
    for name in order(clips):
        shown, listed = clips[name]
        if listed.named(shown) not in earlier:
            refuse("G9", f"{path}.clips.{name}")
    for name in order(node.get("params", {})):
        check_param(effect, name, node["params"][name], f"{path}.params.{name}")


def check_meaning(graph, format_):
    if format_ == 2:
        check_groups(graph)
    listed = Listed(graph, graph["nodes"], "nodes", "", {})
    earlier = {}
    for name, path, node, clips in listed.all:
        if name in earlier:
            refuse("G4", below(path, "name"))
        if "source" in node:
            if not is_pattern(node["source"], (0, 1) if node["first"] == node["last"] else (1,)):
                refuse("G14", below(path, "source"))
        else:
            check_effect(node, path, clips, earlier)
        earlier[name] = node
    if listed.named(graph["output"]["node"]) not in earlier:
        refuse("G13", "output.node")
    if not is_pattern(graph["output"]["file"], (1,)):
        refuse("G14", "output.file")
    for k, take in enumerate(graph.get("takes", [])):
        if not is_pattern(take["file"], (1,)):
            refuse("G14", f"takes[{k}].file")
        for j, edit in enumerate(take["edits"]):
            path = f"takes[{k}].edits[{j}]"
            effect = earlier.get(edit["node"], {}).get("effect")
            if effect is None:
                refuse("G15", below(path, "node"))
            check_param(effect, edit["param"], edit["value"], below(path, "param"), below(path, "value"))
    return len(listed.all)


def fault_of(data):
    """The code and the path of the first fault of a file's bytes, or None. It raises `Unlike` where readers may differ."""
    try:
        graph = value_of(data)
        check_meaning(graph, check_form(graph))
        return None
    except Fault as fault:
        return str(fault)
    except RecursionError:
        raise Unlike from None


def main(names):
    for name in names:
        with open(name, "rb") as it:
            fault = fault_of(it.read())
        print(f"ofxr: graph: {fault}" if fault else "accepted")


if __name__ == "__main__":
    main(sys.argv[1:])
