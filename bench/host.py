#!/usr/bin/env python3
"""A host by the definitions alone: docs/graph.md and docs/effects.md read anew, in Python, with no line of the program.

    host.py render|takes|plan GRAPH [--first N] [--last N] [--tile N] [--cache 0] [--scale N]     beside the graph's files

Each pixel is worked out by itself, on the unbounded plane: no regions, tiles, threads or rows. It writes the files of a
render, and prints the report of one that keeps every tile, or none where the cache is 0. It takes graphs that are accepted:
nothing is refused. `agree.py` holds the program against it.
"""
import json
import re
import sys

EMPTY = (0, 0, 0, 0)


def rect(x1, y1, x2, y2):
    return (x1, y1, x2, y2) if x1 < x2 and y1 < y2 else EMPTY


def meet(a, b):
    return rect(max(a[0], b[0]), max(a[1], b[1]), min(a[2], b[2]), min(a[3], b[3]))


def hull(a, b):
    if EMPTY in (a, b):
        return b if a == EMPTY else a
    return (min(a[0], b[0]), min(a[1], b[1]), max(a[2], b[2]), max(a[3], b[3]))


def moved(r, left, bottom, right, top):
    return r if r == EMPTY else rect(r[0] + left, r[1] + bottom, r[2] + right, r[3] + top)


def tiles(r, side):
    """The grid's tiles that meet a rectangle, by rising row and then column."""
    if r == EMPTY:
        return []
    across = range(r[0] // side, -(-r[2] // side))
    up = range(r[1] // side, -(-r[3] // side))
    return [(i * side, j * side, i * side + side, j * side + side) for j in up for i in across]


def fix(value):
    """The raw value of a fixed-point parameter: a whole number, a text of a decimal, or raw already."""
    if isinstance(value, dict):
        return value["raw"]
    if isinstance(value, int):
        return value * 65536
    whole, _, part = value.lstrip("-").partition(".")
    raw = int(whole + part) * (-1 if value.startswith("-") else 1)
    scale = 10 ** len(part)
    return (2 * raw * 65536 + scale) // (2 * scale)


# kind, name and default of each parameter
PARAMS = {
    "solid": [("fix", "r", 0), ("fix", "g", 0), ("fix", "b", 0), ("fix", "a", 1)],
    "checker": [("int", "size", 16), ("fix", "level", 1)],
    "ramp": [("choice", "axis", "x")],
    "grain": [("int", "seed", 0), ("fix", "amount", 1)],
    "invert": [],
    "gain": [("fix", "gain", 1)],
    "premult": [],
    "unpremult": [],
    "shuffle": [("choice", c, c) for c in "rgba"],
    "saturation": [("fix", "amount", 1)],
    "posterise": [("int", "levels", 256)],
    "boxblur": [("int", "rx", 1), ("int", "ry", 1)],
    "erode": [("int", "radius", 1)],
    "dilate": [("int", "radius", 1)],
    "convolve3": [("int", f"k{i}", int(i == 5)) for i in range(1, 10)] + [("int", "divisor", 1)],
    "crop": [("int", "x", 0), ("int", "y", 0), ("int", "width", 16384), ("int", "height", 16384)],
    "translate": [("fix", "dx", 0), ("fix", "dy", 0)],
    "mirror": [("choice", "axis", "x")],
    "timeoffset": [("int", "offset", 0)],
    "frameblend": [("int", "radius", 1)],
    "framediff": [("int", "gap", 1)],
    "echo": [("int", "count", 2), ("int", "gap", 1)],
    "dissolve": [("fix", "Transition", 0)],
    "wipe": [("fix", "Transition", 0)],
    "merge": [("choice", "operation", "over")],
    "keymix": [],
    "autogain": [],
}
CLIPS = {"dissolve": ["SourceFrom", "SourceTo"], "wipe": ["SourceFrom", "SourceTo"], "merge": ["A", "B"], "keymix": ["A", "B", "Mask"]}
CLIPS.update({name: [] for name in ("solid", "checker", "ramp", "grain")})


def clips_of(effect):
    return CLIPS.get(effect, ["Source"])


def value_at(kind, value, t):
    """A parameter at a frame: plain, or by its keys, linear between two of them unless it steps."""
    read = fix if kind == "fix" else lambda v: v
    if not isinstance(value, dict) or "raw" in value:
        return read(value)
    keys = [(frame, read(v)) for frame, v in value["keys"]]
    steps = value.get("step", False) or kind in ("choice", "bool")
    if t <= keys[0][0]:
        return keys[0][1]
    for (t0, v0), (t1, v1) in zip(keys, keys[1:]):
        if t < t1:
            return v0 if steps else v0 + (v1 - v0) * (t - t0) // (t1 - t0)
    return keys[-1][1]

# ---- pixels: a tuple of samples, four of RGBA or one of Alpha

GREATEST = {"byte": 255, "short": 65535}
RGBA_ALONE = {"invert", "premult", "unpremult", "shuffle", "saturation", "posterise", "autogain"}
# effects that render whole images alone
WHOLE = {"autogain"}


def rounded(p, q):
    return (2 * p + q) // (2 * q)


def level(raw, most):
    return (2 * raw * most + 65536) // 131072


def convert(pixel, depth, to, components):
    if depth != to:
        pixel = tuple(v * 257 if to == "short" else (v * 255 + 32767) // 65535 for v in pixel)
    if components == "Alpha":
        return pixel[-1:]
    return pixel if len(pixel) == 4 else pixel * 4


def zero(components):
    return (0,) * (4 if components == "RGBA" else 1)


class Frame:
    """The image of a PAM file, its bottom left pixel at (0, 0)."""

    def __init__(self, data):
        words, (_, raster) = {}, data.split(b"\n", 1)
        while True:
            line, raster = raster.split(b"\n", 1)
            line = line.strip(b" \t\r")
            if line == b"ENDHDR":
                break
            if line and not line.startswith((b"#", b"TUPLTYPE")):
                word, number = line.split(None, 1)
                words[word] = int(number)
        self.width, self.height, depth, self.maxval = (words[it] for it in (b"WIDTH", b"HEIGHT", b"DEPTH", b"MAXVAL"))
        self.depth = "byte" if self.maxval < 256 else "short"
        size, most = (1, 255) if self.maxval < 256 else (2, 65535)
        read = [int.from_bytes(raster[i * size : i * size + size], "big") for i in range(self.width * self.height * depth)]
        read = [(2 * v * most + self.maxval) // (2 * self.maxval) for v in read]
        whole = {1: lambda p: (p[0], p[0], p[0], most), 2: lambda p: (p[0], p[0], p[0], p[1]), 3: lambda p: (*p, most), 4: tuple}[depth]
        self.pixels = [whole(read[i : i + depth]) for i in range(0, len(read), depth)]

    def at(self, x, y):
        if 0 <= x < self.width and 0 <= y < self.height:
            return self.pixels[(self.height - 1 - y) * self.width + x]
        return (0, 0, 0, 0)


def each(make, *pixels):
    return tuple(make(*samples) for samples in zip(*pixels))


def colour(make, pixel):
    """What is made of r, g and b, beside the alpha as it is."""
    return (*(make(c) for c in pixel[:-1]), pixel[-1])


def generated(effect, v, most, t, x, y, size, components):
    if not (0 <= x < size[0] and 0 <= y < size[1]):
        return zero(components)
    if effect == "solid":
        pixel = tuple(level(v[c], most) for c in "rgba")
        return pixel if components == "RGBA" else pixel[3:]
    if effect == "checker":
        found = level(v["level"], most) if (x // v["size"] + y // v["size"]) % 2 == 0 else 0
    elif effect == "ramp":
        at, side = (x, size[0]) if v["axis"] == "x" else (y, size[1])
        found = 0 if side == 1 else rounded(at * most, side - 1)
    else:
        h = (x * 73856093 + y * 19349663 + t * 83492791 + v["seed"]) % 2**32
        h = h * (2 * h + 1) % 2**32
        h = h // 65536 + 65536 * (h % 65536)
        h = h * (2 * h + 1) % 2**32
        found = (h // 65536) * level(v["amount"], most) // 65535
    return (found, found, found, most) if components == "RGBA" else (found,)


def pointed(effect, v, most, p):
    """The pixel of an effect that reads one place."""
    a = p[-1]
    if effect == "invert":
        return colour(lambda c: max(a - c, 0), p)
    if effect == "gain":
        make = lambda c: min(most, (c * v["gain"] + 32768) // 65536)
        return colour(make, p) if len(p) == 4 else (make(a),)
    if effect == "premult":
        return colour(lambda c: rounded(c * a, most), p)
    if effect == "unpremult":
        return colour(lambda c: min(most, rounded(c * most, a)), p) if a else (0, 0, 0, 0)
    if effect == "shuffle":
        return tuple(dict(zip("rgba", p), zero=0)[v[c]] for c in "rgba")
    if effect == "saturation":
        grey = (p[0] * 2126 + p[1] * 7152 + p[2] * 722 + 5000) // 10000
        return colour(lambda c: max(0, min(most, grey + (c - grey) * v["amount"] // 65536)), p)
    n = v["levels"]
    return colour(lambda c: rounded(rounded(c * (n - 1), most) * most, n - 1), p)


def merged(operation, most, a, b):
    over = a[-1]
    make = {
        "over": lambda p, q: min(most, p + rounded(q * (most - over), most)),
        "plus": lambda p, q: min(most, p + q),
        "multiply": lambda p, q: rounded(p * q, most),
        "screen": lambda p, q: p + q - rounded(p * q, most),
        "min": min,
        "max": max,
        "minus": lambda p, q: max(p - q, 0),
    }[operation]
    return each(make, a, b)


def around(read, t, x, y, across, up):
    return [read("Source", t, x + i, y + j) for j in range(-up, up + 1) for i in range(-across, across + 1)]


def mixed(node, t, x, y, read, most):
    """The pixel of an effect: read(clip, frame, x, y) gives those of its clips."""
    e, v, size = node.effect, node.params(t), node.size
    if not clips_of(e):
        return generated(e, v, most, t, x, y, size, node.components)
    if e in ("merge", "keymix"):
        a, b = read("A", t, x, y), read("B", t, x, y)
        if e == "merge":
            return merged(v["operation"], most, a, b)
        m = read("Mask", t, x, y)[0]
        return a if dict(node.clips)["Mask"] is None else each(lambda p, q: rounded(p * m + q * (most - m), most), a, b)
    if e in ("dissolve", "wipe"):
        k, one, other = v["Transition"], read("SourceFrom", t, x, y), read("SourceTo", t, x, y)
        if e == "dissolve":
            return each(lambda p, q: (p * (65536 - k) + q * k + 32768) // 65536, one, other)
        return other if k == 65536 or k and x < k * size[0] // 65536 else one
    if e == "boxblur":
        found = around(read, t, x, y, v["rx"], v["ry"])
        return each(lambda *samples: rounded(sum(samples), len(samples)), *found)
    if e in ("erode", "dilate"):
        pick = min if e == "erode" else max
        return each(lambda *samples: pick(samples), *around(read, t, x, y, v["radius"], v["radius"]))
    if e == "convolve3":
        # k1 to k3 go with the row above
        weights = [v[f"k{i}"] for i in (7, 8, 9, 4, 5, 6, 1, 2, 3)]
        found = around(read, t, x, y, 1, 1)
        make = lambda *samples: max(0, min(most, rounded(sum(k * s for k, s in zip(weights, samples)), v["divisor"])))
        return each(make, *found)
    if e == "crop":
        inside = v["x"] <= x < v["x"] + v["width"] and v["y"] <= y < v["y"] + v["height"]
        return read("Source", t, x, y) if inside else zero(node.components)
    if e == "translate":
        nx, wx, ex, ny, wy, ey = node.shift(t)
        taps = [(i, j) for j in range(ey + 1) for i in range(ex + 1)]
        weight = lambda i, j: (wx if i else 256 - wx) * (wy if j else 256 - wy)
        found = [read("Source", t, x + nx + i, y + ny + j) for i, j in taps]
        return each(lambda *samples: (sum(weight(*at) * s for at, s in zip(taps, samples)) + 32768) // 65536, *found)
    if e == "mirror":
        return read("Source", t, *((size[0] - 1 - x, y) if v["axis"] == "x" else (x, size[1] - 1 - y)))
    if e == "autogain":
        if not (0 <= x < size[0] and 0 <= y < size[1]):
            return zero(node.components)
        if t not in node.levels:
            node.levels[t] = max(max(read("Source", t, i, j)[:3]) for j in range(size[1]) for i in range(size[0]))
        m = node.levels[t]
        return colour(lambda c: min(most, rounded(c * most, m)) if m else c, read("Source", t, x, y))
    if e == "timeoffset":
        return read("Source", t - v["offset"], x, y)
    if e == "frameblend":
        r = v["radius"]
        return each(lambda *samples: rounded(sum(samples), 2 * r + 1), *(read("Source", f, x, y) for f in range(t - r, t + r + 1)))
    if e == "framediff":
        one, other = read("Source", t - v["gap"], x, y), read("Source", t, x, y)
        apart = each(lambda p, q: abs(p - q), one, other)
        return apart if len(apart) == 1 else (*apart[:3], max(one[3], other[3]))
    if e == "echo":
        n = v["count"]
        found = [read("Source", t - k * v["gap"], x, y) for k in range(n + 1)]
        return each(lambda *samples: max(s * (n + 1 - k) // (n + 1) for k, s in enumerate(samples)), *found)
    return pointed(e, v, most, read("Source", t, x, y))


# ---- nodes and their regions


class Node:
    """A node of a graph, its clips by the places of earlier nodes."""

    def __init__(self, said, nodes, project):
        self.said, self.name, self.size = said, said["name"], (project["width"], project["height"])
        self.is_source = "source" in said
        self.depth, self.components = said.get("depth", project["depth"]), said.get("components", project["components"])
        if self.is_source:
            return
        self.effect, self.levels, self.values = said["effect"], {}, {}
        places = {node.name: place for place, node in enumerate(nodes)}
        self.clips = [(clip, places.get(said.get("clips", {}).get(clip))) for clip in clips_of(self.effect)]
        there = [(clip, nodes[place]) for clip, place in self.clips if place is not None]
        if there:
            self.depth = "short" if any(node.depth == "short" for _, node in there) else "byte"
        told = [node.components for clip, node in there if clip != "Mask"]
        if told:
            self.components = "RGBA" if "RGBA" in told else "Alpha"
        if self.effect == "posterise":
            self.depth = "byte"
        if self.effect in RGBA_ALONE:
            self.components = "RGBA"

    def params(self, t):
        if t not in self.values:
            given = self.said.get("params", {})
            self.values[t] = {name: value_at(kind, given.get(name, default), t) for kind, name, default in PARAMS[self.effect]}
        return self.values[t]

    def frame(self, t):
        """Which frame a source shows at t, if any."""
        first, last = self.said["first"], self.said["last"]
        if first <= t <= last:
            return t
        return max(first, min(last, t)) if self.said.get("outside") == "hold" else None

    def frames(self, clip, t):
        """The frames of a clip that frame t needs, each once and rising."""
        v = self.params(t)
        if self.effect == "timeoffset":
            found = [t - v["offset"]]
        elif self.effect == "frameblend":
            found = range(t - v["radius"], t + v["radius"] + 1)
        elif self.effect == "framediff":
            found = [t - v["gap"], t]
        elif self.effect == "echo":
            found = [t - k * v["gap"] for k in range(v["count"] + 1)]
        else:
            found = [t]
        return sorted(set(found))

    def shift(self, t):
        """The whole columns and rows of a translate, and whether a part of one is left."""
        v, found = self.params(t), []
        for raw in (v["dx"], v["dy"]):
            n = -raw // 65536
            w = (-raw - n * 65536) // 256
            found += [n, w, int(w > 0)]
        return found

    def region(self, t, areas):
        """The region of definition, by the areas of the clips over their frames."""
        v, whole = self.params(t), (0, 0, *self.size)
        inputs = [areas[clip] for clip, node in self.clips if node is not None and clip != "Mask"]
        if not inputs:
            return whole
        area = EMPTY
        for it in inputs:
            area = hull(area, it)
        if self.effect == "boxblur":
            return moved(area, -v["rx"], -v["ry"], v["rx"], v["ry"])
        if self.effect in ("dilate", "convolve3"):
            r = v.get("radius", 1)
            return moved(area, -r, -r, r, r)
        if self.effect == "crop":
            return meet(area, rect(v["x"], v["y"], v["x"] + v["width"], v["y"] + v["height"]))
        if self.effect == "autogain":
            return meet(area, whole)
        if self.effect == "translate":
            nx, _, ex, ny, _, ey = self.shift(t)
            return moved(area, -nx - ex, -ny - ey, -nx, -ny)
        if self.effect == "mirror":
            return self.mirrored(area, v)
        return area

    def mirrored(self, r, v):
        if r == EMPTY:
            return r
        w, h = self.size
        return (w - r[2], r[1], w - r[0], r[3]) if v["axis"] == "x" else (r[0], h - r[3], r[2], h - r[1])

    def interest(self, t, r):
        v = self.params(t)
        if self.effect == "boxblur":
            return moved(r, -v["rx"], -v["ry"], v["rx"], v["ry"])
        if self.effect in ("erode", "dilate", "convolve3"):
            n = v.get("radius", 1)
            return moved(r, -n, -n, n, n)
        if self.effect == "crop":
            return meet(r, rect(v["x"], v["y"], v["x"] + v["width"], v["y"] + v["height"]))
        if self.effect == "autogain":
            return (0, 0, *self.size)
        if self.effect == "translate":
            nx, _, ex, ny, _, ey = self.shift(t)
            return moved(r, nx, ny, nx + ex, ny + ey)
        if self.effect == "mirror":
            return self.mirrored(r, v)
        return r

    def same(self, t, r):
        """The clip and the frame that the node is the same as over r, if any."""
        v, e = self.params(t), self.effect
        if e == "gain" and v["gain"] == 65536 or e == "saturation" and v["amount"] == 65536:
            return "Source", t
        if e == "shuffle" and all(v[c] == c for c in "rgba") or e == "posterise" and v["levels"] == 256:
            return "Source", t
        if e == "boxblur" and v["rx"] == v["ry"] == 0 or e in ("erode", "dilate", "frameblend") and v["radius"] == 0:
            return "Source", t
        if e == "convolve3" and v["k5"] == v["divisor"] and not any(v[f"k{i}"] for i in (1, 2, 3, 4, 6, 7, 8, 9)):
            return "Source", t
        if e == "crop" and meet(r, rect(v["x"], v["y"], v["x"] + v["width"], v["y"] + v["height"])) == r:
            return "Source", t
        if e == "translate" and not any(self.shift(t)):
            return "Source", t
        if e == "timeoffset":
            return "Source", t - v["offset"]
        if e == "echo" and v["count"] == 0:
            return "Source", t
        if e in ("dissolve", "wipe"):
            k = v["Transition"]
            edge = k * self.size[0] // 65536
            if k == 0 or e == "wipe" and k < 65536 and r[2] > edge and r[0] >= edge:
                return "SourceFrom", t
            if k == 65536 or e == "wipe" and r[2] <= edge:
                return "SourceTo", t
        if e == "keymix" and dict(self.clips)["Mask"] is None:
            return "A", t
        return None


class Scene:
    """A graph, with the frames of its sources by the names of their files."""

    def __init__(self, graph, frame_of):
        self.graph, self.project, self.frame_of = graph, graph["project"], frame_of
        self.size = self.project["width"], self.project["height"]
        self.nodes, self.areas, self.values, self.frames = [], {}, {}, {}
        for said in graph["nodes"]:
            self.nodes.append(Node(said, self.nodes, self.project))
        self.output = [node.name for node in self.nodes].index(graph["output"]["node"])

    def shown(self, n, t):
        """The frame that a source shows at t, if any."""
        f = self.nodes[n].frame(t)
        if f is None:
            return None
        if (n, f) not in self.frames:
            self.frames[n, f] = self.frame_of(name_of(self.nodes[n].said["source"], f))
        return self.frames[n, f]

    def value(self, n, t, x, y):
        """The pixel of a node at a frame and a place."""
        if (n, t, x, y) in self.values:
            return self.values[n, t, x, y]
        node = self.nodes[n]
        if node.is_source:
            frame = self.shown(n, t)
            found = zero(node.components) if frame is None else convert(frame.at(x, y), frame.depth, node.depth, node.components)
        else:
            clips = dict(node.clips)

            def read(clip, f, i, j):
                components = "Alpha" if clip == "Mask" else node.components
                m = clips[clip]
                if m is None:
                    return zero(components)
                return convert(self.value(m, f, i, j), self.nodes[m].depth, node.depth, components)

            found = mixed(node, t, x, y, read, GREATEST[node.depth])
        self.values[n, t, x, y] = found
        return found

    def text(self, t):
        """The file of the picture of a frame."""
        width, height = self.size
        form, depth, node = self.graph["output"]["format"], self.project["depth"], self.nodes[self.output]
        samples = {"RGB_ALPHA": slice(0, 4), "RGB": slice(0, 3), "GRAYSCALE": slice(0, 1)}[form]
        header = f"P7\nWIDTH {width}\nHEIGHT {height}\nDEPTH {samples.stop}\nMAXVAL {GREATEST[depth]}\nTUPLTYPE {form}\nENDHDR\n"
        raster = bytearray()
        for y in reversed(range(height)):
            for x in range(width):
                pixel = convert(self.value(self.output, t, x, y), node.depth, depth, "Alpha" if form == "GRAYSCALE" else "RGBA")
                for sample in pixel[samples]:
                    raster += sample.to_bytes(1 if depth == "byte" else 2, "big")
        self.values.clear()
        return header.encode() + bytes(raster)

    def area(self, n, t):
        if (n, t) not in self.areas:
            node = self.nodes[n]
            if node.is_source:
                frame = self.shown(n, t)
                self.areas[n, t] = EMPTY if frame is None else rect(0, 0, frame.width, frame.height)
            else:
                areas = {}
                for clip, m in node.clips:
                    areas[clip] = EMPTY
                    for f in node.frames(clip, t) if m is not None else []:
                        areas[clip] = hull(areas[clip], self.area(m, f))
                self.areas[n, t] = node.region(t, areas)
        return self.areas[n, t]

    def end(self, n, t, r):
        """Where a region of a node is found: nothing, a source's frame, or a region that is rendered."""
        while True:
            r = meet(r, self.area(n, t))
            node = self.nodes[n]
            if r == EMPTY:
                return None
            if node.is_source:
                return ("frame", n, t, r)
            same = node.same(t, r)
            if same is None:
                return ("render", n, t, self.area(n, t) if node.effect in WHOLE else r)
            n, t = dict(node.clips)[same[0]], same[1]

    def needs(self, n, t, r, side):
        node, found = self.nodes[n], []
        for clip, m in node.clips:
            for f in node.frames(clip, t) if m is not None else []:
                area = self.area(m, f)
                for tile in tiles(meet(node.interest(t, r), area), side):
                    found.append(self.end(m, f, meet(tile, area)))
        return [it for it in found if it and it[0] == "render"]

    def window(self, t, side):
        whole = (0, 0, *self.size)
        return [self.end(self.output, t, meet(tile, whole)) for tile in tiles(whole, side)]

    def plan(self, t, side):
        """The least set that has the window's renders and, with each, the renders among its needs."""
        found, left = {}, [it for it in self.window(t, side) if it and it[0] == "render"]
        while left:
            it = left.pop()
            if it not in found:
                found[it] = self.needs(*it[1:], side)
                left += found[it]
        return found


def report(moments, side, keeps=True):
    """What is told of moments, each a scene, the eras of its nodes and a frame."""
    window, entries = [], {}
    for scene, eras, t in moments:
        dated = lambda it: (eras[it[1]], *it)
        window += [(it and it[0], dated(it) if it else None) for it in scene.window(t, side)]
        entries.update({dated(it): [dated(need) for need in needs] for it, needs in scene.plan(t, side).items()})
    asked = [it for kind, it in window if kind == "render"]
    passed = sum(1 for kind, _ in window if kind == "frame")
    if keeps:
        landed = len(entries)
        hits = len(asked) + sum(map(len, entries.values())) - landed
    else:
        # each that is asked for is rendered anew, and all that it needs
        costs, hits = {}, 0

        def cost(it):
            if it not in costs:
                costs[it] = 1 + sum(map(cost, entries[it]))
            return costs[it]

        landed = sum(map(cost, asked))
    return (
        f"frames {len(moments)}\ntiles {len(window)} void {len(window) - len(asked) - passed} passed {passed} asked {len(asked)}\n"
        f"landed {landed} hits {hits}\n"
    )


def name_of(pattern, frame):
    return re.sub("#+", lambda run: str(frame).zfill(len(run[0])), pattern)


# ---- groups, takes and proxies


def expanded(graph):
    """The graph without groups: a use is replaced, at its place, by its group's nodes, each named by the use, a slash and its
    own name. A text that names an input becomes what the use connects there, one that names a use its group's output."""
    groups = {it["name"]: it for it in graph.get("groups", [])}

    def flat(nodes, prefix, inputs, found):
        shown = dict(inputs)
        for said in nodes:
            name, clips = prefix + said["name"], {}
            for clip, text in said.get("clips", {}).items():
                clips[clip] = shown.get(text, prefix + text)
            if "group" in said:
                group = groups[said["group"]]
                shown[said["name"]] = flat(group["nodes"], name + "/", clips, found).get(group["output"], f"{name}/{group['output']}")
            else:
                found.append({**said, "name": name, **({"clips": clips} if clips else {})})
        return shown

    nodes = []
    shown = flat(graph["nodes"], "", {}, nodes)
    node = graph["output"]["node"]
    return {**graph, "nodes": nodes, "output": {**graph["output"], "node": shown.get(node, node)}}


def takes_of(graph):
    """The graph of each take, as written first, and the eras of its nodes: what an edit reaches is of a later one."""
    nodes = graph["nodes"]
    found, eras = [graph], [[0] * len(nodes)]
    for take in graph.get("takes", []):
        nodes = [dict(it, params=dict(it.get("params", {}))) for it in nodes]
        places = {it["name"]: it for it in nodes}
        for edit in take["edits"]:
            places[edit["node"]]["params"][edit["param"]] = edit["value"]
        reached = {edit["node"] for edit in take["edits"]}
        for it in nodes:
            if reached & set(it.get("clips", {}).values()):
                reached.add(it["name"])
        found.append({**graph, "nodes": nodes, "output": {**graph["output"], "file": take["file"]}})
        eras.append([era + (it["name"] in reached) for era, it in zip(eras[-1], nodes)])
    return list(zip(found, eras))


LENGTHS = {
    "checker": ["size"], "boxblur": ["rx", "ry"], "erode": ["radius"], "dilate": ["radius"],
    "crop": ["x", "y", "width", "height"], "translate": ["dx", "dy"],
}


def scaled(graph, q):
    """The graph at a part of its size."""

    def length(effect, name, value):
        if isinstance(value, dict):
            return {**value, "keys": [[t, length(effect, name, v)] for t, v in value["keys"]]}
        if effect == "translate":
            return {"raw": rounded(fix(value), q)}
        return max(rounded(value, q), 1 if effect == "checker" else -16384)

    nodes = []
    for said in graph["nodes"]:
        effect, params = said.get("effect"), said.get("params", {})
        # (lengths that aren't said have their defaults scaled too)
        for kind, name, default in PARAMS.get(effect, []) if q > 1 else []:
            if name in LENGTHS.get(effect, []):
                params = {**params, name: length(effect, name, params.get(name, default))}
        nodes.append({**said, "params": params} if params else said)
    project = graph["project"]
    size = {side: (project[side] + q - 1) // q for side in ("width", "height")}
    return {**graph, "project": {**project, **size}, "nodes": nodes}


class Reduced:
    """A frame at a part of its size."""

    def __init__(self, frame, q):
        self.frame, self.q, self.depth = frame, q, frame.depth
        self.width, self.height = (frame.width + q - 1) // q, (frame.height + q - 1) // q

    def at(self, x, y):
        if not (0 <= x < self.width and 0 <= y < self.height):
            return (0, 0, 0, 0)
        q = self.q
        block = [self.frame.at(q * x + i, q * y + j) for j in range(q) for i in range(q)]
        return each(lambda *samples: rounded(sum(samples), q * q), *block)


# ---- the command


def frames_of(graph, words):
    first, last = graph["range"]["first"], graph["range"]["last"]
    if "--first" in words:
        first = max(first, int(words[words.index("--first") + 1]))
    if "--last" in words:
        last = min(last, int(words[words.index("--last") + 1]))
    return first, last


def option(words, name, default):
    return int(words[words.index(name) + 1]) if name in words else default


def moments_of(graph, frame_of, words):
    """The scenes, eras and frames of a run, in order."""
    q = option(words, "--scale", 1)
    first, last = frames_of(graph, words)
    takes = takes_of(expanded(graph))[: None if words[0] == "takes" else 1]
    scenes = [(Scene(scaled(take, q), lambda name: Reduced(frame_of(name), q)), eras) for take, eras in takes]
    return [(scene, eras, t) for scene, eras in scenes for t in range(first, last + 1)]


def plan_text(moments, side):
    said = [f"frames {len(moments)}\n"]
    for scene, _, t in moments:
        entries = [it[1:] for it in scene.plan(t, side)]
        entries.sort(key=lambda it: (it[0], it[1], it[2][1], it[2][0], it[2][3], it[2][2]))
        said.append(f"frame {t} entries {len(entries)}\n")
        said += [f"{n} {f} {' '.join(map(str, r))}\n" for n, f, r in entries]
    return "".join(said)


def run(graph, frame_of, words):
    """The files of a run, and its report."""
    moments, side = moments_of(graph, frame_of, words), option(words, "--tile", 64)
    if words[0] == "plan":
        return {}, plan_text(moments, side)
    files = {name_of(scene.graph["output"]["file"], t): scene.text(t) for scene, _, t in moments}
    takes = f"takes {len(graph.get('takes', [])) + 1}\n" if words[0] == "takes" else ""
    return files, takes + report(moments, side, option(words, "--cache", 4096) > 0)


def main(words):
    def data(name):
        with open(name, "rb") as it:
            return it.read()

    files, said = run(json.loads(data(words[1])), lambda name: Frame(data(name)), words)
    for name, text in files.items():
        with open(name, "wb") as it:
            it.write(text)
    print(said, end="")


if __name__ == "__main__":
    main(sys.argv[1:])
