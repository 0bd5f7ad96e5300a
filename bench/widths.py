#!/usr/bin/env python3
"""Holds each effect against host.py in windows 1 to 67 pixels wide, so that every lane of a vectorised loop has its edge.

    widths.py [FIRST LAST [SEED]]     windows of these widths, 1 to 67, of random pixels by this seed, 1

Each of the 27 effects is rendered at each width, in projects of both depths, of RGBA and of Alpha (what an effect doesn't render
itself comes to it converted), with a few drawn sets of parameters, one for each frame: all operations, the least and the greatest
radii. A crop cuts the window, which begins anywhere in the project; sources are moved by whole and by parts of pixels, some so that
they begin within it; tiles are 16, 64, 256 or 1,024 wide. At each width and depth an effect renders the window by one tile at
least once, but for crop and timeoffset, which show what is there, and a wipe of one column, which has no edge. OFXR names another
program. It prints how many frames differ from those of host.py, and of the first its case; its status is 1 if any differs.
"""
import json
import os
import random
import sys
import tempfile

sys.path.insert(0, os.path.dirname(os.path.abspath(__file__)))
import agree
import host

SIDES = (16, 64, 256, 1024)
PROJECTS = [(depth, components) for depth in ("byte", "short") for components in ("RGBA", "Alpha")]
# how far pixels are read but of the greatest lengths
NEAR = 3
TIMED = ("timeoffset", "frameblend", "framediff", "echo")
# what random bytes become: any, of three one 0 and one 255, and few that aren't 0, or 255
FEW = [max(0, 63 * (value - 251)) for value in range(256)]
TABLES = {
    "any": bytes(range(256)), "hard": bytes((0, 255, value)[value % 3] for value in range(256)),
    "low": bytes(FEW), "high": bytes(255 - value for value in FEW),
}
# where the least or the greatest of many is taken, it is to be another one from pixel to pixel: at the greatest radius it rises
KINDS = {"erode": ["any", "high", "rising"], "dilate": ["any", "low", "rising"]}


def part(dice, low, high):
    return f"{dice.uniform(low, high):.5f}"


def weights(dice, most):
    return {f"k{place}": dice.randint(-most, most) for place in range(1, 10)}


# the sets of parameters that are drawn for an effect; but for wipe, effects that aren't here have none
DRAWN = {
    "solid": lambda dice: [{c: part(dice, 0, 1) for c in "rgba"} for _ in range(2)],
    "checker": lambda dice: [{"size": size, "level": part(dice, 0, 1)} for size in (1, 2, dice.randint(3, 40))],
    "ramp": lambda dice: [{"axis": axis} for axis in agree.CHOICES["axis"]],
    "grain": lambda dice: [{"seed": dice.randint(0, 999999), "amount": amount} for amount in (1, part(dice, 0, 1))],
    "gain": lambda dice: [{"gain": gain} for gain in (0, part(dice, 0, 1), part(dice, 1, 16))],
    "shuffle": lambda dice: [{c: dice.choice(agree.CHOICES[c]) for c in "rgba"} for _ in range(3)],
    "saturation": lambda dice: [{"amount": amount} for amount in (0, part(dice, 0, 1), part(dice, 1, 4))],
    "posterise": lambda dice: [{"levels": levels} for levels in (2, dice.randint(3, 255))],
    "boxblur": lambda dice: [{"rx": rx, "ry": ry} for rx, ry in ((1, 1), (2, 2), (2, 0), (0, 1))],
    "erode": lambda dice: [{"radius": radius} for radius in (1, 2)],
    "dilate": lambda dice: [{"radius": radius} for radius in (1, 2)],
    "convolve3": lambda dice: [{**weights(dice, most), "divisor": dice.randint(1, 4 * most)} for most in (2, 256)],
    "crop": lambda dice: [{"x": dice.randint(0, 40), "y": dice.randint(0, 2), "width": dice.randint(1, 67)} for _ in range(2)],
    "translate": lambda dice: [{"dx": dx, "dy": dy} for dx, dy in ((-3, 1), (part(dice, -9, 9), 0), (part(dice, -9, 9), part(dice, -1, 1)))],
    "mirror": lambda dice: [{"axis": axis} for axis in agree.CHOICES["axis"]],
    "timeoffset": lambda dice: [{"offset": offset} for offset in (-1, 3)],
    "frameblend": lambda dice: [{"radius": radius} for radius in (1, 2, dice.randint(3, 16))],
    "framediff": lambda dice: [{"gap": gap} for gap in (1, dice.randint(2, 8))],
    "echo": lambda dice: [{"count": count, "gap": gap} for count, gap in ((2, 1), (8, 1), (dice.randint(1, 4), 2))],
    "dissolve": lambda dice: [{"Transition": share} for share in ("0.5", part(dice, 0, 1), part(dice, 0, 1))],
    "merge": lambda dice: [{"operation": operation} for operation in agree.CHOICES["operation"]],
}
# the greatest lengths of an effect, which take host.py long: at each width, they are tried in one of the four projects
FAR = {
    "boxblur": lambda width: [{"rx": 64, "ry": 0}, {"rx": 0, "ry": 64}, {"rx": 64, "ry": 64 if width % 8 == 3 else 1}],
    "erode": lambda width: [{"radius": 32}],
    "dilate": lambda width: [{"radius": 32}],
}


def row_of(dice, kind, count):
    """Random bytes of a row."""
    data = dice.randbytes(count)
    return bytes(sorted(data)) if kind == "rising" else data.translate(TABLES[kind])


class Case:
    """An effect over one window of a project, with a frame for each set of parameters."""

    def __init__(self, seed, effect, width, turn, far):
        self.depth, self.components = PROJECTS[turn]
        self.name = f"{effect} {width} {self.depth} {self.components}{' far' if far else ''}, seed {seed}"
        self.dice = dice = random.Random(self.name)
        self.effect, self.first, self.files = effect, 8 if effect in TIMED else 0, {}
        # what renders whole images does so over the project, which is then the window
        left, right = (0, 0) if effect in host.WHOLE else (dice.randint(0, 20), dice.randint(0, 3))
        self.window = {"x": left, "y": dice.randint(0, 2), "width": width, "height": dice.randint(2, 3)}
        self.size = left + width + right, self.window["y"] + self.window["height"] + dice.randint(0, 1)
        self.sets = FAR[effect](width) if far else self.drawn()
        # how far pixels lie that are read
        self.reach = max(length for it in self.sets for length in it.values()) if far else NEAR
        # at each depth and width, one of RGBA and Alpha has the whole window in a tile
        self.side = dice.choice(SIDES[2:] if (turn + width + seed) % 2 else SIDES)

    def drawn(self):
        """The sets of parameters; the edge of a wipe lies within the window."""
        dice, left, width = self.dice, self.window["x"], self.window["width"]
        if self.effect == "wipe":
            return [{"Transition": f"{(left + dice.randint(min(1, width - 1), width - 1)) / self.size[0] + 0.0002:.6f}"} for _ in range(3)]
        return DRAWN.get(self.effect, lambda dice: [{}, {}])(dice)

    def keyed(self, values):
        """A parameter that has one of these values at each frame."""
        return {"keys": [[self.first + at, value] for at, value in enumerate(values)], "step": True}

    def place(self, at, begin, side):
        """How far a source is moved along an axis at a frame: over the whole project and what is read beyond, or, not at the
        first, to within the window."""
        dice = self.dice
        whole = dice.randint(-4, 0) - self.reach
        if self.reach == NEAR and at > 0 and dice.random() < 0.5:
            whole = dice.choice([0, begin + dice.randint(-2, side)])
        return dice.choice([whole, whole, f"{whole}.{dice.randint(1, 999):03}"])

    def picture(self, depth, width, height):
        """A PAM file of random samples."""
        size = 1 if depth == "byte" else 2
        kinds = KINDS.get(self.effect, ["any", "any", "hard"])
        kind = self.dice.choice(kinds if self.reach == NEAR else kinds[-1:])
        header = f"P7\nWIDTH {width}\nHEIGHT {height}\nDEPTH 4\nMAXVAL {256**size - 1}\nENDHDR\n"
        return header.encode() + b"".join(row_of(self.dice, kind, width * 4 * size) for _ in range(height))

    def source(self, clip):
        """The nodes of a clip: its source, of a picture for each of a few frames, and mostly what moves that."""
        dice, window = self.dice, self.window
        last = 12 if self.effect in TIMED else 0 if self.reach > NEAR else 2
        depth = self.depth if dice.random() < 0.8 else dice.choice(["byte", "short"])
        for at in range(last + 1):
            self.files[f"{clip}.{at}.pam"] = self.picture(depth, *(side + 2 * self.reach + 4 for side in self.size))
        frames = range(max(last + 1 - self.first, len(self.sets)))
        places = {
            "dx": self.keyed([self.place(at, window["x"], window["width"]) for at in frames]),
            "dy": self.keyed([self.place(at, window["y"], 0) for at in frames]),
        }
        read = {"source": f"{clip}.#.pam", "first": 0, "last": last, "outside": dice.choice(["hold", "hold", "black"])}
        if self.reach == NEAR and dice.random() < 0.3:
            return [{"name": clip, **read}]
        move = {"name": clip, "effect": "translate", "clips": {"Source": "read " + clip}, "params": places}
        return [{"name": "read " + clip, **read}, move]

    def graph(self):
        clips = host.clips_of(self.effect)
        params = {
            name: self.keyed([it.get(name, default) for it in self.sets]) for _, name, default in host.PARAMS[self.effect]
        }
        node = {"name": "effect", "effect": self.effect, "clips": {clip: clip for clip in clips}, "params": params}
        window = {"name": "window", "effect": "crop", "clips": {"Source": "effect"}, "params": self.window}
        return {
            "ofxr": 1,
            "project": {"width": self.size[0], "height": self.size[1], "depth": self.depth, "components": self.components},
            "output": {"node": "window", "file": "o#.pam", "format": "RGB_ALPHA" if self.components == "RGBA" else "GRAYSCALE"},
            "range": {"first": self.first, "last": self.first + len(self.sets) - 1},
            "nodes": [*(it for clip in clips for it in self.source(clip)), node, window],
        }

    def hold(self):
        """How many frames there are, how many of them differ from those of host.py, and what tells of the first."""
        graph = self.graph()
        words = ["render", "g.json", "--tile", str(self.side), "--workers", "1"]
        wanted, _ = host.run(graph, lambda name: host.Frame(self.files[name]), words)
        _, left, why = agree.left_by(graph, self.files, words)
        wrong = [name for name in wanted if left.get(name) != wanted[name]]
        return len(wanted), len(wrong), f"{self.name}, {' '.join(words)}: {why or wrong[:1]}\n{json.dumps(graph)}"


def cases(widths, seed):
    for effect in host.PARAMS:
        for width in widths:
            for turn in range(len(PROJECTS)):
                yield Case(seed, effect, width, turn, False)
                if effect in FAR and turn == (width // 2 + seed) % len(PROJECTS):
                    yield Case(seed, effect, width, turn, True)


def main(words):
    first, last, seed = (int(it) for it in [*words, *["1", "67", "1"][len(words):]])
    tempfile.tempdir = "/dev/shm" if os.path.isdir("/dev/shm") else None
    frames = failed = 0
    for case in cases(range(first, last + 1), seed):
        count, wrong, told = case.hold()
        if wrong and not failed:
            print(told, flush=True)
        frames, failed = frames + count, failed + wrong
    print(f"widths: {frames} frames of {len(host.PARAMS)} effects, {failed} differ")
    return 1 if failed else 0


if __name__ == "__main__":
    sys.exit(main(sys.argv[1:]))
