#!/usr/bin/env python3
"""opencv.py [RUNS [FRAMES [NAME..]]]: each effect beside OpenCV, one worker beside one thread.

It renders 8 HD frames of noise, or FRAMES, r, g, b and a, in bytes and in shorts, from and to PAM files in a folder of its own
in memory, in tiles of 64: processor time of the least of 3 runs, or of RUNS, less that of reading and writing the same frames
with no effect. The clips of an effect all show one source, so that no more is read than with no effect. OpenCV does the same
work within this process, on arrays that are there. It prints milliseconds a frame of both and how many times the one is of the
other, of a copy of the frame, and the greatest difference of a sample away from the edges. Effects that OpenCV has no call for
are beside the copy alone. Python needs numpy and cv2."""
import os
import resource
import shutil
import subprocess
import sys
import tempfile
import time

try:
    import cv2
    import numpy
except ImportError as error:
    print(f"opencv.py: skipped, since there is no {error.name}: python3-opencv has it")
    sys.exit(0)

HERE = os.path.dirname(os.path.dirname(os.path.abspath(__file__)))
PROGRAM = os.environ.get("OFXR", f"{HERE}/crates/ofxr/out/ofxr")
NUMBERS = [int(word) for word in sys.argv[1:] if word.isdecimal()]
NAMES = [word for word in sys.argv[1:] if not word.isdecimal()]
RUNS = NUMBERS[0] if NUMBERS else 3
FRAMES = NUMBERS[1] if len(NUMBERS) > 1 else 8
WIDTH, HEIGHT = 1920, 1080
# How far from an edge a sample is compared.
INSIDE = 70

HEADER = "P7\nWIDTH %d\nHEIGHT %d\nDEPTH 4\nMAXVAL %d\nTUPLTYPE RGB_ALPHA\nENDHDR\n"
GRAPH = """{"ofxr":1,"project":{"width":%d,"height":%d,"depth":"%s","components":"RGBA"},
"output":{"node":"%s","file":"%s.#.pam","format":"RGB_ALPHA"},"range":{"first":0,"last":%d},
"nodes":[{"name":"a","source":"a.#.pam","first":0,"last":%d}%s]}"""
SOURCE = {"Source": "a"}
TWO = {"A": "a", "B": "a"}
FADED = {"SourceFrom": "a", "SourceTo": "a"}


def square(radius):
    return numpy.ones((2 * radius + 1, 2 * radius + 1), numpy.uint8)


def over(a, b, most):
    clear = cv2.merge([cv2.bitwise_not(a[:, :, 3])] * 4)
    return cv2.add(a, cv2.multiply(b, clear, scale=1 / most))


def screen(a, b, most):
    return cv2.bitwise_not(cv2.multiply(cv2.bitwise_not(a), cv2.bitwise_not(b), scale=1 / most))


def keyed(a, b, most):
    mask = cv2.merge([a[:, :, 3]] * 4)
    first = cv2.multiply(a, mask, scale=1 / most)
    return cv2.add(first, cv2.multiply(b, cv2.bitwise_not(mask), scale=1 / most))


def saturated(a, _b, _most):
    luma = numpy.array([0.2126, 0.7152, 0.0722, 0]) * (1 - 1.5)
    matrix = numpy.vstack([luma, luma, luma, numpy.zeros(4)]) + numpy.diag([1.5, 1.5, 1.5, 1])
    return cv2.transform(a, matrix)


def moved(a, _b, _most):
    return cv2.warpAffine(a, numpy.float32([[1, 0, 0.5], [0, 1, -0.5]]), (WIDTH, HEIGHT))


def reversed_samples(a, _b, _most):
    made = numpy.empty_like(a)
    cv2.mixChannels([a], [made], [0, 3, 1, 2, 2, 1, 3, 0])
    return made


def premultiplied(a, _b, _most):
    return cv2.cvtColor(a, cv2.COLOR_RGBA2mRGBA) if a.dtype == numpy.uint8 else None


def divided(a, _b, _most):
    return cv2.cvtColor(a, cv2.COLOR_mRGBA2RGBA) if a.dtype == numpy.uint8 else None


def posterised(a, _b, _most):
    levels = ((numpy.arange(256) * 4 + 127) // 255 * 255 + 2) // 4
    return cv2.LUT(a, levels.astype(numpy.uint8)) if a.dtype == numpy.uint8 else None


def raised(a, _b, most):
    factor = most / a[:, :, :3].max()
    return cv2.multiply(a, (factor, factor, factor, 1))


def opaque(a, _b, most):
    return numpy.full_like(a, most)


BLUR = numpy.array([[1, 2, 1], [2, 4, 2], [1, 2, 1]], numpy.float32) / 16
NINE = {f"k{k + 1}": v for k, v in enumerate([1, 2, 1, 2, 4, 2, 1, 2, 1])} | {"divisor": 16}
ZERO = {"borderType": cv2.BORDER_CONSTANT}

# Name, effect, clips, parameters, and what OpenCV does.
WORKS = [
    ("invert", "invert", SOURCE, {}, None),
    ("gain", "gain", SOURCE, {"gain": "1.5"}, lambda a, b, m: cv2.multiply(a, (1.5, 1.5, 1.5, 1))),
    ("premult", "premult", SOURCE, {}, premultiplied),
    ("unpremult", "unpremult", SOURCE, {}, divided),
    ("shuffle", "shuffle", SOURCE, {"r": "a", "g": "b", "b": "g", "a": "r"}, reversed_samples),
    ("saturation", "saturation", SOURCE, {"amount": "1.5"}, saturated),
    ("posterise", "posterise", SOURCE, {"levels": 5}, posterised),
    ("boxblur 2", "boxblur", SOURCE, {"rx": 2, "ry": 2}, lambda a, b, m: cv2.blur(a, (5, 5), **ZERO)),
    ("boxblur 64", "boxblur", SOURCE, {"rx": 64, "ry": 64}, lambda a, b, m: cv2.blur(a, (129, 129), **ZERO)),
    ("erode 2", "erode", SOURCE, {"radius": 2}, lambda a, b, m: cv2.erode(a, square(2), borderValue=0, **ZERO)),
    ("erode 32", "erode", SOURCE, {"radius": 32}, lambda a, b, m: cv2.erode(a, square(32), borderValue=0, **ZERO)),
    ("dilate 2", "dilate", SOURCE, {"radius": 2}, lambda a, b, m: cv2.dilate(a, square(2), borderValue=0, **ZERO)),
    ("dilate 32", "dilate", SOURCE, {"radius": 32}, lambda a, b, m: cv2.dilate(a, square(32), borderValue=0, **ZERO)),
    ("convolve3", "convolve3", SOURCE, NINE, lambda a, b, m: cv2.filter2D(a, -1, BLUR, **ZERO)),
    ("crop", "crop", SOURCE, {"x": 1, "y": 1, "width": 1918, "height": 1078}, lambda a, b, m: a.copy()),
    ("translate", "translate", SOURCE, {"dx": "0.5", "dy": "0.5"}, moved),
    ("mirror", "mirror", SOURCE, {"axis": "x"}, lambda a, b, m: cv2.flip(a, 1)),
    ("timeoffset", "timeoffset", SOURCE, {"offset": 0}, lambda a, b, m: a.copy()),
    ("frameblend", "frameblend", SOURCE, {"radius": 1}, None),
    ("framediff", "framediff", SOURCE, {"gap": 1}, None),
    ("echo", "echo", SOURCE, {"count": 2}, None),
    ("dissolve", "dissolve", FADED, {"Transition": "0.5"},
     lambda a, b, m: cv2.addWeighted(a, 0.5, b, 0.5, 0)),
    ("wipe", "wipe", FADED, {"Transition": "0.5"},
     lambda a, b, m: numpy.hstack([b[:, :960], a[:, 960:]])),
    ("over", "merge", TWO, {"operation": "over"}, over),
    ("plus", "merge", TWO, {"operation": "plus"}, lambda a, b, m: cv2.add(a, b)),
    ("multiply", "merge", TWO, {"operation": "multiply"}, lambda a, b, m: cv2.multiply(a, b, scale=1 / m)),
    ("screen", "merge", TWO, {"operation": "screen"}, screen),
    ("min", "merge", TWO, {"operation": "min"}, lambda a, b, m: cv2.min(a, b)),
    ("max", "merge", TWO, {"operation": "max"}, lambda a, b, m: cv2.max(a, b)),
    ("minus", "merge", TWO, {"operation": "minus"}, lambda a, b, m: cv2.subtract(a, b)),
    ("keymix", "keymix", TWO | {"Mask": "a"}, {}, keyed),
    ("autogain", "autogain", SOURCE, {}, raised),
    ("solid", "solid", {}, {"r": "1", "g": "1", "b": "1"}, opaque),
    ("checker", "checker", {}, {"size": 7}, None),
    ("ramp", "ramp", {}, {}, None),
    ("grain", "grain", {}, {"seed": 5}, lambda a, b, m: cv2.randu(numpy.empty_like(a), 0, m)),
]


def node(effect, clips, params):
    def members(of):
        return ",".join(f'"{name}":' + (f'"{value}"' if isinstance(value, str) else str(value)) for name, value in of.items())

    return ',{"name":"n","effect":"%s","clips":{%s},"params":{%s}}' % (effect, members(clips), members(params))


def write_frames(kind, most):
    """The frames, other noise in each; the first as an array too."""
    noise = numpy.random.default_rng(1)
    first = None
    for frame in range(FRAMES):
        pixels = noise.integers(0, most + 1, (HEIGHT, WIDTH, 4)).astype(kind)
        with open(f"a.{frame}.pam", "wb") as file:
            file.write((HEADER % (WIDTH, HEIGHT, most)).encode() + pixels.astype(pixels.dtype.newbyteorder(">")).tobytes())
        first = pixels if first is None else first
    return first


def spent(graph):
    """Processor time of rendering all frames, in milliseconds a frame, or None where it is refused."""
    before = resource.getrusage(resource.RUSAGE_CHILDREN)
    ran = subprocess.run([PROGRAM, "render", graph, "--workers", "1"], stdout=subprocess.DEVNULL, stderr=subprocess.DEVNULL)
    after = resource.getrusage(resource.RUSAGE_CHILDREN)
    if ran.returncode:
        return None
    return (after.ru_utime + after.ru_stime - before.ru_utime - before.ru_stime) / FRAMES * 1000


def within(call):
    """The least processor time of a call here, in milliseconds, and what it gave."""
    made, best = call(), float("inf")
    for _ in range(2 + 2 * RUNS):
        start = time.process_time()
        call()
        best = min(best, time.process_time() - start)
    return best * 1000, made


def difference(path, kind, other):
    """The greatest difference of a sample away from the edges."""
    data = open(path, "rb").read().partition(b"ENDHDR\n")[2]
    pixels = numpy.frombuffer(data, numpy.dtype(kind).newbyteorder(">")).reshape(HEIGHT, WIDTH, 4).astype(numpy.int64)
    apart = numpy.abs(pixels - other)[INSIDE:-INSIDE, INSIDE:-INSIDE]
    return int(apart.max())


def table(depth, kind, most):
    a = write_frames(kind, most)
    last = FRAMES - 1
    graphs = {"none": ("a", "")} | {name: ("n", node(*work)) for name, *work, _ in WORKS if not NAMES or name.split()[0] in NAMES}
    for name, (shown, nodes) in graphs.items():
        with open(f"{name}.json", "w") as file:
            file.write(GRAPH % (WIDTH, HEIGHT, depth, shown, name, last, last, nodes))
    least = {}
    for _ in range(RUNS):
        for name in graphs:
            took = spent(f"{name}.json")
            if took is not None:
                least[name] = min(took, least.get(name, took))
    copy, _ = within(a.copy)
    print(f"{depth}: a copy {copy:.1f} ms; reading and writing {least['none']:.1f} ms a frame")
    for name, *_, call in WORKS:
        if name not in least:
            continue
        ours = max(0, least[name] - least["none"])
        line = f"{depth} {name:12} {ours:7.1f} ms, {ours / copy:5.1f} copies"
        theirs, made = within(lambda: call(a, a, most)) if call else (0, None)
        if made is not None:
            line += f", OpenCV {theirs:6.1f} ms, {ours / theirs:5.1f} times it, most {difference(f'{name}.0.pam', kind, made)}"
        print(line, flush=True)


def main():
    cv2.setNumThreads(1)
    folder = tempfile.mkdtemp(dir="/dev/shm" if os.path.isdir("/dev/shm") else None)
    os.chdir(folder)
    try:
        table("byte", numpy.uint8, 255)
        table("short", numpy.uint16, 65535)
    finally:
        shutil.rmtree(folder)


main()
