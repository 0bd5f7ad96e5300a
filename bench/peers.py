#!/usr/bin/env python3
"""peers.py [RUNS [FRAMES [NAME..]]]: the same work by ofxr and by what else is installed of OpenCV, libvips, ffmpeg,
ImageMagick, GraphicsMagick and Netpbm, by one thread and by four. The works, of which NAMEs choose:

  one     a frame blurred by the mean of 13 by 5 pixels, in one call
  blur    24 frames, or FRAMES, blurred so
  grade   the mean of 5 by 5 pixels, then a gain, then more saturation
  over    one premultiplied picture over another
  twelve  the graph of twelve nodes of ahead.py, beside OpenCV alone
  half    a reduction to a half, the means of blocks of 2 by 2

The frames have 1,920 by 1,080 pixels of noise, r, g, b and a in bytes, opaque but for grade, twelve and the upper
picture of over, which ImageMagick and GraphicsMagick get unpremultiplied, as they want it. They are read from and
written to files in a folder of its own in memory, of 2.5 GB at 24 frames: PAM, but for the program vips, which has its
own format, and for Netpbm's blur, which knows no alpha. Each time is the best of 3 runs or of RUNS, all by turns.

A program is timed from its start to its end, and where it takes one frame a call it is started for each. OpenCV and
libvips are libraries: a Python reads, works and writes by them, frame after frame, and times that itself. Its start and
what it imports don't count, and what is the same in all frames is made once. Frames side by side, which each of them
could do, aren't measured, but as far as ffmpeg reads and writes so, and ofxr with --ahead 2.

It prints a table: milliseconds a frame and, in brackets, the greatest difference of a sample in any frame from ofxr's,
away from the edges, where each has a rule of its own. Where that is over 1, or alpha is wanting, the work isn't equal
and doesn't count. Behind that, ofxr's time over the least of equal work by as many threads, and below the geometric
means of these. Python needs numpy, and cv2 for OpenCV."""
import concurrent.futures
import ctypes
import ctypes.util
import functools
import glob
import json
import os
import shutil
import statistics
import subprocess
import sys
import tempfile
import time
import typing

try:
    import numpy
except ImportError:
    print("peers.py: skipped, since there is no numpy: python3-numpy has it")
    sys.exit(0)
try:
    import cv2
except ImportError:
    cv2 = None

HERE = os.path.dirname(os.path.dirname(os.path.abspath(__file__)))
PROGRAM = os.environ.get("OFXR", f"{HERE}/crates/ofxr/out/ofxr")
WORKS = ("one", "blur", "grade", "over", "twelve", "half")
NUMBERS = [int(word) for word in sys.argv[1:] if word.isdecimal()]
NAMES = [word for word in WORKS if word in sys.argv[1:]] or WORKS
RUNS = NUMBERS[0] if NUMBERS else 3
FRAMES = NUMBERS[1] if len(NUMBERS) > 1 else 24
WIDTH, HEIGHT = 1920, 1080
# How far from an edge a sample is compared.
INSIDE = 16
LUMA = (0.2126, 0.7152, 0.0722)
AMOUNT = 1.5


def header(width, height):
    return f"P7\nWIDTH {width}\nHEIGHT {height}\nDEPTH 4\nMAXVAL 255\nTUPLTYPE RGB_ALPHA\nENDHDR\n".encode()


def put(path, picture):
    """Writes a picture as a PAM file."""
    with open(path, "wb", buffering=0) as file:
        file.write(header(picture.shape[1], picture.shape[0]))
        file.write(picture)


def count(work):
    return 1 if work == "one" else FRAMES


# What is given to all of them.


def node(name, effect, clips, **params):
    return {"name": name, "effect": effect, "clips": clips, "params": params}


def colour(plate):
    return [
        node("blur", "boxblur", {"Source": plate}, rx=2, ry=2),
        node("gain", "gain", {"Source": "blur"}, gain="1.2"),
        node("colour", "saturation", {"Source": "gain"}, amount=str(AMOUNT)),
    ]


BLUR = [node("blur", "boxblur", {"Source": "plate"}, rx=6, ry=2)]
TWELVE = colour("cut") + [
    node("blend", "frameblend", {"Source": "cut"}, radius=1),
    node("fade", "dissolve", {"SourceFrom": "colour", "SourceTo": "blend"}, Transition="0.5"),
    node("order", "shuffle", {"Source": "fade"}, r="b", b="r"),
    node("moved", "translate", {"Source": "order"}, dx="10.25"),
    node("squares", "checker", {}),
    node("grain", "grain", {}, amount="0.1"),
    node("over", "merge", {"A": "moved", "B": "squares"}, operation="over"),
    node("sum", "merge", {"A": "over", "B": "grain"}, operation="plus"),
]
# The sources of each work's graph, and its nodes behind these.
GRAPHS = {
    "one": (["plate"], BLUR),
    "blur": (["plate"], BLUR),
    "grade": (["cut"], colour("cut")),
    "over": (["plate", "cut"], [node("over", "merge", {"A": "cut", "B": "plate"}, operation="over")]),
    "twelve": (["cut"], TWELVE),
    "half": (["plate"], []),
}


def write_graph(work):
    names, nodes = GRAPHS[work]
    sources = [{"name": it, "source": f"{it}.#.pam", "first": 0, "last": FRAMES - 1, "outside": "hold"} for it in names]
    graph = {
        "ofxr": 1,
        "project": {"width": WIDTH, "height": HEIGHT, "depth": "byte", "components": "RGBA"},
        "output": {"node": (nodes or sources)[-1]["name"], "file": "made.#.pam", "format": "RGB_ALPHA"},
        "range": {"first": 0, "last": count(work) - 1},
        "nodes": sources + nodes,
    }
    with open(f"{work}.json", "w") as file:
        json.dump(graph, file)


def write_frames():
    """Of each frame an opaque plate, and a picture that is cut out, as it is and premultiplied."""
    noise = numpy.random.default_rng(1)
    for frame in range(FRAMES):
        straight = noise.integers(0, 256, (HEIGHT, WIDTH, 4), numpy.uint8)
        cut, plate = straight.copy(), straight[::-1].copy()
        cut[:, :, :3] = (straight[:, :, :3] * straight[:, :, 3:].astype(numpy.uint32) * 2 + 255) // 510
        plate[:, :, 3] = 255
        for name, picture in (("plate", plate), ("straight", straight), ("cut", cut)):
            put(f"{name}.{frame}.pam", picture)
        with open(f"plate.{frame}.ppm", "wb") as file:
            file.write(b"P6\n%d %d\n255\n" % (WIDTH, HEIGHT) + plate[:, :, :3].tobytes())
    with open("mask.mat", "w") as file:
        file.write("13 5 65 0\n" + ("1 " * 13 + "\n") * 5)


def write_for_vips():
    """The frames once more, in its own format."""
    options = ["--offset", str(len(header(WIDTH, HEIGHT))), "--interpretation", "srgb"]
    for name in ("plate", "cut"):
        for frame in range(FRAMES):
            words = [f"{name}.{frame}.pam", f"{name}.{frame}.v", str(WIDTH), str(HEIGHT), "4"]
            subprocess.run(["vips", "rawload", *words, *options], check=True)


# OpenCV, in a process of its own.


def read(name, frame):
    """The samples of a frame, which stand behind the header of its file."""
    samples = numpy.fromfile(f"{name}.{frame}.pam", numpy.uint8, offset=len(header(WIDTH, HEIGHT)))
    return samples.reshape(HEIGHT, WIDTH, 4)


# Frames that stand beside one another in time are read once.
held = functools.lru_cache(3)(read)


def mean(picture, width, height):
    return cv2.blur(picture, (width, height), borderType=cv2.BORDER_CONSTANT)


@functools.cache
def gains():
    """What the gain makes of each byte, the a as it is."""
    raised = numpy.minimum((numpy.arange(256) * round(1.2 * 65536) + 32768) // 65536, 255)
    return numpy.stack([raised] * 3 + [numpy.arange(256)], axis=-1).astype(numpy.uint8).reshape(1, 256, 4)


def saturation():
    """The matrix of it, of r, g, b and a."""
    matrix = numpy.diag([AMOUNT, AMOUNT, AMOUNT, 1.0])
    matrix[:3, :3] += numpy.array(LUMA) * (1 - AMOUNT)
    return matrix


def graded(picture):
    return cv2.transform(cv2.LUT(mean(picture, 5, 5), gains()), saturation())


def over(a, b):
    clear = cv2.merge([cv2.bitwise_not(a[:, :, 3])] * 4)
    return cv2.add(a, cv2.multiply(b, clear, scale=1 / 255))


def blended(frames):
    total = cv2.add(cv2.add(frames[0], frames[1], dtype=cv2.CV_16U), frames[2], dtype=cv2.CV_16U)
    return cv2.convertScaleAbs(total, alpha=1 / 3)


# Added where halves are to be rounded up, as in ofxr, and not to the even.
UP = 0.001


def moved(picture):
    """A picture moved by ten columns and a quarter."""
    made = numpy.zeros_like(picture)
    cv2.addWeighted(picture[:, :-11], 0.25, picture[:, 1:-10], 0.75, UP, made[:, 11:])
    return made


@functools.cache
def still():
    """What is the same in each frame: the squares, and what the grain counts from."""
    x = numpy.arange(WIDTH, dtype=numpy.uint32)[None]
    y = numpy.arange(HEIGHT, dtype=numpy.uint32)[::-1, None]
    squares = numpy.where((x // 16 + y // 16) % 2, 0, 255).astype(numpy.uint8)
    return cv2.cvtColor(squares, cv2.COLOR_GRAY2RGBA), x * numpy.uint32(73856093) + y * numpy.uint32(19349663)


# How many rows of grain are made at once, and who makes them.
ROWS = 30
each_of = map


def grain(frame):
    start = still()[1]
    made = numpy.empty((HEIGHT, WIDTH), numpy.uint8)
    shift = numpy.uint32(frame * 83492791 % 2**32)

    def fill(y):
        h = start[y : y + ROWS] + shift
        h *= 2 * h + 1
        h = h >> 16 | h << 16
        h *= 2 * h + 1
        h >>= 16
        h *= 26
        h //= 65535
        made[y : y + ROWS] = h

    list(each_of(fill, range(0, HEIGHT, ROWS)))
    return cv2.cvtColor(made, cv2.COLOR_GRAY2RGBA)


def twelve(frame):
    near = [held("cut", min(max(frame + k, 0), FRAMES - 1)) for k in (-1, 0, 1)]
    fade = cv2.addWeighted(graded(near[1]), 0.5, blended(near), 0.5, UP)
    return cv2.add(over(moved(cv2.cvtColor(fade, cv2.COLOR_RGBA2BGRA)), still()[0]), grain(frame))


OPENCV = {
    "one": lambda frame: mean(read("plate", frame), 13, 5),
    "blur": lambda frame: mean(read("plate", frame), 13, 5),
    "grade": lambda frame: graded(read("cut", frame)),
    "over": lambda frame: over(read("cut", frame), read("plate", frame)),
    "twelve": twelve,
    "half": lambda frame: cv2.resize(read("plate", frame), (WIDTH // 2, HEIGHT // 2), interpolation=cv2.INTER_AREA),
}


def with_opencv(work, threads):
    global each_of
    cv2.setNumThreads(threads)
    if threads > 1:
        each_of = concurrent.futures.ThreadPoolExecutor(threads).map
    start = time.perf_counter()
    for frame in range(count(work)):
        put(f"made.{frame}.pam", OPENCV[work](frame))
    return time.perf_counter() - start


# libvips, in a process of its own, by the calls of its library in C.


@functools.cache
def library():
    path = ctypes.util.find_library("vips")
    return ctypes.CDLL(path) if path else None


def vips(name, *words, into=1):
    """The picture that a call makes: it is put where so many words stand before it."""

    def passed(word):
        return {int: ctypes.c_int64, float: ctypes.c_double}.get(type(word), lambda it: it)(word)

    made = ctypes.c_void_p()
    words = [*words[:into], ctypes.byref(made), *words[into:], None]
    if library()[f"vips_{name}"](*map(passed, words)):
        sys.exit(f"peers.py: vips_{name} failed")
    return made


def matrix_of(rows, scale=1.0):
    rows = numpy.array(rows, numpy.float64)
    new = library().vips_image_new_matrix_from_array
    new.restype = ctypes.c_void_p
    made = ctypes.c_void_p(new(rows.shape[1], rows.shape[0], rows.ctypes.data_as(ctypes.c_void_p), rows.size))
    library().vips_image_set_double(made, b"scale", ctypes.c_double(scale))
    return made


def loaded(name, frame):
    # 22 stands for VIPS_INTERPRETATION_sRGB
    options = (b"offset", len(header(WIDTH, HEIGHT)), b"interpretation", 22)
    return vips("rawload", f"{name}.{frame}.pam".encode(), WIDTH, HEIGHT, 4, *options)


def bytes_of(picture, *factors):
    """The samples times these factors, to the nearest byte, halves up."""
    size = len(factors)
    numbers = ctypes.c_double * size
    return vips("linear", picture, numbers(*factors), numbers(*[0.5] * size), size, b"uchar", 1)


def vips_mean(picture):
    # 0 stands for VIPS_PRECISION_INTEGER
    return vips("conv", picture, matrix_of([[1] * 13] * 5, 65.0), b"precision", 0)


def vips_graded(picture):
    # 1 stands for VIPS_PRECISION_FLOAT: integers are off by one at times, which the saturation doubles
    rows = vips("conv", picture, matrix_of([[1] * 5]), b"precision", 1)
    blur = bytes_of(vips("conv", rows, matrix_of([[1]] * 5, 25.0), b"precision", 1), 1)
    return bytes_of(vips("recomb", bytes_of(blur, 1.2, 1.2, 1.2, 1), matrix_of(saturation())), 1)


def vips_over(a, b):
    # 2 stands for VIPS_BLEND_MODE_OVER
    return vips("composite2", b, a, 2, b"premultiplied", 1, into=2)


LIBVIPS = {
    "one": lambda frame: vips_mean(loaded("plate", frame)),
    "blur": lambda frame: vips_mean(loaded("plate", frame)),
    "grade": lambda frame: vips_graded(loaded("cut", frame)),
    "over": lambda frame: vips_over(loaded("cut", frame), loaded("plate", frame)),
    "half": lambda frame: vips("shrink", loaded("plate", frame), 2.0, 2.0),
}


def with_libvips(work, threads):
    library().vips_init(b"peers.py")
    library().vips_concurrency_set(threads)
    size = (WIDTH // 2, HEIGHT // 2) if work == "half" else (WIDTH, HEIGHT)
    start = time.perf_counter()
    for frame in range(count(work)):
        picture = LIBVIPS[work](frame)
        with open(f"made.{frame}.pam", "wb", buffering=0) as file:
            file.write(header(*size))
            if library().vips_rawsave_fd(picture, file.fileno(), None):
                sys.exit("peers.py: vips_rawsave_fd failed")
    return time.perf_counter() - start


# The calls of each.


class Row(typing.NamedTuple):
    """What is measured: a work, who does it by so many threads, in which calls, in files of which kind, and whether the
    calls tell what they took."""

    work: str
    who: str
    threads: int
    calls: list
    kind: str = "pam"
    tells: bool = False


def each(work, *words):
    """A call for each frame, in which # is its number."""
    return [[word.replace("#", str(frame)) for word in words] for frame in range(count(work))]


def ofxr(work, threads):
    words = [PROGRAM, "render", f"{work}.json", "--workers", str(threads)]
    if work == "half":
        words += ["--scale", "2"]
    yield Row(work, "ofxr", threads, [words])
    if threads > 1:
        yield Row(work, "ofxr --ahead 2", threads, [[*words, "--ahead", "2"]])


def inside(who, works, work, threads):
    if work in works:
        words = [sys.executable, os.path.abspath(__file__), str(RUNS), str(FRAMES), work, "--inside", who, str(threads)]
        yield Row(work, who, threads, [words], tells=True)


def mixed(**factors):
    return "colorchannelmixer=" + ":".join(f"{name}={factor}" for name, factor in factors.items())


def ffmpeg(work, threads):
    ones = " ".join(["1"] * 25)
    # avgblur rounds down, which the gain and the saturation make more of; a convolution rounds to the nearest
    square = "convolution=" + ":".join(f"{plane}m={ones}:{plane}rdiv=0.04" for plane in range(4))
    # of the full strength only at 100: else less colourful pixels get less of it
    colours = "huesaturation=saturation=%g:strength=100:rw=%g:gw=%g:bw=%g" % (AMOUNT - 1, *LUMA)
    graphs = {
        "one": (["plate"], "avgblur=sizeX=6:sizeY=2"),
        "blur": (["plate"], "avgblur=sizeX=6:sizeY=2"),
        "grade": (["cut"], ",".join(["format=gbrap", square, mixed(rr=1.2, gg=1.2, bb=1.2), colours])),
        "over": (["plate", "cut"], "overlay=format=rgb:alpha=premultiplied"),
        "half": (["plate"], "scale=iw/2:ih/2:flags=area"),
    }
    if work in graphs:
        names, graph = graphs[work]
        number = "%d" if count(work) > 1 else "0"
        by = ["-threads", str(threads)]
        words = ["ffmpeg", "-v", "error", "-y", "-filter_complex_threads", str(threads)]
        for name in names:
            words += [*by, *(["-start_number", "0"] if count(work) > 1 else []), "-i", f"{name}.{number}.pam"]
        ends = ["-frames:v", str(count(work)), "-pix_fmt", "rgba", *by, "-start_number", "0", "made.%d.pam"]
        yield Row(work, "ffmpeg", threads, [[*words, "-filter_complex", graph, *ends]])


def vips_program(work, threads):
    blur = ["conv", "plate.#.v", "made.#.v", "mask.mat", "--precision", "integer"]
    words = {
        "one": blur,
        "blur": blur,
        "over": ["composite2", "plate.#.v", "cut.#.v", "made.#.v", "over", "--premultiplied"],
        "half": ["shrink", "plate.#.v", "made.#.v", "2", "2"],
    }
    if work in words:
        yield Row(work, "vips", threads, each(work, "vips", *words[work]), "v")


def image_magick(program, work, threads):
    words = {
        "one": ["plate.#.pam", "-define", "convolve:scale=!", "-morphology", "Convolve", "Rectangle:13x5"],
        "over": ["plate.#.pam", "straight.#.pam", "-compose", "over", "-composite"],
        "half": ["plate.#.pam", "-scale", "50%"],
    }
    if work in words:
        yield Row(work, "ImageMagick", threads, each(work, program, *words[work], "-depth", "8", "made.#.pam"))


def graphics_magick(work, threads):
    # its kernels are squares
    kernel = ["0"] * 13 * 4 + ["1"] * 13 * 5 + ["0"] * 13 * 4
    words = {
        "one": ["convert", "plate.#.pam", "-convolve", ",".join(kernel)],
        "over": ["composite", "-compose", "over", "straight.#.pam", "plate.#.pam"],
        "half": ["convert", "plate.#.pam", "-scale", "50%"],
    }
    if work in words:
        yield Row(work, "GraphicsMagick", threads, each(work, "gm", *words[work], "-depth", "8", "made.#.pam"))


def netpbm(work, threads):
    words = {
        "one": ("ppm", "pnmsmooth -quiet -width=13 -height=5 plate.#.ppm >made.#.ppm"),
        "half": ("pam", "pamscale -linear -quiet 0.5 plate.#.pam >made.#.pam"),
    }
    if threads == 1 and work in words:
        kind, call = words[work]
        yield Row(work, "Netpbm", threads, each(work, "sh", "-c", call), kind)


def image_magick_program():
    for program in ("magick", "convert-im6.q16", "convert"):
        if shutil.which(program):
            told = subprocess.run([program, "-version"], capture_output=True, text=True).stdout
            if "ImageMagick" in told:
                return program
    return None


def there():
    """Who is installed, each as what gives its rows; those that aren't are told."""
    magick = image_magick_program()
    peers = [
        ("OpenCV", cv2, functools.partial(inside, "OpenCV", OPENCV)),
        ("libvips", library(), functools.partial(inside, "libvips", LIBVIPS)),
        ("vips", shutil.which("vips"), vips_program),
        ("ffmpeg", shutil.which("ffmpeg"), ffmpeg),
        ("ImageMagick", magick, functools.partial(image_magick, magick)),
        ("GraphicsMagick", shutil.which("gm"), graphics_magick),
        ("Netpbm", shutil.which("pamscale") and shutil.which("pnmsmooth"), netpbm),
    ]
    for name, found, _ in peers:
        if not found:
            print(f"{name}: skipped, since it isn't there")
    return [("ofxr", ofxr)] + [(name, rows) for name, found, rows in peers if found]


# What is measured, and told.


def seconds(row):
    """What its calls take."""
    for path in glob.glob("made.*"):
        os.remove(path)
    limits = {name: str(row.threads) for name in ("OMP_NUM_THREADS", "MAGICK_THREAD_LIMIT", "VIPS_CONCURRENCY")}
    total = 0
    for words in row.calls:
        start = time.monotonic()
        ran = subprocess.run(words, check=True, env=os.environ | limits, stdout=subprocess.PIPE, stderr=subprocess.PIPE)
        total += float(ran.stdout) if row.tells else time.monotonic() - start
    return total


def samples(path):
    """Those of a PAM file, of a PPM file, or of one of vips."""
    data = open(path, "rb").read()
    if data.startswith(b"P7"):
        head, _, raster = data.partition(b"ENDHDR\n")
        fields = dict(line.split(b" ", 1) for line in head.split(b"\n")[1:] if b" " in line)
        width, height, depth = (int(fields[key]) for key in (b"WIDTH", b"HEIGHT", b"DEPTH"))
    elif data.startswith(b"P6"):
        size, raster = data[3:].split(b"\n255\n", 1)
        width, height, depth = *map(int, size.split()), 3
    else:
        width, height, depth = map(int, numpy.frombuffer(data[4:16], "<u4"))
        raster = data[64:]
    return numpy.frombuffer(raster, numpy.uint8, width * height * depth).reshape(height, width, depth)


def difference(row):
    """The greatest difference of a sample away from the edges in any frame, or None where alpha is wanting."""
    most = 0
    for frame in range(count(row.work)):
        right, made = (samples(path) for path in (f"{row.work}.{frame}.pam", f"made.{frame}.{row.kind}"))
        if made.shape[2] < 4:
            return None
        apart = numpy.abs(right.astype(numpy.int16) - made)[INSIDE:-INSIDE, INSIDE:-INSIDE]
        most = max(most, int(apart.max()))
    return most


def kept(row):
    """Keeps its files, with which the others are compared."""
    for frame in range(count(row.work)):
        os.rename(f"made.{frame}.pam", f"{row.work}.{frame}.pam")
    return 0


def measured(rows):
    """Of each row the least milliseconds a frame, and the difference from what ofxr makes by one worker. Rows that fail
    are told, and left out."""
    least, apart = {}, {}
    for run in range(RUNS):
        for row in list(rows):
            key = row[:3]
            try:
                took = seconds(row) / count(row.work) * 1000
                if run == 0:
                    apart[key] = kept(row) if key[1:] == ("ofxr", 1) else difference(row)
                least[key] = min(took, least.get(key, took))
            except (OSError, ValueError, subprocess.CalledProcessError) as error:
                said = getattr(error, "stderr", None) or b""
                print(f"{row.work} by {row.who}: skipped: {error} {said.decode(errors='replace').strip()}")
                rows.remove(row)
                least.pop(key, None)
    return least, apart


def cell(took, apart):
    if took is None:
        return ""
    if apart is None:
        return f"{took:.1f}, not equal work: no alpha"
    return f"{took:.1f} ({apart})" + (", not equal work" if apart > 1 else "")


def tell(least, apart, names):
    ours = ("ofxr", "ofxr --ahead 2")
    names = [*ours, *(name for name in names if name not in ours)]
    heads = ["Work", "Threads", *names, "the best", *(f"{name} / the best" for name in ours)]
    print("| " + " | ".join(heads) + " |\n|" + "---|" * len(heads))
    ratios = {}
    for work, threads in dict.fromkeys((work, threads) for work, _, threads in least):
        took = {name: least.get((work, name, threads)) for name in names}
        off = {name: apart.get((work, name, threads)) for name in names}
        equal = [name for name in names[2:] if took[name] and off[name] is not None and off[name] <= 1]
        best = min(equal, key=took.get, default=None)
        line = [work, str(threads), *(cell(took[name], off[name]) for name in names), best or ""]
        for name in ours:
            ratio = took[name] / took[best] if best and took[name] else None
            line.append(f"{ratio:.2f}" if ratio else "")
            if ratio:
                ratios.setdefault((name, threads), []).append(ratio)
        print("| " + " | ".join(line) + " |")
    print()
    for (name, threads), found in ratios.items():
        times = statistics.geometric_mean(found)
        print(f"{name} by {threads}: {times:.2f} times the best, the geometric mean of {len(found)} rows")


def main():
    if not os.access(PROGRAM, os.X_OK):
        sys.exit("peers.py: build the program first: ./ofxr check examples/first/g.json")
    with tempfile.TemporaryDirectory(prefix="peers.", dir="/dev/shm" if os.path.isdir("/dev/shm") else None) as folder:
        os.chdir(folder)
        write_frames()
        for work in NAMES:
            write_graph(work)
        peers = there()
        if "vips" in dict(peers):
            write_for_vips()
        rows = [row for work in NAMES for threads in (1, 4) for _, give in peers for row in give(work, threads)]
        least, apart = measured(rows)
        tell(least, apart, [name for name, _ in peers])
        os.chdir("/")


if "--inside" in sys.argv:
    WHO, THREADS = sys.argv[sys.argv.index("--inside") + 1 :]
    print({"OpenCV": with_opencv, "libvips": with_libvips}[WHO](NAMES[0], int(THREADS)))
else:
    main()
