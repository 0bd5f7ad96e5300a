#!/usr/bin/env python3
"""Lets real files, disks, streams and signals fail under the program, and looks at what it leaves (memory: `memory.py`).

    faults.py

It prints a line for each fault, and at the end how many there were and how many were not survived: then its status is 1. A
fault is survived where the status and the line are those of docs/farm.md, the files of the frames before it are whole and
right, and nothing crashed. What this machine can't make (a small disk, another user) is told and left out.
"""
import json
import os
import re
import resource
import shutil
import signal
import subprocess
import sys
import tempfile
import threading
import time

sys.path.insert(0, os.path.dirname(os.path.abspath(__file__)))
import host

PROGRAM = os.path.realpath(os.path.join(os.path.dirname(os.path.abspath(__file__)), "../crates/ofxr/out/ofxr"))
FRAMES, SIDE = 5, 96
SOURCE = '{"name":"s","source":"%s","first":0,"last":%d}'
GRAPH = (
    '{"ofxr":1,"project":{"width":%d,"height":%d,"depth":"byte","components":"RGBA"},'
    '"output":{"node":"n","file":"%s","format":"RGB_ALPHA"},"range":{"first":0,"last":%d},'
    '"nodes":[' + SOURCE + ',{"name":"n","effect":"boxblur","clips":{"Source":"s"}}]}'
)


def frame(number, side=SIDE):
    raster = bytes((x * 7 + y * 3 + number * 31 + c) % 256 for y in range(side) for x in range(side) for c in range(4))
    return f"P7\nWIDTH {side}\nHEIGHT {side}\nDEPTH 4\nMAXVAL 255\nENDHDR\n".encode() + raster


class Folder:
    """A folder with a graph and its frames, and what a render leaves in it where nothing fails."""

    wanted = None

    def __init__(self, at, out="o#.pam", source="f#.pam", last=FRAMES - 1):
        self.at, self.out, self.before = at, out, [None] * FRAMES
        self.write("g.json", (GRAPH % (SIDE, SIDE, out, last, source, FRAMES - 1)).encode())
        for number in range(FRAMES):
            self.write(f"f{number}.pam", frame(number))
        if Folder.wanted is None:
            files, _ = host.run(json.loads(self.read("g.json")), lambda name: host.Frame(self.read(name)), ["render"])
            Folder.wanted = [files[f"o{number}.pam"] for number in range(FRAMES)]

    def path(self, name):
        return os.path.join(self.at, name)

    def write(self, name, data):
        with open(self.path(name), "wb") as it:
            it.write(data)

    def read(self, name):
        with open(self.path(name), "rb") as it:
            return it.read()

    def run(self, words=(), user=None, limits=(), **how):
        def before():
            if user:
                os.setuid(user)
            for limit, most in limits:
                resource.setrlimit(limit, (most, most))

        self.before = self.outputs()
        words = [PROGRAM, "render", "g.json", *words]
        how = {"stdout": subprocess.PIPE, "stderr": subprocess.PIPE, **how}
        return subprocess.run(words, cwd=self.at, preexec_fn=before, timeout=600, **how)

    def whole(self, count):
        """Whether the first frames have their files, whole and right."""
        return self.outputs()[:count] == Folder.wanted[:count]

    def outputs(self):
        """What stands under the name of each frame's file, or None where that is no file."""
        names = [self.out.replace("#", str(number)) for number in range(FRAMES)]
        return [self.read(name) if os.path.isfile(self.path(name)) else None for name in names]


said = {"tried": 0, "failed": 0}


def tell(name, right, what=""):
    said["tried"] += 1
    said["failed"] += not right
    print(f"{name}: {'survived' if right else 'NOT SURVIVED'}{what and ': ' + what}", flush=True)


def ends(name, folder, ran, status, line, count):
    """Tells whether a run ended so, with the first frames put and all behind them as they were, but one that it failed at."""
    failed = count + (status == 5)
    kept = folder.whole(count) and folder.outputs()[failed:] == folder.before[failed:]
    right = ran.returncode == status and ran.stderr == line and kept
    tell(name, right, "" if right else f"status {ran.returncode}, {ran.stderr!r}, files as they should be {kept}")


def files(at):
    """Files and folders that are not what they should be."""
    folder = Folder(at)
    ends("nothing fails", folder, folder.run(), 0, b"", FRAMES)
    os.remove(folder.path("g.json"))
    ends("a graph that isn't there", folder, folder.run(), 4, b"ofxr: read: g.json\n", 0)
    os.mkdir(folder.path("g.json"))
    ends("a folder in the graph's place", folder, folder.run(), 4, b"ofxr: read: g.json\n", 0)
    os.rmdir(folder.path("g.json"))
    folder = Folder(at, out="gone/o#.pam")
    ends("an output folder that isn't there", folder, folder.run(), 5, b"ofxr: write: gone/o0.pam\n", 0)
    folder = Folder(at)
    os.remove(folder.path("f3.pam"))
    ends("a frame that isn't there", folder, folder.run(), 4, b"ofxr: read: f3.pam\n", 0)
    os.mkdir(folder.path("f3.pam"))
    ends("a folder in a frame's place", folder, folder.run(), 4, b"ofxr: read: f3.pam\n", 0)
    os.rmdir(folder.path("f3.pam"))
    folder = Folder(at)
    os.remove(folder.path("o2.pam"))
    os.mkdir(folder.path("o2.pam"))
    ends("a folder in an output's place", folder, folder.run(), 5, b"ofxr: write: o2.pam\n", 2)
    os.rmdir(folder.path("o2.pam"))
    with open("/proc/meminfo", encoding="ascii") as it:
        free = int(re.search(r"MemAvailable: *(\d+)", it.read()).group(1)) << 10
    if free < 6 << 30:
        print("left out: a frame's file of 2^32 + 1 bytes (which is read up to the last one: it wants 6 GiB of memory)")
        return
    with open(folder.path("f2.pam"), "r+b") as it:
        it.truncate(2**32 + 1)
    ends("a frame's file of 2^32 + 1 bytes", folder, folder.run(), 4, b"ofxr: read: f2.pam\n", 0)
    os.remove(folder.path("f2.pam"))


def pipes(at):
    """Pipes, links and devices in the place of files."""
    folder = Folder(at)
    os.remove(folder.path("f1.pam"))
    os.mkfifo(folder.path("f1.pam"))
    threading.Thread(target=lambda: folder.write("f1.pam", frame(1)), daemon=True).start()
    ends("a pipe in a frame's place", folder, folder.run(), 0, b"", FRAMES)
    threading.Thread(target=lambda: folder.write("f1.pam", frame(1)[:-1]), daemon=True).start()
    size = len(frame(1)) - frame(1).index(b"ENDHDR\n") - 7
    ends("a pipe whose writer ends early", folder, folder.run(), 3, f"ofxr: frame: s 1 P4 {size} {size - 1}\n".encode(), 0)
    os.remove(folder.path("f1.pam"))
    folder = Folder(at)
    os.remove(folder.path("o1.pam"))
    os.mkfifo(folder.path("o1.pam"))
    read = []
    reader = threading.Thread(target=lambda: read.append(folder.read("o1.pam")), daemon=True)
    reader.start()
    ran = folder.run()
    reader.join(10)
    os.remove(folder.path("o1.pam"))
    tell("a pipe in an output's place", ran.returncode == 0 and read == [Folder.wanted[1]])
    os.symlink("kept", folder.path("o1.pam"))
    ends("a link in an output's place", folder, folder.run(), 0, b"", FRAMES)
    tell("the link is kept", os.path.islink(folder.path("o1.pam")) and folder.read("kept") == Folder.wanted[1])
    os.remove(folder.path("o1.pam"))
    os.symlink("/dev/full", folder.path("o1.pam"))
    ends("a device that is full", folder, folder.run(), 5, b"ofxr: write: o1.pam\n", 1)
    os.remove(folder.path("o1.pam"))


def names(at):
    """Names of all lengths and bytes."""
    for what, length, status in (("255", 249, 0), ("256", 250, 5)):
        name = "o#" + "n" * length + ".pam"
        folder, line = Folder(at, out=name), f"ofxr: write: {name.replace('#', '0')}\n".encode() if status else b""
        ends(f"an output name of {what} bytes", folder, folder.run(), status, line, 0 if status else FRAMES)
    name = "f#" + "n" * 249 + ".pam"
    folder = Folder(at, source=name)
    for number in range(FRAMES):
        os.rename(folder.path(f"f{number}.pam"), folder.path(name.replace("#", str(number))))
    ends("a frame's name of 255 bytes", folder, folder.run(), 0, b"", FRAMES)
    name = "f#" + "n" * 250 + ".pam"
    folder = Folder(at, source=name)
    ends("a frame's name of 256 bytes", folder, folder.run(), 4, f"ofxr: read: {name.replace('#', '0')}\n".encode(), 0)
    ran = subprocess.run([PROGRAM, "render", b"g\xff.json"], cwd=at, capture_output=True)
    tell("a name that isn't UTF-8", ran.returncode == 1 and ran.stderr.startswith(b"usage: ofxr "))
    folder = Folder(at)
    folder.write("g.json", folder.read("g.json").replace(b"o#", b"o\xff#"))
    ends("a graph that isn't UTF-8", folder, folder.run(), 2, b"ofxr: graph: G1\n", 0)
    below = os.path.join(at, os.fsdecode(b"\xff\xfe"))
    os.mkdir(below)
    folder = Folder(below)
    ends("a folder whose name isn't UTF-8", folder, folder.run(), 0, b"", FRAMES)


# What may be said of a frame's file of which no one knows how much was read.
CUT = re.compile(rb"(ofxr: frame: s 0 (P1|P2 \d|P4 \d+ \d+)|ofxr: read: f0\.pam)?\n?")


def shrinking(at):
    """A file that is cut while it is read: whatever is read, the run ends by its rules."""
    folder, right = Folder(at, last=0), True
    statuses = set()
    for delay in (0, 0.001, 0.01, 0.05, 0.2, 1):
        folder.write("f0.pam", frame(0) + bytes(200_000_000))
        cut = threading.Timer(delay, lambda: os.truncate(folder.path("f0.pam"), 1000))
        cut.start()
        ran = folder.run()
        cut.join()
        statuses.add(ran.returncode)
        right &= ran.returncode in (0, 3, 4) and CUT.fullmatch(ran.stderr) is not None and (ran.returncode != 0 or folder.whole(1))
    tell("a frame's file that shrinks while it is read", right, f"statuses {sorted(statuses)}")


def users(at):
    """What another user may not do."""
    if os.geteuid():
        print("left out: another user (this isn't root)")
        return
    nobody = 65534
    folder = Folder(at)
    os.chmod(at, 0o755)
    ends("a folder that may not be written", folder, folder.run(user=nobody), 5, b"ofxr: write: o0.pam\n", 0)
    os.chmod(at, 0o777)
    folder.write("o1.pam", b"")
    os.chmod(folder.path("o1.pam"), 0o444)
    ends("an output that may not be written", folder, folder.run(user=nobody), 5, b"ofxr: write: o1.pam\n", 1)
    os.remove(folder.path("o1.pam"))
    alone = [(resource.RLIMIT_NPROC, 1)]
    ends("a user that may start no thread", folder, folder.run(["--workers", "8"], user=nobody, limits=alone), 0, b"", FRAMES)
    os.chmod(folder.path("f1.pam"), 0)
    ends("a frame that may not be read", folder, folder.run(user=nobody), 4, b"ofxr: read: f1.pam\n", 0)
    os.chmod(folder.path("g.json"), 0)
    ends("a graph that may not be read", folder, folder.run(user=nobody), 4, b"ofxr: read: g.json\n", 0)


def limited(at):
    """Limits that the system sets."""
    folder = Folder(at)
    ends("one file open at a time", folder, folder.run(limits=[(resource.RLIMIT_NOFILE, 4)]), 0, b"", FRAMES)
    for number in range(FRAMES):
        os.remove(folder.path(f"o{number}.pam"))
    short = [(resource.RLIMIT_FSIZE, len(Folder.wanted[0]) // 2)]
    ran = folder.run(limits=short)
    there = [number for number in range(FRAMES) if os.path.exists(folder.path(f"o{number}.pam"))]
    tell("a file longer than may be written", ran.returncode == -signal.SIGXFSZ and there == [0], f"status {ran.returncode}")
    # without the signal, which Python has ignored, the write fails
    ran = folder.run(limits=short, restore_signals=False)
    ends("the same without the signal", folder, ran, 5, b"ofxr: write: o0.pam\n", 0)


def small_disk(at, how):
    """A small disk of a folder's, or None where it can't be mounted."""
    disk = os.path.join(at, "disk")
    os.mkdir(disk)
    mounted = subprocess.run(["mount", "-t", "tmpfs", "-o", how, "none", disk], capture_output=True).returncode == 0
    return disk if mounted else None


def disks(at):
    """A disk that is full in the middle of the third frame, and one that takes no more names."""
    size = 2 * len(frame(0)) + FRAMES * len(frame(0)) + 65536
    for what, how in (("is full in mid-frame", f"size={size}"), ("takes no more files", f"nr_inodes={1 + 1 + FRAMES + 3}")):
        disk = small_disk(at, how)
        if disk is None:
            print("left out: a small disk (it can't be mounted)")
            return
        try:
            folder = Folder(disk)
            ran = folder.run()
            there = [number for number in range(FRAMES) if os.path.exists(folder.path(f"o{number}.pam"))]
            whole = sum(folder.whole(number + 1) for number in there)
            ends(f"a disk that {what}", folder, ran, 5, f"ofxr: write: o{whole}.pam\n".encode(), whole)
            tell(f"a disk that {what} took some frames", 0 < whole < FRAMES, f"{whole} of {FRAMES}")
        finally:
            subprocess.run(["umount", disk])
            os.rmdir(disk)


def streams(at):
    """Standard streams that take nothing."""
    folder = Folder(at)
    with open("/dev/full", "wb") as full:
        ran = folder.run(stdout=full)
        ends("a report that can't be written", folder, ran, 7, b"ofxr: report\n", FRAMES)
        ran = folder.run(["--first", "nought"], stderr=full)
        tell("a line that can't be written", ran.returncode == 1)
    ran = subprocess.run(f"{PROGRAM} render g.json >&-", shell=True, cwd=at, capture_output=True)
    ends("a standard output that is closed", folder, ran, 7, b"ofxr: report\n", FRAMES)
    os.remove(folder.path("f4.pam"))
    ran = subprocess.run(f"{PROGRAM} render g.json 2>&-", shell=True, cwd=at, capture_output=True)
    tell("a standard error that is closed", ran.returncode == 4 and ran.stdout == b"")
    ran = subprocess.run(f"{PROGRAM} render g.json 0<&- >&- 2>&-", shell=True, cwd=at, capture_output=True)
    tell("all streams closed", ran.returncode == 4)
    folder = Folder(at)
    ran = subprocess.run(["bash", "-c", f"set -o pipefail; {PROGRAM} render g.json | true"], cwd=at, capture_output=True)
    tell("a reader that is gone", ran.returncode in (0, 7, 141) and folder.whole(FRAMES), f"status {ran.returncode}")


def kills(at):
    """Killed at ten places: all files but one are whole."""
    folder = Folder(at, last=FRAMES - 1)
    started = time.monotonic()
    folder.run(["--tile", "2"])
    long = time.monotonic() - started
    torn = 0
    for k in range(10):
        for number in range(FRAMES):
            if os.path.exists(folder.path(f"o{number}.pam")):
                os.remove(folder.path(f"o{number}.pam"))
        it = subprocess.Popen([PROGRAM, "render", "g.json", "--tile", "2"], cwd=at, stdout=subprocess.DEVNULL)
        time.sleep(long * (k + 0.5) / 10)
        it.send_signal(signal.SIGKILL)
        it.wait()
        there = [number for number in range(FRAMES) if os.path.exists(folder.path(f"o{number}.pam"))]
        torn += not (there == list(range(len(there))) and folder.whole(max(0, len(there) - 1)))
    tell("killed at ten places", torn == 0, f"{torn} times another file than the last was not whole" if torn else "")


def main():
    for what in (files, pipes, names, shrinking, users, limited, disks, streams, kills):
        folder = tempfile.mkdtemp(dir="/dev/shm" if os.path.isdir("/dev/shm") else None)
        try:
            what(folder)
        finally:
            shutil.rmtree(folder)
    print(f"faults {said['tried']} not survived {said['failed']}")
    return 1 if said["failed"] else 0


if __name__ == "__main__":
    sys.exit(main())
