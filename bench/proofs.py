#!/usr/bin/env python3
"""Where the check of a crate spends its time: the seconds of each module of its proof, and the steps of each goal, the
dearest first.

    bench/proofs.py CRATE [--test] [--most N]     the N dearest, 40 where none is given; --test with its tests

The libraries that it stands on are those that `rt ci` left under crates/*/out. The check writes each module to a folder
as it ends, so the time from one file to the next is that module's, by the clock: run it with nothing beside it. Of a
function f, f.Lts is what its body does step by step, and grows with its statements and with what each of them may drop;
f.Proof.decls is what search finds, f.Answers.decls what stands in the files of proofs, f.Tie.decls what ties the two to
the code. A module at the top of proofs is a file of lemmas. The steps of a goal are counted, not timed, so they are
the same beside anything else: a dear goal of f.Proof is one that a line in the file of answers takes to almost none."""
import argparse
import os
import re
import shutil
import subprocess
import sys
import tempfile

TOP = os.path.dirname(os.path.dirname(os.path.abspath(__file__)))


def libraries_of():
    """The libraries that each crate names, by crates.txt."""
    named = {}
    with open(f"{TOP}/crates.txt", encoding="utf-8") as lines:
        for line in lines:
            if ":" in line and not line.startswith("#"):
                crate, libraries = line.split(":")
                named[crate.strip()] = libraries.split()
    return named


def below(crate, named, found):
    """Adds all crates that this one stands on."""
    for library in named.get(crate, []):
        if library not in found:
            found.add(library)
            below(library, named, found)
    return found


def command(crate, named, kit, folder, with_tests):
    """The check of a crate that keeps its modules in the folder."""
    root = next(it for it in ("src/lib.rt", "src/main.rt") if os.path.exists(f"{TOP}/crates/{crate}/{it}"))
    words = [f"{kit}/bin/rattle", "check", "--crate-name", crate, root, "--jobs", "1", "--incremental", folder]
    words += ["--antt-project", f"{kit}/rattle/logic/antt-project.json", "--logic-built", f"{kit}/logic_built"]
    words += ["--links", f"{crate}=", "-L", f"dependency={kit}/rlibs", "--extern", f"std={kit}/rlibs/std.rlib"]
    for library in sorted(below(crate, named, set())):
        own = f"{TOP}/crates/{library}"
        built = f"{own}/out/rlib" if os.path.isdir(own) else f"{kit}/rlibs"
        if library in named[crate]:
            words += ["--extern", f"{library}={built}/{library}.rlib"]
        words += ["-L", f"dependency={built}"]
    return words + (["--test"] if with_tests else [])


def modules_in(folder):
    """Each module's seconds and name, in the order in which they ended."""
    files = []
    for at, _, names in os.walk(folder):
        files += [(os.stat(f"{at}/{it}").st_mtime_ns, it) for it in names if it.endswith(".oantt")]
    files.sort()
    return [((when - before) / 1e9, name) for (before, _), (when, name) in zip(files, files[1:])]


# What the check records of a declaration beside each module: its name, and the steps that it took.
RECORD = re.compile(r'"name":"([^"]*)","notes":.*?"steps":\[([0-9]+),')

# The modules that are no goals, by how their names end.
MADE = re.compile(r"\.(Lts|Kinds|Code|Tie|Reads|Mir|View|Layout)$")


def goals_in(folder, crate):
    """The steps and the name of each goal that the check recorded."""
    goals = []
    for at, _, names in os.walk(folder):
        for name in names if os.path.basename(at) == "records" else []:
            module = name.removesuffix(".oantt").removesuffix(".decls").removeprefix(f"Rattle-{crate}-proofs.")
            if not MADE.search(module):
                with open(f"{at}/{name}", encoding="latin-1") as record:
                    goals += [(int(steps), f"{module} {goal}") for goal, steps in RECORD.findall(record.read())]
    return goals


def main():
    parser = argparse.ArgumentParser(description="the seconds of each module of a proof, and the steps of each goal")
    parser.add_argument("crate")
    parser.add_argument("--test", action="store_true")
    parser.add_argument("--most", type=int, default=40)
    said = parser.parse_args()
    rattle, named = shutil.which("rattle"), libraries_of()
    if not rattle or said.crate not in named:
        sys.exit("proofs.py: no rattle on the path" if not rattle else f"proofs.py: no crate {said.crate}")
    kit = os.path.dirname(os.path.dirname(os.path.realpath(rattle)))
    with tempfile.TemporaryDirectory() as folder:
        words = command(said.crate, named, kit, folder, said.test)
        ran = subprocess.run(words, cwd=f"{TOP}/crates/{said.crate}", capture_output=True, text=True)
        modules, goals = modules_in(folder), goals_in(folder, said.crate)
    print((ran.stdout.strip() or ran.stderr.strip() or "nothing was said").split("\n")[-1])
    print(f"{sum(seconds for seconds, _ in modules):8.1f} s in {len(modules)} modules")
    for seconds, name in sorted(modules, reverse=True)[: said.most]:
        print(f"{seconds:8.1f} {name.removesuffix('.oantt').removeprefix(f'Rattle-{said.crate}-')}")
    print(f"{sum(steps for steps, _ in goals) // 1000:8} thousand steps in {len(goals)} goals")
    for steps, name in sorted(goals, reverse=True)[: said.most]:
        print(f"{steps // 1000:8} {name}")
    sys.exit(ran.returncode)


if __name__ == "__main__":
    main()
