#!/usr/bin/env python3
"""Holds the table of public calls, docs/calls.md, against the sources.

    bench/calls.py            what doesn't agree, and how many calls there are; the status is 1 where something doesn't
    bench/calls.py --gaps     as well each row that says `no clause` or `no test`
    bench/calls.py --list     each public call with its signature and the names of its clauses

A call is public where the root of its crate shows it. Each has a row or stands among those of its crate that are not
refused, which have one answer by their type; one that takes an allocator and has a result has a row of Memory. Of a row,
each clause that it names is one of the call's contract (or of the trait's that it implements), and each test or file of
cases is there."""
import glob
import os
import re
import sys

TOP = os.path.dirname(os.path.dirname(os.path.abspath(__file__)))
TABLE = "docs/calls.md"
OPEN = "({["
WORD = re.compile(r"`([^`]+)`")
# What a row names that is no clause.
OTHER = re.compile(r"\b(?:by|type|as) `[^`]+`(?:(?:,| and) `[^`]+`)*")
# What a result type has where there is more than one answer.
ANSWERS = re.compile(r"\b(Result|Option|Answer|GraphFault|Reply|Identity)\b")


def blanked(text):
    """The text, with comments and texts as blanks."""
    found, at = [], 0
    for match in re.finditer(r"//[^\n]*|\"(?:\\.|[^\"\\])*\"|(?<![\w'◌])'(?:\\.[^']*|[^'\\])'", text):
        found += [text[at : match.start()], re.sub(r"[^\n]", " ", match.group(0))]
        at = match.end()
    return "".join(found) + text[at:]


def behind(text, at):
    """The place behind the bracket that closes the one at this place."""
    depth = 0
    while True:
        depth += (text[at] in OPEN) - (text[at] in ")}]")
        at += 1
        if depth == 0:
            return at


class Call:
    """A function with its contract."""

    def __init__(self, text, at):
        match = re.compile(r"fn\s+(\w+)").match(text, at)
        self.name, depth, here = match.group(1), 0, match.end()
        while text[here] != "(" or depth:
            depth += (text[here] == "<") - (text[here] == ">" and text[here - 1] != "-")
            here += 1
        here = end = behind(text, here)
        while text[end] not in "{;" and not re.match(r"(requires|ensures)\b", text[end:]):
            end = behind(text, end) if text[end] in OPEN else end + 1
        self.result = " ".join(text[here:end].split()).removeprefix("-> ")
        self.signature = " ".join(text[at:end].split())
        self.clauses, self.has_unnamed = set(), False
        clause = re.compile(r"\s*(requires|ensures)\*?(?:\s+(\w+))?\s*\{")
        while match := clause.match(text, end):
            end = behind(text, match.end() - 1)
            if match.group(1) == "ensures":
                self.clauses.add(match.group(2) or "")


def after_generics(head):
    """The head of an impl behind its list of parameters."""
    depth, at = 0, 0
    if not head.startswith("<"):
        return head
    while True:
        depth += (head[at] == "<") - (head[at] == ">" and head[at - 1] != "-")
        at += 1
        if depth == 0:
            return head[at:].strip()


class File:
    """The functions of a file, each with the type or the trait that it belongs to and the trait that it implements."""

    def __init__(self, path):
        with open(path, encoding="utf-8") as file:
            text = blanked(file.read())
        self.types = {it.group(1) for it in re.finditer(r"^pub (?:struct|enum|trait) (\w+)", text, re.M)}
        blocks = []
        for match in re.finditer(r"^(?:pub )?(impl|trait)\b", text, re.M):
            start = text.index("{", match.end())
            blocks.append((match.start(), behind(text, start), match.group(1), " ".join(text[match.end() : start].split())))
        self.functions = []
        for match in re.finditer(r"^( *)(pub )?(?:const )?fn\b", text, re.M):
            block = next((it for it in blocks if it[0] < match.start() < it[1]), None)
            if len(match.group(1)) == (4 if block else 0):
                call = Call(text, text.index("fn", match.start()))
                self.functions.append((call, bool(match.group(2)), *(self.owner(*block[2:]) if block else (None, None, False))))

    @staticmethod
    def owner(kind, head):
        if kind == "trait":
            return re.match(r"\w+", head).group(0), None, True
        trait, _, name = after_generics(head).split(" where ")[0].rpartition(" for ")
        trait = re.match(r"\w*", trait).group(0)
        return re.match(r"&?(?:'\w+ )?(\w+)", name).group(1), trait or None, False


def texts(crate):
    for path in glob.glob(os.path.join(TOP, "crates", crate, "src", "**", "*.rt"), recursive=True):
        with open(path, encoding="utf-8") as file:
            yield file.read()


def libraries():
    """The crates of the house that are no programs and have no tests, in the order of the map."""
    with open(os.path.join(TOP, "crates.txt"), encoding="utf-8") as file:
        crates = re.findall(r"^(fx_\w+):", file.read(), re.M)
    is_library = lambda it: os.path.isfile(os.path.join(TOP, "crates", it, "src", "lib.rt"))
    return [it for it in crates if is_library(it) and not any("#[test]" in text for text in texts(it))]


def public_calls(crate, traits):
    """The public calls of a crate by name. `traits` has the calls of the traits of the crates before."""
    root = os.path.join(TOP, "crates", crate, "src")
    files = {os.path.basename(it)[:-3]: File(it) for it in sorted(glob.glob(f"{root}/*.rt"))}
    with open(f"{root}/lib.rt", encoding="utf-8") as file:
        text = blanked(file.read())
    open_ones = {"lib"} | set(re.findall(r"^pub mod (\w+);", text, re.M))
    shown = set()
    for match in re.finditer(r"^pub use (\w+)::(?:\{([^}]*)\}|(\w+));", text, re.M):
        shown |= {(match.group(1), it.strip()) for it in (match.group(2) or match.group(3)).split(",")}
    is_shown = lambda module, name: module in open_ones or (module, name) in shown
    types = {it for module, file in files.items() for it in file.types if is_shown(module, it)}
    calls, implemented = {}, []
    for module, file in files.items():
        for call, is_pub, owner, trait, is_trait in file.functions:
            if owner is None and is_pub and is_shown(module, call.name):
                calls[call.name] = call
            elif owner in types and is_trait:
                traits.setdefault(owner, {})[call.name] = calls[f"{owner}::{call.name}"] = call
            elif owner in types and trait:
                implemented.append((owner, trait, call))
            elif owner in types and is_pub:
                calls[f"{owner}::{call.name}"] = call
    for owner, trait, call in implemented:
        if trait in traits and call.name in traits[trait]:
            call.clauses |= traits[trait][call.name].clauses
            call.trait = trait
            calls[f"{owner}::{call.name}"] = call
    return calls


class Table:
    """The table: for each crate the rows, as lists of their cells, and the calls that are not refused."""

    def __init__(self):
        with open(os.path.join(TOP, TABLE), encoding="utf-8") as file:
            text = file.read()
        self.crates = {}
        for part in re.split(r"^## ", text, flags=re.M)[1:]:
            names = re.match(r".*", part).group(0)
            rows = [[it.strip() for it in line.strip("|").split("|")] for line in part.splitlines() if line.startswith("|")]
            rows = [row for row in rows if row[0] != "Call" and not row[0].startswith("---")]
            free = re.search(r"^Not refused: (.*?)(?:\n\n|\Z)", part, re.M | re.S)
            for name in re.findall(r"fx_\w+", names):
                self.crates[name] = (rows, set(WORD.findall(free.group(1))) if free else set())


def tests():
    """The names of all tests, and of the files of cases."""
    found = {os.path.basename(it)[:-5] for it in glob.glob(os.path.join(TOP, "crates", "fx_cases", "data", "*.json"))}
    for text in texts("*"):
        found |= set(re.findall(r"#\[test\]\s*fn (\w+)", text))
    return found


def all_calls():
    traits = {}
    return {crate: public_calls(crate, traits) for crate in libraries()}


def expanded(names, calls):
    """The calls that a row's first cell names: `Type: Trait` stands for all that the type has of the trait."""
    found = []
    for name in names:
        owner, _, trait = name.partition(": ")
        if trait:
            found += [it for it, call in calls.items() if it.startswith(f"{owner}::") and getattr(call, "trait", None) == trait]
        else:
            found.append(name)
    return found


def wrong_row(row, calls, known):
    """What a row says that isn't so."""
    if len(row) != 5:
        return [f"{row[0]}: {len(row)} cells"]
    names, wrong = expanded(WORD.findall(row[0]), calls), []
    for name in names:
        call = calls.get(name)
        if call is None:
            continue
        for cell in row[2:4]:
            for word in WORD.findall(OTHER.sub("", cell)):
                if word not in call.clauses:
                    wrong.append(f"{name}: it has no clause {word}")
            if "its clause" in cell and "" not in call.clauses:
                wrong.append(f"{name}: it has no clause without a name")
        if row[1] == "Memory" and not re.search(r"Memory|Fault|AllocError|PutStop", call.result):
            wrong.append(f"{name}: it never answers Memory")
    there = lambda it: it in known or os.path.isfile(os.path.join(TOP, it))
    return wrong + [f"{row[0]}: there is no test {it}" for it in WORD.findall(row[4]) if not there(it)]


def disagreements(table, everything):
    known = tests()
    for crate, calls in everything.items():
        rows, free = table.crates.get(crate, ([], set()))
        in_rows = {it for row in rows for it in expanded(WORD.findall(row[0]), calls)}
        free = set(expanded(free, calls))
        for name in sorted(set(calls) - in_rows - free):
            yield f"{crate}: {name} has no row"
        yield from (f"{crate}: no call {name}" for name in sorted((in_rows | free) - set(calls)))
        yield from (f"{crate}: {name} is refused and isn't" for name in sorted(in_rows & free))
        for name in sorted(free & set(calls)):
            if ANSWERS.search(calls[name].result):
                yield f"{crate}: {name} has other answers, and no row: {calls[name].result}"
        lacking = {it for row in rows if "Memory" in row[1] for it in expanded(WORD.findall(row[0]), calls)}
        for name in sorted(in_rows & set(calls) - lacking):
            if re.search(r"\b_?alloc: Global", calls[name].signature) and calls[name].result.startswith("Result"):
                yield f"{crate}: {name} has no row of Memory"
        for row in rows:
            yield from (f"{crate}: {it}" for it in wrong_row(row, calls, known))
    yield from (f"no library {it}" for it in table.crates if it not in everything)


def main():
    everything = all_calls()
    if "--list" in sys.argv:
        for crate, calls in everything.items():
            print(f"## {crate}")
            for name, call in calls.items():
                print(f"{name}: {call.signature} [{' '.join(sorted(it or '_' for it in call.clauses))}]")
        return 0
    table = Table()
    gaps = [(crate, row) for crate, (rows, _) in table.crates.items() for row in rows if re.search(r"no (clause|test)", " ".join(row))]
    if "--gaps" in sys.argv:
        for crate, row in gaps:
            print(f"{crate}: {' | '.join(row)}")
    wrong = list(disagreements(table, everything))
    for line in wrong:
        print(line)
    rows = sum(len({id(it) for it in rows}) for rows, _ in {id(it[0]): it for it in table.crates.values()}.values())
    print(f"calls {sum(map(len, everything.values()))} rows {rows} without a clause or a test {len(gaps)} wrong {len(wrong)}")
    return 1 if wrong else 0


if __name__ == "__main__":
    sys.exit(main())
