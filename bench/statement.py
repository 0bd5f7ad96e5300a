#!/usr/bin/env python3
"""Lists what the contract of `run` rests on: each definition that its clauses reach, by crate and file, with its lines.

    bench/statement.py            the list, and the sum of lines
    bench/statement.py --names    the names in each file as well

It follows names: from the clauses of `run` in crates/fx_app/src/steps.rt to the definitions under specs/ that they name,
and from each definition to those that it names. Types of the code that definitions name are listed with their files.
Words of the standard library are not followed."""
import os
import re
import sys

TOP = os.path.dirname(os.path.dirname(os.path.abspath(__file__)))
CRATES = os.path.join(TOP, "crates")
NAME = r"[A-Za-z_◌][\w'◌-]*"
START = re.compile(rf"^( *)(?:abbrev )?(?:pub )?(?:(record|data) )?({NAME})(?: |$)")
IMPORT = re.compile(r"^\s*(?:ghost )?use (Rattle\.[\w.]+?)(?:\.\{([^}]*)\}| as (\w+))?;?$")


def without_comments(text):
    return re.sub(r"--.*|//.*", "", text)


def imports(text):
    """Returns what the imports of a text bring in: a name, and the module and the name that it stands for."""
    found, aliases = {}, {}
    for line in text.splitlines():
        match = IMPORT.match(line)
        if not match:
            continue
        module, names, alias = match.groups()
        if alias:
            aliases[alias] = module
        for one in (names or "").split(","):
            one, _, other = one.strip().partition(" as ")
            if one:
                found[other or one] = (module, one)
    return found, aliases


class Specs:
    """The definitions of one file of specs/: a paragraph each."""

    def __init__(self, path):
        with open(path, encoding="utf-8") as file:
            text = file.read()
        self.path, self.names, self.paragraphs = path, {}, []
        self.found, self.aliases = imports(text)
        for paragraph in re.split(r"\n\s*\n", text):
            lines = [it for it in paragraph.splitlines() if not it.strip().startswith(("--", "use ", "module ", "pub mod ", "unfold"))]
            if not lines:
                continue
            place = len(self.paragraphs)
            self.paragraphs.append("\n".join(lines))
            least = min(len(it) - len(it.lstrip()) for it in lines)
            is_data = False
            for line in lines:
                match = START.match(line)
                if match and len(match.group(1)) == least:
                    self.names.setdefault(match.group(3), place)
                    is_data = match.group(2) == "data"
                elif is_data and match:
                    self.names.setdefault(match.group(3), place)


FILES = {}


def specs_of(module):
    """Returns the file of definitions that a module names, if it is one of the repository's."""
    match = re.match(r"Rattle\.(\w+)\.specs\.(.+)$", module)
    if not match or match.group(2).startswith("declared."):
        return None
    path = os.path.join(CRATES, match.group(1), "specs", match.group(2).replace(".", "/") + ".antt")
    if path not in FILES:
        FILES[path] = Specs(path) if os.path.isfile(path) else None
    return FILES[path]


def type_of(module, name):
    """Returns where the code declares what definitions call by this name, if it is the repository's."""
    match = re.match(r"Rattle\.(\w+)\.specs\.declared\.(.+)$", module)
    if not match or not os.path.isdir(os.path.join(CRATES, match.group(1))):
        return None
    words = [it for it in match.group(2).split(".") if it not in ("TheVariants", "TheConstants")]
    small = [it for it in words if it[0].islower()]
    large = [it for it in words if it[0].isupper()] or [name]
    for end in (f"src/{'/'.join(small)}.rt", "src/lib.rt"):
        path = os.path.join(CRATES, match.group(1), end)
        if os.path.isfile(path):
            return path, large[-1]
    return None


def words_in(text):
    return re.findall(rf"{NAME}(?:\.{NAME})*", without_comments(text))


def followed(text, found, aliases, own=None):
    """Returns the definitions and the types that a text names."""
    definitions, types = [], []
    for word in words_in(text):
        first, _, rest = word.partition(".")
        if own and first in own.names:
            definitions.append((own, own.names[first]))
        module, name = found.get(first, (None, None))
        if first in aliases and rest:
            module, name = aliases[first], rest.split(".")[0]
        if not module:
            continue
        file = specs_of(module)
        if file and name in file.names:
            definitions.append((file, file.names[name]))
        elif (declared := type_of(module, name)) is not None:
            types.append(declared)
    return definitions, types


def contract():
    """Returns the clauses of `run`, and what its file imports."""
    with open(os.path.join(CRATES, "fx_app", "src", "steps.rt"), encoding="utf-8") as file:
        text = file.read()
    clauses = re.search(r"^pub fn run<.*?^\{$", text, re.M | re.S).group(0)
    return clauses, *imports(text)


def declared_lines(path, name):
    """Returns how many lines the declaration of a type or a constant takes."""
    with open(path, encoding="utf-8") as file:
        text = file.read()
    match = re.search(rf"^pub(?:\(crate\))? (?:enum|struct|trait|const) {name}\b.*?(?:^\}}|;)$", text, re.M | re.S)
    return match.group(0).count("\n") + 1 if match else 0


def reached():
    clauses, found, aliases = contract()
    definitions, types = followed(clauses, found, aliases)
    seen, left = set(), list(definitions)
    declared = set(types)
    while left:
        file, place = left.pop()
        if (file.path, place) in seen:
            continue
        seen.add((file.path, place))
        more, types = followed(file.paragraphs[place], file.found, file.aliases, file)
        left += more
        declared.update(types)
    return clauses, seen, declared


def order():
    with open(os.path.join(TOP, "crates.txt"), encoding="utf-8") as file:
        return re.findall(r"^(\w+):", file.read(), re.M)


def main():
    clauses, seen, declared = reached()
    lines = clauses.count("\n")
    print(f"crates/fx_app/src/steps.rt  the contract of run  {lines}")
    sums = [lines, 0, 0]
    files = {}
    for path, place in seen:
        files.setdefault(path, []).append(place)
    place_of = {name: at for at, name in enumerate(order())}
    crate_of = lambda path: os.path.relpath(path, CRATES).split("/")[0]
    for path in sorted(files, key=lambda it: (place_of.get(crate_of(it), 99), it)):
        file = FILES[path]
        own = sum(file.paragraphs[it].count("\n") + 1 for it in files[path])
        sums[1] += own
        print(f"{os.path.relpath(path, TOP)}  {len(files[path])} definitions  {own}")
        if "--names" in sys.argv:
            print("   ", " ".join(name for name, at in file.names.items() if at in files[path]))
    for path, name in sorted(declared, key=lambda it: (place_of.get(crate_of(it[0]), 99), it)):
        own = declared_lines(path, name)
        sums[2] += own
        if "--names" in sys.argv:
            print(f"{os.path.relpath(path, TOP)}  {name}  {own}")
    print(f"in all {sum(sums)} lines: {sums[0]} of the contract, {sums[1]} of definitions in {len(files)} files, "
          f"{sums[2]} of types and constants of the code")


if __name__ == "__main__":
    main()
