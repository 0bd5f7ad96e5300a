#!/usr/bin/env bash
# schema.sh: has a validator of JSON Schema read docs/graph.schema.json, the graphs of the examples, which it has to
# pass, and the graphs of refused.json, which it has to refuse, but for those that have a member `beyond`: it tells
# what a schema can't say of them. Each of these graphs is also refused by `ofxr check`, with the code and the path
# that the file tells. It wants Python's jsonschema (on Debian: apt-get install python3-jsonschema); where that isn't
# installed, it says so.
set -eu
here=$(cd "$(dirname "${BASH_SOURCE[0]}")/.." && pwd)

if ! python3 -c 'import jsonschema' 2>/dev/null; then
  echo "schema.sh: python3-jsonschema isn't installed (on Debian: apt-get install python3-jsonschema)"
  exit 0
fi

python3 - "$here" <<'PYTHON'
import glob
import json
import os
import subprocess
import sys
import tempfile

import jsonschema

here = sys.argv[1]


def read(path):
    with open(f"{here}/{path}", encoding="utf-8") as file:
        return json.load(file)


schema = read("docs/graph.schema.json")
jsonschema.Draft202012Validator.check_schema(schema)
validator = jsonschema.Draft202012Validator(schema)
wrong = []


def expect(what, holds):
    if not holds:
        wrong.append(what)


def told_by_ofxr(graph, folder):
    path = os.path.join(folder, "g.json")
    with open(path, "w", encoding="utf-8") as file:
        json.dump(graph, file)
    ran = subprocess.run([f"{here}/ofxr", "check", path], capture_output=True, text=True)
    return ran.stderr.removeprefix("ofxr: graph:").strip()


examples = sorted(glob.glob(f"{here}/examples/**/*.json", recursive=True))
examples = [path for path in examples if not path.endswith("refused.json")]
for path in examples:
    expect(f"{path} is refused", validator.is_valid(read(os.path.relpath(path, here))))

refused = read("examples/refused.json")
by_program = []
with tempfile.TemporaryDirectory() as folder:
    for case in refused["refused"]:
        graph = case.get("file", {**refused["base"], **case.get("with", {})})
        name = f"{case['told']}: {json.dumps(case)}"
        expect(f"the schema passes {name}", validator.is_valid(graph) == ("beyond" in case))
        told = told_by_ofxr(graph, folder)
        expect(f"ofxr tells {told!r} of {name}", told == case["told"])
        if "beyond" in case:
            by_program.append(f"  {case['told']}: {case['beyond']}")

for line in wrong:
    print(f"schema.sh: {line}")
print(f"{len(examples)} examples pass, {len(refused['refused'])} graphs are refused by ofxr; of these the schema passes {len(by_program)}:")
print("\n".join(by_program))
sys.exit(bool(wrong))
PYTHON
