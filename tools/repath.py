#!/usr/bin/env python3
"""repath.py CRATE FN-PATH: after `rt goals CRATE`, sets the number of `.before` in every path `c .before … .thing` of proofs/FN-PATH/Proof.antt
to what leads to that thing at that need. So a call more, or a slice for an array, does not mean counting by hand. A thing that stands twice: the
nearest. Steps in between (`let s = c .before in s .pre`) are not seen: write the whole path."""
import glob
import os
import re
import sys

root = os.path.join(os.path.dirname(os.path.abspath(__file__)), "..")
crate, function = sys.argv[1:3]


def places():
    """For each need, the number of steps back to each thing that is known there."""
    end = f"/{function}/Lts.antt"
    text = open([p for p in glob.glob(f"{root}/target/goals/{crate}/**/Lts.antt", recursive=True) if p.endswith(end)][0]).read()
    records, name = {}, None
    for line in text.split("\n"):
        if found := re.match(r"\s+pub record (\S+) : Type 0 where", line):
            name = found.group(1)
            records[name] = []
        elif (found := re.match(r"\s+pub (\S+) :\s*(.*)", line)) and name:
            records[name].append(found.groups())
    needs = {}
    for need, place in re.findall(r"(Need-\S+) =\s*\n?\s*\(c : ([^)]*)\)", text):
        here, back, known = place.split()[0], 0, {}
        while here in records:
            before = None
            for field, kind in records[here]:
                if field == "before":
                    before = kind.split()[0]
                else:
                    known.setdefault(field, back)
            here, back = before, back + 1
        needs[need[5:]] = known
    return needs


needs = places()
path = f"{root}/crates/{crate}/proofs/{function}/Proof.antt"
first, *blocks = re.split(r"(?m)^(?=[a-z][\w\-]* : tie\.Need-)", open(path).read())
result = [first]
for block in blocks:
    name = re.match(r"[\w\-]+ : tie\.Need-([\w\-]+)", block).group(1)
    known = needs.get(name, {})

    def repathed(found):
        thing = found.group(2)
        if thing not in known:
            print(f"{name} knows no {thing}")
            return found.group(0)
        return "c" + " .before" * known[thing] + " ." + thing

    head, mark, tail = block.partition("\npub ")
    result.append(re.sub(r"\bc((?:\s+\.before)*)\s+\.(?!before)([a-z][\w\-]*)", repathed, head) + mark + tail)
open(path, "w").write("".join(result))
