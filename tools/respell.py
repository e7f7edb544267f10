#!/usr/bin/env python3
"""Brings the repository's own names of specs/ and proofs/ to one spelling: definitions, lemmas and constructors in snake case.

usage: tools/respell.py          in the repository, once, after port.py
       tools/respell.py --list   the renamings alone, and names that would fall together

A name is renamed where it is declared in specs/ or proofs/ with a capital or a dash in it and a small first letter. What a file imports from a library
keeps its spelling there, as do fields of records that Rattle makes. Answers to goals (`name : tie.Need..`) are not names of this repository.
"""
import os
import re
import sys

TOKEN = re.compile(r"[^\s(){}.;,\[\]⟦⟧⌜⌝`\"|/:]+")
DECL = re.compile(r"^(\s*)(?:(?:abbrev|unfoldable|pub|opaque)\s+)*((?:[^\s(){}:.;,]+ )?)([^\s(){}:.;,]+)((?: \([^\n]*?\)| \{[^\n]*?\})*) :(?!=)(.*)$")


def crates():
    return sorted(c for c in os.listdir("crates") if os.path.isdir(f"crates/{c}/src"))


def files():
    for c in crates():
        for part in ("specs", "proofs", "src"):
            for d, ds, fs in os.walk(f"crates/{c}/{part}"):
                ds.sort()
                for f in sorted(fs):
                    if f.endswith((".antt", ".rt")):
                        yield c, part, os.path.join(d, f)


def snake(n):
    n = re.sub(r"(?<=[a-z0-9₀-₉'])(?=[A-Z])", "_", n)
    n = re.sub(r"(?<=[A-Z])(?=[A-Z][a-z])", "_", n)
    return n.replace("-", "_").lower()


def wants(n):
    return n[0].islower() and n[0].isascii() and re.search(r"[A-Z-]", n) and "->" not in n and not n.startswith("-")


def declared(text):
    """The names that a file of antt declares, at any depth: by a signature with its equations below it, or as constructors. Not what answers a goal."""
    found = set()
    lines = text.split("\n")
    at = None
    for i, line in enumerate(lines):
        if not line.strip() or line.lstrip().startswith("--"):
            continue
        depth = len(line) - len(line.lstrip())
        if re.match(r"\s*(?:(?:pub|abbrev|unfoldable) )*data \S", line):
            at = depth
            continue
        if at is not None and depth <= at:
            at = None
        m = re.match(r"^(\s*)(?:(?:abbrev|unfoldable|pub) )*([^\s(){}:.;,]+)(?: [({][^\n]*?[)}])*(?: :(?!=)(.*))?$", line)
        if not m or not wants(m.group(2)):
            continue
        name, kind = m.group(2), (m.group(3) or "").strip()
        if re.match(r"tie\.|goal\.|\{M : Type 1\} → statement|statement", kind) or re.match(r"\S*[Ll]ts\.", kind):
            continue
        if at is not None and depth == at + 2 and m.group(3) is not None:
            found.add(name)
            continue
        below = [x for x in lines[i + 1 : i + 40] if x.strip()]
        for x in below:
            inside = len(x) - len(x.lstrip())
            if inside > depth or x.lstrip().startswith(("unfolding", "--")):
                continue
            if inside == depth and x.lstrip().startswith(name) and x.lstrip()[len(name) :][:1] in (" ", "="):
                found.add(name)
            break
    return found


def fields(text):
    """The fields of the records that a file of antt declares."""
    found = set()
    at = None
    for line in text.split("\n"):
        if re.match(r"\s*(?:(?:pub|abbrev|unfoldable) )*record [A-Z]", line):
            at = len(line) - len(line.lstrip())
            continue
        if not line.strip() or line.lstrip().startswith("--"):
            continue
        depth = len(line) - len(line.lstrip())
        if at is not None and depth <= at:
            at = None
        m = re.match(r"\s+(?:pub )?([^\s(){}:;,.]+) :", line)
        if at is not None and depth == at + 2 and m and wants(m.group(1)):
            found.add(m.group(1))
    return found


def declared_all(text):
    """The names in snake case that a file of antt declares, by a signature with its equation below it."""
    found = set()
    lines = text.split("\n")
    for i, line in enumerate(lines):
        m = re.match(r"^(\s*)(?:(?:abbrev|unfoldable|pub) )*([a-z][a-z0-9]*_[a-z0-9_]+)(?: [({][^\n]*?[)}])* :(?!=)", line)
        if m and any(l.startswith(m.group(1) + m.group(2)) and l[len(m.group(1) + m.group(2)) :][:1] in (" ", "=") for l in lines[i + 1 : i + 6]):
            found.add(m.group(2))
    return found


def plain_tokens(text):
    """The words of a file without its comments, and without those behind a dot."""
    plain = "\n".join(l for l in text.split("\n") if not l.lstrip().startswith(("--", "//")))
    return {m.group(0) for m in TOKEN.finditer(plain) if plain[m.start() - 1 : m.start()] != "."}


def own(path, names):
    return any(path == f"Rattle.{c}" or path.startswith(f"Rattle.{c}.") for c in names)


def imports(text, names):
    """What a file imports from libraries by name, and its aliases of modules of this repository."""
    library, alias = set(), set()
    for m in re.finditer(r"^\s*(?:pub )?(?:ghost )?use ([^\s{;]+?)(?:\.\{([^}]*)\})?(?: as (\S+?))?;?$", text, re.M):
        path, items, name = m.group(1), m.group(2), m.group(3)
        if items is not None:
            for it in items.split(","):
                it = it.strip()
                parts = it.split(" as ")
                if not own(path, names):
                    library.add(parts[-1].strip())
                    library.add(parts[0].strip())
        elif name and own(path, names):
            alias.add(name)
        elif own(path, names):
            alias.add(path.split(".")[-1])
    return library, alias


def renamed(text, ren, library, alias, rust, own_fields=()):
    out = []
    last = 0
    # The names of goals, which Rattle makes.
    goals = set(re.findall(r"(?m)^(?:pub )?(\S+) : (?:goal|tie)\.", text)) | set(re.findall(r"(?:goal|tie)\.([^\s(){}.;,]+)", text))
    for m in TOKEN.finditer(text):
        n = m.group(0)
        if n not in ren or n in library or (rust and not wants(n)) or n in goals:
            continue
        # The field for-all, and not the words of a comment.
        if n in own_fields and text[text.rfind("\n", 0, m.start()) + 1 :].lstrip().startswith(("--", "//")):
            continue
        i = m.start()
        # A part of a module's path, and no value whose field is named.
        if text[m.end() : m.end() + 1] == "." and text[i - 1 : i] == ".":
            continue
        if i and text[i - 1] == ".":
            j = i - 1
            k = j
            while k and not re.match(r"[\s(){},;`]", text[k - 1]):
                k -= 1
            before = text[k:j]
            if n not in own_fields and not (before in alias or before.startswith("Rattle.") or before.split(".")[-1][:1].isupper()):
                continue
        out.append(text[last:i])
        out.append(ren[n])
        last = m.end()
    out.append(text[last:])
    return "".join(out)


def main():
    names = crates()
    texts = {}
    own_fields = set()
    ren, where, every = {}, {}, set()
    for c, part, p in files():
        with open(p, encoding="utf-8") as f:
            texts[p] = (part, f.read())
        every.update(TOKEN.findall(texts[p][1]))
        if part != "src":
            of_records = fields(texts[p][1])
            own_fields |= of_records
            for n in declared(texts[p][1]) | of_records:
                ren[n] = snake(n)
                where.setdefault(n, []).append(p)
    # A lemma that would have a definition's name gets _lem.
    snaked = {p: declared_all(t) for p, (part, t) in texts.items() if part != "src"}
    tokens = {p: plain_tokens(t) for p, (part, t) in texts.items() if part != "src"}
    stood = set().union(*snaked.values())
    camel = {snake(n) for n in ren if "-" not in n}
    for n in ren:
        beside = any(n in toks and ren[n] in toks for toks in tokens.values())
        if "-" in n and (ren[n] in camel or ren[n] in stood or beside):
            ren[n] += "_lem" * (n not in own_fields)
    # So does one that port.py spelled so before.
    for n in sorted(stood & camel):
        ren[n] = n + "_lem"
        where[n] = [p for p, ns in snaked.items() if n in ns]
    back = {}
    for n, s in sorted(ren.items()):
        back.setdefault(s, []).append(n)
    if "--list" in sys.argv:
        for n, s in sorted(ren.items()):
            print(n, s)
        for s, ns in back.items():
            if len(ns) > 1:
                print("together:", s, ns, [where[n] for n in ns])
        for p, (part, text) in texts.items():
            library, alias = imports(text, names)
            plain = "\n".join(l for l in text.split("\n") if not l.lstrip().startswith(("--", "//")))
            for n, s in ren.items():
                if n in library or n not in plain:
                    continue
                toks = [(m.group(0), plain[m.start() - 1 : m.start()]) for m in TOKEN.finditer(plain)]
                has = any(t == n for t, _ in toks)
                if has and any(t == s and d != "." for t, d in toks) and s not in ren:
                    print("in one file:", p, n, s)
        return
    changed = 0
    for p, (part, text) in texts.items():
        library, alias = imports(text, names)
        to = renamed(text, ren, library, alias, p.endswith(".rt"), own_fields)
        if to != text:
            with open(p, "w", encoding="utf-8") as f:
                f.write(to)
            changed += 1
    # The texts of must-fail edits name what their files name.
    for c in names:
        folder = f"crates/{c}/must-fail"
        for f in sorted(os.listdir(folder)) if os.path.isdir(folder) else []:
            if f.endswith(".edit"):
                p = os.path.join(folder, f)
                with open(p, encoding="utf-8") as it:
                    text = it.read()
                lines = [renamed(l, ren, set(), set(), False, own_fields) if l.startswith(("old:", "new:")) else l for l in text.split("\n")]
                if "\n".join(lines) != text:
                    with open(p, "w", encoding="utf-8") as it:
                        it.write("\n".join(lines))
                    changed += 1
    with open("/tmp/respell.tsv", "w") as f:
        f.writelines(f"{n}\t{s}\n" for n, s in sorted(ren.items()))
    print(f"respell: {len(ren)} names, {changed} files")


main()
