#!/usr/bin/env python3
"""Respells the repository's own definitions and lemmas: words in snake case, as this Rattle writes them.

usage: tools/respell.py [ROOT]        once, after port.py, over ROOT/crates (default: this repository)

A name that a .antt file declares with a dash or in camel case turns wherever it stands alone, in .antt files and in the clauses of .rt files.
Names of libraries, names that Rattle makes (behind tie. and behind a goal's context), names of src/ and text in quotes stay.
Where two names would fall together, ASIDE gives one of them another.
"""
import os
import re
import sys

HERE = os.path.dirname(os.path.abspath(__file__))
TOKEN = r"[^\s(){}.;,@\"«»\[\]`]+"
NAMES = r"[^\W\d_][^\s(){}.;,@\"«»\[\]λ:]*"
DECLARED = re.compile(rf"^\s*(?:(?:abbrev|unfoldable|pub) )*({NAMES}(?: {NAMES})*)\s+:(?:\s|$)")
CHAIN = r"(?:\.[^\s(){};,@\"«»\[\].]+)*\.$"

# the beginnings of the paths where it holds, the old name, the new one
ASIDE = [
    (("file_rows/",), "comes-at", "comes_at_lem"),
    (("unfold_picks/proofs/Tunnel",), "cost-of", "its_cost"),
    (("laws/proofs/Fold", "laws/proofs/Demand3", "network_records/proofs/Accepted"), "link_fits", "links_fit"),
    (("laws/proofs/Fold", "laws/proofs/Demand3", "network_records/proofs/Accepted"), "fun-fits", "funs_fit"),
    (("network_records/proofs/Accepted", "file_keep/proofs/Records"), "link-key", "link_key_lem"),
    (("network_records/proofs/Accepted", "file_keep/proofs/Records"), "fun-key", "fun_key_lem"),
    (("network_records/", "file_read/", "file_keep/src"), "link-key", "link_key_width"),
    (("network_records/", "file_read/", "file_keep/src"), "fun-key", "fun_key_width"),
    (("network_arrange/proofs/Arranging",), "link-of", "link_origin"),
    (("network_arrange/proofs/Arranging",), "fun-of", "fun_origin"),
    (("",), "linkRoom", "links_room"),
    (("",), "funRoom", "funs_room"),
    (("file_read/proofs/File",), "link-rows", "link_rows_same"),
    (("file_read/proofs/File",), "fun-rows", "fun_rows_same"),
    (("network/proofs/",), "fun-start", "fun_start_lem"),
    (("laws/proofs/Demand3",), "net-text", "net_text_lem"),
    (("laws/proofs/Demand3",), "link-text", "link_text_lem"),
    (("laws/proofs/Demand3",), "fun-text", "fun_text_lem"),
    (("tables_sweeps/proofs/Begin",), "home-in", "home_in_room"),
    (("",), "kindAt", "kind_of_code"),
    (("laws/",), "kind-word", "kind_word_lem"),
    (("trace_measure/",), "line-size", "line_size_lem"),
    (("tables_sweeps/",), "pair-at", "pair_at_lem"),
]


def files(root, endings):
    for folder, dirs, names in os.walk(os.path.join(root, "crates")):
        dirs[:] = sorted(d for d in dirs if d not in ("out", "data"))
        for n in sorted(names):
            if n.endswith(endings):
                yield os.path.join(folder, n)


def read(path):
    with open(path, encoding="utf-8") as f:
        return f.read()


def snake(name):
    if not name[0].isupper():
        name = re.sub(r"(?:(?<=[a-z0-9])|-)([A-Z])", lambda m: "_" + m.group(1).lower(), name)
    return name.replace("-", "_")


def own_names(root):
    own = set()
    for p in files(root, (".antt",)):
        for line in read(p).split("\n"):
            m = DECLARED.match(line)
            if m and " : tie." not in line and not m.group(1).endswith("-spec"):
                own |= set(m.group(1).split())
    return {n for n in own if "-" in n or (n[0].islower() and re.search(r"[a-z0-9][A-Z]", n))} - {"not-true", "not-false"}


def respell(path, rel, table):
    text = read(path)
    antt = path.endswith(".antt")
    table = dict(table)
    for starts, old, new in ASIDE:
        if rel.startswith(starts) and (old not in table or table[old] == snake(old)):
            table[old] = new
    heads = {"tie", "c", "w"} | set(re.findall(r"let ([^\s]+) = c(?:\.before)* in", text))
    made = re.compile(r"(?:(?<![\w'.-])(?:%s)%s|\.proofs\.(?:[\w+]+\.)*$)" % ("|".join(map(re.escape, sorted(heads))), CHAIN))
    out = []
    for line in text.split("\n"):
        at = re.search(r"(?<!\S)" + ("--" if antt else "//"), line)
        code, comment = (line[: at.start()], line[at.start() :]) if at else (line, "")
        if " : tie." in code:
            out.append(line)
            continue
        done = []
        for k, part in enumerate(re.split(r'("(?:[^"\\]|\\.)*")', code)):
            if k % 2 == 0:
                part = re.sub(TOKEN, lambda m: m.group(0) if made.search(part[: m.start()]) else table.get(m.group(0), m.group(0)), part)
            done.append(part)
        comment = re.sub(r"`[^`]*`", lambda m: re.sub(TOKEN, lambda t: table.get(t.group(0), t.group(0)), m.group(0)), comment)
        out.append("".join(done) + comment)
    new = "\n".join(out)
    if new != text:
        with open(path, "w", encoding="utf-8") as f:
            f.write(new)
        return 1
    return 0


def main():
    root = sys.argv[1] if len(sys.argv) > 1 else os.path.join(HERE, "..")
    table = {n: snake(n) for n in sorted(own_names(root))}
    changed = sum(respell(p, os.path.relpath(p, os.path.join(root, "crates")), table) for p in files(root, (".antt", ".rt")))
    print(f"{len(table)} names; {changed} files")


if __name__ == "__main__":
    main()
