#!/usr/bin/env python3
"""Counts the places in crates/*/src that read like an older Rattle, point by point, as docs/DESIGN-PASS.md lists them.

usage: tools/places.py [COMMIT] [--list]        default: the working tree; --list prints each place
"""
import re
import subprocess
import sys

ARGS = [a for a in sys.argv[1:] if not a.startswith("--")]
LIST = "--list" in sys.argv[1:]


def sources():
    """Path and text of each source file, of a commit or of the working tree."""
    if ARGS:
        tree = ["git", "ls-tree", "-r", "--name-only", ARGS[0], "crates"]
        read = lambda f: subprocess.check_output(["git", "show", f"{ARGS[0]}:{f}"], text=True)
    else:
        tree = ["git", "ls-files", "crates"]
        read = lambda f: open(f, encoding="utf-8").read()
    for f in subprocess.check_output(tree, text=True).split():
        if re.fullmatch(r"crates/\w+/src/(.*/)?\w+\.rt", f):
            yield f, read(f)


def matches(pattern, flags=re.M):
    rule = re.compile(pattern, flags)
    return lambda text: [m.start() for m in rule.finditer(text)]


def counted_loops(text):
    """A `while` whose body steps a variable of its condition by a number, or by a call for the next one."""
    found = []
    for m in re.finditer(r"^( *)while ([^\n]*) \{\n(.*?)^\1\}", text, re.M | re.S):
        for name in set(re.findall(r"\b[a-z_]\w*\b", m.group(2))):
            if re.search(rf"^ *{name} (\+=|-=) 1;|^ *{name} = next_\w+\(", m.group(3), re.M):
                found.append(m.start())
                break
    return found


def parameters(text):
    """Each function: where it stands, and the names of its parameters."""
    for m in re.finditer(r"\bfn (\w+)(?:<[^(]*>)?\(", text):
        depth, i = 1, m.end()
        while depth:
            depth += {"(": 1, "[": 1, "<": 1, ")": -1, "]": -1, ">": -1}.get(text[i], 0)
            i += 1
        inside = text[m.end() : i - 1]
        yield m.start(), re.findall(r"(?:^|,)\s*(?:mut )?(\w+)\s*:(?!:)", inside) + (["self"] if re.match(r"\s*&?(mut )?self", inside) else [])


def own_options(text):
    """An enum with a bare case beside cases that hold values."""
    for m in re.finditer(r"^ *(?:pub )?enum \w+ \{\n(.*?)^ *\}", text, re.M | re.S):
        if re.search(r"^ *\w+,$", m.group(1), re.M) and "(" in m.group(1):
            yield m.start()


def together(*names):
    return lambda text: [at for at, ps in parameters(text) if all(n in ps for n in names)]


def many(most):
    return lambda text: [at for at, ps in parameters(text) if len(ps) > most]


POINTS = [
    ("1 own Option: an enum with a bare case beside cases that hold values", own_options),
    ("1 a flag or a refusal's number with values beside it, in a struct", matches(r"^ *(pub )?struct (?!Outcome|Link)\w+ \{\n( .*\n)*? *(pub )?(number: u32|fits: bool),")),
    ("1 a refusal as a number: what a function answers or makes", matches(r"^    return 5;|^        return [345];(?=\n    \}\n)|\brefus(al|ed)\(\d+, |^ *number: (\d+|j\.number|number),|\{ number: \d+,")),
    ("1 a kind as a number, in a signature or a field", matches(r"\bkind: (u16|u32|usize)\b|^fn put_kind|^pub fn put_kind|\bis_for\(.*\bk: usize")),
    ("1 a number or an end that stands for `none`", matches(r"return 10;|\bfn (find|next_link|next_fun|link_of|fun_of)\([^)]*\) -> usize")),
    ("3 loops that count an index by hand", counted_loops),
    ("3 other while loops", lambda text: [at for at in matches(r"^ *while ")(text) if at not in counted_loops(text)]),
    ("4 conversions, order and reads by a function of their own", matches(r"\bfn (wide|index|few|least|later|held|cost_there|stamp_of|power|zero|copy_up)\(")),
    ("4 equality, copies and zeros by a loop", matches(r"\bfn (precedes|agrees|is_word|store|move_up|put_word|clear|zeros|fill|key_before)\(")),
    ("5 `Arranged net.now ×` or `Arranged net.now` required", matches(r"requires[^{\n]*\{[^}\n]*Arranged net\.now")),
    ("5 file, a, e together", lambda text: together("file", "a", "e")(text) + together("input", "a", "e")(text)),
    ("5 weight, count together", together("weight", "count")),
    ("5 out, at (or text, at) together", lambda text: together("out", "at")(text) + together("text", "at")(text)),
    ("5 stamps, since together", together("stamps", "since")),
    ("5 from, w, h, c, n together", together("from", "w", "h", "c", "n")),
    ("5 functions of more than seven parameters", many(7)),
    ("6 a list with its length beside it: exits, len or outs, len", lambda text: together("exits", "len")(text) + together("outs", "len")(text)),
    ("7 a flag that says which step runs next", matches(r"\b(back|tabled): bool")),
]

for name, rule in POINTS:
    places = []
    for path, text in sources():
        for at in sorted(rule(text)):
            line = text.count("\n", 0, at) + 1
            places.append(f"    {path}:{line}: {text[at:].lstrip().splitlines()[0]}")
    print(f"{len(places):4}  {name}")
    if LIST:
        print("\n".join(places))
