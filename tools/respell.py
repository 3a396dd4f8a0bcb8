#!/usr/bin/env python3
"""Brings this repository's own definitions and lemmas to today's spelling: words in snake case, types and modules in camel case.

usage: tools/respell.py        once, at the top, after the port.py of the toolchain

A name of specs/ or of a law file of proofs/ that has a capital in its middle is written with '_', as 'readBook' to 'read_book'. A dash in a lemma's name stays
where each part is a name that specs/ or the library has, as in 'length-concat', and is '_' where it joins plain words, as in 'held_four'. Turned are the .antt files, the ghost
lines and clauses of the .rt files, and comments of both; names after a dot turn too, as they are fields. The proof files of functions (proofs/F/Proof.antt)
keep the names of their goals. Names of src/, strings, inputs and outputs stay. Must-fail edits are brought over by hand.

The library has a crate hex, so ours becomes hexadecimal: its folder, its line in crates.txt, and each path that names it, in edits too.
"""
import glob
import os
import re
import sys

WORD = re.compile(r"[A-Za-zℕℤ_₀-₉'′][\w₀-₉'′\-]*")
DEF = re.compile(r"^(?:  )*(?:(?:abbrev|unfoldable) +)?(?:pub +)?(?:(?:abbrev|unfoldable) +)?([A-Za-z_][\w₀-₉'′\-]*(?: +[A-Za-z_][\w₀-₉'′\-]*)*) *:(?= |$)", re.M)
HEX = re.compile(r"n[0-9A-F]+$")
LIBRARY = "length take drop map append get_or set replicate concat mod div min suc zero sum sub mul add pow keep filter reverse cond"


def snake(word):
    """readBook: read_book; mostCells2: most_cells2."""
    return re.sub(r"(?<=[a-z0-9])([A-Z]+)", lambda m: "_" + m[1].lower(), word)


def code(text):
    return re.sub(r"--.*", "", text)


def main():
    files = sorted(glob.glob("crates/*/specs/**/*.antt", recursive=True)) + sorted(
        p for p in glob.glob("crates/*/proofs/**/*.antt", recursive=True) if not p.endswith("/Proof.antt"))
    texts = {p: read(p) for p in files}
    names = set()
    for t in texts.values():
        for m in DEF.finditer(code(t)):
            names.update(m[1].split())
    names -= {"use", "pub", "mod", "module", "record", "data", "let", "in"}
    defined = heads(texts)
    table = {}
    for n in names:
        if HEX.match(n):
            continue
        parts = [snake(part) if re.match(r"[a-z]", part) else part for part in n.split("-")]
        new = parts[0]
        for a, b in zip(parts, parts[1:]):
            new += ("-" if a in defined and b in defined else "_") + b
        if new != n:
            table[n] = new
    # a lemma that would have its function's name
    taken = names | set(table.values())
    for n, new in list(table.items()):
        if "-" in n and (new in names or sum(v == new for v in table.values()) > 1):
            table[n] = new + "_lem"
            if table[n] in taken:
                print("stands already:", table[n], [n])
    # so does a lemma whose name has no dash any more, where a definition comes to its name
    for n in sorted(names):
        if n not in table and any(v == n and "-" not in k for k, v in table.items()):
            table[n] = n + "_lem"
    # every other word with a capital in its middle is a variable of ours
    everything = set()
    for p in glob.glob("crates/**/*.antt", recursive=True):
        everything.update(WORD.findall(code(read(p))))
    for n in everything:
        if n not in table and re.match(r"[a-z]+[A-Z]", n) and "-" not in n and not HEX.match(n):
            table[n] = snake(n)
    for n in fields(texts):
        new = n.replace("-", "_")
        table[n] = table["." + n] = new + "_lem" if new in {snake(w) for w in names if "-" not in w} else new
    report(table, everything)
    if "--check" in sys.argv:
        return
    for p in sorted(glob.glob("crates/**/*.antt", recursive=True)):
        write(p, turn_antt(read(p), table))
    for p in sorted(glob.glob("crates/**/*.rt", recursive=True)):
        write(p, turn_rust(read(p), table))
    rename_crate("hex", "hexadecimal")
    for p in ["README.md"] + sorted(glob.glob("docs/**/*.md", recursive=True)):
        write(p, re.sub(r"`[^`\n]+`", lambda m: turn(m[0], table), read(p)))


def rename_crate(old, new):
    os.rename("crates/" + old, "crates/" + new)
    write("crates.txt", re.sub(rf"\b{old}\b", new, read("crates.txt")))
    for p in sorted(glob.glob("crates/**/*.*", recursive=True)):
        if p.endswith((".rt", ".antt", ".edit")):
            t = re.sub(rf"\b{old}(?=::)", new, read(p))
            t = re.sub(rf"\bRattle([.·]){old}(?=[.·])", rf"Rattle\1{new}", t)
            t = re.sub(rf"\b{old}(?=·(?:specs|proofs))", new, t)
            write(p, re.sub(rf"`{old}`", f"`{new}`", t))
    for p in ["README.md"] + sorted(glob.glob("docs/*.md")):
        write(p, re.sub(rf"`{old}(?=`|::)", "`" + new, read(p)))


def heads(texts):
    """The names of definitions: of specs/, and of the library as our lemmas speak of them."""
    found = set(LIBRARY.split())
    for p, t in texts.items():
        if "/specs/" in p:
            for m in DEF.finditer(code(t)):
                found.update(snake(n) for n in m[1].split() if "-" not in n)
    return found


def fields(texts):
    """The fields of records that have a dash."""
    found = set()
    for t in texts.values():
        inside = None
        for line in code(t).split("\n"):
            depth = len(line) - len(line.lstrip())
            if re.match(r" *(?:pub )?record ", line):
                inside = depth
            elif inside is not None and line.strip():
                m = re.match(r" +(?:pub )?([a-z][\w₀-₉'-]*(?: [a-z][\w₀-₉'-]*)*) *: ", line)
                if depth <= inside:
                    inside = None
                elif m:
                    found.update(n for n in m[1].split() if "-" in n)
    return found


def turn(text, table):
    """Each word of the table; right after a dot only a field, as other words there are steps of a proof."""
    def one(m):
        dotted = text[m.start() - 1 : m.start()] == "."
        if dotted and "." + m[0] in table:
            return table["." + m[0]]
        if m[0] in table and (re.match(r"[a-z]+[A-Z]", m[0]) or text[m.start() - 1 : m.start()] != "."):
            return table[m[0]]
        return m[0]
    return WORD.sub(one, text)


def turn_comment(text, table):
    """A comment: its code spans, and each word with a capital in its middle."""
    text = re.sub(r"`[^`\n]+`", lambda m: turn(m[0], table), text)
    return WORD.sub(lambda m: table[m[0]] if m[0] in table and re.match(r"[a-z]+[A-Z]", m[0]) else m[0], text)


def turn_antt(text, table):
    lines = []
    for line in text.split("\n"):
        at = line.find("--")
        body, comment = (line, "") if at < 0 else (line[:at], line[at:])
        lines.append(turn(body, table) + turn_comment(comment, table))
    return "\n".join(lines)


def turn_rust(text, table):
    lines = []
    for line in text.split("\n"):
        at = line.find("//")
        body, comment = (line, "") if at < 0 else (line[:at], line[at:])
        # src/ has no word with a capital in its middle, so that each is a ghost word
        body = WORD.sub(lambda m: table[m[0]] if m[0] in table and "-" not in m[0] and re.match(r"[a-z]+[A-Z]", m[0]) else m[0], body)
        lines.append(body + turn_comment(comment, table))
    return "\n".join(lines)


def read(p):
    with open(p, encoding="utf-8") as f:
        return f.read()


def write(p, text):
    if text != read(p):
        with open(p, "w", encoding="utf-8") as f:
            f.write(text)


def report(table, everything):
    back = {}
    for old, new in table.items():
        back.setdefault(new, []).append(old)
    for new, olds in sorted(back.items()):
        if len(olds) > 1:
            print("falls together:", new, olds)
        if new in everything and new not in table:
            print("stands already:", new, olds)


if __name__ == "__main__":
    main()
