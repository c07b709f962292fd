#!/usr/bin/env python3
"""Brings the names of this repository's own definitions and lemmas to today's spelling: snake case, as `coordinate_limit` for `coordinateLimit` and `told_none` for `told-none`.

usage: python3 tools/respell.py            at the top of the repository, once, right after port.py

Types, modules and what the toolchain makes keep their names; so do functions of src/, exported C names, strings, inputs and outputs.
The crate `hex` is called `hexes`, since the toolchain has a library `hex`.
A lemma that would have its definition's name gets `_lem`.
"""

import collections
import os
import re
import subprocess
import sys

NAME = r"[^\s(){}.;,@\"«»:\x60]+"
TOKEN = re.compile(r"[^\s(){}.;,@\"«»\x60]+")
DECLARED = re.compile(rf"^( *)(?:(?:unfoldable|abbrev|pattern|pub|axiom|field) +)*(?:(data|record|ruleset|mod|module) +)?({NAME})(?: \{{[^{{}}\n]*\}})*(?: \([^()\n]*\))* [:=](?= |$)", re.M)
LOCAL = re.compile(rf"(?:\blet |λ |[({{])({NAME}(?: {NAME})*?)(?= (?::|=) |\. )")
MADE = re.compile(r"(invariant|decreases)-(loop|scan).*|loop-.*|scan-.*|--.*|-.*")
LEMMA = re.compile(r"_lem$")

# Where two names would fall together, the lemma yields.
APART = {
    "in-strip": "in_strip_lem",
    "no-rank": "no_rank_lem",
    "step-of": "step_of_lem",
    "tiles-by": "tiles_by_lem",
    "tiles-from": "tiles_from_lem",
    "tiles-of": "tiles_of_lem",
    "unknown-number": "unknown_number_told",
    "known-number": "known_number_told",
}


def spelled(name):
    if name in APART:
        return APART[name]
    words = re.sub(r"(?<=[a-z0-9])[A-Z]", lambda m: "_" + m[0], name)
    return words.replace("-", "_").replace("′", "'").lower()


def is_old(name):
    if name[:1].isupper() or not name[:1].isalpha() or MADE.fullmatch(name):
        return False
    return "-" in name or bool(re.search("[a-z0-9][A-Z]", name)) or "′" in name


def files(ending, root="crates"):
    for folder, dirs, names in os.walk(root):
        dirs[:] = sorted(d for d in dirs if d != "out")
        for n in sorted(names):
            if n.endswith(ending):
                yield os.path.join(folder, n)


def read(path):
    with open(path, encoding="utf-8") as f:
        return f.read()


def write(path, text, old):
    if text != old:
        with open(path, "w", encoding="utf-8") as f:
            f.write(text)


def is_walk(path):
    """A proof that answers the toolchain's goals for one function."""
    return bool(re.search(r"/proofs/.*/(Proof|Answers|Invariants)\.antt$", path))


def goals_of(text):
    """The names in a walk that are the toolchain's: answers to its goals."""
    return {m[1] for m in re.finditer(rf"^ *({NAME}) : (?:\([^\n]*\) → )*(?:tie|goal)\.", text, re.M)}


def collect():
    names, fields = {}, set()
    for path in files(".antt"):
        text = read(path)
        skip = goals_of(text)
        record = None
        for line in text.split("\n"):
            head = re.match(r"( *)(?:\w+ )*(record|data) ", line)
            if head:
                record = len(head[1])
            elif line.strip() and record is not None and len(line) - len(line.lstrip()) <= record:
                record = None
            m = DECLARED.match(line)
            if m and m[2] not in ("mod", "module") and is_old(m[3]) and m[3] not in skip:
                names[m[3]] = spelled(m[3])
                if record is not None:
                    fields.add(m[3])
    return names, fields


def locals_of(text, skip):
    found = {}
    for m in LOCAL.finditer(text):
        for n in m[1].split():
            if is_old(n) and n not in skip:
                found[n] = spelled(n)
    return found


def respell_antt(path, names, fields):
    text = read(path)
    walk = is_walk(path)
    skip = goals_of(text) if walk else set()
    mine = {**locals_of(text, skip), **names}
    for n in skip:
        mine.pop(n, None)

    def code(part):
        out, last = [], 0
        for m in TOKEN.finditer(part):
            w = m[0]
            if w in mine:
                behind = part[: m.start()].endswith(".") and not part[: m.start()].endswith(" .")
                if walk and behind and w not in fields and not re.search(r"\.\{[^{}]*$", part[: m.start()]) and not re.search(r"(^|\n)use [^\n]*$", part[: m.start()]):
                    continue
                out += [part[last : m.start()], mine[w]]
                last = m.end()
        return "".join(out) + part[last:]

    done = []
    for line in text.split("\n"):
        at = re.search(r"(^|\s)--(?=\s|$)", line)
        cut = at.start() if at else len(line)
        comment = re.sub(r"`([^`]+)`", lambda m: "`" + crate_in(code(m[1])) + "`", line[cut:])
        done.append(crate_in(code(line[:cut])) + comment)
    write(path, "\n".join(done), text)


def crate_in(text):
    """Paths into the crate that has another name now."""
    text = re.sub(r"\bRattle\.hex\.", "Rattle.hexes.", text)
    return re.sub(r"(?<![\w/.])hex(?=::)", "hexes", text)


def respell_rt(path, names):
    text = read(path)
    parts = re.split(r"(\"(?:\\.|[^\"\\\n])*\"|//[^\n]*)", text)
    for i, part in enumerate(parts):
        if i % 2 == 0:
            part = TOKEN.sub(lambda m: names.get(m[0], m[0]), part)
            part = re.sub(r"(?<=\buse )hex(?=[:;])", "hexes", crate_in(part))
            parts[i] = part
        elif part.startswith("//"):
            parts[i] = re.sub(r"`([^`]+)`", lambda m: "`" + crate_in(TOKEN.sub(lambda t: names.get(t[0], t[0]), m[1])) + "`", part)
    write(path, "".join(parts), text)


def respell_page(path, names):
    """Pages and edits: names between backticks, and in an edit's old and new lines."""
    text = read(path)
    if path.endswith(".edit"):
        lines = text.split("\n")
        for i, line in enumerate(lines):
            if re.match(r"(old|new): ", line):
                lines[i] = line[:5] + re.sub(r"(?<=\buse )hex(?=[:;])", "hexes", crate_in(TOKEN.sub(lambda m: names.get(m[0], m[0]), line[5:])))
        write(path, "\n".join(lines), text)
        return
    turned = re.sub(r"`([^`\n]+)`", lambda m: "`" + page_crate(crate_in(TOKEN.sub(lambda t: names.get(t[0], t[0]), m[1]))) + "`", text)
    write(path, turned, text)


def page_crate(span):
    if span == "hex":
        return "hexes"
    return re.sub(r"(?<![\w/])(crates/|slips/)?hex/(?=specs|proofs|must-fail|src/(lib|limits|refusals)\.rt|[a-z_]+$)(?!mod\.rs|rings\.rs)", lambda m: (m[1] or "") + "hexes/", span)


def main():
    if not os.path.isdir("crates/hex"):
        print("respell: no crates/hex: nothing to do")
        return 2
    names, fields = collect()
    fallen = collections.defaultdict(set)
    for old, new in names.items():
        fallen[new].add(old)
    for new, olds in sorted(fallen.items()):
        if len(olds) > 1:
            print(f"look: {' '.join(sorted(olds))} are all {new} now")
    for path in files(".antt"):
        respell_antt(path, names, fields)
    for path in files(".rt"):
        respell_rt(path, names)
    for path in list(files(".edit")) + list(files(".edit", "slips")) + ["README.md"] + sorted(os.path.join("docs", d) for d in os.listdir("docs") if d.endswith(".md")):
        respell_page(path, names)
    listed = read("crates.txt")
    write("crates.txt", re.sub(r"^(\w+):(.*)$", lambda m: re.sub(r"\bhex\b", "hexes", m[0]), listed, flags=re.M), listed)
    for folder in ("crates", "slips"):
        subprocess.run(["git", "mv", f"{folder}/hex", f"{folder}/hexes"], check=True)
    print(f"respell: {len(names)} names")
    return 0


if __name__ == "__main__":
    sys.exit(main())
