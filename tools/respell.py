#!/usr/bin/env python3
"""Brings the names that this repository declares to the spelling of today's Rattle.

usage: respell.py            in the repository, after port.py and before any edit by hand
       respell.py --list     prints the old and the new names and writes nothing
       respell.py --text F.. turns the names in backticks, or in edits all names, in these files

Definitions, lemmas, fields and cases are in snake case: comparisonOf, all-below and c′ become comparison_of, all_below and c'. Types and modules keep
their capital. Names of the kit, names that Rattle makes and what stands in src/ but for clauses and imports stay.
"""

import glob
import os
import re
import subprocess
import sys

WORD = r"[^\s(){}.;,@\"«»\[\]\\]+"
TOKEN = re.compile(r"--[^\n]*|\"(?:[^\"\\]|\\.)*\"|«[^»]*»|" + WORD)
SIGNED = re.compile(r"^\s*(?:abbrev |unfoldable )?(?:pub )?(?:abbrev |unfoldable )?([^\s(){}.;,@\"«»\[\]\\:]+) :(?=\s)", re.M)
GENERATED = re.compile(r"^(?:returns|loop|overflow|bounds|cast|index|invariant|measure|slice|mul|nonzero|offset|prove|enum)\b|-spec$|_spec$|^Need-|-requires")


def snake(name):
    name = name.replace("′", "'")
    if not re.search(r"[a-z]", name) or name[0].isupper():
        return name
    name = re.sub(r"(?<=[a-z0-9'])([A-Z])", lambda m: "_" + m[1].lower(), name)
    name = re.sub(r"(?<=[\w'₀-₉])-(?=[\w])", "_", name)
    return name


def files(root):
    for p in sorted(glob.glob(root + "/crates/*/specs/**/*.antt", recursive=True) + glob.glob(root + "/crates/*/proofs/**/*.antt", recursive=True)):
        yield p


def of_function(path):
    return os.path.basename(path) in ("Proof.antt", "Answers.antt", "Invariants.antt")


def read(path):
    with open(path, encoding="utf-8") as f:
        return f.read()


def declared(root):
    names, imported = {}, set()
    for p in files(root):
        text = read(p)
        text = re.sub(r"--[^\n]*", "", text)
        for m in re.finditer(r"^use ([^;\n]+?)\.\{([^}]*)\}", text, re.M | re.S):
            if not own_path(root, m[1]):
                imported |= {w.strip().split(" as ")[0] for w in m[2].split(",")}
        if of_function(p):
            for m in SIGNED.finditer(text):
                if not GENERATED.search(m[1]):
                    names.setdefault(m[1], []).append(p)
            continue
        for m in SIGNED.finditer(text):
            names.setdefault(m[1], []).append(p)
        for m in re.finditer(r"^\s*(?:[({]?)((?:[^\s(){}.;,@\"«»\[\]\\:]+ )+): ", text, re.M):
            for w in m[1].split():
                if w not in ("pub", "abbrev", "unfoldable", "record", "data"):
                    names.setdefault(w, []).append(p)
        for m in re.finditer(r"pub (?:record|data|abbrev|unfoldable)?\s*([^\s(){}.;,@\"«»\[\]\\:]+)", text):
            names.setdefault(m[1], []).append(p)
        for m in re.finditer(r"^\s*\|\s*([^\s(){}.;,@\"«»\[\]\\:]+) :", text, re.M):
            names.setdefault(m[1], []).append(p)
    return names, imported


def own_path(root, path):
    m = re.match(r"Rattle\.(\w+)\.", path + ".")
    return bool(m) and os.path.isdir(os.path.join(root, "crates", m[1]))


def mapping(root):
    names, imported = declared(root)
    out, by_new = {}, {}
    for n in names:
        if n not in imported:
            by_new.setdefault(snake(n), set()).add(n)
    for new, olds in by_new.items():
        # A lemma that would have its function's name gets _lem.
        function = next((n for n in olds if re.search(r"[a-z0-9][A-Z]", n) and "-" not in n), None)
        lemmas = olds - {function} if function else set()
        if not function and len(olds) > 1:
            lemmas = {n for n in olds if "-" in n}
        if not function and new in imported:
            lemmas = olds
        for n in olds:
            to = new + "_lem" if n in lemmas else new
            if to != n:
                out[n] = to
    return out, names, imported


def turn(text, names, made=False):
    def one(m):
        it = m[0]
        if it.startswith("--"):
            return "--" + re.sub(r"`([^`\n]+)`", lambda b: "`" + words(b[1], names) + "`", it[2:])
        if it[0] in "\"«":
            return it
        at = m.start()
        if made and at and text[at - 1] == ".":
            base = re.search(r"([\w₀-₉'′-]+)(?:\.[\w₀-₉'′-]+)*\.$", text[:at][-200:])
            if base and base[1] in ("c", "tie", "goal", "l", "w", "d"):
                return it
        plain = snake(it) == it
        if it in names and not (plain and (text[m.end() : m.end() + 1] == "." or (at and text[at - 1] == "."))):
            return names[it]
        if "′" in it:
            return it.replace("′", "'")
        return it

    return TOKEN.sub(one, text)


def words(text, names):
    return re.sub(WORD, lambda m: names.get(m[0], m[0].replace("′", "'")), text)


def main(argv):
    root = subprocess.run(["git", "rev-parse", "--show-toplevel"], capture_output=True, text=True).stdout.strip()
    kept = os.path.join(root, "tools", "respelled.tsv")
    if argv and argv[0] == "--text":
        names = dict(line.rstrip("\n").split("\t") for line in open(kept, encoding="utf-8"))
        for p in argv[1:]:
            text = read(p)
            if p.endswith(".edit"):
                new = re.sub(WORD, lambda m: names.get(m[0], m[0]), text)
            else:
                new = re.sub(r"`([^`\n]+)`", lambda b: "`" + words(b[1], names) + "`", text)
            if new != text:
                open(p, "w", encoding="utf-8").write(new)
        return 0
    names, every, imported = mapping(root)
    taken = {}
    for old, new in names.items():
        taken.setdefault(new, []).append(old)
        if new in every or new in imported:
            taken[new].append(new + (" (kit)" if new in imported else ""))
    for new, olds in sorted(taken.items()):
        if len(olds) > 1:
            print("together:", new, olds)
    if argv == ["--list"]:
        for old, new in sorted(names.items()):
            print(old, new, sep="\t")
        return 0
    with open(kept, "w", encoding="utf-8") as f:
        for old, new in sorted(names.items()):
            f.write(f"{old}\t{new}\n")
    for p in list(files(root)):
        text = read(p)
        new = turn(text, names, of_function(p))
        if new != text:
            open(p, "w", encoding="utf-8").write(new)
    for p in sorted(glob.glob(root + "/crates/*/src/**/*.rt", recursive=True)):
        text = read(p)
        new = re.sub(r"//[^\n]*|\"(?:[^\"\\]|\\.)*\"|" + WORD, lambda m: rust(m[0], names), text)
        if new != text:
            open(p, "w", encoding="utf-8").write(new)
        new = clauses(new)
        open(p, "w", encoding="utf-8").write(new)
    for p in files(root):
        text = read(p)
        new = TOKEN.sub(lambda m: "returned" if m[0] == "result" and text[m.start() - 1] != "." else m[0], text)
        if new != text:
            open(p, "w", encoding="utf-8").write(new)
    return 0


def clauses(text):
    """In clauses `result` is what the function returns: the case of that name, of Answer, is `returned`. So port.py left the clauses of files that name it."""
    if not re.search(r"model\.specs\.Answer\.\{[^}]*\bresult\b", text):
        return text
    text = re.sub(r"//[^\n]*|\bresult\b", lambda m: "returned" if m[0] == "result" else m[0], text)

    def plain(m):
        body = m[3].strip()
        if m[2] != "_":
            body = re.sub(r"(?<![\w.«])" + m[2] + r"(?![\w»'])", "result", body)
        return f"ensures {m[1] or str()}{{ {body} }}"

    return re.sub(r"ensures\* (\w+ )?\{ λ (\w+)\. ⌜(.*?)⌝ \}", plain, text, flags=re.S)


def rust(it, names):
    if it.startswith("//"):
        return re.sub(r"`([^`\n]+)`", lambda b: "`" + words(b[1], names) + "`", it)
    if it[0] == '"':
        return it
    # A name in snake case may be one of the source.
    return names[it] if it in names and snake(it) != it else it.replace("′", "'")


if __name__ == "__main__":
    raise SystemExit(main(sys.argv[1:]))
