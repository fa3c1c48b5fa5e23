#!/usr/bin/env python3
"""Brings the repository's own definitions and lemmas to snake case, and the modules `specs/inner` to `specs/Inner`.

usage: tools/respell_names.py [--list]      at the top of the repository; --list shows the names and writes nothing

A name counts as the repository's own where a file of specs/ or a lemma file of proofs/ declares it. What falls together with
another name of a file gets the ending `_lem`.
Types, modules, functions of src/, strings and inputs keep their names.
"""

import collections
import os
import re
import subprocess
import sys

WORD = re.compile(r"[^\s(){}.;,@\"«»]+")
DECLARED = re.compile(r"^ *(?:(?:abbrev|pub|unfoldable|opaque|record|data)\s+)*([^\s:(){},.=|]+)(?:\s+[({][^=]*[)}])?\s+:\s", re.M)
CONSTRUCTOR = re.compile(r"^ *\|? *(?:pub )?([a-z][^\s:(){},.=|]*) :", re.M)
CAMEL = re.compile(r"(?<=[a-z0-9])[A-Z]")
HEADS = re.compile(r"(?:goal|tie)\.$")
PROOF = re.compile(r"/proofs/.*/(Proof|Answers|Invariants)\.antt$")


def texts(root):
    for folder, dirs, files in os.walk(os.path.join(root, "crates")):
        dirs[:] = sorted(d for d in dirs if d != "out")
        for f in sorted(files):
            if f.endswith((".rt", ".antt", ".edit")):
                yield os.path.join(folder, f)


def read(path):
    with open(path, encoding="utf-8") as f:
        return f.read()


def snake(name):
    words = CAMEL.sub(lambda m: "_" + m[0].lower(), name)
    return re.sub(r"(?<=[\w'])-(?=\w)", "_", words)


def code(path, text):
    """The text without comments, and without what a source file brings in beside ghost names."""
    if path.endswith(".rt"):
        return re.sub(r"(?m)//[^\n]*|^\s*(?:pub )?use [^;]*;", "", text)
    return re.sub(r"(?<!\S)--[^\n]*", "", text)


def declared(files):
    names = set()
    for path, text in files.items():
        if not path.endswith(".antt") or PROOF.search(path) or path.endswith("/Lib.antt"):
            continue
        names.update(DECLARED.findall(code(path, text)))
        names.update(CONSTRUCTOR.findall(code(path, text)))
    return {n for n in names if (n[0].islower() or not n[0].isascii()) and snake(n) != n}


def library(files):
    """Names that are imported from the library: they stay."""
    out = set()
    for text in files.values():
        for head, items in re.findall(r"\buse ([^\s;{]+)\{([^}]*)\}", text):
            if not head.startswith("Rattle.") or head.startswith("Rattle.std."):
                out.update(WORD.findall(items))
    return out


def table(files):
    own = declared(files)
    kept = own & library(files)
    names = {n: snake(n) for n in own - kept}
    words = {p: set(WORD.findall(code(p, t))) for p, t in files.items() if not PROOF.search(p)}
    words["the names themselves"] = set(names)
    # a function's name is no word of a clause, so that only other words of a source file fall together with a definition's
    for path, text in files.items():
        if path.endswith(".rt"):
            words[path] -= {w for w in words[path] if w not in names and not re.search(rf"(?<![\w.:]){re.escape(w)}(?!\w)(?!\s*[(<:])", code(path, text))}
    for _ in range(5):
        clash = set()
        for found in words.values():
            here = collections.defaultdict(set)
            for w in found:
                here[names.get(w, w)].add(w)
            for group in here.values():
                if len(group) > 1:
                    old = sorted((w for w in group if w in names), key=lambda w: ("-" not in w, w))
                    clash.update(old if len(old) < len(group) else old[:-1])
        if not clash:
            break
        for w in clash:
            names[w] += "_lem"
    return names, kept


def turn(path, text, names):
    proof = bool(PROOF.search(path))

    def one(m):
        w = m[0]
        if w not in names or (proof and (HEADS.search(text[: m.start()]) or "-" in w and text[m.start() - 1 : m.start()] == ".")):
            return w
        return names[w]

    # a name that a proof of a function declares is a goal's, and stays
    if proof:
        local = set(DECLARED.findall(text))
        names = {k: v for k, v in names.items() if k not in local or "-" not in k}
    return WORD.sub(one, text)


def main():
    root = subprocess.run(["git", "rev-parse", "--show-toplevel"], capture_output=True, text=True, check=True).stdout.strip()
    files = {p: read(p) for p in texts(root)}
    names, kept = table(files)
    if "--list" in sys.argv:
        for k in sorted(names):
            print(k, names[k], "" if names[k] == snake(k) else "(falls together)")
        print(f"{len(names)} names; left, as the library has them: {' '.join(sorted(kept))}")
        return
    for path, text in files.items():
        new = turn(path, text, names)
        new = re.sub(r"(?<=\.specs\.)inner(?=[.;{\s])", "Inner", new)
        if path.endswith("/specs/Lib.antt"):
            new = re.sub(r"(?m)^pub mod inner$", "pub mod Inner", new)
        if new != text:
            with open(path, "w", encoding="utf-8") as f:
                f.write(new)
    for crate in sorted(os.listdir(os.path.join(root, "crates"))):
        base = os.path.join(root, "crates", crate, "specs")
        for old, new in (("inner.antt", "Inner.antt"), ("inner", "Inner")):
            if os.path.exists(os.path.join(base, old)):
                os.rename(os.path.join(base, old), os.path.join(base, new))


if __name__ == "__main__":
    main()
