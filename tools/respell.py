#!/usr/bin/env python3
"""Spells the repository's own definitions and lemmas as the library does: words in snake case, types and modules in camel case.

usage: respell.py FOLDER     once, in a checkout where the toolchain's own script has run

It turns the names that specs/ and proofs/ declare, and the local names beside them, in .antt and .rt files, in the edits of
must-fail/ and between backticks in comments. Clauses say what a parameter points to as they do now (x.now, x.old, x.new), so the
definitions `old` and `new` of a lent slice go. A crate named as one of the library's gets another name. A name that a file takes from a library stays in that file, and so do the names that
the toolchain makes. It says which names would fall together in a file.
"""
import collections
import os
import re
import subprocess
import sys

NAME = r'[^\s(){}.;,@"«»`]+'
HUMP = re.compile(r"^[a-z](.*[a-z0-9₀-₉'])?[A-Z]")
DASH = re.compile(r"^[^\W\d].*\w-\w|^[^\W\d]-\w")
USE = re.compile(r"\buse ([^\s;{]+?)\.?(\{[^;{}]*\})?(?: as ([^\s;]+))?;?$", re.M)
DECLARED = re.compile(
    r"^\s*(?:(?:abbrev|unfoldable|pub|record|data)\s+)*([^\s():{}]+)((?: \{[^{}\n]*\}| \([^()\n]*\))*) :(?=\s)", re.M
)
# What the toolchain makes or asks for by name.
MADE = re.compile(r"^(invariant|decreases|returns|loop|Need|After|At|In|the)-")


def wants(n):
    return bool(HUMP.match(n) or DASH.match(n))


def spelled(n):
    if n[0].isupper():
        return "".join(w[:1].upper() + w[1:] for w in n.split("-"))
    return re.sub(r"(?<=[a-z0-9₀-₉'])([A-Z])", lambda m: "_" + m.group(1).lower(), n.replace("-", "_")).lower()


def respelled(n, lemmas):
    return spelled(n) + "_lem" if n in lemmas else spelled(n)


def files(root, *endings):
    for folder, dirs, names in os.walk(os.path.join(root, "crates")):
        dirs[:] = sorted(d for d in dirs if d != "out")
        yield from (os.path.join(folder, n) for n in sorted(names) if n.endswith(endings))


def read(p):
    with open(p, encoding="utf-8") as f:
        return f.read()


def bare(text, mark):
    return re.sub(re.escape(mark) + r".*", "", text)


def own_crates(root):
    return set(os.listdir(os.path.join(root, "crates")))


def taken(text, crates):
    """The names that a file takes from a library."""
    kit = set()
    for path, items, alias in USE.findall(text):
        steps = path.split(".")
        if not (steps[0] == "Rattle" and len(steps) > 1 and steps[1] in crates):
            kit.update(re.findall(NAME, items))
    return kit


def folders(root):
    """Modules named `inside` become `Inside`."""
    for c in sorted(own_crates(root)):
        for part in ("specs", "proofs"):
            at = os.path.join(root, "crates", c, part)
            for name in ("inside", "inside.antt"):
                old, new = os.path.join(at, name), os.path.join(at, name.replace("inside", "Inside"))
                if os.path.exists(old):
                    subprocess.run(["git", "mv", old, new], check=True, cwd=root)


def modules(text):
    text = re.sub(r"\b(specs|proofs)\.inside\b", r"\1.Inside", text)
    text = re.sub(r"\b(specs|proofs)/inside\b", r"\1/Inside", text)
    return re.sub(r"(?m)^pub mod inside$", "pub mod Inside", text)


# A crate named as one of the library's.
CRATES = {"log": "request_log"}


def crate_names(root):
    for old, new in CRATES.items():
        if not os.path.isdir(os.path.join(root, "crates", old)):
            continue
        subprocess.run(["git", "mv", f"crates/{old}", f"crates/{new}"], check=True, cwd=root)
        for p in [*files(root, ".rt", ".antt", ".edit"), os.path.join(root, "crates.txt")]:
            text = read(p)
            if p.endswith("crates.txt"):
                new_text = "\n".join(l if l.startswith("#") else re.sub(rf"\b{old}\b", new, l) for l in text.split("\n"))
            else:
                new_text = re.sub(rf"\bRattle\.{old}\.", f"Rattle.{new}.", text)
                new_text = re.sub(rf"(?<![\w:.]){old}::", f"{new}::", new_text)
            if new_text != text:
                with open(p, "w", encoding="utf-8") as f:
                    f.write(new_text)


def clauses(text):
    """What a parameter points to, as clauses say it now: x.now of a &, x.old and x.new of a &mut."""
    out, kinds, head = [], {}, ""
    for line in text.split("\n"):
        if re.match(r"\s*(pub(\([a-z]+\))? )?(unsafe )?(extern \S+ )?fn \w+", line):
            head, kinds = "", {}
        if re.match(r"\s*(requires|ensures)\b", line):
            if head is not None:
                kinds = {n: "old" if m else "now" for n, m in re.findall(r"(\w+): &(?:'\w+ )?(mut )?", head)}
                head = None
            was = lambda n: f"{n}.{kinds.get(n, 'now')}"
            line = re.sub(r"\b(old|new|lent)_(columns|work)((?: \w+){4})", lambda m: " ".join([m.group(2), *(f"{n}.new" if m.group(1) == "new" else was(n) for n in m.group(3).split())]), line)
            line = re.sub(r"\bBegins (\w+) ", lambda m: f"Begins {was(m.group(1))} {m.group(1)}.new ", line)
            line = re.sub(r"\((old|new) (\w+)\)|\b(old|new) (\w+)(?= |$)", lambda m: f"{m.group(2) or m.group(4)}.new" if (m.group(1) or m.group(3)) == "new" else was(m.group(2) or m.group(4)), line)
            if "ensures" in line:
                line = re.sub(r"\b(\w+)\.now\b", lambda m: was(m.group(1)) if m.group(1) in kinds else m.group(0), line)
        elif head is not None:
            head += line + "\n"
        out.append(line)
    text = "\n".join(out)
    text = text.replace("ghost use Rattle.rules.specs.Lent.{old, new};\n", "").replace("ghost use Rattle.rules.specs.Lent.{old};\n", "")
    if "table.specs.Lent" in text:
        text = re.sub(r"ghost use Rattle\.table\.specs\.Lent\.\{[^}]*\};\n", "ghost use Rattle.table.specs.Columns.{columns};\n", text)
    return re.sub(r"(Rattle\.reading\.specs\.Work\.\{[^}]*)\bold_work, new_work|(Rattle\.reading\.specs\.Work\.\{[^}]*)\b(?:old|new)_work", lambda m: (m.group(1) or m.group(2)) + "work", text)


def lent(root):
    """The names of what a caller lends go, since clauses say it themselves now."""
    for part in ("rules", "table"):
        at = os.path.join(root, "crates", part, "specs")
        subprocess.run(["git", "rm", "-qf", os.path.join(at, "Lent.antt")], check=True, cwd=root)
        p = os.path.join(at, "Lib.antt")
        text = read(p).replace("pub mod Lent\n", "")
        with open(p, "w", encoding="utf-8") as f:
            f.write(text)
    p = os.path.join(root, "crates/reading/specs/Work.antt")
    text = read(p).replace("use Rattle.rules.specs.Lent.{Lent, old, new}\n", "")
    text = re.sub(r"-- lent work columns, by their[^\n]*\n(abbrev pub (old|new)_work[^\n]*\n(old|new)_work[^\n]*\n\n){2}", "", text)
    with open(p, "w", encoding="utf-8") as f:
        f.write(text)
    p = os.path.join(root, "crates/numbering/specs/Numbered.antt")
    text = read(p).replace("use Rattle.rules.specs.Lent.{Lent, old, new}\n", "")
    text = text.replace("the values stand in a lent column from", "the values stand in a lent column, `old` as the call began and `new` as it returned, from")
    text = text.replace("abbrev pub Begins : Lent → List ℕ → Type 0\nBegins column values = new column ≡ sets (old column) 0 values", "abbrev pub Begins : (old new : List ℕ) → List ℕ → Type 0\nBegins old new values = new ≡ sets old 0 values")
    with open(p, "w", encoding="utf-8") as f:
        f.write(text)


def main(root):
    crate_names(root)
    crates = own_crates(root)
    folders(root)
    declared, keep, in_specs, in_proofs = set(), set(), set(), set()
    for p in files(root, ".antt"):
        code = bare(read(p), "--")
        walk = p.endswith("/Proof.antt")
        for m in DECLARED.finditer(code):
            n = m.group(1)
            (keep if walk and MADE.match(n) else declared).add(n)
            (in_specs if "/specs/" in p else in_proofs if not walk else set()).add(n)
    # A lemma that would fall together with the definition that it is about gets `_lem`.
    plain = {n for n in declared if not wants(n)}
    declared = {n for n in declared if wants(n)}
    words = {spelled(n) for n in declared if HUMP.match(n)} | (plain & in_specs) | {"flat_map"}
    lemmas = {n for n in declared if not HUMP.match(n) and spelled(n) in words}
    lemmas |= {n for n in plain - in_specs - {"open_from"} if n in words and n in in_proofs}
    declared |= lemmas
    all_new = {respelled(n, lemmas) for n in declared}
    said = []
    for p in files(root, ".antt", ".rt"):
        text = modules(read(p))
        mark = "--" if p.endswith(".antt") else "//"
        walk = p.endswith("/Proof.antt")
        kit = taken(bare(text, mark), crates)
        mine = {m.group(1) for m in DECLARED.finditer(bare(text, mark))}
        turned = {}

        def one(dot, n):
            if n in kit or n in keep and walk or not (wants(n) or n in lemmas and not dot and p.endswith(".antt")):
                return n
            if dot and n not in declared:
                return n
            if walk and n not in declared and (p.endswith(".rt") or DASH.match(n)):
                return n
            if p.endswith(".rt") and n not in declared and not HUMP.match(n):
                return n
            turned[n] = respelled(n, lemmas)
            return turned[n]

        out = []
        for line in text.split("\n"):
            at = line.find(mark)
            if mark == "//" and re.search(r'"[^"]*//', line):
                at = -1
            code, rest = (line, "") if at < 0 else (line[:at], line[at:])
            parts = re.split(r'("(?:\\.|[^"\\])*")', code)
            parts[::2] = [re.sub(r"(\.?)(" + NAME + ")", lambda m: m.group(1) + one(m.group(1), m.group(2)), it) for it in parts[::2]]
            code = "".join(parts)
            rest = re.sub(r"`([^`]*)`", lambda m: "`" + re.sub(NAME, lambda k: respelled(k.group(0), lemmas) if k.group(0) in declared else k.group(0), m.group(1)) + "`", rest)
            rest = re.sub(r"[A-Za-z]+", lambda m: spelled(m.group(0)) if HUMP.match(m.group(0)) and m.group(0) in declared else m.group(0), rest)
            out.append(code + rest)
        new = "\n".join(out)
        if p.endswith(".rt"):
            new = clauses(new)
        # names that fall together
        back = collections.defaultdict(set)
        left = set(re.findall(NAME, bare(text, mark))) - set(turned)
        for a, b in turned.items():
            back[b].add(a)
            if b in left:
                back[b].add(b)
        for b, olds in sorted(back.items()):
            if len(olds) > 1:
                said.append(f"together: {os.path.relpath(p, root)}: {b} of {', '.join(sorted(olds))}")
        if new != read(p):
            with open(p, "w", encoding="utf-8") as f:
                f.write(new)
    for p in files(root, ".edit"):
        text = modules(read(p))
        text = re.sub(NAME, lambda m: spelled(m.group(0)) if wants(m.group(0)) and spelled(m.group(0)) in all_new else m.group(0), text)
        if text != read(p):
            with open(p, "w", encoding="utf-8") as f:
                f.write(text)
    lent(root)
    where = collections.defaultdict(set)
    for n in declared:
        where[respelled(n, lemmas)].add(n)
    for b, olds in sorted(where.items()):
        if len(olds) > 1:
            said.append(f"one name: {b} of {', '.join(sorted(olds))}")
    print("\n".join(said))
    print(f"respell: {len(declared)} declared names")


if __name__ == "__main__":
    main(os.path.abspath(sys.argv[1]))
