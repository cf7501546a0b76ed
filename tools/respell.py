#!/usr/bin/env python3
"""Brings the names of this repository's own definitions, fields and lemmas to snake case, after port.py: `planOf` becomes `plan_of`, `row-start` becomes `row_start`.

usage: python3 tools/respell.py      at the top of the repository, once

Types and modules keep their names, and so does everything that stands in src/ or is exported to C. Where a lemma would get the name of a definition
that stands in specs/, of a word that is brought in, or of another lemma that comes before it, it ends in `_lem`. It rewrites .antt files, the clauses and `ghost use` items of .rt
files, and names between backticks in comments and in docs/*.md and README.md.
"""
import collections
import glob
import os
import re

TOP = re.compile(r"^(?:(?:abbrev|unfoldable|private|opaque)\s+)*(?:pub\s+)?([^\s:(){}.;,\"]+)\s*:(?!=)\s")
INNER = re.compile(r"^\s+(?:(?:abbrev|unfoldable|private|opaque)\s+)*(?:pub\s+)?((?!let\b|use\b)[a-z][^\s:(){}.;,\"]*)\s*:(?!=)\s")
FIELD = re.compile(r"^\s+(?:pub\s+)?([^\s:(){}.;,\"]+(?: [^\s:(){}.;,\"]+)*)\s*:\s")
TOKEN = re.compile(r"\"(?:[^\"\\]|\\.)*\"|[^\s(){}\[\].;,\"`@]+|[\s(){}\[\].;,`@]")


def snake(name):
    # an arrow stays, and so does a dash beside it
    return re.sub(r"([a-z0-9])([A-Z])", lambda m: m[1] + "_" + m[2].lower(), name).replace("-", "_")


def files():
    return sorted(glob.glob("crates/*/specs/**/*.antt", recursive=True)) + sorted(glob.glob("crates/*/proofs/**/*.antt", recursive=True))


def collected():
    """The names that are declared, those of specs/ first, and the fields."""
    names, fields = collections.OrderedDict(), collections.OrderedDict()
    for path in files():
        if os.path.basename(path) == "Proof.antt":
            continue
        inside = False
        with open(path, encoding="utf-8") as f:
            for line in f:
                if line.startswith("--"):
                    continue
                if re.match(r"^(pub )?(record|data)\s", line) or (" record " in line and line.rstrip().endswith("where")):
                    inside = True
                    continue
                if inside and line.startswith(" "):
                    m = FIELD.match(line)
                    if m:
                        for it in m[1].split():
                            fields.setdefault(it, path)
                    continue
                m = INNER.match(line)
                if m:
                    names.setdefault(m[1], path)
                    continue
                if line.strip():
                    inside = False
                m = TOP.match(line)
                if m:
                    names.setdefault(m[1], path)
    return names, fields


def foreign():
    """The names that files bring in from elsewhere than this repository's crates."""
    found = set()
    for path in files():
        with open(path, encoding="utf-8") as f:
            for module, listed in re.findall(r"^(?:pub )?use ([^\s{]+?)\.?\{([^}]*)\}", f.read(), re.M):
                if not (module.startswith("Rattle.") and os.path.isdir(os.path.join("crates", module.split(".")[1]))):
                    found |= {it.split(" as ")[0].strip() for it in listed.split(",")}
    return found


def table(names):
    """Each old name with its new one."""
    turned, taken = {}, {it: "" for it in foreign()}
    for name in sorted(names, key=lambda it: ("/specs/" not in names[it], snake(it) != it)):
        if name[0].isupper() or not name[0].isalpha() or re.fullmatch(r"[a-z0-9]+", name) or name in taken:
            continue
        new = snake(name)
        if "/specs/" in names[name] and not taken.get(new, "-"):
            del taken[new]
        if taken.get(new, name) != name:
            new += "_lem"
        while taken.get(new, name) != name:
            new += "_more"
        taken[new] = name
        if new != name:
            turned[name] = new
    return turned


def turned(text, names, fields, own=()):
    out, before = [], ""
    for m in TOKEN.finditer(text):
        it = m[0]
        if before == "." and it in fields:
            it = fields[it]
        elif it in names and it not in own and (before != "." or not own):
            it = names[it]
        elif it in fields and it not in own:
            it = fields[it]
        out.append(it)
        before = m[0]
    return "".join(out)


def ticked(text, names, fields):
    return re.sub(r"`[^`\n]*`", lambda m: turned(m[0], names, fields), text)


def line_by_line(text, mark, names, fields, own=(), only=None):
    done = []
    for line in text.split("\n"):
        at = line.find(mark)
        # a mark inside a string is none
        if at >= 0 and line[:at].count('"') % 2 == 0:
            code, note = line[:at], line[at:]
        else:
            code, note = line, ""
        if only is None or only(code):
            code = turned(code, names, fields, own)
        done.append(code + ticked(note, names, fields))
    return "\n".join(done)


class Clauses:
    """Whether a line of an .rt file is of a clause or a `ghost use` item."""

    def __init__(self):
        self.open = 0

    def __call__(self, code):
        if self.open or re.match(r"\s*(ghost use|requires|ensures|ghost)\b", code):
            if re.match(r"\s*ghost use\b", code):
                self.open = 0 if ";" in code else 1
            else:
                self.open += code.count("{") - code.count("}")
                self.open = max(self.open, 0)
            return True
        return False


def main():
    names, fields = collected()
    names = table(names)
    fields = {it: snake(it) for it in fields if it[0].islower() and snake(it) != it}
    for path in files():
        with open(path, encoding="utf-8") as f:
            text = f.read()
        own = ()
        if os.path.basename(path) == "Proof.antt":
            own = {m[1] for m in map(TOP.match, text.split("\n")) if m}
            own |= {"spec"}
        new = line_by_line(text, "--", names, fields, own)
        if new != text:
            with open(path, "w", encoding="utf-8") as f:
                f.write(new)
    for path in sorted(glob.glob("crates/*/src/**/*.rt", recursive=True)):
        with open(path, encoding="utf-8") as f:
            text = f.read()
        new = line_by_line(text, "//", names, fields, (), Clauses())
        if new != text:
            with open(path, "w", encoding="utf-8") as f:
                f.write(new)
    for path in sorted(glob.glob("docs/*.md")) + ["README.md"]:
        with open(path, encoding="utf-8") as f:
            text = f.read()
        new = ticked(text, names, fields)
        if new != text:
            with open(path, "w", encoding="utf-8") as f:
                f.write(new)
    print(f"respell: {len(names)} names, {len(fields)} fields")


if __name__ == "__main__":
    main()
