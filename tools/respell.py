#!/usr/bin/env python3
"""Turn the repository's own names in antt to today's spelling.

    python3 tools/respell.py [ROOT]

Own names are what crates/*/specs and crates/*/proofs define: definitions,
constructors, fields, lemmas, and functions below a `where`. Each becomes snake
case (`polygonPlane` and `polygon-plane` are `polygon_plane`). Names with a
capital at their head keep it. Names that Rattle makes and names of a library
stay, and so do the answers in Proof.antt (`f : tie.Need-..`) and `F-spec`.

One map holds for the whole repository. It goes over every .antt file, over the
clauses, `ghost use` lines and comments of every .rt file, and over the edits in
crates/*/must-fail and tests/edits. Where a new name is already that of another
thing, the name gets `_of`, or `_lem` if it is a lemma; each such case is
printed. tools/respelled.tsv lists what was renamed. A second run changes nothing.
"""

import collections
import glob
import os
import re
import sys

# Words of antt and of clauses, which no definition may be named.
RESERVED = set(
    "abbrev absurd ap as assumption at by cc data elim ensures entry exit forall ghost goal grind ground in "
    "invariant let mod module new now old omega open pub record refl requires result rules ruleset rw search "
    "simp sort spec subst sym trust tt type unfoldable unfolding use where".split()
)

# Whether a definition that a clause cites may not have the name of a Rust function.
AVOID_FUNCTIONS = False

# A token is a run of other characters than these.
TOKEN = re.compile(r"[^\s(){}\[\],;:.«»\"`]+")
COMMENT = re.compile(r"(?:^|(?<=[\s(\[{]))--(?=\s|-|$)")
SIGNATURE = re.compile(r"^(\s*)((?:(?:unfoldable|abbrev|pub)\s+)*)([^\s(){}\[\],;:.λ=\"«»]+(?: +[^\s(){}\[\],;:.λ=\"«»]+)*) :(?:\s|$)")
TYPE_HEAD = re.compile(r"^\s*(?:abbrev\s+)?(?:pub\s+)?(data|record)\s+([^\s({:]+)")
IMPORT = re.compile(r"\buse\s+([^\s{};]+?)(?:\.\{([^}]*)\}|\s+as\s+([^\s;]+))?\s*(?:;|$)", re.M)
CLAUSE = re.compile(r"\b(requires|ensures|ghost|abbrev|invariant|decreases)\b[^;{}()]*\{")
RUST_WORD = re.compile(r"[A-Za-z_][A-Za-z0-9_]*")


def is_old(name):
    """Whether a name is spelled with a dash, or with a capital inside."""
    if not re.search(r"[A-Za-z]", name):
        return False
    if name[0].isupper():
        return "-" in name
    return "-" in name or re.search(r"[A-Z]", name) is not None and "→" not in name


def snake(name, joined):
    """The name in today's spelling. `joined` is for a type, whose parts are joined in camel case."""
    parts = name.split("-")
    if name[0].isupper():
        if joined:
            return "".join(part[:1].upper() + part[1:] for part in parts)
        return "_".join(parts)
    turned = []
    for part in parts:
        if "→" not in part:
            part = re.sub(r"(?<=[a-z0-9'₀-₉])(?=[A-Z])", "_", part)
            part = re.sub(r"(?<=[A-Z])(?=[A-Z][a-z])", "_", part)
            part = re.sub(r"[A-Z]", lambda m: m[0].lower(), part)
        turned.append(part)
    return re.sub(r"_+", "_", "_".join(turned))


def split_comments(text):
    """The lines of an antt text, each as its code and its comment."""
    pairs = []
    for line in text.split("\n"):
        found = COMMENT.search(line)
        cut = found.start() if found else len(line)
        pairs.append((line[:cut], line[cut:]))
    return pairs


def read(path):
    with open(path, encoding="utf-8", newline="") as file:
        return file.read()


class Antt:
    """One .antt file: what it defines, imports and says."""

    def __init__(self, path, crates):
        self.path = path
        self.text = read(path)
        self.is_proof = path.endswith("/Proof.antt")
        self.is_spec = path.split("/")[2] == "specs"
        self.defined = {}  # name -> (is a field or constructor, is an abbrev)
        self.public = set()
        self.answers = set()
        self.foreign = set()
        self.aliases = {}  # alias -> whether the module is the repository's own
        lines = split_comments(self.text)
        self.code = "\n".join(code for code, _ in lines)
        self.find_definitions([code for code, _ in lines])
        self.find_imports(crates)
        self.bare, self.projected = set(), set()
        for found in TOKEN.finditer(self.code):
            after_dot = found.start() > 0 and self.code[found.start() - 1] == "."
            (self.projected if after_dot else self.bare).add(found[0])

    def find_definitions(self, lines):
        members = False
        for number, line in enumerate(lines):
            if line and not line[0].isspace():
                members = False
            head = TYPE_HEAD.match(line)
            if head:
                self.defined.setdefault(head[2], (False, True))
                members = True
                continue
            found = SIGNATURE.match(line)
            if not found:
                continue
            names = found[3].split()
            if RESERVED.intersection(names):
                continue
            rest = line[found.end() :] + " " + (lines[number + 1] if number + 1 < len(lines) else "")
            for name in names:
                if self.is_proof and not found[1]:
                    if re.search(r"\btie\.", rest) or name.endswith("-spec"):
                        self.answers.add(name)
                        continue
                self.defined[name] = (members, "abbrev" in found[2])
                if "pub" in found[2]:
                    self.public.add(name)

    def find_imports(self, crates):
        for found in IMPORT.finditer(self.code):
            path, items, alias = found.groups()
            own = is_own_module(path, crates)
            if alias:
                self.aliases[alias] = own
            elif items is None:
                self.aliases[path.split(".")[-1]] = own
            for item in (items or "").split(","):
                words = item.split()
                if words and not own:
                    self.foreign.add(words[-1])


def is_own_module(path, crates):
    """Whether a `use` path is that of an .antt file of this repository."""
    parts = path.split(".")
    if parts[0] != "Rattle":
        return len(parts) == 1
    return len(parts) > 1 and parts[1] in crates and os.path.exists("crates/" + "/".join(parts[1:]) + ".antt")


def clause_spans(text):
    """Where the clauses, `ghost use` lines and comments of a .rt text lie."""
    spans = []
    for found in re.finditer(r"//[^\n]*", text):
        spans.append((found.start(), found.end(), "comment"))
    for found in re.finditer(r"\bghost\s+use\b[^;]*;", text):
        spans.append((found.start(), found.end(), "use"))
    for found in CLAUSE.finditer(text):
        start = text.rfind("\n", 0, found.start()) + 1
        if "//" in text[start : found.start()]:
            continue
        depth, end = 1, found.end()
        while depth and end < len(text):
            depth += {"{": 1, "}": -1}.get(text[end], 0)
            end += 1
        spans.append((found.end(), end, "clause"))
    return sorted(spans)


class Rust:
    """One .rt file: its clauses, what they cite, and the words of its code."""

    def __init__(self, path):
        self.path = path
        self.text = read(path)
        self.spans = clause_spans(self.text)
        self.cited, code, at = set(), [], 0
        for start, end, kind in self.spans:
            if kind != "comment":
                self.cited.update(TOKEN.findall(self.text[start:end]))
            code.append(self.text[at:start])
            at = max(at, end)
        code.append(self.text[at:])
        plain = re.sub(r'"(?:[^"\\\n]|\\.)*"', '""', " ".join(code))
        self.words = set(RUST_WORD.findall(plain))
        # What stands before a colon: parameters, fields, typed locals. A parameter hides a word of its name.
        self.named = set(re.findall(r"\b([a-z_]\w*)\s*:(?!:)", plain))
        functions = set(re.findall(r"\bfn\s+(\w+)", plain))
        if AVOID_FUNCTIONS:
            self.named |= functions
        else:
            self.words -= functions - self.named


def replace(text, rename, keep=frozenset(), aliases=None, fields=frozenset(), code=True):
    """The text with each token that the map holds turned. After a dot only own fields and own modules' names turn."""

    def turn(found):
        name = found[0]
        if name not in rename or name in keep:
            return name
        start = found.start()
        if code and start > 1 and text[start - 1] == ".":
            base = re.search(r"[^\s(){}\[\],;:.«»\"`]+$", text[max(0, start - 80) : start - 1])
            owner = base[0] if base else ""
            if aliases and owner in aliases:
                return rename[name] if aliases[owner] else name
            return rename[name] if name in fields else name
        return rename[name]

    return TOKEN.sub(turn, text)


def choose(antts, rusts):
    """The map from old names to new ones, and the cases where the plain spelling is taken."""
    defined, fields, lemma_only, abbrevs = collections.Counter(), set(), {}, {}
    for antt in antts:
        for name, (is_field, is_abbrev) in antt.defined.items():
            defined[name] += 1
            if is_field:
                fields.add(name)
            lemma_only[name] = lemma_only.get(name, True) and not antt.is_spec
            abbrevs[name] = abbrevs.get(name, True) and is_abbrev
    imported = set().union(*(antt.foreign for antt in antts))
    cited = set().union(*(rust.cited for rust in rusts)) if rusts else set()
    rust_names = set().union(*(rust.named for rust in rusts)) if rusts else set()

    # A name that is used in the old spelling and defined in the new one is that one.
    spelled_twice = {}
    for antt in antts:
        for name in antt.bare:
            if is_old(name) and name not in defined and name not in antt.foreign and name not in antt.answers:
                if snake(name, False) in defined and not name.endswith("-spec"):
                    spelled_twice[name] = snake(name, False)
    for name in cited:
        if is_old(name) and name not in defined and snake(name, False) in defined:
            spelled_twice[name] = snake(name, False)

    files_of = collections.defaultdict(list)
    for antt in antts:
        for name in antt.bare | antt.projected:
            files_of[name].append(antt)
    rust_of = collections.defaultdict(list)
    for rust in rusts:
        for name in rust.cited:
            rust_of[name].append(rust)

    rename, cases = dict(spelled_twice), []
    taken = collections.defaultdict(list)  # new name -> old names
    # Definitions come first, so that of two with one name it is the lemma that gives way.
    for old in sorted((name for name in defined if is_old(name)), key=lambda name: (lemma_only[name], name)):
        plain = snake(old, abbrevs[old])
        suffix = "_lem" if lemma_only[old] else "_of"
        if suffix == "_of" and plain.endswith("_of"):
            suffix = "_word"
        new, why = plain, ""
        for turn in ("", suffix, suffix + "_of", suffix + "_lem"):
            new = plain + turn
            reason = is_taken(old, new, files_of, rust_of, rust_names, taken, cited, defined, imported)
            if not reason:
                break
            why = why or reason
        else:
            raise SystemExit(f"no free name for {old}")
        if new != plain:
            cases.append((old, new, why))
        rename[old] = new
        taken[new].append(old)
    return rename, fields, cases, spelled_twice


def is_taken(old, new, files_of, rust_of, rust_names, taken, cited, defined, imported):
    """Why the new name can't be had, or an empty text."""
    if new in RESERVED:
        return "a keyword"
    if old in cited and new in rust_names:
        return "a function, parameter or field of the Rust"
    for antt in files_of[old]:
        if new in antt.bare or new in antt.foreign or new in antt.defined:
            return f"stands in {antt.path}"
    for rust in rust_of[old]:
        if new in rust.cited or new in rust.words:
            return f"stands in {rust.path}"
    if taken[new]:
        return f"{taken[new][0]} has it"
    if new in defined or new in imported:
        return "defined elsewhere"
    return ""


def turn_antt(antt, rename, fields):
    keep = (antt.foreign - set(antt.defined)) | antt.answers
    lines = []
    for code, note in split_comments(antt.text):
        if note:
            note = turn_comment(note, rename, keep) if antt.is_spec else replace(note, rename, keep, code=False)
        lines.append(turn_code(code, antt, rename, fields, keep) + note)
    return "\n".join(lines)


def turn_code(code, antt, rename, fields, keep):
    found = re.match(r"^(\s*(?:pub\s+)?use\s+)([^\s{]+)(.*)$", code)
    if found and found[2].split(".")[0] in ("Rattle", "lib", "native", "mathlib", "Prim", "borrow", "denote"):
        head, path, rest = found.groups()
        return head + path + replace(rest, rename, keep, antt.aliases, fields)
    return replace(code, rename, keep, antt.aliases, fields)


def turn_comment(text, rename, keep=frozenset()):
    """A comment beside code or definitions. A word with a dash is prose there, unless it stands between backticks."""
    capitals = {old: new for old, new in rename.items() if "-" not in old}
    text = re.sub(r"`[^`\n]*`", lambda quoted: replace(quoted[0], rename, keep, code=False), text)
    return replace(text, capitals, keep, code=False)


def turn_rust(rust, rename, fields):
    out, at = [], 0
    for start, end, kind in rust.spans:
        if start < at:
            continue
        out.append(rust.text[at:start])
        part = rust.text[start:end]
        if kind == "comment":
            out.append(turn_comment(part, rename))
        else:
            out.append(replace(part, rename, fields=fields))
        at = end
    out.append(rust.text[at:])
    return "".join(out)


def turn_edit(path, text, antts, rename, fields):
    """An edit: `file:`, then `old:` and `new:` texts."""
    crate = path.split("/")[1] if path.startswith("crates/") else path.split("/")[2]
    target, lines = "", []
    for line in text.split("\n"):
        if line.startswith("file:"):
            target = line[5:].strip()
        elif target.endswith(".antt"):
            antt = antts.get(f"crates/{crate}/{target}")
            keep = (antt.foreign - set(antt.defined)) | antt.answers if antt else frozenset()
            head = re.match(r"^(?:old|new):", line)
            cut = head.end() if head else 0
            line = line[:cut] + replace(line[cut:], rename, keep, antt.aliases if antt else {}, fields)
        elif target.endswith(".rt"):
            head = re.match(r"^(?:old|new):", line)
            cut = head.end() if head else 0
            in_clause = re.search(r"\b(requires|ensures|ghost|abbrev)\b", line) is not None
            names = {a: b for a, b in rename.items() if in_clause or re.search(r"[A-Z]", a[1:])}
            line = line[:cut] + replace(line[cut:], names, fields=fields)
        lines.append(line)
    return "\n".join(lines)


def write(path, text, old_text):
    if text == old_text:
        return 0
    with open(path, "w", encoding="utf-8", newline="") as file:
        file.write(text)
    return 1


def main():
    os.chdir(sys.argv[1] if len(sys.argv) > 1 else ".")
    crates = {name for name in os.listdir("crates") if os.path.isdir("crates/" + name)}
    paths = glob.glob("crates/*/specs/**/*.antt", recursive=True) + glob.glob("crates/*/proofs/**/*.antt", recursive=True)
    antts = [Antt(path, crates) for path in sorted(paths)]
    rusts = [Rust(path) for path in sorted(glob.glob("crates/**/*.rt", recursive=True))]
    edits = sorted(glob.glob("crates/*/must-fail/*.edit") + glob.glob("tests/edits/**/*.edit", recursive=True))
    rename, fields, cases, spelled_twice = choose(antts, rusts)

    changed = 0
    for antt in antts:
        changed += write(antt.path, turn_antt(antt, rename, fields), antt.text)
    for rust in rusts:
        changed += write(rust.path, turn_rust(rust, rename, fields), rust.text)
    by_path = {antt.path: antt for antt in antts}
    for path in edits:
        text = read(path)
        changed += write(path, turn_edit(path, text, by_path, rename, fields), text)

    table = "tools/respelled.tsv"
    before = read(table) if os.path.exists(table) else ""
    rows = dict(line.split("\t") for line in before.splitlines())
    rows.update(rename)
    os.makedirs("tools", exist_ok=True)
    write(table, "".join(f"{old}\t{new}\n" for old, new in sorted(rows.items())), before)

    for old, new, why in sorted(cases):
        print(f"{old} -> {new}: {why}")
    for old, new in sorted(spelled_twice.items()):
        print(f"{old} -> {new}: used so, and defined in the new spelling")
    print(f"{len(rename)} names, {len(cases)} with another name, {changed} files changed")


if __name__ == "__main__":
    main()
