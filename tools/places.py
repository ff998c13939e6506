#!/usr/bin/env python3
"""places.py [POINT ..] [--list]: counts in crates/*/src the places that docs/DESIGN-PASS.md speaks of, by point; --list names them."""
import collections
import glob
import re
import sys

KEEP = set("let if else while return match mut as pub fn usize for in continue".split())
files = {f: open(f, encoding="utf-8").read() for f in sorted(glob.glob("crates/*/src/**/*.rt", recursive=True))}
name_of = lambda f: f.split("/")[1]


def lines(pattern, but=None):
    """Each line that fits, as 'crate: line'."""
    out = []
    for f, t in files.items():
        before = ""
        for line in t.split("\n"):
            if re.search(pattern, line) and not (but and re.search(but, before)):
                out.append(f"{name_of(f)}: {line.strip()}")
            before = line
    return out


def functions():
    """Each function: file, name, parameters, clauses, whole text without comments."""
    for f, t in files.items():
        for m in re.finditer(r"^( *)(?:pub(?:\(\w+\))? )?(?:unsafe )?(?:extern \"C\" )?fn (\w+)(?:<[^(\n]*>)?\((.*?)\)(?= |\n)(.*?)\n\1\}\n", t, re.S | re.M):
            yield f, m.group(2), re.sub(r"\s+", " ", m.group(3)), re.sub(r"//.*", "", m.group(0))


def clauses(text):
    return [re.sub(r"\s+", " ", m) for m in re.findall(r"requires\s*(?:\w+\s*)?\{(.*?)\}\s*\n", text)]


def twins():
    """Functions alike but for names, types and numbers, contracts aside."""
    alike = collections.defaultdict(list)
    for f, name, _, text in functions():
        code = re.sub(r"(requires|ensures)\s*(\w+\s*)?\{.*?\}\s*(?=requires|ensures|\{)", "", re.sub(r"\s+", " ", text))
        code = re.sub(r"\b(u8|u16|u32|u64|usize|f64|i64)\b", "T", code)
        names = {}
        shape = re.sub(r"[A-Za-z_]\w*|\b0x\w+|\b\d[\w.]*", lambda x: x.group(0) if x.group(0) in KEEP else "$%d" % names.setdefault(x.group(0), len(names)), code)
        if len(code) > 60:
            alike[shape].append(f"{name_of(f)}::{name}")
    return [" ".join(v) for v in alike.values() if len(v) > 1]


def has(params, name, kind):
    return re.search(r"\b%s: %s" % (name, kind), params) is not None


def together():
    """Functions that take two or more of: the file, the words, the reals, the regions."""
    out = []
    for f, name, params, _ in functions():
        n = has(params, "file", r"&\[u8\]") + has(params, "words", r"&(mut )?\[u32\]") + has(params, "reals", r"&(mut )?\[f64\]") + has(params, "at", "Regions")
        if n > 1:
            out.append(f"{name_of(f)}::{name}")
    return out


def repeated():
    """Conditions that three or more functions ask for, word for word."""
    count = collections.Counter(c for _, _, _, text in functions() for c in set(clauses(text)))
    return [f"{n} {c}" for c, n in count.most_common() if n > 2]


def by_place():
    """Functions that write text: a buffer, and the place in it as a number beside."""
    return [f"{name_of(f)}::{name}" for f, name, params, _ in functions() if has(params, "out", r"&mut \[u8\]") and has(params, "at", "usize")]


def only_bools():
    """Matches whose arms are true and false alone."""
    out = []
    for f, t in files.items():
        for m in re.finditer(r"match [^{}]*\{([^{}]*)\}", t):
            arms = [a.split("=>")[-1].strip() for a in m.group(1).strip().split(",") if "=>" in a]
            if arms and set(arms) <= {"true", "false"}:
                out.append(f"{name_of(f)}: {m.group(0)[:60]}".replace("\n", " "))
    return out


def wide():
    return [f"{name_of(f)}::{name}" for f, name, _, _ in functions() if name in ("wide", "lesser")]


POINTS = {
    "1 own enums": lambda: lines(r"^\s*(pub )?enum "),
    "1 flags in structs": lambda: lines(r"^\s+(pub )?\w+: bool,$"),
    "1 u32 constants of refusals": lambda: lines(r"^pub const [A-Z_]+: u32 = \d+;"),
    "2 twins": twins,
    "2 casts by a function": wide,
    "3 while and loop": lambda: lines(r"^\s*(while|loop)\b"),
    "3 of these, with a reason beside": lambda: [x for x in reasons()],
    "4 derives of Clone and Copy alone": lambda: lines(r"derive\(Clone, Copy\)\]"),
    "4 matches of true and false": only_bools,
    "5 file, words, reals, regions": together,
    "5 conditions asked for by three and more": repeated,
    "6 text by buffer and place": by_place,
}


def reasons():
    out = []
    for f, t in files.items():
        ls = t.split("\n")
        for i, line in enumerate(ls):
            if re.match(r"\s*(while|loop)\b", line) and re.match(r"\s*// A (while|loop):", ls[i - 1]):
                out.append(f"{name_of(f)}: {line.strip()}")
    return out


wanted = [a for a in sys.argv[1:] if not a.startswith("--")]
for title, find in POINTS.items():
    if wanted and title.split()[0] not in wanted:
        continue
    found = find()
    print(f"{len(found):5}  {title}")
    if "--list" in sys.argv:
        for x in found:
            print("         " + x)
