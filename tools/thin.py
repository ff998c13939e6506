#!/usr/bin/env python3
"""Takes edges out of the graph of crates.txt, which rt walks path by path.

    python3 tools/thin.py [ROOT]            does what tools/thin.tsv says, and formats what it changed
    python3 tools/thin.py --paths [ROOT]    counts the paths

A line `X d e` of the table says that X does not list d, but reaches it through e, which X lists and which passes d on:

- crates/e/specs/Lib.antt has `pub use Rattle.d`, and X writes Rattle.e.specs.d.specs.M for Rattle.d.specs.M, and
  Rattle.e.specs.d.proofs.M for Rattle.d.proofs.M;
- crates/e/src/lib.rt has `pub use d;`, and X writes e::d:: for d::.

Each stands only where a crate needs it. Where e itself reaches d through another crate c, its lines say Rattle.c.specs.d
and c::d. The words go over X's src, specs, proofs and must-fail and over tests/edits/X; a comment stays as it is. A line
`X d -` says that X names nothing of d, so that the list in crates.txt goes without it. A second run changes nothing."""
import functools
import os
import re
import subprocess
import sys

PASSES_ON = "Passed on to the crates above"


def files_of(root, name):
    for top in (*(f"crates/{name}/{it}" for it in ("src", "specs", "proofs", "must-fail")), f"tests/edits/{name}"):
        for folder, _, names in os.walk(f"{root}/{top}"):
            for it in sorted(names):
                if it.endswith((".rt", ".antt", ".edit")):
                    yield f"{folder}/{it}"


def read(file):
    with open(file, encoding="utf-8") as it:
        return it.read()


def write(file, text):
    if not os.path.exists(file) or read(file) != text:
        with open(file, "w", encoding="utf-8") as it:
            it.write(text)
        return True
    return False


@functools.cache
def patterns(name):
    """What names a crate in antt and in clauses, and in code."""
    return re.compile(rf"(?<![\w.])Rattle\.{name}(?=\.|$|;)"), re.compile(rf"(?<![\w.:]){name}(?=::)|(?<=^pub use ){name}(?=;$)")


def is_comment(file, line):
    line = line.removeprefix("old:").removeprefix("new:") if file.endswith(".edit") else line
    return line.lstrip().startswith(("--", "//"))


def names(file, text, name):
    antt, code = patterns(name)
    lines = [it for it in text.split("\n") if not is_comment(file, it)]
    return any(map(antt.search, lines)), not file.endswith(".antt") and any(map(code.search, lines))


def through(file, text, name, via):
    antt, code = patterns(name)
    lines = text.split("\n")
    for i, line in enumerate(lines):
        if not is_comment(file, line):
            line = antt.sub(f"Rattle.{via}.specs.{name}", line)
            lines[i] = line if file.endswith(".antt") else code.sub(f"{via}::{name}", line)
    return "\n".join(lines)


def pass_on(root, via, name, in_code):
    """Adds the line of crate via that passes crate name on, if it has none."""
    if in_code:
        file, line, had, mark = f"{root}/crates/{via}/src/lib.rt", f"pub use {name};", rf"(?m)^pub use (\w+::)?({{[^}};]*\b)?{name}(\b[^{{;]*}})?;$", "//"
    else:
        file, line, had, mark = f"{root}/crates/{via}/specs/Lib.antt", f"pub use Rattle.{name}", rf"(?m)^pub use Rattle(\.\w+\.specs)?\.{name}$", "--"
    text = read(file) if os.path.exists(file) else ""
    if re.search(had, text):
        return False
    lines, comment = text.rstrip("\n").split("\n"), f"{mark} {PASSES_ON}."
    if comment in lines:
        at = lines.index(comment) + 1
        while at < len(lines) and lines[at].startswith("pub use ") and lines[at] < line:
            at += 1
        lines.insert(at, line)
    elif in_code:
        # below the mod lines, or where the uses end
        head = [i for i, it in enumerate(lines) if re.match(r"(pub )?mod \w+;$", it)]
        head = head or [i for i, it in enumerate(lines) if re.match(r"((pub|ghost) )?use .*;$|#!\[", it)]
        head = head or [i for i, it in enumerate(lines) if it.startswith("//")][:1]
        at = head[-1] + 1
        lines[at:at] = ["", comment, line] + [""] * (lines[at : at + 1] not in ([], [""]))
    else:
        lines = [*filter(None, lines), comment, line]
    write(file, "\n".join(lines) + "\n")
    return True


def crates_of(root):
    lines = read(f"{root}/crates.txt").split("\n")
    deps = {}
    for line in lines:
        head, colon, rest = line.partition("#")[0].partition(":")
        if colon:
            deps[head.split()[0]] = rest.split()
    return lines, deps


def count(deps):
    @functools.cache
    def paths(name):
        return 1 + sum(paths(it) for it in deps[name] if it in deps)

    return {it: paths(it) for it in deps}


def bad_edits(root, names):
    """The edits whose old text does not stand in its file once."""
    bad = set()
    for name in names:
        for file in files_of(root, name):
            target = None
            for line in read(file).split("\n") if file.endswith(".edit") else []:
                if line.startswith("file: "):
                    target = f"{root}/crates/{name}/{line[6:].strip()}"
                    target = read(target) if os.path.exists(target) else ""
                elif line.startswith("old: ") and target.count(line[5:]) != 1:
                    bad.add(file)
    return bad


def main():
    words = [it for it in sys.argv[1:] if it != "--paths"]
    root = words[0] if words else os.path.normpath(f"{os.path.dirname(os.path.abspath(__file__))}/..")
    lines, deps = crates_of(root)
    if "--paths" in sys.argv:
        paths = count(deps)
        for name in sorted(paths, key=paths.get)[-12:]:
            print(f"{paths[name]:>12,} {name}")
        return print(f"{sum(paths.values()):>12,} all")
    table = [line.split() for line in read(os.path.join(os.path.dirname(os.path.abspath(__file__)), "thin.tsv")).split("\n")]
    table = [it for it in table if it and not it[0].startswith("#")]
    before, place, fine = sum(count(deps).values()), list(deps).index, True
    # from the top down, as what a crate needs of another settles what that one passes on
    table.sort(key=lambda it: -place(it[0]))
    after = {it: [*deps[it]] for it in deps}
    for high, low, _ in table:
        if low in after[high]:
            after[high].remove(low)
    stands = {(it[0], it[1]) for it in table if it[2] != "-"}
    for high, low, via in table:
        if via != "-" and (via not in after[high] or low not in after[via] and (via, low) not in stands):
            sys.exit(f"thin.tsv: {high} {low} {via}: {high} does not list {via}, or {via} does not reach {low}")
    bad, changed = bad_edits(root, deps), set()
    for high, low, via in table:
        needs, edited = [False, False], 0
        for file in files_of(root, high):
            text = read(file)
            if any(found := names(file, text, low)):
                if via == "-":
                    print(f"{file}: names {low}")
                    fine, after[high] = False, deps[high]
                else:
                    edited += write(file, through(file, text, low, via))
            if via != "-":
                text = read(file)
                needs[0] |= f"Rattle.{via}.specs.{low}." in text
                needs[0] |= bool(re.search(rf"^pub use Rattle\.{via}\.specs\.{low}$", text, re.M))
                is_code = not file.endswith(".antt")
                needs[1] |= is_code and bool(re.search(rf"(?<![\w.:]){via}::{low}::|^pub use {via}::({{[^}};]*\b)?{low}\b", text, re.M))
        added = [pass_on(root, via, low, in_code) for in_code in (False, True) if needs[in_code]]
        if edited or any(added):
            changed.update([high, via][: 1 + any(added)])
            print(f"{high}: {low} through {via} in {edited} files")
    for i, line in enumerate(lines):
        head, colon, rest = line.partition(":")
        name = (head.split() or [""])[0]
        if colon and name in after and after[name] != deps[name]:
            body, hash_, said = rest.partition("#")
            lines[i] = f"{head}: {' '.join(after[name])}{' ' * bool(hash_)}{hash_}{said}".rstrip()
    write(f"{root}/crates.txt", "\n".join(lines))
    for name in filter(changed.__contains__, deps):
        if subprocess.run(["rt", "fmt"], cwd=f"{root}/crates/{name}", stdout=subprocess.DEVNULL).returncode:
            fine = False
            print(f"{name}: rt fmt failed")
    for it in sorted(bad_edits(root, deps) - bad):
        print(f"{it}: does not apply any more")
        fine = False
    print(f"paths: {before:,}, now {sum(count(after).values()):,}")
    sys.exit(not fine)


if __name__ == "__main__":
    main()
