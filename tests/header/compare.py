#!/usr/bin/env python3
"""Compares include/gablemadder.h, and what bindings/rust declares, with the source of the library.

usage: tests/header/compare.py             the declarations, the row, the refusals and the sizes
       tests/header/compare.py --changed   the same on changed copies of both, each of which has to be told
"""
import glob
import os
import re
import sys

ROOT = os.path.dirname(os.path.dirname(os.path.dirname(os.path.abspath(__file__))))
HEADER = "include/gablemadder.h"
RUST = "bindings/rust/src/"
C_TYPES = {"u8": "uint8_t", "u32": "uint32_t", "u64": "uint64_t", "usize": "size_t", "f64": "double"}
# the one struct that the library's functions take: its name in C and in the Rust package
C_ROW, RUST_ROW = "gablemadder_fault_row", "FaultRow"
# where the refusals live: for code, and for definitions
REFUSALS, DEFINED = "crates/refusal/src/lib.rt", "crates/refusal/specs/Numbers.antt"


class Tree:
    """The repository's files, some of them changed."""

    def __init__(self, changed=None):
        self.changed = changed or {}

    def read(self, path):
        if path in self.changed:
            return self.changed[path]
        with open(os.path.join(ROOT, path)) as file:
            return file.read()

    def found(self, pattern):
        return sorted(os.path.relpath(path, ROOT) for path in glob.glob(os.path.join(ROOT, pattern)))


def only(pattern, text, what):
    """What the pattern finds, which has to be one thing."""
    matches = re.findall(pattern, text, re.S)
    if len(matches) != 1:
        raise LookupError("%s: found %d times" % (what, len(matches)))
    return matches[0]


def words(text):
    return " ".join(text.split())


def listed(text):
    """The items of a list with commas, the last of which may end in one."""
    return [item for item in (words(item) for item in text.split(",")) if item]


def camel(name):
    return "".join(word.capitalize() for word in name.split("_"))


# ---- the source of the library
def lowered(name, kind, types, pointer):
    """A parameter of the source as the pairs (name, type) that cross: a slice is a pointer and a length."""
    form = re.fullmatch(r"(&mut |&)?(\[)?(\w+)\]?", kind)
    borrow, is_slice, element = form.groups()
    if borrow is None:
        return [(name, types[element])]
    pointed = (name, pointer(types[element], borrow == "&"))
    return [pointed, (name + "_len", types["usize"])] if is_slice else [pointed]


def source_functions(tree, types, pointer):
    """Each function that the library exports: its result and parameters, as they cross."""
    found = {}
    for path in tree.found("crates/exports/src/*.rt"):
        for name, parameters, result in re.findall(r'pub extern "C" fn (\w+)\((.*?)\)\s*->\s*(\w+)', tree.read(path), re.S):
            pairs = [item.split(": ") for item in listed(parameters)]
            found[name] = (types[result], [p for pair in pairs for p in lowered(*pair, types, pointer)])
    return found


def source_row(tree):
    """The name of the struct in the source."""
    text = "".join(tree.read(path) for path in tree.found("crates/exports/src/*.rt"))
    return only(r"&mut \[([A-Z]\w*)\]", text, "slice of structs")


def source_struct(tree, name):
    """The fields of a struct of the source, as the file that the exports take it from has them."""
    path = only(r"use (\w+::(?:\w+::)*)%s;" % name, tree.read("crates/exports/src/checks.rt"), "use of " + name).split("::")
    # a crate may be named through others that use it
    while os.path.isdir(os.path.join(ROOT, "crates", path[1])):
        del path[0]
    folder = "crates/%s/src/" % path[0]
    text = tree.read(folder + ("/".join(path[1:-1]) or "lib") + ".rt")
    body = only(r"#\[repr\(C\)\]\s*(?:#\[[^\n]*\]\s*)*pub struct %s \{(.*?)\n\}" % name, text, "#[repr(C)] struct " + name)
    return [(field, C_TYPES[kind]) for field, kind in re.findall(r"pub (\w+): (\w+),", body)]


def source_refusals(tree):
    """Each case of the enum, in the header's spelling: its number and the condition above it."""
    text = tree.read(REFUSALS)
    conditions = {name: condition for condition, name in re.findall(r"^    // (.*)\n    (\w+),$", text, re.M)}
    numbers = re.findall(r"^ +Refusal::(\w+) => (\d+),$", text, re.M)
    return {re.sub(r"(?<!^)(?=[A-Z])", "_", name).upper(): (int(number), conditions[name]) for name, number in numbers}


def defined_refusals(tree):
    """The same of the definitions, by the names that code has for them: `bad_job_of` is BAD_JOB."""
    found = re.findall(r"^-- (.*)\nabbrev pub (\w+) : ℕ\n\2 = (\d+)$", tree.read(DEFINED), re.M)
    return {name.removesuffix("_of").upper(): (int(number), condition) for condition, name, number in found}


def source_sizes(tree):
    """The formulas of the scratch in p and v, and the limits."""
    regions = tree.read("crates/scratch/specs/Regions.antt")
    verdict = tree.read("crates/file_ok/specs/Verdict.antt")
    vertices, polygons = only(r"too_large v p = ltb (\d+) v \|\| ltb (\d+) p", verdict, "too_large")
    return {
        "WORDS": only(r"words_needed p v = ([^\n]*)", regions, "words_needed"),
        "REALS": only(r"reals_needed p v = ([^\n]*)", regions, "reals_needed"),
        "MOST_VERTICES": vertices,
        "MOST_POLYGONS": polygons,
        "MOST_ROWS": only(r"const MOST: usize = (\d+);", tree.read("crates/fault_row/src/row.rt"), "the most rows"),
        "LEAST_DECIMAL": only(r"if out\.len\(\) < (\d+)", tree.read("crates/num_text/src/decimal.rt"), "the least decimal"),
    }


def told_conditions(tree):
    """README's table of refusals."""
    table = only(r"\n\| No\. \| Condition \|\n\|[-|]*\|\n(.*?)\n\n", tree.read("README.md"), "table of refusals")
    return {int(number): text for number, text in re.findall(r"^\| (\d+) \| (.*) \|$", table, re.M)}


# ---- the header
def without_comments(text):
    return re.sub(r"/\*.*?\*/", " ", text, flags=re.S)


def header_functions(text):
    found = {}
    for result, name, parameters in re.findall(r"^(\w+) (gablemadder_\w+)\(([^)]*)\);", text, re.M):
        pairs = [re.fullmatch(r"(.*?)(\w+)", item).groups() for item in listed(parameters)]
        found[name] = (result, [(name, kind.replace(" *", "*").strip()) for kind, name in pairs])
    return found


def header_struct(text, name):
    body = only(r"typedef struct \{([^}]*)\} %s;" % name, text, name)
    return [(field, kind) for kind, field in re.findall(r"(\w+) (\w+);", body)]


def header_sizes(text):
    """The macros, without casts and with no more parentheses than the source has."""
    found = dict(re.findall(r"^#define GABLEMADDER_(\w+?)(?:\(V, P\))? (.*)$", text, re.M))
    plain = lambda value: re.sub(r"[()]", "", value.replace("(size_t)", "")).strip().lower()
    return {name: plain(value) for name, value in found.items()}


# ---- the two beside each other
def differences(tree):
    found = []

    def same(what, ours, theirs):
        if ours != theirs:
            found.append("%s\n  declared: %s\n  source:   %s" % (what, ours, theirs))

    whole = tree.read(HEADER)
    header = without_comments(whole)
    ffi, refusal, report = (tree.read(RUST + name + ".rs") for name in ("ffi", "refusal", "report"))

    row = source_row(tree)
    c_types = {**C_TYPES, row: C_ROW}
    c_source = source_functions(tree, c_types, lambda kind, const: ("const " if const else "") + kind + "*")
    c_header = header_functions(header)
    rust_types = {**{name: name for name in C_TYPES}, row: RUST_ROW}
    rust_source = source_functions(tree, rust_types, lambda kind, const: ("*const " if const else "*mut ") + kind)
    rust_header = {
        name: (result, [tuple(item.split(": ")) for item in listed(parameters)])
        for name, parameters, result in re.findall(r"pub fn (gablemadder_\w+)\(([^)]*)\) -> (\w+);", ffi)
    }
    for what, ours, theirs in (("header", c_header, c_source), ("ffi.rs", rust_header, rust_source)):
        same(what + ": functions", sorted(ours), sorted(theirs))
        for name in ours.keys() & theirs.keys():
            same("%s: %s" % (what, name), ours[name], theirs[name])

    fields = source_struct(tree, row)
    same("header: " + C_ROW, header_struct(header, C_ROW), fields)
    body = only(r"#\[repr\(C\)\]\n[^\n]*\npub struct %s \{(.*?)\n\}" % RUST_ROW, ffi, "#[repr(C)] struct of ffi.rs")
    same("ffi.rs: " + RUST_ROW, [(field, C_TYPES[kind]) for field, kind in re.findall(r"pub (\w+): (\w+),", body)], fields)

    refusals = source_refusals(tree)
    declared = {name: int(number) for name, number in re.findall(r"GABLEMADDER_(\w+) = (\d+)", header)}
    same("header: refusals", declared, {"ACCEPTED": 0, **{name: number for name, (number, _) in refusals.items()}})
    same("Numbers.antt: refusals", defined_refusals(tree), refusals)
    conditions = dict(refusals.values())
    same("README: conditions", told_conditions(tree), conditions)
    comments = {int(number): text for number, text in re.findall(r"GABLEMADDER_\w+ = (\d+),? +/\* (.*?) \*/", whole)}
    same("header: conditions", comments, conditions)
    numbers = {camel(name): number for name, (number, _) in refusals.items()}
    same("refusal.rs: numbers", {name: int(number) for name, number in re.findall(r"^    (\w+) = (\d+),$", refusal, re.M)}, numbers)
    body = only(r"fn condition.*?\{(.*?)\n    \}", refusal, "conditions of refusal.rs")
    said = {numbers.get(name): text for name, text in re.findall(r'(\w+) => "(.*?)",', body)}
    same("refusal.rs: conditions", said, conditions)

    sizes, macros = source_sizes(tree), header_sizes(header)
    same("header: sizes", {name: macros.get(name) for name in sizes}, sizes)

    names = dict(re.findall(r'Rule::(\w+) => b"(.*?)"', tree.read("crates/fault_row/src/fault.rt")))
    same("report.rs: rules", dict(re.findall(r'Rule::(\w+) => "(.*?)"', report)), names)
    return found


# ---- changed copies: (file, what stands there once, what stands there instead)
CHANGES = [
    (HEADER, "uint32_t *words, size_t words_len, double *reals", "uint64_t *words, size_t words_len, double *reals"),
    (HEADER, "double *reals, size_t reals_len,\n                           gablemadder_fault_row *rows, size_t rows_len", "gablemadder_fault_row *rows, size_t rows_len,\n                           double *reals, size_t reals_len"),
    (HEADER, "const uint8_t *file, size_t file_len, uint32_t *words", "uint8_t *file, size_t file_len, uint32_t *words"),
    (HEADER, "double gablemadder_sqrt(double x);", "float gablemadder_sqrt(double x);"),
    (HEADER, "uint64_t gablemadder_sqrt_bits(uint64_t b);", ""),
    (HEADER, "size_t text_len, const uint8_t *job, size_t job_len, uint8_t *out", "size_t text_len, uint8_t *out, size_t out_len, const uint8_t *job"),
    (HEADER, "GABLEMADDER_UNDEFINED_VERTEX = 15", "GABLEMADDER_UNDEFINED_VERTEX = 14"),
    (HEADER, "uint32_t count;    /*", "uint64_t count;    /*"),
    (HEADER, "    double y;\n    double z;\n", "    double z;\n    double y;\n"),
    (HEADER, "GABLEMADDER_BAD_VERTEX = 6", "GABLEMADDER_BAD_VERTEX = 7"),
    (HEADER, "GABLEMADDER_FLAT_POLYGON", "GABLEMADDER_BENT_POLYGON"),
    (HEADER, "/* over 1,024 faces */", "/* over 1,023 faces */"),
    (HEADER, "(24 * (size_t)(P) + 8 * (size_t)(V) + 2048)", "(16 * (size_t)(P) + 8 * (size_t)(V) + 2048)"),
    (HEADER, "GABLEMADDER_MOST_ROWS 2048", "GABLEMADDER_MOST_ROWS 4096"),
    ("crates/exports/src/texts.rt", "    places: u32,\n    out: &mut [u8],", "    out: &mut [u8],\n    places: u32,"),
    (REFUSALS, "Refusal::NoDecimal => 13", "Refusal::NoDecimal => 14"),
    (REFUSALS, "Refusal::BadLine =>", "Refusal::OtherLine =>"),
    (REFUSALS, "// over 1,024 faces\n", "// over 1,025 faces\n"),
    (DEFINED, "bad_job_of = 5", "bad_job_of = 6"),
    (DEFINED, "-- edition not 1\n", "-- edition not 2\n"),
    ("crates/scratch/specs/Regions.antt", "words_needed p v = 12 * p", "words_needed p v = 8 * p"),
    ("README.md", "| 14 | OBJ text: a line of any other form |", "| 14 | OBJ text: a line |"),
    (RUST + "ffi.rs", "rows: *mut FaultRow,", "rows: *const FaultRow,"),
    (RUST + "ffi.rs", "            job: *const u8,", "            job: *mut u8,"),
    (RUST + "ffi.rs", "    pub b: u32,\n", "    pub b: u64,\n"),
    (RUST + "refusal.rs", "    BadJob = 5,", "    BadJob = 15,"),
    (RUST + "report.rs", 'Rule::TightBend => "Tight bend"', 'Rule::TightBend => "Tight bends"'),
]


def told(tree):
    """The differences; or what the source or the header does not have any more where it is looked for."""
    try:
        return differences(tree)
    except (LookupError, OSError) as error:
        return ["not found: %s" % error]


def is_told(path, old, new):
    text = Tree().read(path)
    if text.count(old) != 1:
        sys.exit("header: %s: %r stands there %d times" % (path, old, text.count(old)))
    return bool(told(Tree({path: text.replace(old, new)})))


def main():
    found = told(Tree())
    if sys.argv[1:] == ["--changed"] and not found:
        untold = [change for change in CHANGES if not is_told(*change)]
        for path, old, new in untold:
            print("%s: %r for %r is not told" % (path, new, old))
        print("header: %d changed copies, %d not told" % (len(CHANGES), len(untold)))
        sys.exit(bool(untold))
    print("\n".join(found + ["header: %d differences from the source" % len(found)]))
    sys.exit(bool(found))


if __name__ == "__main__":
    main()
