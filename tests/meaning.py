#!/usr/bin/env python3
"""tests/meaning.py [write]: every definition that the contract of the check reaches, found by following names from it through the specs/ of all crates, and the
structs and enums of src/ that they speak of; lowest crates first, each file once. Compares the list with that of docs/MEANING.md, or writes it there."""
import os
import re
import sys

ROOT = os.path.normpath(os.path.join(os.path.dirname(os.path.abspath(__file__)), '..'))
START = ('dfm', 'Check', 'Outcome')
# the sine table is numbers alone
TABLE = ('num_sine', 'Table')
BEGIN = '<!-- begin: tests/meaning.py -->'
END = '<!-- end -->'

# a crate that is reached through others stands last: Rattle.solid_polygon.specs.file_part.specs.Part
USE = re.compile(r'^use Rattle\.(?:\w+\.specs\.)*(\w+)\.specs\.([\w.]+?)(?:\.\{([^}]*)\}| as (\w+))$')
HEAD = re.compile(r'^(?:abbrev |unfoldable |opaque )?(?:pub )?(?:record |data )?([^\s(]+)(?= )')
WORD = re.compile(r"[^\s(){}\[\];.,λ]+(?:\.[^\s(){}\[\];.,]+)*")
# a field of what stands in parentheses
FIELDS = re.compile(r"(?<=\))(?:\.[^\s(){}\[\];.,]+)+")


def crates():
    """The crates in the order of crates.txt, lowest first."""
    with open(os.path.join(ROOT, 'crates.txt')) as f:
        return [line.split(':')[0].split()[0] for line in f if ':' in line and not line.startswith('#')]


OURS = set(crates())


def type_of(module):
    """The struct or enum of src/ that a module declares, or whose variants it has."""
    return module.removesuffix('.TheVariants').split('.')[-1]


class Module:
    """A file of specs/: what it names of others, and its definitions, each the lines from its comment on."""

    def __init__(self, crate, name, path):
        self.crate, self.name, self.path = crate, name, path
        self.names, self.aliases, self.types, self.defs = {}, {}, {}, {}
        with open(path) as f:
            self.read(f.read().split('\n'))

    def read(self, lines):
        comment, current, indent = [], None, ''
        for line in lines:
            if line.startswith('module _'):
                # what follows is indented under the parameters of a module
                indent = '  '
                continue
            line = line.removeprefix(indent)
            if line.startswith('use '):
                self.read_use(line)
                comment, current = [], None
            elif not line.strip():
                comment, current = [], None
            elif line.startswith('--'):
                comment.append(line)
                current = None
            elif line[0] in ' \t':
                if current:
                    self.defs[current].append(line)
            else:
                head = HEAD.match(line)
                if not head:
                    continue
                name = head.group(1)
                if name not in self.defs:
                    self.defs[name] = comment
                    comment = []
                self.defs[name].append(line)
                current = name

    def read_use(self, line):
        found = USE.match(line)
        if not found:
            return
        crate, module, listed, alias = found.groups()
        if crate not in OURS:
            return
        if alias:
            self.aliases[alias] = (crate, module)
            return
        for name in listed.split(','):
            name = name.strip()
            if module.startswith('declared.'):
                # a struct or an enum of src/, or a variant of one
                self.types[name] = (crate, type_of(module))
            else:
                self.names[name] = (crate, module)

    def reached(self, name):
        """What the definition `name` names: definitions and types."""
        text = '\n'.join(re.sub(r'--.*', '', line) for line in self.defs[name])
        for word in WORD.findall(FIELDS.sub('', text)):
            # what a definition's or a bound name's field is called is no name of a definition
            head, _, tail = word.partition('.')
            tail = tail.split('.')[0]
            if tail and head in self.aliases:
                crate, module = self.aliases[head]
                # a variant of an enum of src/, or a definition
                yield ('type', (crate, type_of(module))) if module.startswith('declared.') else ('def', (crate, module, tail))
            if head in self.names:
                yield 'def', self.names[head] + (head,)
            elif head in self.types:
                yield 'type', self.types[head]
            elif head in self.defs and head != name:
                yield 'def', (self.crate, self.name, head)


def modules():
    found = {}
    for crate in crates():
        top = os.path.join(ROOT, 'crates', crate, 'specs')
        for folder, _, files in os.walk(top):
            for file in files:
                if file.endswith('.antt') and file != 'Lib.antt':
                    path = os.path.join(folder, file)
                    name = os.path.relpath(path, top)[:-len('.antt')].replace(os.sep, '.')
                    found[crate, name] = Module(crate, name, path)
    return found


def types():
    """The structs and enums of src/: (crate, name) to its file, its place there and its lines."""
    found = {}
    for crate in crates():
        for folder, _, files in os.walk(os.path.join(ROOT, 'crates', crate, 'src')):
            for file in files:
                path = os.path.join(folder, file)
                with open(path) as f:
                    text = f.read()
                for m in re.finditer(r'((?:^//.*\n|^#.*\n)*)^pub(?:\(crate\))? (?:struct|enum) (\w+) \{\n(?:.*\n)*?\}', text, re.M):
                    found[crate, m.group(2)] = (path, m.start(), m.group(0).split('\n'))
    return found


def reach(mods):
    """The definitions and the types that the start reaches."""
    seen, spoken = set(), set()
    todo = [START]
    while todo:
        key = todo.pop()
        if key in seen:
            continue
        seen.add(key)
        module = mods[key[:2]]
        if key[2] not in module.defs:
            sys.exit('tests/meaning.py: no definition of %s in %s' % (key[2], module.path))
        for kind, other in module.reached(key[2]):
            if kind == 'def':
                todo.append(other)
            else:
                spoken.add(other)
    return seen, spoken


TYPED = re.compile(r'^(?:abbrev |unfoldable |opaque )?(?:pub )?\S+ : ')


def bare(lines):
    """Lines without comments, and without the derives of a struct or an enum."""
    return sum(1 for line in lines if not line.lstrip().startswith(('--', '//', '#[derive(')))


def typed(lines):
    """Lines that only give a definition its type: the checker holds the definition to it, so there is nothing to believe in them."""
    return sum(1 for line in lines if TYPED.match(line))


def listed():
    """The list as lines of Markdown."""
    mods, structs = modules(), types()
    seen, spoken = reach(mods)
    files = {}
    for crate, module, name in seen:
        place = list(mods[crate, module].defs).index(name)
        files.setdefault((crate, mods[crate, module].path), []).append((place, name, mods[crate, module].defs[name]))
    for crate, name in spoken:
        path, place, lines = structs[crate, name]
        files.setdefault((crate, path), []).append((place, name, lines))
    order = crates()
    out = ['| File | Definitions | Lines |', '|---|---|---|']
    total = types_alone = 0
    for crate, path in sorted(files, key=lambda k: (order.index(k[0]), '/src/' not in k[1], k[1])):
        defs = sorted(files[crate, path])
        lines = sum(bare(lines) for _, _, lines in defs)
        is_table = path.endswith(os.path.join(*TABLE[:1], 'specs', TABLE[1] + '.antt'))
        total += 0 if is_table else lines
        types_alone += 0 if is_table else sum(typed(lines) for _, _, lines in defs)
        names = ', '.join('`%s`' % name for _, name, _ in defs)
        out.append('| %s | %s | %d |' % (os.path.relpath(path, ROOT), names, lines))
    count = sum(len(defs) for defs in files.values())
    out.append('')
    out.append('%d definitions in %d files, %s lines without comments and without the sine table: %d that only give a definition its type, which the checker holds '
               'it to, and %s that say what is meant.' % (count, len(files), format(total, ','), types_alone, format(total - types_alone, ',')))
    return out


def main():
    path = os.path.join(ROOT, 'docs', 'MEANING.md')
    with open(path) as f:
        text = f.read()
    before, rest = text.split(BEGIN + '\n')
    _, after = rest.split(END + '\n')
    lines = listed()
    new = before + BEGIN + '\n' + '\n'.join(lines) + '\n' + END + '\n' + after
    if sys.argv[1:] == ['write']:
        with open(path, 'w') as f:
            f.write(new)
    elif new != text:
        sys.exit('tests/meaning.py: docs/MEANING.md does not list what the contract reaches today: tests/meaning.py write')
    print('meaning: ' + lines[-1])


main()
