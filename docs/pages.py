#!/usr/bin/env python3
"""Makes the parts of docs/ that are lists of what the repository has, and tells what it lists and nothing uses.

    python3 docs/pages.py            writes the parts
    python3 docs/pages.py --check    writes nothing; prints each part that is not up to date, and ends with 1 where there is one

A part stands between a line `<!-- NAME: made by docs/pages.py -->` and a line `<!-- end of NAME -->`. Those of
docs/ARCHITECTURE.md are made of crates.txt, whose headings are the rooms: its words about a crate are kept, and a crate that is
new there gets a row with `...` to be filled in. That of docs/BELIEVED.md is made of the definitions in specs/.
"""
import re
import sys
import textwrap
from pathlib import Path

TOP = Path(__file__).resolve().parent.parent
CRATES = TOP / 'crates'
WORD = re.compile(r"[A-Za-z_][\w'-]*(?:\.[A-Za-z_][\w'-]*)*")
TO_TELL = '...'


def text_of(path):
    return path.read_text(encoding='utf-8')


class Listing:
    """The crates of crates.txt by room, and the libraries of each."""

    def __init__(self):
        self.rooms, self.uses, self.homeless = [], {}, []
        for line in text_of(TOP / 'crates.txt').split('\n'):
            heading = re.fullmatch(r'# ([a-z]+): (.+)', line)
            if heading:
                self.rooms.append((heading[1], heading[2], []))
            entry = line.split('#')[0].strip()
            if ':' in entry:
                name, used = entry.split(':')
                name = name.split()[0]
                self.uses[name] = used.split()
                (self.rooms[-1][2] if self.rooms else self.homeless).append(name)

    def below(self, crate):
        return [c for c in self.uses[crate] if c in self.uses]

    def kit_of(self, crate):
        return [c for c in self.uses[crate] if c not in self.uses]

    def level(self, crate):
        return 1 + max((self.level(c) for c in self.below(crate)), default=0)

    def room_of(self, crate):
        return next((name for name, _, crates in self.rooms if crate in crates), '')

    def shipped(self):
        return [(name, words, crates) for name, words, crates in self.rooms if name != 'tests']


def row_cells(line):
    return [cell.strip() for cell in re.split(r'(?<!\\)\|', line)[1:-1]]


def told_rows(page, columns):
    """What the rows of a page's tables say of each crate, by the number of their columns."""
    told = {}
    for line in page.split('\n'):
        cells = row_cells(line) if line.startswith('|') else []
        names = re.findall(r'`(\w+)`', cells[0]) if len(cells) == columns else []
        if len(names) == 1 and cells[0] == f'`{names[0]}`':
            told[names[0]] = cells
    return told


def listed(names):
    return ', '.join(f'`{n}`' for n in names) or 'none'


def crates_part(listing, page):
    told, out = told_rows(page, 5), []
    for name, words, crates in listing.shipped():
        out += [f'**{name.capitalize()}**: {words}.', '', '| Crate | Level | Does | Stands on | Its contract in a sentence |', '|---|---|---|---|---|']
        for crate in crates:
            old = told.get(crate, ['', '', TO_TELL, '', TO_TELL])
            out.append(f'| `{crate}` | {listing.level(crate)} | {old[2]} | {listed(sorted(listing.below(crate)))} | {old[4]} |')
        out.append('')
    return out[:-1]


def kit_part(listing, page):
    told, users = told_rows(page, 3), {}
    for crate in listing.uses:
        for library in listing.kit_of(crate):
            users.setdefault(library, []).append(crate)
    out = ['| Library of the kit | What for | Crates |', '|---|---|---|']
    return out + [f'| `{n}` | {told.get(n, [0, TO_TELL])[1]} | {listed(sorted(users[n]))} |' for n in sorted(users)]


def tests_part(listing, page):
    told = told_rows(page, 3)
    crates = next((crates for name, _, crates in listing.rooms if name == 'tests'), [])
    out = ['| Crate of tests | What it tries | Stands on |', '|---|---|---|']
    return out + [f'| `{c}` | {told.get(c, [0, TO_TELL])[1]} | {listed(sorted(listing.below(c)))} |' for c in crates]


def levels_part(listing, _):
    by_level = {}
    for _, _, crates in listing.shipped():
        for crate in crates:
            by_level.setdefault(listing.level(crate), []).append(crate)
    return ['| Level | Crates |', '|---|---|'] + [f'| {n} | {listed(sorted(by_level[n]))} |' for n in sorted(by_level)]


def picture_part(listing, _):
    """A box for the crates of a room at a level, and an arrow to each box that is stood on, but where a way over others leads there too."""
    boxes = {}
    for name, _, crates in listing.shipped():
        for crate in crates:
            boxes.setdefault((name, listing.level(crate)), []).append(crate)
    box_of = {crate: box for box, crates in boxes.items() for crate in crates}
    arrows = {box: {box_of[c] for crate in crates for c in listing.below(crate)} for box, crates in boxes.items()}

    def reached(box):
        return {b for next_box in arrows[box] for b in {next_box} | reached(next_box)}

    out = ['```mermaid', 'flowchart TB']
    for (name, level), crates in sorted(boxes.items(), key=lambda b: -b[0][1]):
        rows = textwrap.wrap(f'{level} {name}: {", ".join(sorted(crates))}', 48, break_long_words=False)
        out.append(f'  {name}{level}["{"<br>".join(rows)}"]')
    for box in sorted(arrows, key=lambda b: -b[1]):
        for to in sorted(arrows[box]):
            if not any(to in reached(other) for other in arrows[box] if other != to):
                out.append(f'  {box[0]}{box[1]} --> {to[0]}{to[1]}')
    return out + ['```']


def numbered_way(listing, page):
    """The way of a frame, as it is drawn by hand, with the levels of its crates."""
    found = part(page, 'way')

    def label(match):
        crates = match[1].split(', ')
        unknown = [c for c in crates if c not in listing.uses]
        levels = sorted({listing.level(c) for c in crates if c in listing.uses})
        if unknown or len(levels) != 1:
            complain(f'docs/ARCHITECTURE.md, the way of a frame: "{match[1]}" names no crate, or crates of several levels')
            return match[0]
        return f'["{levels[0]} {match[1]}"]'

    return [re.sub(r'\["\d+ ([\w, ]+)"\]', label, line) for line in found]


# ---- definitions

class Definition:
    def __init__(self, crate, module, name, comment):
        self.crate, self.module, self.name, self.comment, self.body = crate, module, name, comment, []

    def key(self):
        return (self.crate, self.module, self.name)


class Module:
    """A file of specs/: what it imports, and what it defines, in order."""

    def __init__(self, path):
        self.crate, self.name = path.parts[-3], path.stem
        self.imports, self.wholes, self.types, self.own, self.again, self.heading = {}, {}, {}, {}, {}, ''
        comment, current, started = [], None, False
        for line in text_of(path).split('\n'):
            if line.startswith('--'):
                comment.append(line.lstrip('- ').rstrip())
                current = None
                continue
            if not started:
                self.heading, started = ' '.join(comment), True
            if self.take_import(line):
                comment = []
                continue
            head = re.match(r"(?:abbrev )?pub (?:record |data )?([^\s:(]+)", line)
            if head and not line.startswith('pub mod') and not re.match(r'pub use', line):
                name = head[1]
                current = self.own.setdefault(name, Definition(self.crate, self.name, name, ' '.join(comment)))
            elif line and not line[0].isspace():
                current = self.own.get(line.split()[0], current)
            if current:
                current.body.append(line)
            if not line.strip() or head:
                comment = []

    def take_import(self, line):
        found = re.match(r'(pub )?use Rattle\.(\w+)\.specs\.([\w.◌]+?)(?:\.\{(.*)\}| as (\w+))?$', line)
        if not found:
            return line.startswith(('use ', 'pub use ', 'pub mod '))
        again, crate, where, names, alias = found.groups()
        names = [n.strip() for n in (names or '').split(',') if n.strip()]
        if where.startswith('declared.'):
            owner = next((p for p in where.split('.')[2:] if p != 'TheVariants'), where)
            for name in names + [alias or where.split('.')[-1]]:
                self.types[name] = (crate, owner)
            return True
        for name in names:
            self.imports[name] = (crate, where, name)
            if again:
                self.again[name] = (crate, where, name)
        if not names:
            self.wholes[alias or where.split('.')[-1]] = (crate, where)
        return True


class Specs:
    """All definitions of the repository, and what each names."""

    def __init__(self):
        self.modules = {}
        for path in sorted(CRATES.glob('*/specs/*.antt')):
            module = Module(path)
            self.modules[(module.crate, module.name)] = module

    def find(self, crate, module, name):
        for _ in range(4):
            held = self.modules.get((crate, module))
            if held is None:
                return None
            if name in held.own:
                return held.own[name]
            if name not in held.again:
                return None
            crate, module, name = held.again[name]
        return None

    def named(self, definition):
        module = self.modules[(definition.crate, definition.module)]
        for word in WORD.findall(re.sub(r'"[^"]*"', '', '\n'.join(definition.body))):
            first, _, rest = word.partition('.')
            if first in module.wholes and rest:
                yield self.find(*module.wholes[first], rest.split('.')[0])
            elif first in module.own:
                yield module.own[first]
            elif first in module.imports:
                yield self.find(*module.imports[first])

    def types_named(self, definition):
        module = self.modules[(definition.crate, definition.module)]
        words = {w.split('.')[0] for w in WORD.findall('\n'.join(definition.body))}
        return {module.types[w] for w in words if w in module.types}

    def reached(self, roots):
        found, waiting = {}, [r for r in roots if r]
        while waiting:
            definition = waiting.pop()
            if definition.key() not in found:
                found[definition.key()] = definition
                waiting += [d for d in self.named(definition) if d]
        return found

    def cited(self, path, cut=None):
        """The definitions that a file of code imports for its contracts, of those before the item `cut` the ones that it names."""
        text = text_of(path)
        for crate, module, names in re.findall(r'ghost use Rattle\.(\w+)\.specs\.(\w+)\.\{([^}]*)\};', text):
            for name in (n.strip() for n in names.split(',')):
                if cut is None or re.search(rf"\b{re.escape(name)}\b", cut):
                    yield self.find(crate, module, name)


def sentence(words):
    words = re.sub(r' ?\(docs/[^()]*\)', '', words)
    words = re.sub(r'^-+ ?', '', words)
    first = re.split(r'(?<=[.:]) (?=[A-Z])', words, maxsplit=1)[0].rstrip()
    return first if first.endswith('.') else (first.rstrip(':') + '.' if first else TO_TELL)


def shown(name):
    return name.replace('◌', '_')


def believed_part(listing, _):
    specs = Specs()
    headline = specs.find('ctrl_serve', 'Headline', 'Runs')
    traits = [d for path in sorted((CRATES / 'ziti_outside/src').glob('*.rt')) if 'trait ' in text_of(path) for d in specs.cited(path)]
    main = list(specs.cited(CRATES / 'zitictl/src/main.rt'))
    by_runs, found = specs.reached([headline]), specs.reached([headline, *traits, *main])
    total = sum(len(m.own) for m in specs.modules.values())
    out = [*wrapped(f'Of the {total:,} definitions in `specs/`, `Runs` reaches {len(by_runs)}. With those that the traits `Source` and `Desk` and the calls '
                    f'of `zitictl` cite, these are the {len(found)} that stand below. The other {total - len(found):,} say what calls below the run promise, '
                    'what is private, what worked examples are made of, and what proofs need: a wrong one of these makes no other claim of a run.', ''), '']
    order = [c for _, _, crates in listing.rooms for c in crates] + listing.homeless
    for crate in [c for c in order if any(k[0] == c for k in found)]:
        own = [d for k, d in found.items() if k[0] == crate]
        out += [f'### {crate}: {len(own)}', '']
        for (_, name), module in specs.modules.items():
            here = [d for d in module.own.values() if d.key() in found]
            if module.crate != crate or not here:
                continue
            out += [*wrapped(f'`{name}`. {sentence(module.heading)}', ''), '']
            for d in here:
                out += wrapped(f'- `{shown(d.name)}`: {sentence(d.comment)}' if d.comment else f'- `{shown(d.name)}`', '  ')
            out.append('')
    types = sorted({t for d in found.values() for t in specs.types_named(d)})
    out += ['### Types of the code that they name', '']
    for crate in order:
        names = [t for c, t in types if c == crate]
        if names:
            out += wrapped(f'- `{crate}`: {listed(names)}', '  ')
    return out


def wrapped(line, indent):
    return textwrap.wrap(line, 118, subsequent_indent=indent, break_long_words=False, break_on_hyphens=False)


# ---- what is listed and not used

def code_of(path):
    """A file without comments, imports and texts."""
    lines = [line for line in text_of(path).split('\n') if not line.lstrip().startswith(('--', '//'))]
    text = re.sub(r'^\s*(pub )?(ghost )?use [^;\n]*(\{[^}]*\})?;?', '', '\n'.join(lines), flags=re.M)
    return text


def files_of(crate):
    return [p for p in (CRATES / crate).rglob('*') if p.suffix in ('.rt', '.antt', '.edit') and 'out' not in p.relative_to(CRATES).parts]


def defined_in(path):
    """The names that a file defines: of a file of specs/ its definitions, of one of code its public functions but laws, whose body is empty."""
    code = code_of(path)
    if path.suffix == '.rt':
        calls = re.finditer(r'pub (?:const )?fn (\w+)', code)
        bodies = [(c[1], re.search(r'\n\s*(\{\}?)\s*\n', code[c.end():] + '\n')) for c in calls]
        return [name for name, body in bodies if body is None or body[1] == '{']
    if path.parent.name != 'specs':
        return []
    heads = re.findall(r"^(?:abbrev )?(?:pub )?(?:record |data )?([A-Za-z_][\w'-]*)(?=[\s:])", code, flags=re.M)
    return [h for h in heads if h not in ('pub', 'abbrev', 'infixl', 'infixr', 'infix', 'unfoldable')]


def unused(listing):
    """Libraries that a crate lists and no file of it names, and definitions and calls that nothing names but where they stand."""
    names, places, found = {}, {}, []
    for crate in listing.uses:
        files = files_of(crate)
        whole = '\n'.join(text_of(p) for p in files)
        found += [f'crates.txt: {crate} lists {d} and names it nowhere' for d in listing.uses[crate] if not re.search(rf'\b{d}\b', whole)]
        for path in files:
            for word in re.findall(r"[A-Za-z_][\w'-]*", code_of(path)):
                names[word] = names.get(word, 0) + 1
            for name in defined_in(path):
                places.setdefault(name, []).append(path)
    lonely = sorted(name for name, where in places.items() if names[name] <= len(where))
    return found + [f'{places[name][0].relative_to(TOP)}: nothing names {name}' for name in lonely]


# ---- pages

complaints = []


def complain(words):
    complaints.append(words)


def marks(name):
    return f'<!-- {name}: made by docs/pages.py -->', f'<!-- end of {name} -->'


def part(page, name):
    begin, end = marks(name)
    if page.count(begin) != 1 or page.count(end) != 1:
        sys.exit(f'a part {name} has no marks, or several')
    return page[page.index(begin) + len(begin):page.index(end)].strip('\n').split('\n')


def with_part(page, name, lines):
    begin, end = marks(name)
    head, tail = page[:page.index(begin) + len(begin)], page[page.index(end):]
    return head + '\n\n' + '\n'.join(lines).strip('\n') + '\n\n' + tail


PAGES = {
    'docs/ARCHITECTURE.md': {'kit': kit_part, 'crates': crates_part, 'tests': tests_part, 'levels': levels_part, 'picture': picture_part, 'way': numbered_way},
    'docs/BELIEVED.md': {'definitions': believed_part},
}


def main():
    check, listing = '--check' in sys.argv[1:], Listing()
    for crate in listing.homeless:
        complain(f'crates.txt: {crate} stands in no room')
    for name, parts in PAGES.items():
        page = text_of(TOP / name)
        for title, make in parts.items():
            part(page, title)
            new = with_part(page, title, make(listing, page))
            if check and new != page:
                complain(f'{name}: the part {title} is not up to date')
            page = new
        if f'| {TO_TELL} |' in page or f'`: {TO_TELL}' in page:
            complain(f'{name}: {TO_TELL} is still to be told')
        if not check:
            (TOP / name).write_text(page, encoding='utf-8')
    for words in complaints + unused(listing):
        print(words)
    sys.exit(1 if complaints else 0)


main()
