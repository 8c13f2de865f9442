#!/usr/bin/env python3
"""Respells this repository's own names as today's Rattle spells them, after port.py: words in snake case, types and modules in camel
case. A dash joins two names, as in print-then; a plain word is added with '_'. Functions of src/, strings, inputs and outputs keep
their names. Run once at the top; --list only prints the map; --fall-together prints names that would become one."""
import collections, glob, os, re, sys

TOP = os.getcwd()
OWN = {os.path.basename(os.path.dirname(p)) for p in glob.glob(TOP + '/crates/*/src')}
IDENT = re.compile(r"[^\s(){}\[\];,.\"∷λ◌`]+")
KIT_WORDS = {'length', 'drop', 'take', 'get_or', 'set', 'replicate', 'map', 'mul', 'add', 'sub', 'div', 'mod', 'cond', 'eqb', 'ltb', 'leb', 'not'}
GENERATED = re.compile(r'^(Need|At|Inv|μ|Tie|Ledger|In|Known|Stood|Loop)-')
DECL = re.compile(r'^(\s*)((?:(?:unfoldable|abbrev|pub|data|record)\s+)*)([^\s:(){}=|]+(?:\s+[^\s:(){}=|]+)*)\s+(?:[({].*)?:(?:\s|$)')


def files(*patterns):
    return sorted(f for p in patterns for f in glob.glob(TOP + '/' + p, recursive=True) if '/out/' not in f)


def comments_cut(text):
    """Pieces of an antt or rt text: (is_code, piece). A comment is no code, nor is a string."""
    at, out = 0, []
    for m in re.finditer(r'"(?:[^"\\\n]|\\.)*"|--[^\n]*|//[^\n]*', text):
        out.append((True, text[at:m.start()]))
        out.append((False, m.group()))
        at = m.end()
    out.append((True, text[at:]))
    return out


def code_of(text):
    return ''.join(p if c else ' ' for c, p in comments_cut(text))


def kit_names(text):
    """What a file takes from the kit: it keeps its names. And the short names of the modules that it takes."""
    names = set()
    for m in re.finditer(r'^\s*(?:ghost |pub )*use ([^\n;{]+)(?:\{([^}]*)\})?', text, re.M):
        path = m.group(1).strip()
        crate = path.split('.')[1] if path.startswith('Rattle.') else ''
        if path.startswith('Rattle.') and crate in OWN:
            continue
        for item in (m.group(2) or '').split(','):
            words = item.split()
            if words:
                names.add(words[0])
    return names


def declared(text):
    """(definitions, lemmas, fields and constructors, generated) that a file declares."""
    defs, lemmas, fields, made = set(), set(), set(), set()
    block = None
    for line in code_of(text).split('\n'):
        head = re.match(r'^\s*(?:pub\s+)?(data|record)\s+([^\s:({]+)', line)
        if head and not re.search(r'=', line):
            block = len(line) - len(line.lstrip())
            defs.add(head.group(2))
            continue
        if line.strip():
            indent = len(line) - len(line.lstrip())
            if block is not None and indent <= block:
                block = None
        m = DECL.match(line)
        if not m or line.lstrip().startswith(('use ', 'pub use ', 'module ', 'let ', '→', '×', '(', '{')):
            continue
        names = m.group(3).split()
        if block is not None:
            fields.update(names)
        elif re.search(r':\s*tie\.', line):
            made.update(names)
        elif 'unfoldable' in m.group(2) or 'abbrev' in m.group(2):
            defs.update(names)
        else:
            lemmas.update(names)
    return defs, lemmas, fields, made


def hyphened(name):
    return re.search(r'[\w\'ℕ]-[\w\']', name) is not None


def camel(name):
    return re.match(r'^[a-z][a-z0-9]*(?:[A-Z][a-z0-9]+)+$', name) is not None


def snake(name):
    return name.replace('-', '_')


def as_lemma(name, words):
    if name.endswith('-spec'):
        return snake(name)
    parts = name.split('-')
    segs, i = [], 0
    while i < len(parts):
        for j in range(len(parts), i, -1):
            if '_'.join(parts[i:j]) in words:
                segs.append(('_'.join(parts[i:j]), True))
                i = j
                break
        else:
            segs.append((parts[i], False))
            i += 1
    out = segs[0][0]
    for (a, a_name), (b, b_name) in zip(segs, segs[1:]):
        out += ('-' if a_name and b_name else '_') + b
    return out


def make_map():
    defs, lemmas, fields, made, seen = set(), set(), set(), set(), collections.Counter()
    texts = {f: open(f).read() for f in files('crates/*/specs/**/*.antt', 'crates/*/proofs/**/*.antt')}
    kits = {}
    for f, t in texts.items():
        d, l, x, g = declared(t)
        defs |= d; lemmas |= l; fields |= x
        if f.endswith('/Proof.antt'):
            made |= g
        kits[f] = kit_names(t)
    lemmas -= defs | fields
    operators = set()
    for t in texts.values():
        operators.update(re.findall(r'◌([a-z][\w-]*)◌', t))
    words = {snake(d) for d in defs} | {snake(d) for d in operators} | KIT_WORDS
    out = {}
    for f, t in texts.items():
        code = code_of(t)
        proof = f.endswith('/Proof.antt')
        for m in IDENT.finditer(code):
            name = m.group()
            if not hyphened(name) and not camel(name):
                continue
            if name in kits[f] or GENERATED.match(name) or name.startswith('-'):
                continue
            behind_dot = m.start() > 0 and code[m.start() - 1] == '.' and not code[m.start() - 2:m.start() - 1].isspace()
            if name in defs or name in fields:
                new = snake(name) if hyphened(name) else re.sub(r'(?<!^)([A-Z])', lambda c: '_' + c.group(1).lower(), name)
            elif name in lemmas:
                new = as_lemma(name, words) if hyphened(name) else name
            elif proof or behind_dot:
                continue
            elif hyphened(name):
                new = snake(name)
            else:
                continue
            if new != name:
                out[name] = new
    for g in made - defs - fields - lemmas:
        out.pop(g, None)
    return out, texts, kits


def respelled(text, names, kit):
    def sub(m):
        n = m.group()
        return n if n in kit else names.get(n, n)
    out = []
    for is_code, piece in comments_cut(text):
        if is_code:
            out.append(IDENT.sub(sub, piece))
        elif piece.startswith('"'):
            out.append(piece)
        else:
            out.append(re.sub(r'`[^`\n]*`', lambda m: IDENT.sub(sub, m.group()), piece))
    return ''.join(out)


def rt_respelled(text, names, kit):
    """In a source only ghost lines and clauses have such names: Rust's own have no dash."""
    def sub(m):
        n = m.group()
        return n if n in kit or not (hyphened(n) or camel(n)) else names.get(n, n)
    out = []
    for is_code, piece in comments_cut(text):
        if is_code:
            out.append(IDENT.sub(sub, piece))
        elif piece.startswith('"'):
            out.append(piece)
        else:
            out.append(re.sub(r'`[^`\n]*`', lambda m: IDENT.sub(sub, m.group()), piece))
    return ''.join(out)


def main():
    names, texts, kits = make_map()
    if '--list' in sys.argv:
        for a, b in sorted(names.items()):
            print(a, b)
        return
    by_new = collections.defaultdict(set)
    for a, b in names.items():
        by_new[b].add(a)
    every = set()
    for f, t in texts.items():
        every |= {m.group() for m in IDENT.finditer(code_of(t))}
    for b, a in sorted(by_new.items()):
        if len(a) > 1 or b in every:
            print('fall together:', b, sorted(a), '(stands already)' if b in every else '')
    if '--fall-together' in sys.argv:
        return
    for f, t in texts.items():
        new = respelled(t, names, kits[f])
        if new != t:
            open(f, 'w').write(new)
    for f in files('crates/*/src/**/*.rt'):
        t = open(f).read()
        new = rt_respelled(t, names, kit_names(t))
        if new != t:
            open(f, 'w').write(new)
    for f in files('crates/*/must-fail/*.edit'):
        lines = open(f).read().split('\n')
        kit = set()
        for i, l in enumerate(lines):
            if l.startswith('file: '):
                p = os.path.join(os.path.dirname(os.path.dirname(f)), l[6:])
                kit = kits.get(p) or (kit_names(open(p).read()) if os.path.exists(p) else set())
            if l.startswith(('old: ', 'new: ')):
                lines[i] = l[:5] + respelled(l[5:], names, kit)
        open(f, 'w').write('\n'.join(lines))
    for f in files('README.md', 'CONTRIBUTING.md', 'docs/[A-BD-Z]*.md'):
        t = open(f).read()
        new = re.sub(r'`[^`\n]*`', lambda m: IDENT.sub(lambda n: names.get(n.group(), n.group()), m.group()), t)
        if new != t:
            open(f, 'w').write(new)
    print(len(names), 'names')


main()
