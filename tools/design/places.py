#!/usr/bin/env python3
"""Counts places of older forms in crates/*/src and the proofs, by point of docs/DESIGN-PASS.md.

    python3 tools/design/places.py [--list POINT]

run at the top of a checkout of any commit. With --list the places of one point are printed, a line each."""
import collections
import difflib
import glob
import re
import sys

found = collections.defaultdict(list)


def note(point, kind, path, line, text):
    found[point].append((kind, path, line, ' '.join(text.split())[:110]))


def functions(source):
    """Each function: its line, name, head (up to the body) and body."""
    for m in re.finditer(r'^( *)(?:pub(?:\(crate\))? )?(?:extern "C" )?fn (\w+)', source, re.M):
        end = re.compile(r'^%s\{' % m.group(1), re.M).search(source, m.end())
        brace = source.find('{\n', m.end())
        if end is None and brace < 0:
            continue
        start = end.start() if end else brace
        close = re.compile(r'^%s\}' % m.group(1), re.M).search(source, start)
        if close is None:
            continue
        yield source.count('\n', 0, m.start()) + 1, m.group(2), source[m.start():start], source[start:close.end()]


def plain(text):
    return re.sub(r'//[^\n]*', '', text)


def loops(path, line, name, body):
    for m in re.finditer(r"^( *)(?:'\w+: )?while (.*?) \{\n(.*?)^\1\}", body, re.M | re.S):
        test, inside = m.group(2), m.group(3)
        at = line + body.count('\n', 0, m.start())
        words = set(re.findall(r'\b[a-z_]\w*\b', test))
        counted = [w for w in words if re.search(r'\b%s (?:\+|-)= 1;' % w, inside)]
        note(3, 'counts an index' if counted else 'other loop', path, at, name + ': while ' + test)


def alike(all_functions):
    """Pairs of functions that are the same but for names, numbers and types."""
    shapes = []
    for path, line, name, head, body in all_functions:
        text = plain(head.split('requires')[0].split('ensures')[0] + body)
        tokens = re.findall(r'\w+|[^\w\s]', text)
        shape = [t if not re.match(r'\w', t) or t in ('while', 'for', 'if', 'else', 'return', 'let', 'mut', 'match', 'fn', 'as', 'in', 'Ok', 'Err', 'Some', 'None')
                 else 'x' for t in tokens]
        if len(shape) >= 45:
            shapes.append((path, line, name, shape))
    for i, (p, l, n, s) in enumerate(shapes):
        for q, k, m, t in shapes[i + 1:]:
            if abs(len(s) - len(t)) <= 0.12 * len(s):
                matcher = difflib.SequenceMatcher(None, s, t, autojunk=False)
                if matcher.quick_ratio() >= 0.93 and matcher.ratio() >= 0.93:
                    note(2, 'alike', p, l, '%s ~ %s of %s' % (n, m, q))


clauses = collections.defaultdict(list)
groups = collections.defaultdict(list)
every = []
for path in sorted(glob.glob('crates/*/src/**/*.rt', recursive=True)):
    source = open(path).read()
    code = plain(source)
    for m in re.finditer(r'^ *(?:pub(?:\(crate\))? )?(fault|number): u32,|^ *(?:pub(?:\(crate\))? )?(found|sound|usable|chosen): bool,', source, re.M):
        note(1, 'flag or number beside values', path, source.count('\n', 0, m.start()) + 1, m.group(0))
    for m in re.finditer(r'^(?:pub(?:\(crate\))? )?const \w+: u32 = \d+;', source, re.M):
        note(1, 'number of a refusal', path, source.count('\n', 0, m.start()) + 1, m.group(0))
    for m in re.finditer(r'\bas (?:usize|u8|u16|u32|u64)\b', code):
        note(4, 'cast', path, code.count('\n', 0, m.start()) + 1, code[max(0, m.start() - 30):m.end()])
    for m in re.finditer(r'\bfn\(|\bdyn ', code):
        note(7, 'function or dyn value', path, code.count('\n', 0, m.start()) + 1, m.group(0))
    for line, name, head, body in functions(source):
        every.append((path, line, name, head, body))
        loops(path, line, name, body)
        one = re.sub(r'\s+', ' ', plain(body)).strip('{} ')
        if re.fullmatch(r'\w+ as \w+', one):
            note(4, 'conversion of its own', path, line, name)
        if re.match(r'(compare|same|is_nowhere|is_other|comes)', name):
            note(4, 'order or equality of its own', path, line, name)
        if re.search(r'\b(?:fault|number)(?:: \w+)?,?\s', head) and '-> u32' in head and 'no_mangle' not in head:
            note(1, 'number as a result', path, line, name)
        if re.search(r'return 0;', body) and re.search(r'return 2;', body):
            note(1, 'kind as 0, 1 or 2', path, line, name)
        for m in re.finditer(r'(\w+)\[[^\]]+\] = (\w+)\[[^\]]+\](?: as usize)?;', body):
            if m.group(1) != m.group(2):
                note(4, 'copied element by element', path, line, name + ': ' + m.group(0))
        args = head.split('(', 1)[1].split('\n    requires')[0].split('\n    ensures')[0].split(') ->')[0]
        for m in re.finditer(r'(\w+): &(?:mut )?\[\w+; [A-Z_]+\]', args):
            note(6, 'array lent, its length beside it', path, line, '%s: %s' % (name, m.group(0)))
        params = [tuple(x.split(': ', 1)) for x in re.findall(r'\w+: [^,()]+', args)]
        for a in range(len(params) - 1):
            groups[(params[a], params[a + 1])].append((path, line, name))
        for c in re.finditer(r'requires\*? ?\w* ?\{(.*?)\}\s*(?=requires|ensures|$)', head, re.S):
            for part in re.split(r' × (?![^()]*\))', c.group(1)):
                text = re.sub(r'^\((.*)\)$', r'\1', ' '.join(part.split()))
                clauses[text].append((path, line, name))
    for m in re.finditer(r'struct (\w+)[^{]*\{(.*?)\n\}', source, re.S):
        if re.search(r'\[\w+; [A-Z_]+\]', m.group(2)) and re.search(r'\b(?:width|count|made|rules|columns|registers|lookups|bytes|keys): ', m.group(2)):
            note(6, 'array with its length in a struct', path, source.count('\n', 0, m.start()) + 1, m.group(1))
alike(every)
for text, places in clauses.items():
    if len({p[2] for p in places}) >= 3:
        note(5, 'fact in contracts of 3 or more', places[0][0], places[0][1], '%d: %s' % (len(places), text))
for (a, b), places in groups.items():
    if len({p[2] for p in places}) >= 3:
        note(5, 'parameters together in 3 or more', places[0][0], places[0][1], '%d: %s: %s, %s: %s' % ((len(places),) + a + b))
for path in sorted(glob.glob('crates/*/proofs/**/Answers.antt', recursive=True)):
    for m in re.finditer(r'^pub ([\w-]+) : goal\.', open(path).read(), re.M):
        note(8, 'answer', path, 0, m.group(1))

wanted = int(sys.argv[2]) if len(sys.argv) == 3 and sys.argv[1] == '--list' else None
for point in range(1, 9):
    kinds = collections.Counter(k for k, *_ in found[point])
    print('point %d: %s' % (point, ', '.join('%d %s' % (n, k) for k, n in sorted(kinds.items())) or '0'))
    if wanted == point:
        for kind, path, line, text in found[point]:
            print('  %s:%d: %s: %s' % (path, line, kind, text))
