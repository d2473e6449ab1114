#!/usr/bin/env python3
"""design_pass.py COMMIT: what changed since a commit of public functions and their contracts, public types, traits and constants (src/), type
invariants (ghost fields, `impl Model`), definitions (specs/) and statements (proofs/), old and new, private definitions and lemmas too. What
differs by the spelling of the logic's Option as Rust's, of `Worked` or of the kinds alone is listed by name. A declaration is looked up by its
crate and name, a record whole. It doesn't see private functions and types, bodies of functions and proofs, the answers and invariants of
functions (proofs/FUNCTION/), what a public module or `use` gives on, and a name that moved to another crate, which it lists as gone and new."""
import os
import re
import subprocess
import sys

commit = sys.argv[1]


def old_files():
    names = subprocess.run(['git', 'ls-tree', '-r', '--name-only', commit, 'crates'], capture_output=True, text=True, check=True).stdout.split('\n')
    for name in names:
        if name.endswith(('.rt', '.antt')):
            yield name, subprocess.run(['git', 'show', f'{commit}:{name}'], capture_output=True, text=True, check=True).stdout


def new_files():
    for root, _, names in os.walk('crates'):
        if '/out' in root:
            continue
        for name in names:
            if name.endswith(('.rt', '.antt')):
                path = os.path.join(root, name)
                yield path, open(path).read()


def without_comments(text, mark):
    return re.sub(r'(?m)(^|\s)' + mark + r'( .*|)$', r'\1', text)


def indent(line):
    return len(line) - len(line.lstrip())


def declarations(path, text):
    """Each declaration of a file of antt: its key, and its text as one line. In proofs/ its statement alone, but a definition whole."""
    crate, part = path.split('/')[1:3]
    lines = [re.sub(r'\s--( .*|)$', '', line) for line in text.split('\n') if not re.match(r'\s*--( |$)', line)]
    modules, i = [], 0
    while i < len(lines):
        start, i = i, i + 1
        depth = indent(lines[start])
        if not lines[start].strip():
            continue
        while modules and depth <= modules[-1][0]:
            modules.pop()
        if depth > (modules[-1][0] + 2 if modules else 0):
            continue
        if re.match(r'\s*module _', lines[start]):
            while not lines[i - 1].endswith(' where'):
                i += 1
            modules.append((depth, ' '.join(lines[start:i])))
            continue
        while i < len(lines) and lines[i].strip() and indent(lines[i]) > depth:
            i += 1
        m = re.match(r'((?:(?:abbrev|unfoldable|pub) )*)(?:(?:record|data) (\S+)|([^\s(){}=]+(?: [^\s(){}=]+)*) :)(\s|$)', ' '.join(' '.join(lines[start:i]).split()))
        if not m:
            continue
        end = i
        while (part == 'specs' or re.search('abbrev|unfoldable', m[1])) and end < len(lines) and lines[end].strip():
            end += 1
        for name in (m[2] or m[3]).split():
            yield (crate, part, name), ' '.join(' '.join([header for _, header in modules] + lines[start:end]).split())


def contracts(path, text):
    """Each public function, of impls and traits too, with its clauses, each public type, trait and constant, and each ghost field and ghost
    member, as one line each."""
    crate = path.split('/')[1]
    text = without_comments(text, '//')
    owner, shown = '', False
    for m in re.finditer(r'(?m)^impl[^{]*'
                         r'|^(?: {4})?(?:pub )?(?:extern "C" )?fn (?:[^\n]*\{\}?$|[\s\S]*?(?:\n(?: {4})?\{|\n(?: {4})?\)[^\n]*\{$|;$))'
                         r'|^ {4}ghost [\s\S]*?[;,]$'
                         r'|^(?P<traits>(?:#\[derive[^\n]*\n)?)(?P<public>(?:pub )?)(?P<kind>struct|trait|enum|type|const) (?P<name>\w+)'
                         r'(?=(?P<whole>[^{]*?;$|[^\n{]*\{(?:[^\n]*\}$|[\s\S]*?\n\})))', text):
        s = ' '.join(m[0].split())
        if s.startswith('impl'):
            owner = re.sub(r'impl(<[^>]*>)? ', '', s)
            shown = ' for ' in owner
        elif m['kind']:
            owner, shown = m['name'], bool(m['public'])
            if shown:
                whole = m['whole'].split('{')[0] if m['kind'] == 'trait' else m['whole']
                yield (crate, 'type', m['name']), ' '.join((m[0] + whole).split())
        elif s.startswith('ghost'):
            if not s.startswith('ghost use'):
                yield (crate, 'ghost', owner + '.' + s.split()[1].rstrip(':')), s
        else:
            inner = m[0].startswith('    ')
            if 'pub ' in s.split('fn ')[0] or inner and shown:
                where = owner if inner else os.path.basename(path)[:-3]
                yield (crate, 'fn', where + '::' + re.search(r'fn (\w+)', s)[1]), re.sub(r' *(\{\}?|;)$', '', s)


def spelled(text):
    """The text with what is spelled otherwise since."""
    for a, b in ((r'(?<![\w.?-])some(?![\w-])', 'Some'), (r'(?<![\w.?-])none(?![\w-])', 'None'), (r'get_elem\?', 'slice_get'),
                 (r'(?<![\w.])Value(?![\w.])', 'Some'), (r'(?<![\w.])OutOfRange(?![\w.])', 'None'),
                 (r'(?<![\w.])(exec|arrive|bind|start|deliver)(?![\w.])', lambda m: 'Kind.' + m[1].capitalize()),
                 (r'Kinds\.(exec|arrive|bind|start|deliver)\b', lambda m: 'Kind.' + m[1].capitalize()), (r'Kinds\.Kind', 'Kind')):
        text = re.sub(a, b, text)
    return text


def gathered(files):
    found = {}
    for path, text in files:
        if '/out/' in path or '/must-fail/' in path:
            continue
        parts = path.split('/')
        if parts[2] == 'src' and path.endswith('.rt'):
            pairs = contracts(path, text)
        elif parts[2] in ('specs', 'proofs') and path.endswith('.antt') and not (parts[2] == 'proofs' and len(parts) > 4 and parts[-1] in ('Answers.antt', 'Invariants.antt')):
            pairs = declarations(path, text)
        else:
            continue
        for key, value in pairs:
            found.setdefault(key, []).append(value)
    return found


docs = ''.join(open(f'docs/{name}').read().split('\n## What changed, old and new')[0] for name in os.listdir('docs') if name not in ('PORT.md', 'PORT-NAMES.txt')) + open('README.md').read()
old, new = gathered(old_files()), gathered(new_files())
KINDS = (('fn', 'Public functions'), ('type', 'Public types, traits and constants'), ('ghost', 'Type invariants and ghost members'), ('specs', 'Definitions'), ('proofs', 'Statements'))


def listed(keys):
    return '; '.join(f'`{c}` ' + ', '.join(f'`{n}`' for n in sorted({k[2] for k in keys if k[0] == c})) for c in sorted({k[0] for k in keys})) + '.'


def split(olds, news):
    """What stands the same, what is spelled otherwise, pairs of what changed, what is gone and what is new, of the declarations of one name."""
    same = [v for v in olds if v in news]
    olds, news = [v for v in olds if v not in same], [v for v in news if v not in same]
    spelt = [v for v in olds if spelled(v) in map(spelled, news)]
    olds, news = [v for v in olds if v not in spelt], [v for v in news if spelled(v) not in map(spelled, spelt)]
    n = min(len(olds), len(news))
    return same, spelt, list(zip(olds, news)), olds[n:], news[n:]


for kind, title in KINDS:
    parted = {k: split(old.get(k, []), new.get(k, [])) for k in sorted({**old, **new}) if k[1] == kind}
    same, spelt, changed, gone, added = ([k for k, v in parted.items() for _ in v[i]] for i in range(5))
    print(f'\n### {title}: {len(same)} the same, {len(spelt)} spelled otherwise, {len(changed)} changed, {len(gone)} gone, {len(added)} new\n')
    if spelt:
        print(f'Spelled otherwise: {listed(spelt)}\n')
    unnamed = [k for k in changed if kind == 'proofs' and not re.search(r'`' + re.escape(k[2]) + r'`', docs)]
    for k in dict.fromkeys(k for k in changed if k not in unnamed):
        print(f'- `{k[0]}` `{k[2]}`')
        for before, after in parted[k][2]:
            print(f'  - old: `{before}`\n  - new: `{after}`')
    for word, keys in (('Lemmas that no page names, changed', unnamed), ('Gone', gone), ('New', added)):
        if keys:
            print(f'\n{word}: {listed(keys)}')
