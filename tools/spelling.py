#!/usr/bin/env python3
"""Spells the names that this repository gives itself in specs/ and proofs/ as Rattle spells its own: words in snake case, types in camel case.

usage: tools/spelling.py            run once, at the top, on what port.py of the kit leaves

Functions of src/, fields of structs, exported names and texts stay. Where a lemma and a definition would fall together, the lemma gets _lem, and
a record's field _is; where something else has the name already, a line `met:` says so. Docs are turned within backticks, must-fail edits and
tools/meanings in their changes.
"""
import collections
import os
import re
import sys

NAME = r'[^\s(){}.;,@"«»]+'
TOKEN = re.compile(rf'"[^"\n]*"|--[^\n]*|\.?{NAME}')
DECLARED = re.compile(r'(?m)^(?P<indent> *)(?P<marks>(?:(?:abbrev|unfoldable|pub|data|record|ruleset) )*)(?P<names>[^\s(){}.;,@"«»:]+(?: [^\s(){}.;,@"«»:]+)*)(?: \{[^{}\n]*\})*(?: \([^()\n]*\))* :(?=\s)')
# Names that a parameter or a field of src/ has, beside which a clause cites the definition.
OTHERWISE = {'warmX': 'warm_x_of', 'warmY': 'warm_y_of', 'idleLoss': 'idle_loss_of', 'noSmaller': 'NoSmaller'}


def read(path):
    with open(path, encoding='utf-8', newline='') as f:
        return f.read()


def files(top, *endings):
    for folder, dirs, names in os.walk(top):
        dirs[:] = sorted(d for d in dirs if d != 'out')
        for name in sorted(names):
            if name.endswith(endings):
                yield os.path.join(folder, name)


def declared(path):
    """(name, whether it is a fact) of all that a file declares, its records' fields and its where's too."""
    text = read(path)
    for m in DECLARED.finditer(text):
        if m['names'].split()[0] in ('use', 'module', 'let', 'where', 'infixl', 'infixr'):
            continue
        end = re.search(r'\n(?! )|\n *\n', text[m.end():])
        says = text[m.end():m.end() + (end.start() if end else 200)].split('\n' + m['indent'] + m['names'].split()[0] + ' ')[0]
        fact = 'record' not in m['marks'] and bool(re.fullmatch(r'[^=]*(?:→|^)\s*Type( \d)?\s*', says)) and '/specs/' not in path
        for name in m['names'].split():
            yield name, fact


def fields_of(path):
    """The fields of the records that a file declares."""
    text = read(path)
    for m in re.finditer(r'(?m)^( *)(?:\w+ )*record [^\n]*where\n((?:\1 +[^\n]*\n|\n)+)', text):
        for f in re.finditer(r'(?m)^ +(?:pub )?([^\s(){}.;,:]+) :\s', m[2]):
            yield f[1]


def snake(name):
    name = re.sub(r"(?<=[a-z0-9])[A-Z]", lambda m: '_' + m[0].lower(), name)
    return name.replace('-', '_')


def main():
    specs, others, facts, fields = set(), set(), set(), set()
    for path in files('crates', '.antt'):
        fields |= set(fields_of(path))
        for name, fact in declared(path):
            if not re.match(r'[a-z]', name):
                continue
            (specs if '/specs/' in path else others).add(name)
            if fact:
                facts.add((path, name))
    turned = {}
    for name in specs | others:
        new = snake(name)
        if new != name:
            turned[name] = new
    # Where a lemma and a definition would have one name, the lemma gets _lem.
    by_new = collections.defaultdict(set)
    for name in specs | others:
        by_new[turned.get(name, name)].add(name)
    rust = set()
    for path in files('crates', '.rt'):
        rust |= set(re.findall(r'\w+', re.sub(r'//[^\n]*', '', read(path))))
    turned.update((name, new) for name, new in OTHERWISE.items() if name in turned)
    by_new = collections.defaultdict(set)
    for name in specs | others:
        by_new[turned.get(name, name)].add(name)
    for new, names in sorted(by_new.items()):
        if len(names) > 1:
            first = sorted(names, key=lambda n: (not re.search('[a-z0-9][A-Z]', n), n not in specs, n != new, n))[0]
            for name in names - {first}:
                if name in rust and name in fields and name == new:
                    print(f'met: {new}: {" ".join(sorted(names))} and a name of src/')
                else:
                    turned[name] = new + ('_is' if name in fields else '_lem')
    for path in files('crates', '.antt', '.rt'):
        text = read(path)
        rt = path.endswith('.rt')
        if rt:
            bare = set(re.findall(r"(?<![.\w'-])([a-z_][\w]*)(?=: )|let (?:mut )?(\w+)", re.sub(r'//[^\n]*', '', text)))
            bare = {a or b for a, b in bare}
            used = set(re.findall(r"[\w'][\w'-]*", text))
        else:
            bare = used = set(t for t in TOKEN.findall(re.sub(r'(?m)^use [^{\n]*', '', text)) if not t.startswith(('--', '"', '.')))
        for name in used & turned.keys():
            if turned[name] in bare and turned[name] not in turned:
                print(f'met: {path}: {name} as {turned[name]}')
    for path in files('crates', '.antt', '.rt', '.edit'):
        text = read(path)
        new = (of_rust if path.endswith('.rt') else of_edit if path.endswith('.edit') else of_proof)(text, turned, fields)
        write(path, text, new)
    for path in [*files('docs', '.md'), 'README.md', *files('tools/meanings', '')]:
        text = read(path)
        if path.startswith('tools/'):
            new = re.sub(r"\\n|[A-Za-z_][\w'-]*", lambda m: turned[m[0]] if m[0] in turned and re.search('[a-z0-9][A-Z]', m[0]) else m[0], text)
        else:
            new = re.sub(r'`[^`\n]+`', lambda m: re.sub(r"[A-Za-z_][\w'-]*", lambda k: turned.get(k[0], k[0]) if re.search('[a-z0-9][A-Z]|-', k[0]) else k[0], m[0]), text)
        write(path, text, new)


def write(path, old, new):
    if new != old:
        with open(path, 'w', encoding='utf-8', newline='') as f:
            f.write(new)


def in_comment(text, turned):
    return re.sub(r"[A-Za-z_][\w']*(?:-[\w']+)*", lambda m: turned[m[0]] if m[0] in turned and re.search('[a-z0-9][A-Z]', m[0]) else m[0], text)


def of_proof(text, turned, fields):
    # What comes from a library keeps its name, whatever ours is called.
    lent = set()
    for m in re.finditer(r'(?m)^(?:pub )?use ([\w.+]+)\.\{([^}]*)\}', text):
        if not re.match(r'Rattle\.(?!std\b|core\b)', m[1]):
            lent |= {n.strip() for n in m[2].split(',')}

    def turn(m):
        t = m[0]
        if t.startswith('--'):
            return in_comment(t, turned)
        if t.startswith('"'):
            return t
        if t.startswith('.'):
            return '.' + turned[t[1:]] if t[1:] in fields and t[1:] in turned else t
        return t if t in lent else turned.get(t, t)

    def line(m):
        return m[1] + re.sub(NAME, lambda n: turned.get(n[0], n[0]) if n[0] not in lent else n[0], m[2])

    parts = re.split(r'(?m)(^(?:pub )?use [^{\n]*(?:\{[^}]*\})?[^\n]*\n)', text)
    out = []
    for i, p in enumerate(parts):
        if i % 2:
            m = re.match(r'((?:pub )?use ([\w.+-]+)\.)(\{[^}]*\})', p)
            if m and re.match(r'Rattle\.(?!std\b|core\b)', m[2]):
                p = m[1] + re.sub(r'[^\s{},]+', lambda n: turned.get(n[0], n[0]), m[3]) + p[m.end():]
            out.append(p)
        else:
            out.append(TOKEN.sub(turn, p))
    return ''.join(out)


def of_rust(text, turned, fields):
    cited = set()
    for m in re.finditer(r'ghost use Rattle\.(?!std\b|core\b)[\w.]+\.\{([^}]*)\}', text):
        cited |= {n.strip() for n in m[1].split(',')}
    cited |= {f for f in fields if re.search('-', f)}
    cited &= turned.keys()

    def turn(m):
        return m[0] if m[0].startswith('//') else turned[m[0]] if m[0] in cited else m[0]

    return re.sub(r"//[^\n]*|(?<![\w'.-])[A-Za-z_][\w']*(?:-[\w']+)*|(?<=\.)[a-z][\w']*(?:-[\w']+)+", turn, text)


def of_edit(text, turned, fields):
    return re.sub(r"(?m)^(?:old|new|file): .*", lambda l: re.sub(r"[A-Za-z_][\w']*(?:-[\w']+)*", lambda m: turned[m[0]] if m[0] in turned and re.search('[a-z0-9][A-Z]', m[0]) else m[0], l[0]), text)


if __name__ == '__main__':
    main()
