#!/usr/bin/env python3
"""Gives the repository's own definitions and lemmas the library's spelling: snake case, and a dash only between two names.

usage: tools/respell.py              after the kit's port.py: respells crates/ and the pages, once
       tools/respell.py edits LANDED respells the must-fail edits, whose texts are those of the commit LANDED

A definition `fieldsOf` becomes `fields_of`. In a lemma's name, as in `length-append`, a dash stays where both parts are
names of definitions; else it becomes `_`, as in `subset_refl`. A name that the library has too, or that would meet another
one, stays as it is. Rust's names, strings, inputs and outputs are not touched."""
import difflib
import glob
import json
import os
import re
import subprocess
import sys

TOP = os.path.dirname(os.path.dirname(os.path.abspath(__file__)))
MAP = os.path.join(TOP, 'tools/respelled.json')
# what delimits a word of antt
WORD = re.compile(r'[^\s(){}\[\];,.«»"]+')
DECLARED = re.compile(r'^\s*(?:(?:abbrev|unfoldable|pub|data|record)\s+)*([^\s(){}\[\];,.«»":]+)(?:\s+[({].*[)}])?\s+:\s')
FIELD = re.compile(r'^\s+pub\s+([^\s(){}\[\];,.«»":]+)\s+:\s')
# the library's definitions that lemmas are named after
LIBRARY = set('length append drop take set replicate get_or get map cond eqb leb ltb lt le min max mod pow add sub mul div '
              'and or xor not true false zero suc cons nil none some concat bits front bytes'.split())


def files(*patterns):
    return sorted(p for pattern in patterns for p in glob.glob(os.path.join(TOP, pattern), recursive=True))


def read(path):
    with open(path, encoding='utf-8') as f:
        return f.read()


def write(path, text):
    with open(path, 'w', encoding='utf-8') as f:
        f.write(text)


def statements():
    return files('crates/*/specs/**/*.antt', 'crates/*/proofs/*.antt')


def own_crates():
    return {os.path.basename(p) for p in files('crates/*')}


def declared():
    """The names that specs/ and the lemma files declare, and which of them are fields of records."""
    names, fields = {}, set()
    for path in statements():
        for line in read(path).splitlines():
            found = DECLARED.match(line)
            if found:
                names.setdefault(found.group(1), set()).add('/specs/' in path)
            found = FIELD.match(line)
            if found:
                fields.add(found.group(1))
    return names, fields


def foreign():
    """The names that some file takes from the library."""
    crates, names = own_crates(), set()
    for path in files('crates/*/specs/**/*.antt', 'crates/*/proofs/**/*.antt', 'crates/*/src/*.rt'):
        for line in read(path).splitlines():
            found = re.match(r'\s*(?:ghost\s+)?use\s+(\S+?)\.\{(.*)\}', line)
            if not found:
                continue
            root = found.group(1).split('.')
            own = len(root) > 1 and root[0] == 'Rattle' and root[1] in crates and 'declared' not in root
            if not own:
                names.update(w for part in found.group(2).split(',') for w in WORD.findall(part) if w != 'as')
    return names


def snake(name):
    """A name that begins in lower case, in snake case."""
    if not name[:1].islower():
        return name
    return '-'.join(re.sub(r'(?<=[a-z0-9])([A-Z])', lambda m: '_' + m.group(1).lower(), part) for part in name.split('-'))


def renamed():
    names, fields = declared()
    taken = foreign()
    words = {snake(n) for n, where in names.items() if '-' not in n and True in where} | LIBRARY
    source = ' '.join(read(p) for p in files('crates/*/src/*.rt'))
    source_fields = set(re.findall(r'^    pub (\w+):', source, re.M)) | set(re.findall(r'^pub const (\w+)', source, re.M))
    claims = {re.sub(r'(?<=[a-z0-9])(?=[A-Z])', '_', n).lower() for n in names if n[:1].isupper()}
    found, said = {}, []
    for name in sorted(names, key=lambda n: ('-' in n, n)):
        if name in taken or '·' in name or '#' in name:
            continue
        new = snake(name)
        if name in fields and '-' in name:
            new = new.replace('-', '_')
        elif '-' in new:
            parts = new.split('-')
            new = '_'.join(parts)
            if new not in claims:
                new = parts[0]
                for before, part in zip(parts, parts[1:]):
                    new += ('-' if before in words and part in words else '_') + part
        if new == name:
            continue
        if new in names or new in taken or new in found.values() or new in source_fields:
            said.append('look: %s stays, since there is a %s' % (name, new))
            continue
        found[name] = new
    return found, fields, said


def turn(text, found, dotted):
    """The text with each word of found respelled; a word after a dot only where it is one of dotted."""
    def one(m):
        word = m.group(0)
        if word not in found:
            return word
        if m.start() and text[m.start() - 1] == '.' and word not in dotted and '}' not in text[m.start() - 1]:
            before = text[:m.start() - 1]
            if not re.search(r'(?:^|[\s(])[A-Z][\w\']*$', before):  # a module's name goes before
                return word
        return found[word]
    return WORD.sub(one, text)


def own_name_first():
    """The lemma of label that port.py gave the name of its definition takes the ending for that."""
    path = os.path.join(TOP, 'crates/label/proofs/Bytes.antt')
    write(path, re.sub(r"(?<![\w'-])from_bytes(?![\w'-])", 'from_bytes_lem', read(path)))


def names():
    own_name_first()
    found, fields, said = renamed()
    print('\n'.join(said))
    dotted = set(fields)
    for path in statements():
        write(path, turn(read(path), found, set(found)))
    for path in files('crates/*/proofs/*/**/*.antt'):
        write(path, turn(read(path), found, dotted | {n for n in found if '-' not in n}))
    camel = {n: new for n, new in found.items() if '-' not in n}
    for path in files('crates/*/src/*.rt'):
        write(path, WORD.sub(lambda m: camel.get(m.group(0), m.group(0)), read(path)))
    for path in files('README.md', 'docs/*.md'):
        write(path, re.sub(r'`([^`\n]*)`', lambda m: '`' + respelled(m.group(1), found) + '`', read(path)))
    with open(MAP, 'w', encoding='utf-8') as f:
        json.dump(found, f, ensure_ascii=False, indent=0, sort_keys=True)
    print('%d names respelled' % len(found))


def landed(commit, path):
    done = subprocess.run(['git', 'show', '%s:%s' % (commit, path)], cwd=TOP, capture_output=True)
    return done.stdout.decode('utf-8') if done.returncode == 0 else None


def plain(line):
    """A line without what the respelling changes, to find the lines that belong together."""
    return re.sub(r"[\s_◌·()-]", '', line).lower()


def learned(old, new):
    """Which word stands for which, from the lines of two texts that belong together."""
    words = {}
    a, b = [plain(x) for x in old], [plain(x) for x in new]
    for tag, i1, i2, j1, j2 in difflib.SequenceMatcher(None, a, b, autojunk=False).get_opcodes():
        if tag == 'equal' or (tag == 'replace' and i2 - i1 == j2 - j1):
            for x, y in zip(old[i1:i2], new[j1:j2]):
                x, y = tight(x), tight(y)
                xs, ys = WORD.findall(x), WORD.findall(y)
                if len(xs) == len(ys):
                    for u, v in zip(xs, ys):
                        if u != v and plain(u) == plain(v):
                            words.setdefault(u, set()).add(v)
    return {u: v.pop() for u, v in words.items() if len(v) == 1}


def is_path(text):
    """Whether a text is a name or a bracket with fields behind it, and nothing else."""
    found = re.match(r"^(.*?)(?:\.[\w'-]+)+$", text)
    if not found:
        return False
    head = found.group(1)
    if re.match(r"^[\w'.]+$", head):
        return True
    depth = 0
    for i, c in enumerate(head):
        depth += (c == '(') - (c == ')')
        if depth == 0 and i < len(head) - 1:
            return False
    return head[:1] == '(' and depth == 0


def tight(text):
    """The text with its projections written tight: `f (x .a) .b` becomes `(f x.a).b`."""
    tokens = re.findall(r"[\s]+|[()\[\]{},;]|[^\s()\[\]{},;]+", text)
    operator = re.compile(r"^[^\w'.(λ]+$|^λ$|^(?:let|in|if|not|then|else|old|new)$|^.*\.$")

    def group(i):
        """The tokens from i to the end of a group, tight."""
        out, spine = [], []  # spine: the words of an application, with the blanks before them

        def flush():
            out.extend(b + w for b, w in spine)
            spine.clear()

        blank = ''
        while i < len(tokens):
            t = tokens[i]
            if t.isspace():
                blank = t
                i += 1
                continue
            if t in ')]}':
                flush()
                return ''.join(out) + blank, i
            if t in '([{':
                inner, j = group(i + 1)
                close = tokens[j] if j < len(tokens) else ''
                word = inner if t == '(' and close and is_path(inner) else t + inner + close
                spine.append((blank, word))
                i = j + 1
            elif t[0] == '.' and re.match(r"^\.[a-z0-9]", t) and spine:
                if len(spine) > 1:
                    b = spine[0][0]
                    spine[:] = [(b, '(' + (spine[0][1] + ''.join(x + w for x, w in spine[1:])) + ')')]
                spine[0] = (spine[0][0], spine[0][1] + t)
                i += 1
            elif operator.match(t) or t in ',;':
                flush()
                out.append(blank + t)
                i += 1
            else:
                spine.append((blank, t))
                i += 1
            blank = ''
        flush()
        return ''.join(out) + blank, i

    done, at = group(0)
    while at < len(tokens):  # a bracket that closes one opened before the text
        rest, after = group(at + 1)
        done += tokens[at] + rest
        at = after
    return done


def respelled(text, words):
    return WORD.sub(lambda m: words.get(m.group(0), m.group(0)), tight(text))


def edits(commit):
    with open(MAP, encoding='utf-8') as f:
        found = json.load(f)
    left = 0
    for path in files('crates/*/must-fail/*.edit'):
        crate = os.path.dirname(os.path.dirname(path))
        lines, file, texts = read(path).split('\n'), None, {}
        out, good = [], True
        for line in lines:
            kind, _, text = line.partition(': ')
            if kind == 'file':
                file = text
                name = os.path.relpath(os.path.join(crate, file), TOP)
                before, now = landed(commit, name) or '', read(os.path.join(crate, file)) if os.path.exists(os.path.join(crate, file)) else ''
                words = {**found, **learned(before.split('\n'), now.split('\n'))}
                if file.startswith('src/'):
                    words = {u: v for u, v in words.items() if not re.match(r'^[a-z_0-9]+$', u)}
                texts.setdefault(file, now)
            elif kind in ('old', 'new'):
                if kind == 'old' and texts[file].count(text) != 1 or kind == 'new' and changed:
                    text = respelled(text, words)
                changed = kind == 'old' and text != line.partition(': ')[2]
                if kind == 'old':
                    old = text
                    if texts[file].count(text) != 1:
                        good = False
                else:
                    texts[file] = texts[file].replace(old, text)
                line = kind + ': ' + text
            out.append(line)
        write(path, '\n'.join(out))
        if not good:
            left += 1
            print('left: ' + os.path.relpath(path, TOP))
    print('%d edits left' % left)


if __name__ == '__main__':
    if sys.argv[1:2] == ['edits']:
        edits(sys.argv[2])
    else:
        names()
