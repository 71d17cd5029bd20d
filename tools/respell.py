#!/usr/bin/env python3
"""Brings the repository's own definitions and lemmas to one spelling: words in snake case, joined by underscores; types and modules in camel case.

usage: python3 tools/respell.py [ROOT]

To be run once, at the top, straight after the kit's port.py. A name is turned where it is declared and where a file names it, which is told by that file's
own imports; a record's field behind its dot and in a record's braces. Functions of src/, exported names, strings, inputs and outputs keep their names.
Where a definition and a lemma fall together, the lemma gets `_lem`.
"""
import collections
import os
import re
import sys

ROOT = sys.argv[1] if len(sys.argv) > 1 else '.'
CRATES = os.path.join(ROOT, 'crates')

# A name in antt ends at a bracket, a comma, a semicolon, a dot or a blank.
TOKEN = re.compile(r"[^\s(){}\[\],;.`\"]+")
DECLARES = re.compile(r"^(\s*)((?:abbrev |unfoldable |pub )*)([^\s:(){}.,;]+(?: [^\s:(){}.,;]+)*)\s+:(?:\s|$)")
HEAD = re.compile(r"^(\s*)(?:pub )?(record|data)\s+([^\s:(){}]+)")
MODULE = re.compile(r"^\s*(?:ghost )?use\s+Rattle\.([a-z_0-9]+)\.(specs|proofs)((?:\.[^\s.{};]+)*)(?: as (\S+))?;?\s*$", re.M)
IMPORT = re.compile(r"^\s*(?:ghost )?use\s+Rattle\.([a-z_0-9]+)\.(specs|proofs)((?:\.[^\s.{};]+)*)\.\{([^}]*)\}", re.M)
NO_NAMES = {'let', 'use', 'in', 'λ', 'elim', 'rw', 'where', 'module', '|'}

# Two words that fall together: the lemma, by its file, gets an ending.
LEMMAS = {
    ('laws/specs/Pieces.antt', 'before-final'), ('laws/specs/Run.antt', 'starts-with'), ('laws/specs/Entries.antt', 'units-from'),
    ('laws/specs/Entries.antt', 'front_of'), ('laws/specs/Fault.antt', 'fault-from'), ('laws/specs/Keys.antt', 'same_key'),
    ('laws/specs/Keys.antt', 'key-length'), ('laws/specs/Entry.antt', 'entry-units'), ('laws/specs/Entry.antt', 'units-used'),
    ('promises/specs/Trials.antt', 'one_entry'), ('names/proofs/Letters.antt', 'one-of'), ('building/proofs/Forms.antt', 'closed-in'),
    ('storing/proofs/Adding.antt', 'key-units'), ('original/specs/Laws.antt', 'at-end'), ('quoting/proofs/Midway.antt', 'at-end'),
    ('forms/proofs/Putting.antt', 'at-end'), ('original/specs/ForExitStatus.antt', 'high_bit'), ('entries/proofs/Marking.antt', 'is-equals'),
    ('requests/proofs/Signing.antt', 'is_negative'),
}


def snake(name):
    """The spelling of today: `keyOf` is `key_of`, `next-lent` is `next_lent`. A fact keeps its capital."""
    if not re.match(r"^[A-Za-z]", name) or not re.match(r"^[A-Za-z0-9_'-]+$", name):
        return name
    if name[0].islower():
        name = re.sub(r"(?<=[a-z0-9])([A-Z])", lambda m: '_' + m.group(1).lower(), name)
    return name.replace('-', '_')


def files(ending):
    for folder, dirs, names in os.walk(CRATES):
        dirs[:] = sorted(d for d in dirs if d != 'out')
        for f in sorted(names):
            if f.endswith(ending):
                yield os.path.join(folder, f)


def short(path):
    return os.path.relpath(path, CRATES)


def declared(text):
    """The names that a file declares, and the fields of its records."""
    names, fields, inside = [], [], None
    for line in text.split('\n'):
        if line.strip() == '' or line.lstrip().startswith('--'):
            continue
        indent = len(line) - len(line.lstrip())
        head = HEAD.match(line)
        if head:
            inside = (head.group(2), indent)
            names.append(head.group(3))
            continue
        if inside and indent <= inside[1]:
            inside = None
        found = DECLARES.match(line)
        several = found.group(3).split(' ') if found else []
        if not several or several[0] in NO_NAMES:
            continue
        (fields if inside and inside[0] == 'record' else names).extend(several)
    return names, fields


def is_goal(text, name):
    """A goal's answer, an invariant or a measure has the name that Rattle gives it."""
    return re.search(r"^(?:abbrev )?(?:pub )?%s : (tie|goal)\." % re.escape(name), text, re.M) is not None


texts = {p: open(p, encoding='utf-8').read() for p in files('.antt')}
turned, fields = {}, {}
for path, text in texts.items():
    names, own = declared(text)
    turned[short(path)] = {n: (snake(n) + '_lem' if (short(path), n) in LEMMAS and snake(n) + '_lem' not in names else snake(n))
                           for n in names if not is_goal(text, n)}
    for f in own:
        if snake(f) != f:
            fields[f] = snake(f)

for path, table in turned.items():
    for a, n in collections.Counter(table.values()).items():
        if n > 1:
            sys.exit(f'{path}: names fall together: {[k for k, v in table.items() if v == a]}')


def table_of(crate, text, own):
    """What a file names by which words: its own, and what it imports from the repository's files. The name of a module's alias is no word of ours."""
    table = dict(own)
    for m in IMPORT.finditer(text):
        part = turned.get(f"{m.group(1)}/{m.group(2)}{m.group(3).replace('.', '/')}.antt")
        if not part:
            continue
        for item in m.group(4).split(','):
            name = item.split(' as ')[0].strip()
            if name in part and part[name] != name:
                table[name] = part[name]
    return {k: v for k, v in table.items() if k != v}


def modules_of(text):
    """The files of the repository that a file names as modules, by the name that it uses."""
    found = {}
    for m in MODULE.finditer(text):
        part = turned.get(f"{m.group(1)}/{m.group(2)}{m.group(3).replace('.', '/')}.antt")
        if part:
            found[m.group(4) or m.group(3).split('.')[-1]] = part
    return found


def turn(text, table, modules={}):
    """The text with the table's words, the modules' words and the records' fields turned."""
    def one(m):
        word = m.group(0)
        before = text[m.start() - 1] if m.start() else ' '
        owner = re.search(r"([^\s(){}\[\],;.`\"]+)\.$", text[max(0, m.start() - 60):m.start()]) if before == '.' else None
        if owner and owner.group(1) in modules:
            return modules[owner.group(1)].get(word, word)
        if before == '.' and (m.start() < 2 or text[m.start() - 2] not in ' (') or before == '.' and word in fields:
            return fields.get(word, word)
        if word in fields and (re.match(r"\s*[=:] ", text[m.end():m.end() + 4]) and word not in table):
            return fields[word]
        return table.get(word, word)
    return TOKEN.sub(one, text)


def turn_quoted(text, table):
    """Only what stands between backquotes."""
    return re.sub(r"`[^`\n]*`", lambda m: '`' + turn(m.group(0)[1:-1], table) + '`', text)


def turn_antt(text, table):
    lines, modules = [], modules_of(text)
    for line in text.split('\n'):
        at = line.find('--')
        if at >= 0 and (at == 0 or line[:at].strip() == '' or line[at - 1] == ' '):
            lines.append(turn(line[:at], table, modules) + turn_quoted(line[at:], table))
        else:
            lines.append(turn(line, table, modules))
    return '\n'.join(lines)


def turn_rt(text, table):
    """Of a source only its ghost lines, clauses and ghost members; the code has none of these names."""
    lines = []
    for line in text.split('\n'):
        at = line.find('//')
        code, note = (line, '') if at < 0 or line[:at].count('"') % 2 else (line[:at], line[at:])
        if '"' not in code:
            code = turn(code, table)
        lines.append(code + turn_quoted(note, table))
    return '\n'.join(lines)


changed, tables = 0, {}
for path, text in texts.items():
    table = table_of(short(path).split('/')[0], text, turned[short(path)])
    tables[short(path)] = table
    new = turn_antt(text, table)
    for word in set(table.values()):
        if word not in turned[short(path)] and re.search(r"(?<![\w'.-])%s(?![\w'-])" % re.escape(word), text):
            print(f'look: {short(path)}: {word} stood there already')
    if new != text:
        open(path, 'w', encoding='utf-8').write(new)
        changed += 1
for path in files('.rt'):
    text = open(path, encoding='utf-8').read()
    table = table_of(short(path).split('/')[0], text, {})
    tables[short(path)] = table
    for word in set(table.values()):
        for m in re.finditer(r"(?<![\w'.:-])%s: |let (?:mut )?%s\b|fn %s\b" % (word, word, word), text):
            print(f'look: {short(path)}: {m.group(0)!r} beside the word {word}')
    new = turn_rt(text, table)
    if new != text:
        open(path, 'w', encoding='utf-8').write(new)
        changed += 1
for path in files('.edit'):
    text = open(path, encoding='utf-8').read()
    lines, table = [], {}
    for line in text.split('\n'):
        m = re.match(r'file: (\S+)', line)
        if m:
            table = tables.get(f"{short(path).split('/')[0]}/{m.group(1)}", {})
        if re.match(r'(old|new): ', line):
            line = line[:5] + turn(line[5:], table)
        elif line.startswith('#'):
            line = turn_quoted(line, table)
        lines.append(line)
    new = '\n'.join(lines)
    if new != text:
        open(path, 'w', encoding='utf-8').write(new)
        changed += 1

# The pages name a word where only one turned word has its old spelling.
every = collections.defaultdict(set)
for part in turned.values():
    for k, v in part.items():
        if k != v:
            every[k].add(v)
# `lent-entries` in a page is a question's verb, and no lemma.
pages = {k: next(iter(v)) for k, v in every.items() if len(v) == 1 and k != 'lent-entries'}
for folder, dirs, names in os.walk(os.path.join(ROOT, 'docs')):
    for f in names:
        path = os.path.join(folder, f)
        text = open(path, encoding='utf-8').read()
        new = turn_quoted(text, pages)
        if new != text:
            open(path, 'w', encoding='utf-8').write(new)
            changed += 1
print(f'respell: {sum(1 for t in turned.values() for k, v in t.items() if k != v)} names, {len(fields)} fields, {changed} files')
