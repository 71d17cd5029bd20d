"""Wrong variants of what two programs answer by, and how many recorded answers of the program catch each. Of `answer` these are 01's "Errors easily made", the
limit of built lines and the block reader, of `cached` the cache.

usage: wrong.py [PROGRAM ..]        (from any folder; both programs where none is named)

Each variant is made in a scratch copy, compiled with no proof (`rt try`) and given the recorded lines. Exit status 1 if one of them answers everything
as recorded, or the code as it stands does not.
"""
import os
import resource
import shutil
import subprocess
import sys
import tempfile

ROOT = os.path.dirname(os.path.dirname(os.path.abspath(__file__)))

# Of each program its variants: what one does, a file, and each text that is replaced in it.
VARIANTS = {
    'answer': [
        ('the code as it stands', 'answer/src/main.rt', []),
        ('an empty argument at the end of a line dropped', 'reading/src/laying.rt',
         [('        count += 1;\n', '        if 0 < took.units {\n            count += 1;\n        } else if i + took.used < line.len() {\n'
           '            count += 1;\n        }\n')]),
        ('argument 0 read with the backslash rule', 'reading/src/laying.rt',
         [('let first = read_first(line, text);', 'let first = read_later(line, text);')]),
        ('all backslashes doubled', 'quoting/src/escapes.rt',
         [('    stores::put(out, spot.to, unit);\n',
           '    if unit == 92 {\n        stores::put(out, spot.to, 92);\n        stores::put(out, spot.to + 1, 92);\n'
           '        return Spot { to: spot.to + 2, k: 0 };\n    }\n    stores::put(out, spot.to, unit);\n')]),
        ('a quote mark of a batch argument escaped with a backslash', 'quoting/src/escapes.rt',
         [('if batch { QUOTE } else { BACKSLASH }', 'if batch { BACKSLASH } else { BACKSLASH }')]),
        ('NUL tested before CR in a batch argument', 'adding/src/judging.rt',
         [('    if breaks {\n', '    if nul {\n        return Err(Refusal::Nul(place));\n    }\n    if breaks {\n')]),
        ('units written before a later argument is refused', 'building/src/turns.rt',
         [('        Pass::Units => judging::judge_units(style.batch, text, work.units, at, arg)?,\n',
           '        Pass::Units => {\n            let _early = writing::add_argument(classes, out, work.units, text, arg, style);\n'
           '            judging::judge_units(style.batch, text, work.units, at, arg)?\n        }\n')]),
        ('a line built of one unit more than its limit', 'adding/src/limits.rt',
         [('if batch { BATCH_LIMIT } else { LINE_LIMIT }', 'if batch { BATCH_LIMIT + 1 } else { LINE_LIMIT + 1 }')]),
        ('an entry of a block split at its first unit', 'entries/src/marks.rt', [('let second = 1;', 'let second = 0;')]),
    ],
    'cached': [
        ('the code as it stands', 'cached/src/main.rt', []),
        ('the force flag not compared', 'finding/src/lib.rt', [('index[at + 1] != flag_word(lent.force_quotes)', 'index[at + 1] != index[at + 1]')]),
        ('kinds not compared', 'keys/src/matching.rt', [('usize::from(key[at]) != kind as usize', 'usize::from(key[at]) > 1 + kind as usize')]),
        ('where an argument ends not compared', 'keys/src/matching.rt', [('usize::from(key[at + 1]) != content.len()', 'usize::from(key[at + 1]) > 65536 + content.len()')]),
        ('equality not checked after the fingerprint', 'finding/src/lib.rt',
         [('    is_key(key, lent)\n', '    is_key(key, lent) | true\n')]),
        ('only the first entry of a fingerprint looked at', 'finding/src/lib.rt',
         [('units.len()));\n        }\n', 'units.len()));\n        }\n        if index[at] == fingerprint {\n            return None;\n        }\n')]),
        ('the line of the first entry handed back', 'finding/src/lib.rt', [('line_at(index, at, units.len())', 'line_at(index, 2, units.len())')]),
        ('full at 63 entries', 'cache/src/lib.rt', [('PLACES: usize = 64;', 'PLACES: usize = 63;')]),
        ('the two units an argument not counted', 'keys/src/laying.rt', [('size + 2 + content.len()', 'size + content.len()')]),
        ('4 where all entries are used', 'storing/src/lib.rt', [('if full => Refusal::Places', 'if full => Refusal::Room')]),
        ('a held line answered as stored', 'cache/src/lib.rt', [('Ok(Cached::Held { start, units })', 'Ok(Cached::Stored { start, units })')]),
    ],
}


# `rt try` shows no answer past 1 MiB: the lines of a program that keeps nothing between two of them are tried in parts of so many answers' characters.
PART = 500000
KEEPS = ('cached',)


def made(scratch, path, changes):
    """A copy of the crates' code with these changes."""
    crates = os.path.join(scratch, 'crates')
    shutil.copytree(os.path.join(ROOT, 'crates'), crates, ignore=shutil.ignore_patterns('must-fail', 'out', 'data', 'stdin', 'stdout', 'args'))
    shutil.copy(os.path.join(ROOT, 'crates.txt'), scratch)
    text = open(os.path.join(crates, path)).read()
    for old, new in changes:
        if text.count(old) != 1:
            sys.exit(f'{path} no longer has just one {old!r}')
        text = text.replace(old, new)
    open(os.path.join(crates, path), 'w').write(text)


def larger_stack():
    """What is compiled without optimisation holds each of its arrays twice."""
    resource.setrlimit(resource.RLIMIT_STACK, (64 << 20, resource.getrlimit(resource.RLIMIT_STACK)[1]))


def lines_of(name, file):
    return open(os.path.join(ROOT, 'crates', name, file)).read().split('\n')[:-1]


def parts(name):
    """The recorded lines and answers, cut into parts that can be tried."""
    put, recorded = lines_of(name, 'stdin'), lines_of(name, 'stdout')
    first, size = 0, 0
    for i, answer in enumerate(recorded):
        size += len(answer.encode()) + 1
        if size > PART and name not in KEEPS:
            yield put[first:i], recorded[first:i]
            first, size = i, len(answer.encode()) + 1
    yield put[first:], recorded[first:]


def caught(name, path, changes):
    """The recorded lines of a program that a variant answers otherwise, the shortest first."""
    with tempfile.TemporaryDirectory() as scratch:
        made(scratch, path, changes)
        cases = os.path.join(scratch, 'cases')
        os.makedirs(cases)
        cut = list(parts(name))
        for i, (put, _) in enumerate(cut):
            open(os.path.join(cases, f'part{i:03}'), 'w').write('\n'.join(put) + '\n')
        ran = subprocess.run(['rt', 'try', '--cases', cases], cwd=os.path.join(scratch, 'crates', name), capture_output=True, text=True,
                             preexec_fn=larger_stack)
    found = []
    for i, (put, recorded) in enumerate(cut):
        _, head, rest = ran.stdout.partition(f'== part{i:03}\n')
        if not head:
            sys.exit(ran.stdout[-2000:] + ran.stderr[-2000:])
        answers = rest.split('\n')[:len(put)]
        answers += ['none'] * (len(put) - len(answers))
        found += [line for line, want, have in zip(put, recorded, answers) if want != have]
    return sorted(found, key=lambda line: (len(line), line))


def main():
    status = 0
    for name in sys.argv[1:] or VARIANTS:
        for what, path, changes in VARIANTS[name]:
            lines = caught(name, path, changes)
            print(f'{name}, {what}: {len(lines)} of {len(lines_of(name, "stdin"))} answers differ' + (f', the shortest on: {lines[0][:80]}' if lines else ''))
            if bool(lines) != bool(changes):
                status = 1
    sys.exit(status)


main()
