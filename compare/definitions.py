"""Puts a sample of short questions to the definitions of the crate `rules`, in a scratch repository outside this one.

usage: definitions.py ORACLE SEED COUNT REPOSITORY SCRATCH

One statement a shape lists what the definitions compute beside the Rust's answers (the documents', where the Rust says nothing) and is closed by
`refl`; `rt check` judges it. The scratch repository holds a copy of `rules` and the crate `judged`.
"""
import collections
import os
import shutil
import subprocess
import sys

import model
import questions

HEAD = '''-- The definitions beside the answers. Assumes nothing.
use Rattle.std.specs.Prelude.{{ℕ, ◌≡◌, refl, Bool, true, false, List, [], ◌∷◌, ℤ, pos, negsuc}}
use Rattle.rules.specs.Outcome.{{Outcome, done, refused}}
use Rattle.rules.specs.Record.{{Entry}}
use Rattle.rules.specs.{module}.{{{names}}}

computed : List ({type})
unfolding {unfolded}
computed = {left}

stated : List ({type})
stated = {right}

hold : computed ≡ stated
unfolding computed stated {unfolded}
hold = refl
'''


def listed(items):
    return ' ∷ '.join([f'({i})' for i in items] + ['[]'])


def units(xs):
    return ' ∷ '.join([str(x) for x in xs] + ['[]'])


def flag(word):
    return 'true' if word == '1' else 'false'


def outcome(answer, show):
    word = answer.split(' ')
    return f'refused {word[1]} {word[2]}' if word[0] == 'refused' else f'done ({show(word)})'


def line(word):
    return units(model.units(word[1]))


def arguments(word):
    return listed([units(model.units(w)) for w in word[2:]])


def entries(block, spans):
    """The entries of a block that a span table names."""
    part = lambda start, size: units(block[start:start + size])
    return listed([f'record {{ key = {part(*spans[i:i + 2])}; value = {part(*spans[i + 2:i + 4])} }}' for i in range(0, len(spans), 4)])


def block_rows(block, lent):
    """What a block is read as, and its units used with the numbers of the table behind them."""
    number, place, count, used, spans = model.lent_entries(block, [7] * lent)
    reads = f'block_reading ({units(block)}) {lent}'
    if number:
        return [('entries', reads, f'refused {number} {place}')]
    given = f'(entries_read ({units(block)}))'
    return [('entries', reads, f'done ({entries(block, spans[:4 * count])})'),
            ('used', f'units_used {given} ∷ entry_spans {given}', units([used] + spans[:4 * count]))]


def rows_of(q, a):
    """The shape of each definition that answers, what it computes, and what that should be."""
    verb, *w = q.split(' ')
    room = 4000000
    if verb in ('entries', 'lent-entries'):
        return block_rows(model.units(w[0]), 4000 if verb == 'entries' else len(w) - 1)
    if verb == 'read':
        return [(verb, f'reading ({units(model.units(w[0]))}) ({units(model.units(w[1]))}) {room} {room}', outcome(a, arguments))]
    if verb in ('line', 'batch'):
        records, text = model.flat(w[2:], False)
        name = 'command_line' if verb == 'line' else 'batch_command_line'
        return [(verb, f'{name} {flag(w[0])} ({units(model.units(w[1]))}) ({units(records)}) ({units(text)}) {room}', outcome(a, line))]
    if verb == 'env':
        records, text = model.flat(w, True)
        return [(verb, f'environment_block ({units(records)}) ({units(text)}) {room}', outcome(a, line))]
    if verb == 'suffix':
        return [(verb, f'has_batch_suffix ({units(model.units(w[0]))})', flag(a.split(' ')[1]))]
    told = a.split(' ')
    code = int(told[2])
    return [(verb, f'status_outcome {w[0]} {room}', f'done ({line(told)})'),
            ('code', f'signed_code {w[0]}', f'pos {code}' if code >= 0 else f'negsuc {-code - 1}')]


# Of each shape: the module of `rules`, the names that are asked of it, of which the first unfolds, and the type.
SHAPES = {'read': ('Reading', 'reading', 'Outcome (List (List ℕ))'), 'line': ('Building', 'command_line', 'Outcome (List ℕ)'),
          'batch': ('Building', 'batch_command_line', 'Outcome (List ℕ)'), 'env': ('Block', 'environment_block', 'Outcome (List ℕ)'),
          'suffix': ('Suffix', 'has_batch_suffix', 'Bool'), 'status': ('Status', 'status_outcome', 'Outcome (List ℕ)'), 'code': ('Status', 'signed_code', 'ℤ'),
          'entries': ('BlockReading', 'block_reading', 'Outcome (List Entry)'), 'used': ('BlockReading', 'entries_read, units_used, entry_spans', 'List ℕ')}


def main():
    oracle, seed, count, repository, scratch = sys.argv[1], int(sys.argv[2]), int(sys.argv[3]), sys.argv[4], sys.argv[5]
    asked = [q for q in questions.random_questions(seed + 1000000, count * 3) if len(q) < 220][:count]
    asked += [q for q in questions.faults() if hash_of(q) % 5 == 0]
    done = subprocess.run([oracle], input=('\n'.join(asked) + '\n').encode(), capture_output=True, check=True)
    blocks = [*questions.short_blocks(4), *questions.blocks_lent(9), *questions.cut_blocks(), *questions.random_blocks(seed + 1000000, count // 4)]
    told = [*zip(asked, done.stdout.decode().split('\n')), *((q, model.answer(q)) for q in blocks)]
    rows = collections.defaultdict(list)
    numbers = collections.Counter()
    for q, a in told:
        numbers[' '.join(a.split(' ')[:2]) if a.startswith('refused') else 'ok'] += 1
        for name, left, right in rows_of(q, a):
            rows[name].append((left, right))
    crate = os.path.join(scratch, 'crates/judged')
    os.makedirs(crate + '/src')
    os.makedirs(crate + '/specs')
    shutil.copytree(os.path.join(repository, 'crates/rules'), os.path.join(scratch, 'crates/rules'), ignore=shutil.ignore_patterns('must-fail', 'out'))
    open(os.path.join(scratch, 'crates.txt'), 'w').write('rules:\njudged: rules\n')
    open(crate + '/src/lib.rt', 'w').write('// No code.\n#![tactic(auto)]\n')
    open(crate + '/specs/Lib.antt', 'w').write(''.join(f'pub mod {v.capitalize()}\n' for v in sorted(rows)))
    for verb, pairs in rows.items():
        module, names, type_ = SHAPES[verb]
        left, right = listed([p[0] for p in pairs]), listed([p[1] for p in pairs])
        text = HEAD.format(module=module, names=names, unfolded=names.split(',')[0], type=type_, left=left, right=right)
        open(f'{crate}/specs/{verb.capitalize()}.antt', 'w').write(text)
    ran = subprocess.run(['rt', 'check'], cwd=crate, capture_output=True, text=True)
    if ran.returncode:
        print(ran.stdout[-4000:], ran.stderr[-2000:])
        sys.exit('the definitions and the answers differ')
    for verb in sorted(rows):
        print(f'{verb:8} {len(rows[verb])} definitions computed, all equal')
    print(f'{len(told)} questions, by answer:', ', '.join(f'{k} {v}' for k, v in sorted(numbers.items())))


def hash_of(text):
    return sum(ord(c) * (i + 1) for i, c in enumerate(text))


main()
