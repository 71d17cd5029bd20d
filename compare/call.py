"""Makes the calls of histories to `cached`, and reports every difference from the documents with the smallest history that shows it. Exit status 1 on any.

usage: call.py SEED COUNT LOG -- CACHED..      (LOG takes every difference; CACHED.. is the command that starts the program)

The documents answer by cache.py. All histories are put to one run of the program, one behind another.
"""
import collections
import sys
import time

import cache
import histories
from ask import protocol, run


def differs(program, history):
    """Whether the last call of a history is answered otherwise than by the documents."""
    return cache.answers(history)[-1:] != run(program, history)[-1:]


def shorter(program, history, size):
    """The history without every so many calls that can be left out; the last call stays."""
    at = 0
    while at < len(history) - 1:
        fewer = history[:at] + history[min(at + size, len(history) - 1):]
        if differs(program, fewer):
            history = fewer
        else:
            at += size
    return history


def smallest(program, calls):
    """A history from which no call can be left out without the difference in its last answer going away: the end of the calls first, then without others."""
    size = 1
    while size < len(calls) and not differs(program, calls[-size:]):
        size *= 2
    history = calls[-size:]
    while size > 0:
        fewer = shorter(program, history, size)
        size, history = (size // 2 if fewer == history else size), fewer
    return history


def ends():
    """How many bytes a call may have, what a last line without a line feed is, and that a line that is too long changes nothing."""
    longest = b'look 1 0 ' + b'a' * (400000 - 9)
    made, kept = b'make 9\nstore 1 0 a 0:b\n', b'\nlook 1 0 a 0:b\n'
    told = lambda answer: b'ok\nstored "a"{20}b\n' + answer + b'\nhit "a"{20}b\n'
    return [(b'', b''), (b'make 9', b'ok\n'), (b'make 9\nclear', b'ok\nok\n'), (b'\n', b'bad\n'), (b'make 9\r\nclear\n', b'bad\nbad\n'),
            (b'make 9\nlook 1 0 \xc3\xa9\n', b'ok\nbad\n'), (made + longest + kept, told(b'miss')), (made + longest + b'a' + kept, told(b'bad')),
            (made + b'store' + longest[4:-1] + kept, told(b'refused 2 0')), (made + longest * 5 + kept, told(b'bad'))]


def report(program, log, calls, told, answers):
    """Prints equal/total for each verb, and of each kind of difference the first with its smallest history; how many there are."""
    equal, total, differ = collections.Counter(), collections.Counter(), []
    for i, (call, want, have) in enumerate(zip(calls, told, answers)):
        row = 'no call' if want == 'bad' else call.split(' ')[0]
        total[row] += 1
        equal[row] += want == have
        if want != have:
            differ.append((i, want, have))
    for row in sorted(total):
        print(f'cached {row:8} {equal[row]} / {total[row]} equal to the documents')
    with open(log, 'w') as file:
        file.writelines(f'call {i + 1}: {calls[i]}\n  expected {want}\n  answered {have}\n' for i, want, have in differ)
    first = {tuple(line.split(' ')[0] for line in (calls[i], want, have)): (i, want, have) for i, want, have in reversed(differ)}
    for i, want, have in sorted(first.values()):
        print(f'DIFFERS: call {i + 1}, {calls[i][:200]}\n  expected {want[:200]}\n  answered {have[:200]}\n  the smallest history that ends so:')
        print(''.join(f'    {call[:200]}\n' for call in smallest(program, calls[:i + 1])), end='')
    return len(differ)


def main():
    seed, count, log, _, *program = sys.argv[1:]
    calls = [call for history in histories.compared(int(seed), int(count) // 2) for call in history]
    told = cache.answers(calls)
    started = time.monotonic()
    answers = run(program, calls)
    took = time.monotonic() - started
    if len(answers) != len(calls):
        sys.exit(f'{len(calls)} calls, {len(answers)} answers')
    differ = report(program, log, calls, told, answers)
    wrong = protocol(program, ends())
    print(f'seed {seed}: {len(calls) - differ} of {len(calls)} equal, {differ + wrong} differences; cached took {took:.1f} s')
    sys.exit(1 if differ + wrong else 0)


if __name__ == '__main__':
    main()
