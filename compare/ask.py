"""Asks the Rust and `answer` the same questions, and reports every difference with its smallest form. Exit status 1 on any.

usage: ask.py ORACLE SEED COUNT LOG -- ANSWER..      (LOG takes every difference; ANSWER.. is the command that starts the program)

Questions that show what is lent, and those on the entries of a block, are answered by the documents (model.py): the Rust lends nothing and reads no block.
"""
import collections
import itertools
import re
import subprocess
import sys
import time

import model
import questions

# How many differences of each verb are shown.
SHOWN = 20


def run(command, lines):
    done = subprocess.run(command, input=('\n'.join(lines) + '\n').encode(), capture_output=True, check=True)
    return done.stdout.decode().split('\n')[:-1]


class Judge:
    def __init__(self, oracle, answer):
        self.oracle, self.answer = oracle, answer

    def expected(self, asked):
        """Whose answer it is, and the answer."""
        told = [line.split(' ', 1) for line in run([self.oracle, 'by'], asked)]
        return [('documents', by_model(q)) if q.startswith(model.UNASKED) else tuple(t) for q, t in zip(asked, told, strict=True)]

    def smallest(self, question, was):
        """A question from which nothing more can be left out without the difference going away."""
        while fewer := list(smaller(question)):
            answers = zip(fewer, self.expected(fewer), run(self.answer, fewer))
            found = [q for q, (_, want), have in answers if want != have and (have == 'bad') == (was == 'bad')]
            if not found:
                break
            question = found[0]
        return question


def by_model(question):
    try:
        return model.answer(question)
    except (ValueError, IndexError):
        return 'bad'


def smaller(question):
    """The question without some words (a record is three or four), and without some units of one word, many of them first."""
    words = question.split(' ')
    for i in range(1, len(words)):
        yield from (' '.join(words[:i] + words[i + n:]) for n in (4, 3, 1))
        units = re.findall(r'{[^}]*}|[^{]', words[i])
        size = len(units) // 2
        while size > 0 and (size > 1 or len(units) < 2000):
            for at in range(0, len(units), size):
                word = ''.join(units[:at] + units[at + size:])
                yield ' '.join(words[:i] + [word + '{}' * (word == '' or word.endswith(':'))] + words[i + 1:])
            size //= 2


def protocol(program, asked):
    """Whether the program answers these bytes as the protocol says, whatever they ask; how many times it does not."""
    wrong = [text for text, want in asked if subprocess.run(program, input=text, capture_output=True, check=True).stdout != want]
    for text in wrong:
        print(f'DIFFERS: {len(text)} bytes that begin with {text[:40]}')
    print(f'protocol {len(asked) - len(wrong)} / {len(asked)} as the protocol says')
    return len(wrong)


def ends():
    """How many bytes a question may have, and what a last line without a line feed is."""
    longest = b'read exe ' + b'a' * (400000 - 9)
    return [(b'', b''), (b'suffix a.bat', b'ok 1\n'), (b'suffix a.bat\n', b'ok 1\n'), (b'\n', b'bad\n'), (b'suffix a.bat\r\n', b'bad\n'),
            (b'suffix \xc3\xa9\n', b'bad\n'), (longest + b'\nsuffix x\n', b'refused 2 0\nok 0\n'), (longest + b'a\nsuffix x\n', b'bad\nok 0\n'),
            (longest * 5 + b'\nsuffix x', b'bad\nok 0\n')]


def report(judge, log, asked, told, answers):
    """Prints equal/total for each verb and the shortest differences; how many there are."""
    equal, total, differ = collections.Counter(), collections.Counter(), []
    for q, (whose, want), have in zip(asked, told, answers):
        row = (q.split(' ')[0], 'the Rust' if whose == 'rust' else 'the documents')
        total[row] += 1
        equal[row] += want == have
        if want != have:
            differ.append((row[0], len(q), q, want, have))
    for row in sorted(total):
        print(f'{row[0]:12} {equal[row]} / {total[row]} equal to {row[1]}')
    differ.sort()
    with open(log, 'w') as file:
        file.writelines(f'{q}\n  expected {want}\n  answered {have}\n' for _, _, q, want, have in differ)
    for _, of_verb in itertools.groupby(differ, lambda d: d[0]):
        for _, _, q, want, have in itertools.islice(of_verb, SHOWN):
            print(f'DIFFERS: {q[:200]}\n  expected {want[:200]}\n  answered {have[:200]}\n  smallest {judge.smallest(q, have)[:200]}')
    return len(differ)


def main():
    oracle, seed, count, log, _, *answer = sys.argv[1:]
    judge = Judge(oracle, answer)
    asked = questions.compared(int(seed), int(count))
    told = judge.expected(asked)
    started = time.monotonic()
    answers = run(answer, asked)
    took = time.monotonic() - started
    if len(answers) != len(asked):
        sys.exit(f'{len(asked)} questions, {len(answers)} answers')
    differ = report(judge, log, asked, told, answers)
    wrong = protocol(answer, ends())
    print(f'seed {seed}: {len(asked) - differ} of {len(asked)} equal, {differ + wrong} differences; answer took {took:.1f} s')
    sys.exit(1 if differ + wrong else 0)


if __name__ == '__main__':
    main()
