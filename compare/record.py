"""Writes the recorded lines of a program and their answers: stdin and stdout in its crate's folder.

usage: record.py answer FOLDER ORACLE | record.py cached FOLDER

A question of `answer`'s first set has the Rust's answer where 01's domain gives one. Every other answer is worked out from the documents by model.py, and
where both answer they must agree. Lines that are no question are answered `bad`. A call of `cached` has the documents' answer, by cache.py, and where
sentences.txt gives one by hand they must agree.
"""
import itertools
import subprocess
import sys

import cache
import histories
import model
import questions


def answer_lines(oracle):
    """The recorded questions and their answers."""
    asked, bad = questions.recorded(), set(questions.bad_questions())
    done = subprocess.run([oracle, 'by'], input=('\n'.join(asked) + '\n').encode(), capture_output=True, check=True)
    answers, by_rust = [], 0
    for q, line in zip(asked, done.stdout.decode().split('\n')):
        whose, told = line.split(' ', 1)
        worked = 'bad' if q in bad else model.answer(q)
        if told != worked and q not in bad and not q.startswith(model.UNASKED):
            sys.exit(f'the Rust and the documents differ: {q[:200]}\n  {told[:200]}\n  {worked[:200]}')
        by_rust += whose == 'rust' and q not in bad
        answers.append(worked)
    print(f'{len(asked)} questions, {by_rust} answered by the Rust, {len(asked) - by_rust} worked out from the documents')
    return asked, answers


def cached_lines():
    """The recorded calls and their answers."""
    by_hand = [row for calls, answers in histories.sentences() for row in zip(calls, answers)]
    for (call, told), worked in zip(by_hand, cache.answers(call for call, _ in by_hand)):
        if told != worked:
            sys.exit(f'sentences.txt and cache.py differ: {call}\n  {told}\n  {worked}')
    calls = list(itertools.chain.from_iterable(histories.recorded()))
    print(f'{len(calls)} calls, {len(by_hand)} of them answered by hand as well')
    return calls, cache.answers(calls)


def main():
    name, folder, *oracle = sys.argv[1:]
    lines = {'answer': answer_lines, 'cached': cached_lines}[name](*oracle)
    for file, held in zip(('stdin', 'stdout'), lines):
        open(f'{folder}/{file}', 'w').write('\n'.join(held) + '\n')


main()
