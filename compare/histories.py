"""Histories of calls for `cached`: those of sentences.txt, lines that are no call, stores filled to the brim, the longest lines, and seeded random ones."""
import os
import random

from cache import ENTRIES, ROOM, UNITS, asked_for, key_of, used
from model import LINE, command_line, shown, units
from questions import POOL, SPICY, no_nul, word

SENTENCES = os.path.join(os.path.dirname(os.path.abspath(__file__)), 'sentences.txt')
# Both ends, and some that agree in their low bits or in their high ones.
FINGERPRINTS = [0, 1, 2, 64, 65, 255, 256, 65537, 1 << 32, (1 << 32) + 1, 1 << 63, (1 << 63) + 1, (1 << 64) - 2, (1 << 64) - 1]


# A pair is a fingerprint and a key, the words FP F PROGRAM [K:TEXT ..] that follow `look` or `store`.

def size(pair):
    """The units that an entry of this pair uses."""
    asked = asked_for(pair.split(' ')[1:])
    return used(key_of(*asked), command_line(*asked, ROOM))


def sizes(pairs):
    return sum(map(size, pairs))


def sentences():
    """The histories of sentences.txt, the calls of each and the answers."""
    for text in open(SENTENCES).read().split('\n\n'):
        rows = [row.split('  ', 1) for row in text.rstrip('\n').split('\n') if not row.startswith('#')]
        if rows:
            yield [call for call, _ in rows], [answer.strip() for _, answer in rows]


def no_calls():
    """Lines that are no call."""
    makes = ['', ' ', ' x', ' 01', ' -1', ' +1', ' 1_0', ' 400001', ' 18446744073709551616', '  9', ' 9 ', ' 9 9', 's 9', '{20}9', ' 9{0}']
    clears = [' now', ' ', 's', ' 0', '{20}']
    looks = ['', ' 1', ' 1 0', ' 1 0 ', ' 1  0 a', ' 1 2 a', ' 1 00 a', ' 1 - a', ' x 0 a', ' 01 0 a', ' -1 0 a', ' 18446744073709551616 0 a', ' 0 a',
             ' 1 0 a b', ' 1 0 a 0', ' 1 0 a :b', ' 1 0 a 0:', ' 1 0 a 00:b', ' 1 0 a 4294967296:b', ' 1 0 a -1:b', ' 1 0 a x:b', ' 1 0 a 0:b ', ' 1 0 {61}',
             ' 1 0 {', ' 1 0 }', ' 1 0 {10000}', ' 1 0 {2A0}', ' 1 0 a 0:{020}', ' 1 0 a 0:{}b', ' 1 0 a 2:b c', ' 1 0 a{0} b', ' 1 0 a\tb']
    verbs = [('make', makes), ('clear', clears), ('look', looks), ('store', looks)]
    return ['', ' ', '#', ' make 9', 'MAKE 9', ' clear', 'line 0 a', 'hit', *(verb + rest for verb, rests in verbs for rest in rests)]


def no_changes():
    """Each line that is no call in a store with an entry and units for one more of 4 units: both are there afterwards."""
    return ['make 13', 'store 1 0 a 0:b', *no_calls(), 'look 1 0 a 0:b', 'store 1 0 a', 'store 2 0 {}']


def every_unit():
    """An entry whose program and argument have up to 17 units, and lookups with one unit changed at each place."""
    for n in (1, 7, 8, 9, 16, 17):
        text = 'abcdefghijklmnopq'[:n]
        near = [text[:i] + text[i].upper() + text[i + 1:] for i in range(n)]
        keys = [f'{other} 0:{text}' for other in near] + [f'{text} 0:{other}' for other in near] + [f'{text} 0:{text}']
        yield ['make 100', f'store 7 0 {text} 0:{text}', *('look 7 0 ' + key for key in keys)]


def every_argument():
    """An entry with many arguments, and lookups with the kind or the text of each changed."""
    many = [f'0:{letter}' for letter in 'abcdefghijkl']
    near = [many[:i] + [other] + many[i + 1:] for i, held in enumerate(many) for other in ('1' + held[1:], held.upper())]
    return ['make 100', 'store 7 0 p ' + ' '.join(many), *('look 7 0 p ' + ' '.join(words) for words in near + [many])]


def filled():
    """All entries used, by one key, by one fingerprint and by several of each: with units left, with none left, and one unit short of the last.

    The next one is refused by 3, which comes before 4 and behind 1 and 5. What is held is still found, and is said to be held.
    """
    keys = [f'0 k 0:{shown([97 + i % 26, 65 + i // 26])}' for i in range(ENTRIES + 1)]
    ways = [[f'{f} {keys[0]}' for f in range(ENTRIES + 1)], [f'7 {k}' for k in keys], [f'{f} {k}' for f in FINGERPRINTS for k in keys[:5]][:ENTRIES + 1]]
    for pairs in ways:
        first, middle, last, more = pairs[0], pairs[31], pairs[-2], pairs[-1]
        for left in (1000, size(more), 0, -1):
            yield [f'make {sizes(pairs[:-1]) + left}', *('store ' + p for p in pairs), 'store 3 0 {}', f'store {more}', f'look {more}',
                   *(f'{verb} {p}' for verb in ('look', 'store') for p in (first, middle, last)), 'store 7 0 p 0:a 2:b', 'store 7 0 p{0}', 'store 7 0 p 0:{0}',
                   'look 7 0 p 2:b', 'look 7 0 p{0}', 'clear', f'look {first}', f'look {last}', f'store {more}', f'look {more}', f'store {first}']


def long_lines(kind, letter, each):
    """A line at its limit and one unit past it, by one argument of letters that take so many units each in the line.

    2 comes before 4 and before 3, and no lookup gives it. The longest line is held where its units are just there.
    """
    at, over = (f'9 0 {name} {kind}:{letter * ((LINE - 4) // each)}' for name in ('p', 'pq'))
    full = [f'{f} 0 {{}}' for f in range(ENTRIES)]
    yield ['make 0', f'store {over}']
    yield [f'make {sizes(full)}', *('store ' + p for p in full), f'store {over}']
    yield [f'make {size(at) - 1}', f'store {at}', f'look {over}', f'make {size(at)}', f'store {at}']
    yield [f'make {size(at) + 1}', f'store {at}', f'store {over}', f'look {at}', f'look {over}', f'store {at}', 'store 1 0 {}', 'clear', f'look {at}']
    yield [f'make {UNITS}', *(f'{verb} {f}{at[1:]}' for f in range(8) for verb in ('store', 'look')), f'store {at}', 'look 0 0 p']


def put(fingerprint, force, kinds, texts):
    """The pair of these; the first text is the program."""
    return ' '.join([f'{fingerprint} {force} {shown(texts[0])}'] + [f'{kind}:{shown(text)}' for kind, text in zip(kinds, texts[1:])])


def taken(pair):
    """What `put` makes a pair of."""
    fingerprint, force, program, *arguments = pair.split(' ')
    halves = [argument.split(':', 1) for argument in arguments]
    return fingerprint, int(force), [int(kind) for kind, _ in halves], [units(program)] + [units(text) for _, text in halves]


def cut(r, whole):
    """A pair whose program and arguments are these units one after another: cut anywhere, of any kinds, quotes forced or not."""
    ends = sorted(r.randrange(len(whole) + 1) for _ in range(r.randrange(5)))
    return put(0, r.randrange(2), [r.randrange(2) for _ in ends], [whole[start:end] for start, end in zip([0] + ends, ends + [len(whole)])])


def changed(r, pair):
    """The pair with its force flag, a kind, a unit or the place where a text ends changed, or with an empty argument more."""
    fingerprint, force, kinds, texts = taken(pair)
    way, at = r.randrange(5), r.randrange(len(texts))
    if way == 0:
        force = 1 - force
    elif way == 1 and texts[at]:
        texts[at][r.randrange(len(texts[at]))] = r.choice((97, 98, 32, 34, 92))
    elif way < 3 or at == 0:
        kinds, texts = kinds + [r.randrange(2)], texts + [[]]
    elif way == 3:
        kinds[at - 1] = 1 - kinds[at - 1]
    else:
        both = texts[at - 1] + texts[at]
        end = r.randrange(len(both) + 1)
        texts[at - 1:at + 1] = both[:end], both[end:]
    return put(fingerprint, force, kinds, texts)


def spoilt(r, pair):
    """The pair with a NUL in its program or in an argument, or with a kind that is none."""
    fingerprint, force, kinds, texts = taken(pair)
    at = r.randrange(len(texts))
    if at > 0 and r.random() < .6:
        kinds[at - 1] = r.choice((2, 3, 4294967295))
    else:
        texts[at].insert(r.randrange(len(texts[at]) + 1), 0)
    return put(fingerprint, force, kinds, texts)


def random_pairs(r):
    """Three to eight keys that are easily taken for each other, one text cut in many ways or a key a little changed, in any order, under few fingerprints,
    or under so many that all entries are used."""
    whole = no_nul(word(r, r.choice((3, 5, 9, 17)), r.choice((POOL, SPICY, [97, 98, 32], [1, 2, 97]))))
    pairs = [cut(r, whole)]
    for _ in range(r.randrange(2, 8)):
        pairs.append(cut(r, whole) if r.random() < .3 else changed(r, r.choice(pairs)))
    fingerprints = r.sample(FINGERPRINTS, r.choice((1, 2, 2, 3, 4, 13)))
    pairs = list({f'{f}{pair[1:]}': 0 for f in fingerprints for pair in pairs})
    r.shuffle(pairs)
    return pairs


def random_room(r, pairs):
    """Units for so many of the pairs in their order, one fewer or one more, or for all of them, or few."""
    some, every = sizes(pairs[:r.randrange(1, len(pairs) + 1)]), sizes(pairs)
    return r.choice((r.randrange(20), some - 1, some, some + 1, every, 2 * every, UNITS, UNITS))


def random_call(r, pairs):
    """Mostly a lookup or a storing of one of the pairs."""
    pair, verb, dice = r.choice(pairs), r.choice(('look', 'store')), r.random()
    if dice < .8:
        return f'{verb} {pair}'
    if dice < .86:
        return f'{verb} {changed(r, pair)}'
    if dice < .93:
        return f'{verb} {spoilt(r, spoilt(r, pair) if dice < .88 else pair)}'
    if dice < .97:
        return r.choice(no_calls())
    return 'clear' if dice < .985 else f'make {random_room(r, pairs)}'


def random_history(r):
    """A making, perhaps a storing of each pair in their order, which meets the end of the units exactly, and many calls."""
    pairs = random_pairs(r)
    stores = [f'store {pair}' for pair in pairs] * (r.random() < .7)
    return [f'make {random_room(r, pairs)}'] + stores + [random_call(r, pairs) for _ in range(r.choice((20, 60, 120)))]


def random_histories(seed, count):
    """Seeded histories of so many calls together, or a few more."""
    r, calls = random.Random(seed), 0
    while calls < count:
        history = random_history(r)
        calls += len(history)
        yield history


def fixed():
    """The short histories that are no random ones. The first comes before any making."""
    return [no_calls(), *(calls for calls, _ in sentences()), no_changes(), *every_unit(), every_argument(), *filled()]


def compared(seed, count):
    """What `compare/run` calls."""
    return [*fixed(), *long_lines(1, 'a', 1), *long_lines(0, '"', 2), *random_histories(seed, count)]


def recorded():
    """The histories whose answers are kept in the repository, with few of the longest lines."""
    return [*fixed(), *list(long_lines(1, 'a', 1))[:1], *list(long_lines(0, '"', 2))[1:3], *random_histories(20, 2400)]
