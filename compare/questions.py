"""Questions for `answer`: exhaustive short ones, every limit one below, at and above, seeded random ones, and those that show what is lent."""
import itertools
import random

from model import BATCH, BLOCK, LINE, READ, answer, environment_block, inner, shown, units

SIX = [32, 9, 34, 92, 97, 98]
# one unit of each class and of each end of a range that a rule names, surrogates paired and alone
POOL = [0, 9, 10, 13, 32, 34, 35, 37, 46, 47, 48, 57, 58, 61, 64, 65, 90, 91, 92, 95, 96, 97, 98, 122, 123, 125, 126, 127, 128, 159, 160, 255, 256, 0x430,
        0xd800, 0xdbff, 0xdc00, 0xdfff, 0xfffe, 0xffff]
SPICY = [32, 9, 34, 34, 34, 92, 92, 92, 37, 97, 98, 61]
# Blocks that 02 speaks of: none, one or two entries, where an entry splits, each cause of refusal 8 and its place, and units behind the final NUL.
BLOCKS = ['{0}{0}', '{}', '{0}', '{0}A', '{0}A={0}{0}', '{0}{0}A', '=C:=x{0}{0}', '=={0}{0}', '==x{0}{0}', 'A==x={0}{0}', '={0}{0}', '=x{0}{0}', 'A{0}{0}',
          'A=', 'A={0}', 'A={0}B', 'A={0}B{0}', 'A=b{0}C=d{0}{0}rest', 'A=b{0}C=d{0}{0}', 'A=b{0}C=d{0}', '=C:=x{0}K={0}{0}{5}', 'A={0}{0}', 'A:=b:{0}{0}',
          'A={0}B={0}C={0}{0}', '{7b}={7d}{0}{430}={ffff}{0}{0}{0}']


def short_lines(most):
    """Every line of at most so many units over space, tab, quote, backslash, a and b."""
    for n in range(most + 1):
        for line in itertools.product(SIX, repeat=n):
            yield 'read exe ' + shown(list(line))


def short_arguments(most):
    """Every argument of at most so many units over those six, in each form."""
    for n in range(most + 1):
        for text in itertools.product(SIX, repeat=n):
            word = shown(list(text))
            for force in '01':
                yield f'line {force} exe 0:{word}'
                yield f'batch {force} a.bat 0:{word}'


def each_unit(units=None):
    """Every unit below 260 and each of POOL, or those given, alone, before and behind a letter, in each form."""
    for u in units or list(range(1, 260)) + POOL:
        for text in ([u], [97, u], [u, 97]):
            yield 'line 0 exe 0:' + shown(text)
            yield 'batch 0 a.bat 0:' + shown(text)
            yield 'batch 0 a.bat 1:' + shown(text)


def each_alone():
    """Every unit below 260 alone in a batch line, where its class decides on quotes."""
    return ['batch 0 a.bat 0:' + shown([u]) for u in range(260)]


def around(limit):
    """A limit one below, at and above."""
    return limit - 1, limit, limit + 1


def short_ones(n):
    """Arguments of seven units that take n units with their spaces; the last has up to fourteen."""
    return ' 0:aaaaaaa' * (n // 8) + 'a' * (n % 8)


def limits():
    """Every limit one below, at and above: a built line by its name, by one argument, plain, forced, raw or escaped, and by many short ones."""
    a = lambda n: shown([97] * n)
    for n in around(READ):
        yield 'read exe ' + a(n)
        yield 'read exe ' + a(n) + '{0}' + a(2)
        yield 'read ' + a(n) + ' {}'
        yield 'read ' + a(n) + ' {0}x'
    for n in around(LINE):
        yield 'line 0 ' + a(n - 2)
        yield 'line 0 p 0:' + a(n - 4)
        yield 'line 1 p 0:' + a(n - 6)
        yield 'line 0 p 1:' + a(n - 4)
        yield 'line 0 p 0:' + shown([34] * ((n - 5) // 2)) + ' 1:' + a((n - 5) % 2)
        yield 'line 0 p' + short_ones(n - 3)
    for n in around(BATCH):
        yield 'batch 0 ' + a(n - 31)
        yield 'batch 0 ' + a(n - 31) + '{0}'
        yield 'batch 0 s 0:' + a(n - 33)
        yield 'batch 1 s 0:' + a(n - 35)
        yield 'batch 0 s 1:' + a(n - 33)
        yield 'batch 0 s 0:' + shown([37] * ((n - 36) // 8)) + ' 1:' + a((n - 36) % 8)
        yield 'batch 0 s' + short_ones(n - 32)
    for n in around(BLOCK):
        yield 'env ' + a(n - 3) + ':{}'
        yield 'env {}:' + a(n - 3)
        yield 'env A:1 ' + a(n - 8) + ':x'


def statuses():
    """Statuses round both ends, round each count of digits, and some others."""
    edges = {0, 1, 9, 255, 3221225477, 3221225786, 2147483647, 2147483648, 4294967295}
    edges |= {10 ** k + d for k in range(1, 10) for d in (-1, 0, 1)}
    edges |= {16 ** k * 8 + d for k in range(8) for d in (-1, 0, 1)}
    edges |= {2147483648 + d for d in range(-20, 20)} | {4294967295 - d for d in range(20)}
    return [f'status {n}' for n in sorted(n for n in edges if 0 <= n < 1 << 32)]


def suffixes():
    """Every word of four units over the letters of both suffixes in both cases, near misses, short and long paths."""
    for word in ('.bat', '.cmd'):
        for cased in itertools.product(*[sorted({c, c.upper()}) for c in word]):
            yield 'suffix ' + ''.join(cased)
            yield 'suffix a' + ''.join(cased)
            yield 'suffix ' + ''.join(cased) + '{0}'
        for i in range(4):
            for d in (-32, -1, 1, 32, 128):
                near = [ord(c) for c in word]
                near[i] += d
                yield 'suffix ' + shown(near)
            yield 'suffix ' + shown([ord(c) for c in word[i:]])
            yield 'suffix ' + shown([ord(c) for c in word[:i]])


def faults():
    """Each refusal of the builders with its place, and their order."""
    good, nul, cr, lf = '0:ok', '0:a{0}', '0:{d}', '0:a{a}b'
    for front in ([], [good], [good, '1:x y'.replace(' ', '{20}')]):
        for bad in (nul, cr, lf, '1:{0}', '1:{d}', '0:{d}{0}', '0:{0}{a}', '2:x', '4294967295:x', '3:{0}'):
            for back in ([], [nul], [cr], ['2:x']):
                words = ' '.join(front + [bad] + back)
                for name in ('p', 'p{0}', 'p"q', 'p\\', '\\{0}', '{0}p', '{0}', '{0}{0}'):
                    yield f'line 0 {name} {words}'
                    yield f'batch 0 {name} {words}'
    for entries in ('A{0}:1', 'A:{0}', 'A:1 {0}:2', 'A:1 B:{0} {0}:3', ':'.join(['{}', '{}']), 'a=b:c=d', '=C{3a}:x'):
        yield 'env ' + entries
    yield 'env'


def word(r, most, pool=POOL):
    return [r.choice(pool) for _ in range(r.randrange(most + 1))]


def no_nul(units):
    return [u for u in units if u]


def random_questions(seed, count):
    """Seeded questions of every verb of the first set, mostly in the oracle's domain."""
    r = random.Random(seed)
    pools = [POOL, SPICY, SIX]
    for _ in range(count):
        pool, size, verb = r.choice(pools), r.choice((3, 8, 20, 60)), r.randrange(10)
        if verb < 4:
            line = word(r, size * 2, pool)
            line = line if r.random() < .2 else no_nul(line)
            yield f'read {shown(word(r, 4))} {shown(line)}'
        elif verb < 8:
            name = no_nul(word(r, 5)) if r.random() < .3 else [112]
            tail = [0] if r.random() < .1 else []
            args = [word(r, size, pool) for _ in range(r.randrange(5))]
            args = args if r.random() < .1 else [no_nul(a) for a in args]
            words = [f'{int(r.random() < .2)}:{shown(a)}' for a in args]
            yield ' '.join([('line ' if verb < 6 else 'batch ') + str(r.randrange(2)), shown(name + (tail if verb >= 6 else []))] + words)
        elif verb == 8:
            entries = [(no_nul(word(r, 6, pool)), word(r, size, pool)) for _ in range(r.randrange(5))]
            yield ' '.join(['env'] + [inner(k) + ':' + inner(v if r.random() < .1 else no_nul(v)) for k, v in entries])
        elif r.random() < .5:
            yield 'suffix ' + shown([r.choice([46, 98, 66, 97, 65, 116, 84, 99, 67, 109, 77, 100, 68]) for _ in range(r.randrange(8))])
        else:
            yield f'status {r.choice((r.randrange(1 << 32), r.randrange(1 << 16), 2147483648 + r.randrange(-9, 9)))}'


def lent_questions(seed, count):
    """Seeded questions that show what is lent: small rooms, overlapping parts, cut lists, odd tables, every refusal."""
    r = random.Random(seed)
    for _ in range(count):
        verb = r.randrange(6)
        text = word(r, 8, SPICY + [0, 10, 13, 200]) if r.random() < .4 else word(r, 8, SPICY)
        out = [r.choice([46, 58, 126, 0, 0x2020]) for _ in range(r.choice((0, 2, 5, 9, 20, 45, 60, 70)))]
        outside = r.random() < .15
        numbers = []
        for _ in range(r.randrange(4)):
            start = r.randrange(len(text) + 1)
            size = r.randrange(len(text) - start + 1)
            if outside and r.random() < .4:
                start, size = r.choice(((start, len(text) - start + 1), (len(text) + 1, 0), (4294967295, 2), (1, 4294967295)))
            numbers.append([start, size])
        cut = r.choice((0, 0, 0, 0, 0, 0, 1, 2, 3))
        if verb < 2:
            numbers = [n for p in numbers for n in [r.choice((0, 0, 0, 1, 1, 2 if outside else 0))] + p]
            numbers = numbers[:max(0, len(numbers) - cut % 3)]
            name = r.choice(('p', 'p', 'p', 'p', 'p', 'a"b', 'a\\', '{0}', 'p{0}', '{}'))
            head = ('lent-line', 'lent-batch')[verb]
            yield ' '.join([head, str(r.randrange(2)), name, shown(text), shown(out)] + list(map(str, numbers)))
        elif verb == 2:
            numbers = [n for p in numbers for n in p + r.choice(numbers)]
            numbers = numbers[:max(0, len(numbers) - cut)]
            yield ' '.join(['lent-env', shown(text), shown(out)] + list(map(str, numbers)))
        elif verb == 3:
            yield f'lent-status {r.choice((0, 7, 4294967295, 2147483648, r.randrange(1 << 32)))} {shown(out[:r.choice((0, 11, 12, 13, 20, 21, 22, 30))])}'
        elif verb == 4:
            line = word(r, 10, SPICY)
            spans = [r.choice((7, 0, 4294967295)) for _ in range(r.choice((0, 1, 2, 3, 4, 5, 6, 9)))]
            yield ' '.join(['lent-read', shown(word(r, 3)), shown(line if r.random() < .8 else []), shown(out[:9])] + list(map(str, spans)))
        else:
            spans = [r.choice((0, 1, 2, 3, 9, 4294967295)) for _ in range(r.choice((0, 1, 2, 3, 4, 5, 6)))]
            yield ' '.join(['argument', shown(text), str(r.choice((0, 0, 1, 2, 3, 18446744073709551615)))] + list(map(str, spans)))


def lent_rooms():
    """Each entry point with no room, one unit too few, just enough, and one more; reading also with each count of numbers in the span table."""
    dots = lambda n: shown([46] * n)
    builds = ['lent-line 0 p x{20}y %s 0 0 3 1 0 1', 'lent-line 1 {} \\" %s 0 0 2 0 1 1', 'lent-line 0 p {} %s', 'lent-batch 0 s x%%y %s 0 0 3 1 1 1', 'lent-batch 1 s{0} {} %s 0 0 0',
              'lent-env A1B %s 0 1 1 1 2 1 0 3', 'lent-env {} %s', 'lent-env {} %s 0 0 0 0', 'lent-status 0 %s', 'lent-status 2147483648 %s', 'lent-status 4294967295 %s']
    for q in builds:
        size = int(answer(q % dots(90)).split(' ')[1])
        for n in (0, size - 1, size, size + 1):
            yield q % dots(n)
    for q in ('lent-read exe {}', 'lent-read {} {}', 'lent-read exe {0}b', 'lent-read e a{20}b', 'lent-read e "a{20}"""b{9}\\\\"c', 'lent-read e a{20}""'):
        head = answer(f'{q} {dots(90)} ' + ' '.join('7' * 40)).split(' ')
        count, size = int(head[1]), int(head[2])
        for n in (0, size - 1, size, size + 1):
            for numbers in (0, 1, 2 * count - 1, 2 * count, 2 * count + 1, 2 * count + 2):
                if n >= 0:
                    yield ' '.join([q, dots(n)] + ['7'] * numbers)


def lent_limits():
    """Each limit of a built line and a block one below, at and above, by parts that overlap. Without room a line at the limit is refused by 4, the next one by
    2; with room for the limit the first is built, and the next one is still refused by 2."""
    text = shown([97] * 1100)
    for head, limit, frame in (('lent-line 0 p', LINE, 3), ('lent-line 1 p', LINE, 3), ('lent-batch 0 s', BATCH, 32)):
        for total in around(limit):
            each = 1 + 1000 + 2 * (head[-3] == '1')
            count, rest = divmod(total - frame, each)
            records = ['0 5 1000'] * count + [f'1 7 {rest - 1}'] * (rest > 0)
            yield ' '.join([head, text, '{}'] + records)
            yield ' '.join([head, text, '.' * limit] + records)
    for total in around(BLOCK):
        count, rest = divmod(total - 1, 1002)
        yield ' '.join(['lent-env', text, '..'] + ['3 900 0 100'] * count + [f'0 {rest - 2} 9 0'] * (rest > 1))


def lent_faults():
    """Refusals 1, 5 and 6 at each place, and which of two comes first; what is lent stays as it was."""
    text = 'ab{0}{d}{a}c'
    good, raw, nul, cr, lf = '0 0 2', '1 0 2', '0 1 2', '0 3 1', '0 4 2'
    outside = ['2 0 0', '4294967295 0 0', '0 6 1', '0 7 0', '1 4294967295 1', '0 4294967295 4294967295', '1 1 4294967295']
    for front in ([], [good], [good, raw], [raw, good, good]):
        for bad in [nul, cr, lf, '1 1 2', '1 3 3', '0 2 2', '0 2 3'] + outside:
            for back in ([], [nul], [cr], ['2 0 0'], ['0']):
                for verb in ('lent-line 0 p', 'lent-line 1 {0}', 'lent-batch 0 s', 'lent-batch 1 a\\', 'lent-batch 0 {0}b'):
                    yield ' '.join([verb, text, '.....'] + front + [bad] + back)
    for front in ([], ['0 1 1 1'], ['0 1 0 2', '0 0 0 0']):
        for bad in ('2 1 0 1', '0 1 2 1', '0 7 0 0', '0 0 7 0', '4294967295 1 0 0', '0 1 1 4294967295', '0', '0 0', '0 0 0'):
            for back in ([], ['0 1 1 2'], ['9 9 9 9']):
                yield ' '.join(['lent-env', text, '.....'] + front + [bad] + back)


def short_blocks(most):
    """Every block of at most so many units over NUL, `=` and A."""
    for n in range(most + 1):
        for block in itertools.product([0, 61, 65], repeat=n):
            yield 'entries ' + shown(list(block))


def blocks_lent(most, blocks=BLOCKS):
    """Each of the blocks with room enough, and with each table of at most so many numbers."""
    for block in blocks:
        yield 'entries ' + block
        for n in range(most + 1):
            yield ' '.join(['lent-entries', block] + ['7'] * n)


def block_of(entries):
    """The units that 01 gives these entries, a key and a value each."""
    records, text = [], []
    for key, value in entries:
        records += [len(text), len(key), len(text) + len(key), len(value)]
        text += key + value
    return environment_block(records, text, 1 << 30)


def cut_blocks():
    """Blocks that 01 gives, with units behind them, cut at every place."""
    for pairs in ([], ['A=b'], ['=C:=x', 'K='], ['A=b', 'Path=C:\\x;y', '=D:=D:\\', 'Z==']):
        halves = [[units(pair[:at] or '{}'), units(pair[at + 1:] or '{}')] for pair in pairs for at in [pair.index('=', 1)]]
        whole = block_of(halves) + [82, 0, 61]
        for end in range(len(whole) + 1):
            yield 'entries ' + shown(whole[:end])
            yield ' '.join(['lent-entries', shown(whole[:end])] + ['7'] * 4 * len(pairs))


def block_limits():
    """A block's limit one below, at and above: one long value, one long key without its final NUL, and no entry at all."""
    for n in around(BLOCK):
        yield 'entries ' + shown([65, 61] + [98] * (n - 4) + [0, 0])
        yield 'entries ' + shown([97] * (n - 2) + [61, 0])
        yield 'entries ' + shown([98] * n)


def full_blocks():
    """The most entries that a block holds, with units behind them and without, with a table one number too short, just enough, and one longer; NULs alone."""
    most = [65, 61, 0] * 21844
    yield 'entries ' + shown(most + [0, 0, 0])
    for n in (65532, 65533, 65534, 65535, 65536):
        yield 'entries ' + shown((most + [0] * 9)[:n])
        yield 'entries ' + shown((most + [65, 61, 0, 0])[:n])
        yield 'lent-entries ' + shown([0] * n)
    for n in (87375, 87376, 87377):
        yield ' '.join(['lent-entries', shown(most + [0])] + ['7'] * n)


def random_blocks(seed, count):
    """Seeded blocks, of any units or such that 01 gives, whole, with units behind them, cut or with a unit changed; with room enough or a lent table."""
    r = random.Random(seed)
    marks = [0, 0, 61, 61, 65, 66, 58, 123, 32, 0x430]
    for _ in range(count):
        block = word(r, 20, marks)
        if r.random() < .8:
            entries = [(no_nul(word(r, 4, marks)), no_nul(word(r, 8, r.choice([POOL, marks])))) for _ in range(r.randrange(5))]
            block = block_of([(key or [65], value) for key, value in entries]) + word(r, 3, marks) * r.randrange(2)
            if r.random() < .3:
                block = block[:r.randrange(len(block) + 1)]
            if block and r.random() < .3:
                block[r.randrange(len(block))] = r.choice(marks)
        if r.random() < .5:
            yield 'entries ' + shown(block)
        else:
            table = [r.choice((7, 0, 4294967295)) for _ in range(r.randrange(14))]
            yield ' '.join(['lent-entries', shown(block)] + list(map(str, table)))


def bad_questions():
    """Lines that are no question."""
    return ['', 'read', 'read x', 'read x y z', 'reads x y', 'read  x', 'read x y ', ' read x y', 'line 2 p', 'line 0', 'line 0 p 0', 'line 0 p :x', 'line 0 p 00:x',
            'line 0 p 0:', 'line 0 p 0:{}x', 'line 0 p 0:{61}', 'line 0 p 0:{020}', 'line 0 p 0:{2A0}', 'line 0 p 0:{10000}', 'line 0 p 0:{', 'line 0 p 0:}',
            'line 0 p 4294967296:x', 'env A', 'env A:b:c', 'env {3d}C{3a}:x', 'env A{3a}', 'env :', 'env A:', 'suffix', 'suffix a b', 'status', 'status 4294967296', 'status 01', 'status -1', 'status 1 2',
            'status x', 'lent-line 0 p t', 'lent-line 0 p t o 4294967296', 'lent-line 0 p t o 01', 'lent-status 1', 'lent-read e l', 'argument t', 'argument t 18446744073709551616',
            'argument t 00', 'read {22} x', 'READ x y', '#', 'read x\ty z',
            'entries', 'entries A={0}{0} x', 'entries A={0', 'entries A:{3a}', 'lent-entries', 'lent-entries x 01', 'lent-entries x y', 'lent-entries x 4294967296']


def compared(seed, count):
    """What `compare/run` asks."""
    lists = [short_lines(7), short_arguments(4), each_unit(), limits(), statuses(), suffixes(), faults(), random_questions(seed, count), lent_rooms(), lent_limits(), lent_faults(),
             lent_questions(seed, count // 10), short_blocks(7), blocks_lent(13), cut_blocks(), block_limits(), full_blocks(), random_blocks(seed, count // 10)]
    return [q for part in lists for q in part]


def recorded():
    """The list whose answers are kept in the repository."""
    r = random.Random(20)
    exhaustive = list(short_lines(4))
    five = [q for q in short_lines(5) if len(q) > 0]
    lists = [exhaustive, r.sample(five, 600), list(short_arguments(2)), r.sample(list(short_arguments(4)), 500), list(each_unit(POOL)), each_alone(), list(limits()),
             statuses(), r.sample(list(suffixes()), 80), r.sample(list(faults()), 500), list(random_questions(20, 700)), list(lent_questions(20, 900)),
             list(lent_rooms()), list(lent_limits()), r.sample(list(lent_faults()), 400), bad_questions(),
             list(short_blocks(5)), list(blocks_lent(9)), list(cut_blocks()), list(block_limits()), list(full_blocks())[:1], list(random_blocks(20, 200))]
    return [q for part in lists for q in part]
