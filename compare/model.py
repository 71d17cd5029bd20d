"""Documents 01 and 02 as plain Python: what each entry point answers and what the lent memory holds afterwards.

Written from the documents alone, sentence by sentence, without a look at the crates. Answers worked out with it stand where the Rust
says nothing: refusals 1 to 4, places, NUL in a program or script, lent memory, the entries of a block (02, E1).
"""

# The most units of what is read (01), of a line that is built, ordinary or batch (02, E2), and of a block (01).
READ, LINE, BLOCK = 32767, 32766, 65535
BATCH = LINE
QUOTE, BACKSLASH, SPACE, TAB, PERCENT, EQUALS, NUL = 34, 92, 32, 9, 37, 61, 0
GOOD = [ord(c) for c in r'#$*+-./:?@\_']
FRONT = [ord(c) for c in 'cmd.exe /e:ON /v:OFF /d /c "']


class Refused(Exception):
    def __init__(self, number, place=0):
        self.number, self.place = number, place


def blank(u):
    return u in (SPACE, TAB)


# ---- reading a line

def arguments(line):
    """The arguments of a line that is not empty."""
    args, cur, quoted, i = [], [], False, 0
    while i < len(line):
        u = line[i]
        i += 1
        if u == QUOTE:
            quoted = not quoted
        elif blank(u) and not quoted:
            break
        else:
            cur.append(u)
    args.append(cur)
    while i < len(line) and blank(line[i]):
        i += 1
    cur, quoted = [], False
    while i < len(line):
        u = line[i]
        if u == BACKSLASH:
            k = 0
            while i < len(line) and line[i] == BACKSLASH:
                k, i = k + 1, i + 1
            if i < len(line) and line[i] == QUOTE:
                cur += [BACKSLASH] * (k // 2)
                if k % 2:
                    cur.append(QUOTE)
                    i += 1
            else:
                cur += [BACKSLASH] * k
        elif u == QUOTE and not quoted:
            quoted = True
            i += 1
        elif u == QUOTE:
            if i + 1 == len(line):
                break
            if line[i + 1] == QUOTE:
                cur.append(QUOTE)
                i += 2
            else:
                quoted = False
                i += 1
        elif blank(u) and not quoted:
            args.append(cur)
            cur = []
            while i < len(line) and blank(line[i]):
                i += 1
        else:
            cur.append(u)
            i += 1
    if cur or quoted:
        args.append(cur)
    return args


def reading(exe, lent, room, numbers):
    line = lent[:lent.index(0)] if 0 in lent else lent
    if len(line or exe) > READ:
        raise Refused(2)
    args = arguments(line) if line else [exe]
    if numbers // 2 < len(args):
        raise Refused(3)
    if room < sum(map(len, args)):
        raise Refused(4)
    return args


def lent_read(exe, lent, text, spans):
    """Number, place, count, units, and text and spans afterwards."""
    try:
        args = reading(exe, lent, len(text), len(spans))
    except Refused as r:
        return r.number, r.place, 0, 0, text, spans
    joined = [u for a in args for u in a]
    table, at = [], 0
    for a in args:
        table += [at, len(a)]
        at += len(a)
    return 0, 0, len(args), len(joined), joined + text[len(joined):], table + spans[len(table):]


def argument(text, spans, index):
    if index >= len(spans) // 2:
        return []
    start, size = spans[2 * index], spans[2 * index + 1]
    return [] if start + size > len(text) else text[start:start + size]


# ---- writing

def form(text, force):
    quoted = force or not text or any(map(blank, text))
    out, k = [], 0
    for u in text:
        if u == BACKSLASH:
            k += 1
            continue
        out += [BACKSLASH] * (2 * k + 1 if u == QUOTE else k) + [u]
        k = 0
    out += [BACKSLASH] * (2 * k if quoted else k)
    return [QUOTE] + out + [QUOTE] if quoted else out


def forcing(u):
    if u < 128:
        return not (48 <= u <= 57 or 65 <= u <= 90 or 97 <= u <= 122 or u in GOOD)
    return u <= 159


def batch_form(text, force):
    quoted = force or not text or text[-1] == BACKSLASH or any(map(forcing, text))
    out, k = [], 0
    for u in text:
        if u == BACKSLASH:
            k += 1
            continue
        if u == QUOTE:
            out += [BACKSLASH] * (2 * k) + [QUOTE, QUOTE]
        elif u == PERCENT:
            out += [BACKSLASH] * k + [ord(c) for c in '%%cd:~,%']
        else:
            out += [BACKSLASH] * k + [u]
        k = 0
    out += [BACKSLASH] * (2 * k if quoted else k)
    return [QUOTE] + out + [QUOTE] if quoted else out


def arguments_of(records, text):
    args = []
    for i in range(0, len(records), 3):
        r = records[i:i + 3]
        if len(r) < 3 or r[0] not in (0, 1) or r[1] + r[2] > len(text):
            raise Refused(1, i // 3 + 1)
        args.append((r[0], text[r[1]:r[1] + r[2]]))
    return args


def limited(limit, room, whole):
    if len(whole) > limit:
        raise Refused(2)
    if room < len(whole):
        raise Refused(4)
    return whole


def command_line(force, program, records, text, room):
    args = arguments_of(records, text)
    if 0 in program:
        raise Refused(5)
    for i, (_, t) in enumerate(args):
        if 0 in t:
            raise Refused(5, i + 1)
    whole = [QUOTE] + program + [QUOTE]
    for kind, t in args:
        whole += [SPACE] + (form(t, force) if kind == 0 else t)
    return limited(LINE, room, whole)


def batch_command_line(force, script, records, text, room):
    args = arguments_of(records, text)
    if QUOTE in script or script[-1:] == [BACKSLASH]:
        raise Refused(7)
    script = script[:-1] if script[-1:] == [0] else script
    if 0 in script:
        raise Refused(5)
    for i, (kind, t) in enumerate(args):
        if kind == 0 and (13 in t or 10 in t):
            raise Refused(6, i + 1)
        if 0 in t:
            raise Refused(5, i + 1)
    whole = FRONT + [QUOTE] + script + [QUOTE]
    for kind, t in args:
        whole += [SPACE] + (batch_form(t, force) if kind == 0 else t)
    return limited(BATCH, room, whole + [QUOTE])


def environment_block(records, text, room):
    entries = []
    for i in range(0, len(records), 4):
        r = records[i:i + 4]
        if len(r) < 4 or r[0] + r[1] > len(text) or r[2] + r[3] > len(text):
            raise Refused(1, i // 4 + 1)
        entries.append((text[r[0]:r[0] + r[1]], text[r[2]:r[2] + r[3]]))
    for i, (key, value) in enumerate(entries):
        if 0 in key or 0 in value:
            raise Refused(5, i + 1)
    whole = [u for key, value in entries for u in key + [61] + value + [0]] + [0]
    return limited(BLOCK, room, whole if entries else [0, 0])


# ---- reading a block: 02, E1

def block_entries(block):
    """Where each entry starts, splits and ends, and the units used."""
    # "A block with no entries is two NULs." 8 if "the first unit is NUL and the second isn't there or isn't NUL (place 1)"
    if block[:1] == [NUL]:
        if block[1:2] != [NUL]:
            raise Refused(8, 1)
        return [], 2
    entries, at = [], 0
    while True:
        # 8 if "an entry, or the final NUL, runs into the end of the slice"; "a missing final NUL counts as the entry after the last"
        place = len(entries) + 1
        try:
            end = block.index(NUL, at)
        except ValueError:
            raise Refused(8, place)
        if end == at:
            return entries, end + 1
        # "splits at its first `=` that isn't its first unit"; 8 if "an entry has no such `=`"
        try:
            split = block.index(EQUALS, at + 1, end)
        except ValueError:
            raise Refused(8, place)
        entries.append((at, split, end))
        at = end + 1


def block_reading(block, numbers):
    # "A slice over 65,535 units is refusal 2, tested first." 8. "Then 3, if the table has under two places for each entry."
    if len(block) > BLOCK:
        raise Refused(2)
    entries, used = block_entries(block)
    if numbers // 2 < 2 * len(entries):
        raise Refused(3)
    return entries, used


def lent_entries(block, spans):
    """Number, place, count, units used, and the table afterwards: "key and value spans in the lent block itself"."""
    try:
        entries, used = block_reading(block, len(spans))
    except Refused as r:
        return r.number, r.place, 0, 0, spans
    table = [n for start, split, end in entries for n in (start, split - start, split + 1, end - split - 1)]
    return 0, 0, len(entries), used, table + spans[len(table):]


# ---- a child's status, and the batch suffix

def status_text(status, room):
    text = 'exit code: ' + (str(status) if status < 2147483648 else '0x%x' % status)
    if room < len(text):
        raise Refused(4)
    return [ord(c) for c in text]


def signed(status):
    return status if status < 2147483648 else status - 4294967296


def suffix(path):
    last = path[-4:]
    pairs = lambda word: all(u in (ord(c), ord(c.upper())) for u, c in zip(last, word))
    return len(path) >= 4 and (pairs('.bat') or pairs('.cmd'))


# ---- the protocol of `answer`

# How the questions begin that the Rust has no answer to: it lends nothing, and reads no block.
UNASKED = ('lent-', 'argument', 'entries')


def shown(units):
    if not units:
        return '{}'
    return ''.join(chr(u) if 33 <= u <= 126 and u not in (123, 125) else '{%x}' % u for u in units)


def inner(units):
    """A key or a value: a colon is {3a}."""
    return shown(units).replace(':', '{3a}')


def units(word):
    """The units of a text, or a ValueError where it is not in its one form."""
    out, i = [], 0
    while i < len(word) and word != '{}':
        end = word.index('}', i) + 1 if word[i] == '{' else i + 1
        out.append(int(word[i + 1:end - 1], 16) if word[i] == '{' else ord(word[i]))
        i = end
    if shown(out) != word or max(out, default=0) > 65535:
        raise ValueError(word)
    return out


def number(word, most):
    """A number in its one form, at most so large, or a ValueError."""
    n = int(word)
    if str(n) != word or not 0 <= n <= most:
        raise ValueError(word)
    return n


def lent(lend, out):
    """The answer of a question that lends an output: units or refusal, then the output afterwards."""
    try:
        whole = lend()
    except Refused as r:
        return f'refused {r.number} {r.place} {shown(out)}'
    return f'ok {len(whole)} {shown(whole + out[len(whole):])}'


def flat(words, keyed):
    """The records and the text that the program makes of the words of a question."""
    records, text = [], []
    for w in words:
        head, tail = w.split(':', 1)
        key = units(head.replace('{3a}', ':')) if keyed else None
        value = units(tail.replace('{3a}', ':')) if keyed else units(tail)
        if keyed:
            records += [len(text), len(key), len(text) + len(key), len(value)]
            text += key + value
        else:
            records += [number(head, 4294967295), len(text), len(value)]
            text += value
    return records, text


def plain(lend):
    try:
        return 'ok ' + shown(lend())
    except Refused as r:
        return f'refused {r.number} {r.place}'


def answer(question):
    verb, *w = question.split(' ')
    room = 1 << 30
    if verb == 'read':
        try:
            args = reading(units(w[0]), units(w[1]), room, room)
        except Refused as r:
            return f'refused {r.number} {r.place}'
        return ' '.join(['ok', str(len(args))] + [shown(a) for a in args])
    if verb in ('line', 'batch'):
        records, text = flat(w[2:], False)
        make = command_line if verb == 'line' else batch_command_line
        return plain(lambda: make(w[0] == '1', units(w[1]), records, text, room))
    if verb == 'env':
        records, text = flat(w, True)
        return plain(lambda: environment_block(records, text, room))
    if verb == 'suffix':
        return f'ok {int(suffix(units(w[0])))}'
    if verb == 'status':
        return f'ok {shown(status_text(int(w[0]), room))} {signed(int(w[0]))}'
    if verb in ('lent-line', 'lent-batch'):
        make = command_line if verb == 'lent-line' else batch_command_line
        name, text, out, numbers = units(w[1]), units(w[2]), units(w[3]), list(map(int, w[4:]))
        return lent(lambda: make(w[0] == '1', name, numbers, text, len(out)), out)
    if verb == 'lent-env':
        text, out, numbers = units(w[0]), units(w[1]), list(map(int, w[2:]))
        return lent(lambda: environment_block(numbers, text, len(out)), out)
    if verb == 'lent-status':
        out = units(w[1])
        return lent(lambda: status_text(int(w[0]), len(out)), out)
    if verb == 'lent-read':
        number, place, count, size, text, spans = lent_read(units(w[0]), units(w[1]), units(w[2]), list(map(int, w[3:])))
        head = f'refused {number} {place}' if number else f'ok {count} {size}'
        return ' '.join([head, shown(text)] + list(map(str, spans)))
    if verb == 'entries':
        block = units(w[0])
        try:
            entries, used = block_reading(block, room)
        except Refused as r:
            return f'refused {r.number} {r.place}'
        return ' '.join(['ok', str(used)] + [inner(block[start:split]) + ':' + inner(block[split + 1:end]) for start, split, end in entries])
    if verb == 'lent-entries':
        number, place, count, used, spans = lent_entries(units(w[0]), list(map(int, w[1:])))
        return ' '.join([f'refused {number} {place}' if number else f'ok {count} {used}'] + list(map(str, spans)))
    if verb == 'argument':
        return 'ok ' + shown(argument(units(w[0]), list(map(int, w[2:])), int(w[1])))
    return 'bad'
