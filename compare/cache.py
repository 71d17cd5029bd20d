"""The launch line cache of document 02, E3, as plain Python: what the program `cached` answers to one call after another.

Written from the document's sentences alone, without a look at the crates. Lines, and the refusals that pass through, are those of model.py's builder.
"""
from model import Refused, arguments_of, command_line, flat, number, shown, units

# "Hold up to 64 prepared lines"; the most units that `cached` makes a store over; and room that no line uses up, for refusal 4 is the store's own.
ENTRIES, UNITS, ROOM = 64, 400000, 1 << 30


def asked_for(words):
    """Force flag, program, records and text of the words F PROGRAM [K:TEXT ..], or a ValueError."""
    force, program, *arguments = words
    return number(force, 1) == 1, units(program), *flat(arguments, False)


def key_of(force, program, records, text):
    # "The key is the program, the force flag and every argument's kind and text, compared by content."
    return program, force, arguments_of(records, text)


def used(key, line):
    # "An entry uses the units of program, argument texts and line, and two more for each argument."
    program, _, arguments = key
    return len(program) + sum(len(text) + 2 for _, text in arguments) + len(line)


class Cache:
    """The store of `cached`, which is none before the first making."""

    def __init__(self):
        self.units, self.entries = None, []

    def make(self, size):
        self.units, self.entries = size, []
        return 'ok'

    def clear(self):
        self.entries = []
        return 'ok'

    def held(self, fingerprint, key):
        """The line of the entry that "has that fingerprint and an equal key", or None."""
        return next((line for f, k, line in self.entries if f == fingerprint and k == key), None)

    def look(self, fingerprint, asked):
        # "A lookup gives refusal 1 as the builder does." It asks nothing more of the builder: what has no line is not held.
        line = self.held(fingerprint, key_of(*asked))
        return 'miss' if line is None else 'hit ' + shown(line)

    def store(self, fingerprint, asked):
        # "Storing builds the line; the builder's refusals save 4 pass through first."
        line, key = command_line(*asked, ROOM), key_of(*asked)
        # "Storing what a lookup would hit changes nothing and says so."
        held = self.held(fingerprint, key)
        if held is not None:
            return 'held ' + shown(held)
        # "Then 3 if all entries are used, then 4 exactly if that is more than the units left."
        if len(self.entries) == ENTRIES:
            raise Refused(3)
        if used(key, line) > self.units - sum(used(k, l) for _, k, l in self.entries):
            raise Refused(4)
        # It "adds one entry, with that fingerprint, that key and the builder's line, and leaves every other entry's key and line as they were".
        self.entries.append((fingerprint, key, line))
        return 'stored ' + shown(line)

    def called(self, line):
        """What the call of a line answers; a ValueError where it is none, or comes before the first making."""
        verb, *words = line.split(' ')
        if verb == 'make':
            size, = words
            return self.make(number(size, UNITS))
        if self.units is None:
            raise ValueError(line)
        if line == 'clear':
            return self.clear()
        if verb not in ('look', 'store'):
            raise ValueError(line)
        fingerprint, *words = words
        do = self.look if verb == 'look' else self.store
        return do(number(fingerprint, (1 << 64) - 1), asked_for(words))

    def answer(self, line):
        """The answer to a line. What is no call is `bad` and changes nothing."""
        try:
            return self.called(line)
        except Refused as r:
            return f'refused {r.number} {r.place}'
        except ValueError:
            return 'bad'


def answers(calls):
    """The answers to calls that are made one after another, from the start of the program on."""
    cache = Cache()
    return [cache.answer(line) for line in calls]
