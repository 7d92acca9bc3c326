"""The pattern language of docs/FORMATS.md, Patterns: reads a pattern, or says where it is none.

A pattern is a list of branches, a branch a list of pieces `(atom, least, most)`, `most` None where there is no
greatest. An atom is `Characters` or, for a group, a list of branches.
"""
from typing import NamedTuple

SPECIAL = '.\\?*+()|[]{}'
ESCAPES = {letter: letter for letter in '\\|.-^?*+{}()[]'}
ESCAPES.update(n='\n', r='\r', t='\t')
SPACES = [(' ', ' '), ('\t', '\t'), ('\n', '\n'), ('\r', '\r')]
MOST_POSITIONS = 65536


class Characters(NamedTuple):
    """One character: of one of the ranges, or, where negated, of none."""
    negated: bool
    ranges: list


class PatternFault(Exception):
    """The text is no pattern."""


class Reader:
    """Reads a text from its start."""

    def __init__(self, text):
        self.text = text
        self.at = 0

    def next_is(self, characters):
        return self.at < len(self.text) and self.text[self.at] in characters

    def take(self):
        if self.at == len(self.text):
            raise PatternFault('the pattern ends too early')
        self.at += 1
        return self.text[self.at - 1]

    def branches(self):
        found = [self.branch()]
        while self.next_is('|'):
            self.at += 1
            found.append(self.branch())
        return found

    def branch(self):
        pieces = []
        while self.at < len(self.text) and not self.next_is('|)'):
            pieces.append((self.atom(), *self.times()))
        return pieces

    def atom(self):
        character = self.take()
        if character == '.':
            return Characters(True, [('\n', '\n'), ('\r', '\r')])
        if character == '\\':
            return self.escape()
        if character == '[':
            return self.character_class()
        if character == '(':
            return self.group()
        if character in SPECIAL:
            raise PatternFault(f'`{character}` is no atom')
        return Characters(False, [(character, character)])

    def escape(self):
        letter = self.take()
        if letter == 's':
            return Characters(False, SPACES)
        if letter not in ESCAPES:
            raise PatternFault(f'the escape `\\{letter}` is not in the pattern language')
        return Characters(False, [(ESCAPES[letter], ESCAPES[letter])])

    def group(self):
        inner = self.branches()
        if self.take() != ')':
            raise PatternFault('a group does not end')
        return inner

    def character_class(self):
        negated = self.next_is('^')
        if negated:
            self.at += 1
        ranges = []
        while not (ranges and self.next_is(']')):
            ranges += self.item(first=not ranges)
        self.at += 1
        return Characters(negated, ranges)

    def item(self, first):
        """A character, a range or `\\s`, or a hyphen at one of the ends."""
        if self.next_is('-'):
            self.at += 1
            if not first and not self.next_is(']'):
                raise PatternFault('a hyphen in a class stands neither first nor last; classes taken from one another are not in the pattern language')
            return [('-', '-')]
        if self.text.startswith('\\s', self.at):
            self.at += 2
            return SPACES
        low = self.single()
        if not self.next_is('-') or self.text.startswith(']', self.at + 1):
            return [(low, low)]
        self.at += 1
        high = self.single()
        if high < low:
            raise PatternFault(f'the range `{low}-{high}` falls')
        return [(low, high)]

    def single(self):
        character = self.take()
        if character == '\\':
            letter = self.take()
            if letter not in ESCAPES:
                raise PatternFault(f'the escape `\\{letter}` in a class is not in the pattern language')
            return ESCAPES[letter]
        if character in '[]-':
            raise PatternFault(f'`{character}` in a class')
        return character

    def times(self):
        """How often the atom before comes."""
        if self.next_is('?*+'):
            return {'?': (0, 1), '*': (0, None), '+': (1, None)}[self.take()]
        if not self.next_is('{'):
            return 1, 1
        self.at += 1
        least = self.number()
        most = least
        if self.next_is(','):
            self.at += 1
            most = None if self.next_is('}') else self.number()
        if self.take() != '}' or (most is not None and most < least):
            raise PatternFault('the bounds of a repetition')
        return least, most

    def number(self):
        start = self.at
        while self.next_is('0123456789'):
            self.at += 1
        if not 1 <= self.at - start <= 9:
            raise PatternFault('a bound of a repetition is not one to nine digits')
        return int(self.text[start:self.at])


def positions(branches):
    """One for each character or class, times the repetitions that are written out."""
    return sum(copies(least, most) * (1 if isinstance(atom, Characters) else positions(atom))
               for pieces in branches for atom, least, most in pieces)


def copies(least, most):
    if (least, most) in ((0, 1), (0, None)):
        return 1
    return max(least, 1) if most is None else most


def read_pattern(text):
    """The branches of the pattern that the text is; PatternFault where it is none."""
    reader = Reader(text)
    try:
        branches = reader.branches()
        if reader.at < len(text):
            raise PatternFault('`)` ends no group')
        if positions(branches) > MOST_POSITIONS:
            raise PatternFault(f'the pattern has more than {MOST_POSITIONS} positions')
    except RecursionError:
        raise PatternFault('the groups are nested too deep') from None
    return branches
