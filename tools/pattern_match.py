"""How far a text goes with a pattern of docs/FORMATS.md: sets of places are stepped through the pattern as it is written."""
from pattern_language import Characters, PatternFault, positions, read_pattern

MOST_STEPS = 20000


class Walk:
    """A walk of a pattern over a text; `far` is how many characters were taken at most."""

    def __init__(self, text):
        self.text = text
        self.far = 0

    def branches(self, branches, starts):
        """The places where one of the branches can end that begins at one of the places."""
        return set().union(*(self.branch(pieces, starts) for pieces in branches))

    def branch(self, pieces, starts):
        for piece in pieces:
            starts = self.piece(*piece, starts)
        return starts

    def piece(self, atom, least, most, starts):
        found = set(starts) if least == 0 else set()
        count = 0
        while starts and (most is None or count < most):
            before, starts = starts, self.atom(atom, starts)
            count += 1
            # What stays as it is does so for good.
            is_still = starts == before or count > least and starts <= found
            if count >= least or is_still:
                found |= starts
            if is_still:
                break
        return found

    def atom(self, atom, starts):
        if not isinstance(atom, Characters):
            return self.branches(atom, starts)
        ends = {at + 1 for at in starts if at < len(self.text) and is_of(atom, self.text[at])}
        self.far = max(self.far, *ends, 0)
        return ends


def is_of(atom, character):
    return any(low <= character <= high for low, high in atom.ranges) != atom.negated


def how_far(pattern, text):
    """How many characters of the text the pattern takes, where the whole text is none of its; None where that takes long, or it is one."""
    try:
        branches = read_pattern(pattern)
    except PatternFault:
        return None
    if (positions(branches) + 1) * (len(text) + 1) > MOST_STEPS:
        return None
    walk = Walk(text)
    return None if len(text) in walk.branches(branches, {0}) else walk.far
