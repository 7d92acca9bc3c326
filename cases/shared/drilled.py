"""drilled.py xml|der NUMBER SIZE: the instance of `isorepo drill NUMBER SIZE`, by docs/FORMATS.md alone, in canonical XML or DER.

The generator is PCG XSH RR 64/32, its seed the words that the same generator gives at a fixed increment.
"""
import sys

MASK = (1 << 64) - 1
NAMESPACE = 'urn:iso:std:iso:20022:tech:xsd:demo.002.001.01'


def output(state):
    """The word of a state: XSH RR."""
    word = (((state >> 18) ^ state) >> 27) & 0xFFFFFFFF
    turn = state >> 59
    return (word >> turn | word << (32 - turn)) & 0xFFFFFFFF


def words(number):
    """The words of the generator that is made of a number."""
    state, seed = number, b''
    for _ in range(4):
        state = (state * 0x5851F42D4C957F2D + 0xA17654E46FBE17F3) & MASK
        seed += output(state).to_bytes(4, 'little')
    increment = int.from_bytes(seed[8:], 'little') | 1
    step = lambda state: (state * 6364136223846793005 + increment) & MASK
    state = step((int.from_bytes(seed[:8], 'little') + increment) & MASK)
    while True:
        yield output(state)
        state = step(state)


def nodes(number, size):
    """The depth of each node in order, node 0 at depth 1."""
    depths, generator = [1], words(number)
    for _ in range(size):
        depths.append(max(1, depths[-1] - next(generator) % 3) + 1)
    return depths


def xml(depths):
    """Canonical XML."""
    tag = lambda depth: 'Nd' if depth == 1 else 'Chld'
    parts = [f'<?xml version="1.0" encoding="UTF-8"?>\n<Document xmlns="{NAMESPACE}"><Tree>']
    for number, depth in enumerate(depths):
        parts += [f'</{tag(level)}>' for level in range(depths[number - 1] if number else 0, depth - 1, -1)]
        parts.append(f'<{tag(depth)}><Nm>n{number}</Nm>')
    parts += [f'</{tag(level)}>' for level in range(depths[-1], 0, -1)]
    return (''.join(parts) + '</Tree></Document>\n').encode()


def value(tag, contents):
    """Identifier octet, length octets, contents."""
    count = len(contents)
    length = bytes([count]) if count < 128 else (lambda octets: bytes([128 + len(octets)]) + octets)(count.to_bytes((count.bit_length() + 7) // 8, 'big'))
    return bytes([tag]) + length + contents


def der(depths):
    """DER under automatic tags: the nodes from the last to the first, so that those below one are there before it."""
    below = {}
    for number in range(len(depths) - 1, -1, -1):
        depth = depths[number]
        children = b''.join(reversed(below.pop(depth + 1, [])))
        node = value(0xA0 if depth == 1 else 0x30, value(0x80, b'n%d' % number) + value(0xA1, children))
        below.setdefault(depth, []).append(node)
    return value(0x30, value(0xA0, below[1][0]))


if __name__ == '__main__':
    what, number, size = sys.argv[1:]
    sys.stdout.buffer.write((xml if what == 'xml' else der)(nodes(int(number), int(size))))
