"""A page as compilers show it: the line of a place with marks under it, and rows with labels."""
import re
import unicodedata
from typing import NamedTuple

WIDTH = 110
LEAST_WIDTH = 10
FAR = 2000
BOM = b'\xef\xbb\xbf'
LINE_END = re.compile(rb'\r\n|\r|\n')
COLOURS = {'head': '\033[1m', 'mark': '\033[1;31m', 'label': '\033[36m', 'end': '\033[0m'}


class Spot(NamedTuple):
    """A place in a file: line and column from 1, a piece of the line's text, whether more of it stands before, the place in the piece, and the parts of it that are marked."""
    line: int
    column: int
    text: str
    is_cut: bool
    place: int
    parts: list


class Style:
    """How wide a page is, whether it goes to a terminal, and whether it has colours."""

    def __init__(self, columns, is_on_terminal, has_colours):
        self.columns = columns
        self.is_on_terminal = is_on_terminal
        self.has_colours = has_colours

    def name(self, text):
        """A file's name, which is for a program as it is."""
        return printable(text) if self.is_on_terminal else text

    def colour(self, kind, text):
        return f'{COLOURS[kind]}{text}{COLOURS["end"]}' if self.has_colours else text


def spot_of(data, place, parts):
    """The spot of an octet of `data`, which goes on behind it to the end of its line, or far. Parts are octets from and to, and marked as far as they are shown."""
    begins = [match.end() for match in LINE_END.finditer(data, 0, place)]
    line_start = begins[-1] if begins else len(BOM) if data.startswith(BOM) and place >= len(BOM) else 0
    end = LINE_END.search(data, place)
    stop = min(end.start() if end else len(data), place + FAR)
    start = max(line_start, place - FAR)
    while start > line_start and data[start] & 0xc0 == 0x80:
        start -= 1
    before = data[start:place].decode(errors='replace')
    column = len(data[line_start:place].decode(errors='replace')) + 1
    text = before + data[place:stop].decode(errors='replace')
    marked_parts = [tuple(len(data[start:min(max(at, start), stop)].decode(errors='replace')) for at in part) for part in parts]
    return Spot(len(begins) + 1, column, text, start > line_start, len(before), marked_parts)


def line_spot(path, number):
    """The spot of a whole line of a file."""
    with open(path, 'rb') as file:
        lines = LINE_END.split(file.read())
    text = lines[number - 1][:FAR].decode('utf-8-sig' if number == 1 else 'utf-8', 'replace') if number <= len(lines) else ''
    indent = len(text) - len(text.lstrip())
    return Spot(number, indent + 1, text, False, indent, [(indent, len(text))])


def printable(text):
    """The text with a space for each character that a terminal would obey."""
    return ''.join(character if character.isprintable() else ' ' for character in text)


def is_visible(character):
    """Whether it is one of visible ASCII."""
    return '!' <= character <= '~'


def sign(character):
    """A character by what can be seen of it, and by its number where it is not one of visible ASCII."""
    if is_visible(character):
        return f'`{character}`'
    number = f'U+{ord(character):04X}'
    if character == ' ':
        return f'a space, {number}'
    return f'`{character}`, {number}' if unicodedata.category(character)[0] in 'LNPS' else number


def columns_of(character):
    """How many columns of a terminal the character takes."""
    if unicodedata.category(character) in ('Mn', 'Me'):
        return 0
    return 2 if unicodedata.east_asian_width(character) in ('W', 'F') else 1


def window(widths, place, width):
    """From where to where a line is shown that has the characters of these widths, so that the place is in it."""
    if sum(widths) <= width:
        return 0, len(widths)
    start = end = place
    while start > 0 and sum(widths[start - 1:place]) <= width * 6 // 11:
        start -= 1
    while end < len(widths) and sum(widths[start:end + 1]) <= width:
        end += 1
    while start > 0 and sum(widths[start - 1:end]) <= width:
        start -= 1
    return start, end


def marks(widths, shown, place, parts):
    """The line under the characters that are shown: `^` under the place, `~` under the other parts."""
    found = []
    for at in range(shown[0], max(shown[1], place + 1)):
        is_marked = any(start <= at < end for start, end in parts)
        sign = '~' if is_marked else ' '
        width = widths[at] if at < len(widths) else 1
        found.append('^' + sign * (width - 1) if at == place else sign * width)
    return ''.join(found).rstrip()


def marked(spot, style):
    """The line and the marks under it; of a long line what stands round the place."""
    number = str(spot.line)
    text = printable(spot.text)
    widths = [columns_of(character) for character in text]
    start, end = window(widths, spot.place, max(LEAST_WIDTH, min(WIDTH, style.columns - len(number) - 6)))
    head, tail = '…' if start or spot.is_cut else '', '…' if end < len(text) else ''
    under = marks(widths, (start, end), spot.place, spot.parts)
    signs = under.lstrip()
    indent = ' ' * (len(head) + len(under) - len(signs))
    return [f' {number} | {head}{text[start:end]}{tail}', f' {" " * len(number)} | {indent}{style.colour("mark", signs)}']


def octet_lines(path, place, style):
    """The octets of a file round a place, sixteen a line."""
    with open(path, 'rb') as file:
        file.seek(max(0, place // 16 * 16 - 16))
        start = file.tell()
        data = file.read(48)
    lines = []
    for at in range(0, max(len(data), place - start + 1), 16):
        row = data[at:at + 16]
        lines.append(f' {start + at:08x} | {row.hex(" "):<47} | {"".join(chr(c) if 32 <= c < 127 else "." for c in row)}'.rstrip())
        if at <= place - start < at + 16:
            lines.append(' ' * 10 + '| ' + ' ' * (3 * (place - start - at)) + style.colour('mark', '^^'))
    return lines


def rows(labelled, style):
    """Texts by their labels; a label that is that of the row before is not said again."""
    lines, last = [], None
    for label, text in labelled:
        lines.append(f'  {style.colour("label", f"{label if label != last else str():<8}")} {printable(text)}')
        last = label
    return lines
