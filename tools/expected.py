"""What a message has at a place of an instance: its types by path, the tags that may come, the texts of a type."""
import difflib
import re

from repository_file import COMPONENTS, Entry, codes_of

FORMS = {'Date': '2026-11-27', 'DateTime': '2026-11-27T09:30:00', 'Time': '09:30:00', 'Year': '2026', 'YearMonth': '2026-11',
         'MonthDay': '--11-27', 'Month': '--11', 'Day': '---27'}
DAY = '(?P<month>[0-9]{2})-(?P<day>[0-9]{2})'
YEAR = '(?P<year>-?[0-9]{4,})'
CLOCK = '(?P<hour>[0-9]{2}):(?P<minute>[0-9]{2}):(?P<second>[0-9]{2})([.](?P<fraction>[0-9]+))?'
SHAPES = {'Date': f'{YEAR}-{DAY}', 'DateTime': f'{YEAR}-{DAY}T{CLOCK}', 'Time': CLOCK, 'Year': YEAR, 'YearMonth': f'{YEAR}-(?P<month>[0-9]{{2}})',
          'MonthDay': f'--{DAY}', 'Month': '--(?P<month>[0-9]{2})', 'Day': '---(?P<day>[0-9]{2})'}
ZONE = '(Z|[+-](?P<zone>[0-9]{2}:[0-9]{2}))?'
TAKEN = (('year', '0001', '9999'), ('month', '01', '12'), ('day', '01', '31'), ('hour', '00', '23'), ('minute', '00', '59'), ('second', '00', '59'))
MOST_FRACTION = 9
NUMBERS = ('Amount', 'Rate', 'Quantity')
# the contents octets of 1 (X.690, section 8.5), and those of 0
REAL = '03 31 2E 45 2B 30 for 1 and no octets for 0'
FIRST_CODES = 8
LONGEST_MEANT = 256


class Types:
    """The types of one message, with its external codes, and the identifiers of all messages; texts are told as XML has them, or as the contents octets that DER has."""

    def __init__(self, entries, message, codes, identifiers, is_der):
        self.entries = entries
        self.message = message
        self.codes = codes
        self.identifiers = identifiers
        self.is_der = is_der
        self.document = Entry('Message', message.name, elements=message.blocks)

    def at(self, path):
        """The entry of the element at a path; None within what has none. A part `@Ccy` is the currency."""
        entry = None
        for place, part in enumerate(path.strip('/').split('/')):
            tag = re.sub(r'\[\d+\]$', '', part)
            if place < 2:
                entry = (None, self.document)[place]
            elif tag == '@Ccy':
                entry = self.entries.get(entry.currency)
            elif entry is not None:
                entry = next((self.entries.get(it.reference) for it in entry.elements if it.tag == tag), None)
        return entry

    def codes_of(self, entry):
        own = codes_of(self.entries, next((key for key, it in self.entries.items() if it is entry), None)) if entry.codes else []
        return own or self.codes.get(entry.name, [])

    def code_list(self, entry):
        """The first codes of a set; in DER they have numbers, by the order of their bytes (docs/FORMATS.md, DER)."""
        codes = [quoted(code) for code in self.codes_of(entry)]
        if self.is_der:
            codes = [f'{number} {quoted(code)}' for number, code in enumerate(sorted(self.codes_of(entry), key=str.encode))]
        more = f', and {len(codes) - FIRST_CODES} more' if len(codes) > FIRST_CODES else ''
        return f'one of {", ".join(codes[:FIRST_CODES])}{more}'

    def texts(self, entry):
        """The texts of a simple type, in words."""
        if entry.kind in FORMS:
            told = [f'as {FORMS[entry.kind]}']
        elif entry.kind == 'Indicator':
            told = ['one octet, FF or 00' if self.is_der else 'true, false, 1 or 0']
        elif entry.kind == 'Binary':
            told = [*([] if self.is_der else ['base64']), *lengths(entry.facets, 'octets')] or ['any octets']
        elif entry.kind in NUMBERS:
            told = ['a number', f'as {REAL if self.is_der else decimal(entry.facets)}', *digits(entry.facets)]
        elif entry.kind == 'CodeSet' and self.codes_of(entry):
            return self.code_list(entry)
        else:
            told = lengths(entry.facets, 'characters')
        if 'pattern' in entry.facets and entry.kind not in (*NUMBERS, 'Indicator', 'Binary'):
            told.append(f'of the pattern {entry.facets["pattern"]}')
        return ', '.join(told) or 'any text'

    def described(self, entry):
        """A type by name and what it holds."""
        if entry.kind == 'ExternalSchema':
            return f'{entry.name}: one element of any name'
        if entry.kind in (*COMPONENTS, 'Message'):
            return f'{entry.name}: {"one of " if entry.kind == "ChoiceComponent" else ""}{tag_list(entry.elements)}'
        currency = f', and Ccy={entry.currency and self.entries[entry.currency].name}' if entry.currency else ''
        return f'{entry.name}: {self.texts(entry)}{currency}'


def quoted(code):
    """A code in backquotes, which show the spaces at its ends."""
    return f'`{code}`'


def lengths(facets, unit):
    least = facets.get('length', facets.get('minLength', '0'))
    most = facets.get('length', facets.get('maxLength'))
    if most is None:
        return [f'at least {least} {unit}'] if int(least) else []
    return [f'{most} {unit}' if least == most else f'{least} to {most} {unit}']


def decimal(facets):
    """A number of no more digits than its type takes."""
    most = int(facets.get('totalDigits', '6'))
    behind = min(2, most - 1, int(facets.get('fractionDigits', '2')))
    return '1234'[:most - behind] + '.56'[:behind + 1 if behind else 0]


def digits(facets):
    told = []
    if 'totalDigits' in facets:
        told.append(f'at most {facets["totalDigits"]} digits')
    if 'fractionDigits' in facets:
        told.append(f'at most {facets["fractionDigits"]} behind the point')
    words = {'minInclusive': 'at least', 'minExclusive': 'above', 'maxInclusive': 'at most', 'maxExclusive': 'below'}
    return told + [f'{words[name]} {facets[name]}' for name in words if name in facets]


def digits_in(text):
    """How many digits a number has with the least scale, and how many of them behind the point."""
    whole, _, fraction = text.lstrip('+-').partition('.')
    whole, fraction = whole.lstrip('0'), fraction.rstrip('0')
    return len(whole + fraction) if whole else len(fraction.lstrip('0')), len(fraction)


def last_day(month, year):
    """The last day of a month; of a February whose year is not told 29."""
    if month == '02':
        return '28' if year and (int(year) % 4 or int(year) % 100 == 0 and int(year) % 400) else '29'
    return '30' if month in ('04', '06', '09', '11') else '31'


def date_fault(kind, text):
    """What is not taken of a date or time that has the form of its kind; None: nothing, or it has not the form."""
    found = re.fullmatch(SHAPES[kind] + ZONE, text)
    parts = found.groupdict() if found else {}
    for name, least, most in TAKEN:
        value = parts.get(name)
        if name == 'day' and 'month' in parts:
            most = last_day(parts['month'], parts.get('year'))
        if value is not None and not (len(value) == len(most) and least <= value <= most):
            return f'the {name} is {value[:LONGEST_MEANT]}, and {least} to {most} are taken'
    zone = parts.get('zone')
    if zone and (zone > '14:00' or zone[3:] > '59'):
        return f'the zone is {zone}, and 00:00 to 14:00 are taken'
    digits_of = len(parts.get('fraction') or '')
    return f'the second has {digits_of} digits behind the point, and {MOST_FRACTION} are taken' if digits_of > MOST_FRACTION else None


def tag_list(elements):
    return ', '.join(element.tag for element in elements) or 'nothing'


def may_come(entry, came):
    """The tags that may come next in a component, choice or message after these, and whether its end may."""
    known = {it.tag for it in entry.elements}
    came = [tag for tag in came if tag in known]
    last = next((place for place, it in enumerate(entry.elements) if came and it.tag == came[-1]), None)
    tags = []
    if last is not None:
        count, slot = came.count(came[-1]), entry.elements[last]
        if slot.most is None or count < slot.most:
            tags.append(slot.tag)
        if count < slot.least:
            return tags, False
    if entry.kind == 'ChoiceComponent':
        return (tags, True) if last is not None else ([it.tag for it in entry.elements], False)
    for slot in entry.elements[0 if last is None else last + 1:]:
        tags.append(slot.tag)
        if slot.least > 0:
            return tags, False
    return tags, True


def closest(word, words):
    """The word that may have been meant, whatever its capitals; of a long one it is not asked, since that takes long."""
    if len(word) > LONGEST_MEANT:
        return None
    small = {it.lower(): it for it in reversed(words)}
    found = difflib.get_close_matches(word, words, 1) or difflib.get_close_matches(word.lower(), small, 1)
    return small.get(found[0], found[0]) if found else None


def times(count):
    return 'once' if count == 1 else f'{count} times'


def bounds_of(element):
    """How often an element comes, where it is not just once."""
    told = [f'at least {times(element.least)}'] if element.least > 1 else []
    return told + ([] if element.most is None else [f'at most {times(element.most)}'])
