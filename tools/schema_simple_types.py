"""The simple types of a schema as kind, facets and codes of a repository (docs/FORMATS.md, Simple types)."""
import re
from dataclasses import dataclass, field
from decimal import Decimal

from pattern_language import PatternFault, read_pattern
from repository_file import MOST_CHARACTERS, MOST_CODES, MOST_DIGITS
from schema_file import TRUE, XS, parts
from xml_tree import WHITE

# the built-in types that a repository has, by what they are in it
FAMILIES = {'string': 'text', 'decimal': 'number', 'boolean': 'Indicator', 'base64Binary': 'Binary', 'date': 'Date',
            'dateTime': 'DateTime', 'time': 'Time', 'gYear': 'Year', 'gYearMonth': 'YearMonth',
            'gMonthDay': 'MonthDay', 'gMonth': 'Month', 'gDay': 'Day'}
DATES = ('Date', 'DateTime', 'Time', 'Year', 'YearMonth', 'MonthDay', 'Month', 'Day')
ZONE = r'(Z|[+\-][0-9]{2}:[0-9]{2})?'
CLOCK = r'([01][0-9]|2[0-3]):[0-5][0-9]:[0-5][0-9](\.[0-9]{1,9})?'
# the patterns that `xsd` writes of all dates and times (docs/FORMATS.md, Written schemas): they ask nothing more here
PROFILES = {'Date': '[0-9]{4}-[0-9]{2}-[0-9]{2}' + ZONE, 'DateTime': '[0-9]{4}-[0-9]{2}-[0-9]{2}T' + CLOCK + ZONE, 'Time': CLOCK + ZONE,
            'Year': '[0-9]{4}' + ZONE, 'YearMonth': '[0-9]{4}-[0-9]{2}' + ZONE, 'MonthDay': '--[0-9]{2}-[0-9]{2}' + ZONE,
            'Month': '--[0-9]{2}' + ZONE, 'Day': '---[0-9]{2}' + ZONE}
LENGTHS = ('minLength', 'maxLength', 'length')
DIGITS = ('totalDigits', 'fractionDigits')
LOWER = ('minInclusive', 'minExclusive')
UPPER = ('maxInclusive', 'maxExclusive')
# facets that one restriction may have more than once, and such as may not stand together in one (XML Schema part 2, 4.3)
REPEATED = ('pattern', 'enumeration')
APART = (LOWER, UPPER, ('length', 'minLength'), ('length', 'maxLength'))
MOST_NUMBER = 2 ** 32 - 1


@dataclass
class SimpleType:
    family: str
    facets: dict = field(default_factory=dict)
    codes: list = field(default_factory=list)
    fixed: set = field(default_factory=set)
    is_final: bool = False


def number_of(text):
    """The number that digits are; None: they are none, or it is above MOST_NUMBER."""
    digits = text.lstrip('0') or '0'
    is_number = re.fullmatch('[0-9]+', text) and len(digits) <= len(str(MOST_NUMBER)) and int(digits) <= MOST_NUMBER
    return int(digits) if is_number else None


def facets_of_family(family):
    """The facets that a repository has for it."""
    if family == 'text':
        return (*LENGTHS, 'pattern', 'enumeration')
    if family == 'number':
        return (*DIGITS, *LOWER, *UPPER)
    if family == 'Binary':
        return LENGTHS
    return ('pattern',) if family in DATES else ()


class SimpleTypes:
    """Reads simple types of one schema."""

    def __init__(self, schema):
        self.schema = schema

    def of_reference(self, node, attribute, seen=()):
        """The simple type that an attribute names; None where it was told that there is none."""
        space, name = self.schema.named(node, attribute)
        if space == XS:
            if name not in FAMILIES:
                self.schema.tell(node, f'the type xs:{name}')
                return None
            return SimpleType(FAMILIES[name])
        declared = self.schema.types.get(name) if space == self.schema.space else None
        if declared is None or declared.name != 'simpleType' or name in seen:
            self.schema.tell(node, f'`{node.get(attribute)}` names no simple type of the schema')
            return None
        return self.of_node(declared, (*seen, name))

    def of_node(self, node, seen=()):
        """The simple type that a `simpleType` declares."""
        self.schema.only(node, 'name')
        inner = parts(node)
        if [child.name for child in inner] != ['restriction']:
            self.schema.tell(node, f'a simple type by {", ".join(child.name for child in inner) or "nothing"}')
            return None
        result = self.restricted(inner[0], seen)
        if result is not None:
            final = node.get('final', self.schema.root.get('finalDefault', ''))
            result.is_final = bool({'restriction', '#all'}.intersection(final.split()))
        return result

    def restricted(self, node, seen):
        self.schema.only(node, 'base')
        steps = parts(node)
        if node.get('base') is None and steps and steps[0].name == 'simpleType':
            base = self.of_node(steps.pop(0), seen)
        else:
            base = self.of_reference(node, 'base', seen)
        if base is None:
            return None
        if base.is_final:
            self.schema.tell(node, 'a restriction of a type that is final')
        fixed = {facet.name for facet in steps if facet.get('fixed', '').strip(WHITE) in TRUE}
        result = SimpleType(base.family, dict(base.facets), list(base.codes), base.fixed | fixed)
        for facet in steps:
            self.check_facet(facet, base.family)
        self.check_steps(steps)
        self.take_values(steps, base, result)
        self.take_patterns([facet for facet in steps if facet.name == 'pattern'], base, result)
        self.take_codes([facet for facet in steps if facet.name == 'enumeration'], result)
        self.check(node, result)
        self.check_within(node, base, result)
        return result

    def check_facet(self, facet, family):
        self.schema.only(facet, 'value', *(() if facet.name in REPEATED else ('fixed',)))
        white_space = 'preserve' if family == 'text' else 'collapse'
        if facet.name == 'whiteSpace' and facet.get('value') == white_space:
            return
        if facet.name not in facets_of_family(family):
            self.schema.tell(facet, f'the facet {facet.name} of a type of this kind')
        elif facet.get('value') is None:
            self.schema.tell(facet, f'{facet.name} without value')

    def check_steps(self, steps):
        """Facets of one restriction that stand there twice, or of which one alone may stand."""
        names = set()
        for facet in steps:
            if facet.name in names and facet.name not in REPEATED:
                self.schema.tell(facet, f'the facet {facet.name} twice')
            for other in (name for pair in APART if facet.name in pair for name in pair):
                if other != facet.name and other in names:
                    self.schema.tell(facet, f'the facet {facet.name} beside {other}')
            names.add(facet.name)

    def take_values(self, steps, base, result):
        """Numbers and bounds; a bound takes the place of the base's bound on its side."""
        for facet in steps:
            if facet.name not in LENGTHS + DIGITS + LOWER + UPPER or facet.name not in facets_of_family(base.family) or facet.get('value') is None:
                continue
            value = self.number(facet) if facet.name in LENGTHS + DIGITS else self.decimal(facet)
            if value is None:
                continue
            for side in (LOWER, UPPER):
                if facet.name in side:
                    for name in side:
                        result.facets.pop(name, None)
            result.facets[facet.name] = value

    def number(self, facet):
        """The number of a facet; None where it was told that it is none."""
        value = number_of(facet.get('value').strip(WHITE).removeprefix('+'))
        if value is None:
            self.schema.tell(facet, f'{facet.name} is not a number up to {MOST_NUMBER}')
        return value

    def decimal(self, facet):
        """The decimal of a facet; None where it was told that it is none."""
        text = facet.get('value').strip(WHITE)
        if not re.fullmatch(r'[+-]?([0-9]+(\.[0-9]*)?|\.[0-9]+)', text):
            self.schema.tell(facet, f'{facet.name} is not a decimal')
            return None
        whole, _, fraction = text.lstrip('+-').partition('.')
        if len(whole.lstrip('0') + fraction.rstrip('0')) > MOST_DIGITS:
            self.schema.tell(facet, f'{facet.name} has more than {MOST_DIGITS} digits')
            return None
        return Decimal(text)

    def take_patterns(self, facets, base, result):
        """Patterns of one restriction are alternatives; those of two restrictions both count."""
        texts = [facet.get('value', '') for facet in facets]
        if not texts or 'pattern' not in facets_of_family(base.family) or texts == [PROFILES.get(base.family)]:
            return
        if 'pattern' in base.facets:
            self.schema.tell(facets[0], 'a pattern beside that of the base type')
        for facet, text in zip(facets, texts):
            try:
                read_pattern(text)
            except PatternFault as fault:
                self.schema.tell(facet, f'pattern `{text}`: {fault}')
        pattern = '|'.join(texts)
        if pattern == '':
            self.schema.tell(facets[0], 'an empty pattern')
        elif len(pattern) > MOST_CHARACTERS:
            self.schema.tell(facets[0], f'a pattern of more than {MOST_CHARACTERS} characters')
        result.facets['pattern'] = pattern

    def take_codes(self, facets, result):
        if not facets or result.family != 'text':
            return
        result.codes = list(dict.fromkeys(facet.get('value', '') for facet in facets))
        for facet in facets:
            if not 1 <= len(facet.get('value', '')) <= MOST_CHARACTERS:
                self.schema.tell(facet, f'a code that has not 1 to {MOST_CHARACTERS} characters')
        if len(result.codes) > MOST_CODES:
            self.schema.tell(facets[0], f'more than {MOST_CODES} codes')

    def check(self, node, result):
        """Facets that stand together."""
        facets = result.facets
        if result.codes and facets:
            self.schema.tell(node, f'codes beside {", ".join(facets)}: of a code set with codes these alone count')
        lengths = [facets[name] for name in ('minLength', 'length') if name in facets]
        most = [facets[name] for name in ('maxLength', 'length') if name in facets]
        if lengths and most and max(lengths) > min(most):
            self.schema.tell(node, 'a least length above the greatest')
        total = facets.get('totalDigits', MOST_DIGITS)
        if not 1 <= total <= MOST_DIGITS:
            self.schema.tell(node, f'totalDigits is not 1 to {MOST_DIGITS}')
        elif facets.get('fractionDigits', 0) > total:
            self.schema.tell(node, 'more fraction digits than digits')
        self.check_bounds(node, facets)

    def check_within(self, node, base, result):
        """A schema whose restriction takes more than its base is none, and two readers take two things of it."""
        for name in LENGTHS + DIGITS:
            mine, other = result.facets.get(name), base.facets.get(name)
            if other is not None and (mine < other if name == 'minLength' else mine != other if name == 'length' else mine > other):
                self.schema.tell(node, f'{name} {mine}, where the base type has {other}')
        for side, sign in ((LOWER, 1), (UPPER, -1)):
            mine, other = (bound_of(facets, side, sign) for facets in (result.facets, base.facets))
            if other and mine[:2] < other[:2]:
                self.schema.tell(node, f'{mine[2]}, where the base type has {other[2]}')
        for name in sorted(base.fixed):
            if result.facets.get(name) != base.facets.get(name):
                self.schema.tell(node, f'another {name} than that of the base type, where it is fixed')
        for code in result.codes if base.codes else []:
            if code not in base.codes:
                self.schema.tell(node, f'the code `{code}`, which the base type does not have')

    def check_bounds(self, node, facets):
        lower = [facets[name] for name in LOWER if name in facets]
        upper = [facets[name] for name in UPPER if name in facets]
        strict = 'minExclusive' in facets or 'maxExclusive' in facets
        if lower and upper and (lower[0] > upper[0] or (strict and lower[0] == upper[0])):
            self.schema.tell(node, 'a lower bound above the upper one')


def bound_of(facets, side, sign):
    """The bound on a side: of two the one whose first two parts are greater is the narrower; then its words. None: there is none."""
    return next(((sign * facets[name], name.endswith('Exclusive'), f'{name} {facets[name]}') for name in side if name in facets), None)


def kind_of(simple, name):
    """The kind of an entry of this name: repositories tell codes, identifiers, amounts and rates apart by their kind."""
    if simple.family == 'text':
        if simple.codes or 'Code' in name:
            return 'CodeSet'
        return 'IdentifierSet' if 'Identifier' in name else 'Text'
    if simple.family == 'number':
        return 'Amount' if 'Amount' in name else 'Rate' if 'Rate' in name else 'Quantity'
    return simple.family


def facet_texts(simple):
    """The facets as a repository writes them."""
    return {name: format(value, 'f') if isinstance(value, Decimal) else value for name, value in simple.facets.items()}
