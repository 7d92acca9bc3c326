"""What each rule says, in one sentence; docs/FORMATS.md has them in full."""

MARKUP = {
    'BadUtf8': 'these bytes are no UTF-8',
    'BadMarkup': 'this is no markup of XML',
    'Doctype': 'a document type is never accepted',
    'BadReference': 'this reference names no character',
    'BadChar': 'XML does not have this character',
    'DuplicateAttribute': 'an attribute or a declaration stands twice in this tag',
    'BadPrefix': 'a prefix is not declared, or may not be declared so',
    'TagMismatch': 'this end tag is not that of the element that is open',
    'TextOutside': 'text stands outside the root element',
    'Truncated': 'the input ends too early',
    'AfterRoot': 'a second element stands behind the root element',
}

INSTANCES = {
    'WrongRoot': 'the root element is not Document in the namespace of the message',
    'UnknownElement': 'the open element does not have an element of this name',
    'OutOfOrder': 'this element had to stand before one that came already',
    'TooMany': 'this element comes more often than it may',
    'Missing': 'an element that must be there is missing before this place',
    'SecondAlternative': 'another alternative of this choice came already',
    'TextInComplex': 'text stands where elements alone may stand',
    'ElementInSimple': 'an element stands where text alone may stand',
    'UnknownAttribute': 'the element does not have this attribute',
    'MissingAttribute': 'the element lacks an attribute that it must have',
    'BadText': 'the text has not the form of its type',
    'BadLength': 'the text is too short or too long',
    'PatternFails': 'the text does not match the pattern of its type',
    'NotACode': 'the text is none of the codes of its type',
    'Digits': 'the number has more digits than it may',
    'OutOfRange': 'the number is outside its bounds',
    'InputTooLong': 'the instance has more than 2^40 bytes',
}

OCTETS = {
    'BadTagOctets': 'the tag is not in its shortest form, or too long',
    'BadLengthOctets': 'the length is indefinite, not in its shortest form, or too long',
    'Overrun': 'the value passes the end of the one that holds it',
    'UnexpectedTag': 'this tag does not belong here',
    'TooFew': 'a list has fewer items than it must have',
    'BadContents': 'these octets spell no value of their type',
    'Trailing': 'octets stand behind the last value',
}

REPOSITORIES = {
    'L2': 'the root is not Repository in its namespace',
    'L3': 'an earlier entry has this id',
    'L4': 'an attribute that must be a number is none, or too large',
    'L5': 'the entry lacks its id, its type or its name',
    'L6': 'the repository has more than 2^31 bytes',
}

CODES = {
    'C1': 'the record has not two fields',
    'C2': 'a field is no UTF-8',
    'C3': 'the code is empty, or has a character that XML does not have',
    'C4': 'the code set has codes of its own in the repository',
    'C5': 'the codes have more than 2^28 bytes',
}

MESSAGES = {
    'M1': 'no message of the repository has this identifier',
    'M2': 'two messages of the repository have this identifier',
    'M3': 'a reference names nothing',
    'M4': 'the currency is no Text, CodeSet or IdentifierSet',
    'M5': 'an element has not exactly one type',
    'M6': 'a name is no ASCII name of at most 256 characters',
    'M7': 'a tag stands twice in one list',
    'M8': 'a minimum is above its maximum, or a maximum is 0',
    'M9': 'an alternative of a choice has the minimum 0',
    'M10': 'a choice has no alternatives',
    'M11': 'each instance would have to hold another of its own',
    'M12': 'the facets contradict each other, or are out of bounds',
    'M13': 'the pattern is not in the pattern language, or is too large',
    'M14': 'a code has no text, or two codes have one',
    'M15': 'the kind is none of those known, or has a pattern though it may not',
    'M16': 'two names of types are equal',
    'M17': 'it is too large',
}

SENTENCES = {**MARKUP, **INSTANCES, **OCTETS, **REPOSITORIES, **CODES, **MESSAGES}
