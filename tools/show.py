"""isorepo show [--der] [--json] REPO CODES MSGID FILE: checks FILE, and shows where it is refused as a compiler does."""
from streams import NOTES, OUT, run  # first, as it says

import contextlib
import csv
import json
import os
from functools import lru_cache
from typing import NamedTuple, Optional

from expected import Types, closest
from external_codes import note_unused, read_codes
from faults_of_instances import expected, parts_of
from faults_of_octets import octets_expected
from faults_of_repositories import file_fault, message_fault, name_expected
from page import WIDTH, Spot, Style, line_spot, marked, octet_lines, rows, spot_of
from place import Place, octets_to
from program import CODES, DONE, INSTANCE, MESSAGE, REPOSITORY, WORDS, Fault, Source, check, codes_source, fault_of, source, standard_input
from repository_file import IDENTIFIER_FORM, read_repository
from rule_sentences import SENTENCES
from word_faults import option_fault, word_faults
from xml_tree import NotXml

USAGE = 'usage: isorepo show [--der] [--json] REPO CODES MSGID FILE'
FIRST_MESSAGES = 8


class Told(NamedTuple):
    """What is told of a fault: the file that it is in, where in its text, or in its octets, and what was expected."""
    file: Source
    fault: Fault
    spot: Optional[Spot]
    expected: list
    is_of_octets: bool = False

    def sentence(self):
        return SENTENCES.get(self.fault.rule, 'docs/FORMATS.md has this rule')


class Call:
    """What is asked: the files of REPO, CODES and FILE, the message, and whether FILE is in DER."""

    def __init__(self, words, is_der, stack):
        self.repository = source(words[0], stack)
        self.codes = codes_source(words[1], stack)
        self.message = words[2]
        self.file = standard_input(stack) if words[3] == '-' else source(words[3], stack)
        self.is_der = is_der

    def answer(self):
        return check(self.repository.path, self.codes.path, self.message, self.file.path, 'check-der' if self.is_der else 'check-xml')

    @lru_cache(None)
    def read_repository(self):
        with open(self.repository.path, 'rb') as file:
            return read_repository(file.read())

    def types(self):
        """The types of the message, which the program has compiled; None where expat does not take the repository, as for names in characters that it does not know."""
        try:
            entries, messages = self.read_repository()
        except NotXml:
            return None
        message = next(it for it in messages if it.identifier == self.message)
        return Types(entries, message, read_codes(self.codes.path), [it.identifier for it in messages], self.is_der)


# ---- what is told, by the status of the answer

def of_instance(call, fault):
    at = int(fault.where)
    if call.is_der:
        return Told(call.file, fault, None, octets_expected(call.types(), fault, octets_to(call.file.path, at)), True)
    data = octets_to(call.file.path, at)
    place = Place(data, at)
    spot = spot_of(data, at, parts_of(fault, place))
    return Told(call.file, fault, spot, expected(call.types(), fault, place))


def of_repository(call, fault):
    data = octets_to(call.repository.path, int(fault.where))
    parts, wanted = file_fault(data, fault)
    return Told(call.repository, fault, spot_of(data, int(fault.where), parts), wanted)


def of_message(call, fault):
    """A fault of a message is in the line of its object or of an element of it, where the repository has it and expat takes it."""
    try:
        entries, messages = call.read_repository()
    except NotXml:
        return Told(call.repository, fault, None, [])
    entry = entries.get(fault.where)
    message = next((it for it in messages if it.identifier == fault.where), None)
    if entry or message:
        owner, elements = (entry, entry.elements) if entry else (message, message.blocks)
        line, wanted = message_fault(fault.rule, owner.line, elements, entry, entries)
        lines = [str(it.line) for it in messages if it.identifier == fault.where]
        wanted += [f'one message of this identifier; they stand in the lines {", ".join(lines)}'] if fault.rule == 'M2' else []
        wanted += name_expected(owner, next(it for it in messages if it.identifier == call.message), entries) if fault.rule == 'M16' else []
        return Told(call.repository, fault, line_spot(call.repository.path, line), wanted)
    known = [it.identifier for it in messages if IDENTIFIER_FORM.fullmatch(it.identifier)]
    more = f', and {len(known) - FIRST_MESSAGES} more' if len(known) > FIRST_MESSAGES else ''
    meant = closest(fault.where, known[FIRST_MESSAGES:])
    told = [f'one of {", ".join(known[:FIRST_MESSAGES])}{more}'] if known else ['a message; the repository has none' + (' whose identifier has its form' if messages else '')]
    return Told(call.repository, fault, None, told + ([f'did you mean {meant}?'] if meant else []))


def of_codes(call, fault):
    """A fault of the codes is in the line where its record begins."""
    if fault.where is None:
        return Told(call.codes, fault, None, [])
    with open(call.codes.path, encoding='utf-8-sig', errors='replace', newline='') as file:
        reader = csv.reader(file)
        begins, count = 0, 0
        for record in reader:
            count += bool(record)
            if count == int(fault.where):
                break
            begins = reader.line_num
    return Told(call.codes, fault, line_spot(call.codes.path, begins + 1), record_expected(fault.rule, record))


def record_expected(rule, record):
    """What a record of codes should be."""
    if rule == 'C1':
        return [f'NAME,CODE; here stand {len(record)} fields' if len(record) > 2 else 'NAME,CODE']
    if rule == 'C2':
        return ['UTF-8']
    if rule == 'C3':
        return ['a code of characters of XML' if record[1] else f'a code of {record[0]} behind the comma']
    return [f'a code set without codes of its own; {record[0]} has some in the repository'] if rule == 'C4' else []


OF_STATUS = {REPOSITORY: of_repository, CODES: of_codes, MESSAGE: of_message, INSTANCE: of_instance}


# ---- as a page, and as JSON

def page(told, style):
    """A line that names the place, the text or the octets there, and rows."""
    fault, spot = told.fault, told.spot
    at = f':{spot.line}:{spot.column}' if spot else f': octet {fault.where} ({int(fault.where):#x})' if told.is_of_octets else ''
    path = [('in', fault.path)] if fault.path else []
    labelled = [*path, ('rule', told.sentence()), *(('expected', text) for text in told.expected)]
    shown = marked(spot, style) if spot else octet_lines(told.file.path, int(fault.where), style) if told.is_of_octets else []
    return [style.colour('head', f'{style.name(told.file.name)}{at}: {fault.rule}'), *shown, *rows(labelled, style)]


def spelled(text):
    """The text with U+FFFD for what is no UTF-8, as a file's name may be."""
    return text.encode('utf-8', 'surrogateescape').decode('utf-8', 'replace')


def as_json(call, answer, told, more):
    """One object, in a line."""
    found = {'file': call.file.name, 'status': answer.status, 'answer': answer.line or answer.out.strip()}
    if told:
        fault, spot = told.fault, told.spot
        found.update(rule=fault.rule, place=fault.where and int(fault.where) if fault.what != 'message' else fault.where,
                     path=fault.path, where=told.file.name, line=spot.line if spot else None, column=spot.column if spot else None,
                     says=told.sentence(), expected=told.expected)
    elif more:
        found.update(says='; '.join(more))
    return json.dumps({key: spelled(value) if isinstance(value, str) else value for key, value in found.items()})


def show(call, is_json):
    answer = call.answer()
    if answer.line:
        NOTES.line(answer.line)
    told, more, fault = None, [], fault_of(answer.line)
    try:
        if answer.status in (DONE, INSTANCE):
            note_unused(call.repository, call.codes)
        if fault and answer.status in OF_STATUS:
            told = OF_STATUS[answer.status](call, fault)
        else:
            more = word_faults(answer, call.repository, call.codes, call.message, call.file)
        style = Style(OUT.columns(2 * WIDTH), OUT.is_terminal(), OUT.is_terminal() and not os.environ.get('NO_COLOR'))
        lines = [as_json(call, answer, told, more)] if is_json else page(told, style) if told else more
    except Exception as error:  # What is shown is help, and the verdict is told whatever becomes of it.
        NOTES.line(f'isorepo: there is no page: {type(error).__name__}: {error}')
        lines = [as_json(call, answer, None, [])] if is_json else []
    OUT.write(('' if is_json else answer.out) + ''.join(line + '\n' for line in lines))
    return answer.status


def main(words):
    options = {'--der': False, '--json': False}
    while words and words[0] in options:
        options[words[0]] = True
        words = words[1:]
    fault = option_fault(words, options)
    if fault or len(words) != 4:
        NOTES.line(fault or USAGE)
        return WORDS
    with contextlib.ExitStack() as stack:
        return show(Call(words, options['--der'], stack), options['--json'])


if __name__ == '__main__':
    run(main)
