"""make_manual.py FOLDER: writes help.txt, isorepo.1 and isorepo.bash, made of docs/commands.txt, into FOLDER."""
import shlex
import sys
import textwrap
from pathlib import Path

from repository_file import IDENTIFIER_FORM

TABLE = Path(__file__).resolve().parent.parent / 'docs' / 'commands.txt'
CODES = 'CODES is a file of external codes, a record `NAME,CODE` a line; `-` stands for none.'
ANSWERS = 'An answer of the program other than what the command prints is one line on standard error, and nothing on standard output:'
FIRST = 'The first fault is told; a PLACE is a byte number from 0. The exit status says which answer it is:'
TOOLS = 'import, show and check-all are scripts of Python 3.9 or later round the program, whose lines and statuses they hand on. No proof is about them.'
SHOW = ('show and check-all read FILE and REPO anew to say more than the line of the program: what they add is help, and the verdict is that of the program alone. '
        'Which word is mistaken, or which file cannot be read, show says on standard output and check-all on standard error; '
        'of a command of the program it is said on a terminal alone, but for words of no form while the program is not built, and by try. '
        'Where a repository, its codes, a message or an instance is refused, it is said on a terminal too where to ask on. '
        'Colours and the progress of check-all come on a terminal alone, and no colours where NO_COLOR is set. '
        'FILE of show may be `-`, which is standard input; of what is no plain file they make a copy in the folder that TMPDIR names, or else in /tmp. '
        'With more or fewer words than they have import, show and check-all say their usage in one line on standard error, and end with 1; '
        'so do show and check-all of an option that they do not have, or that stands behind REPO. '
        'The status of check-all is the greatest of its files.')


def rows(kind):
    """The fields of each row of a kind."""
    lines = TABLE.read_text().splitlines()
    return [line.split(' | ')[1:] for line in lines if line.startswith(kind + ' | ')]


def entries():
    """The words and the purpose of each command, and of the words that the launcher answers."""
    return [row[1:] for row in rows('command')], [row[1:] for row in rows('word')]


# ---- help.txt

def aligned(pairs, width):
    """Pairs as two columns; a long first stands in a line of its own."""
    lines = []
    for first, second in pairs:
        told = textwrap.wrap(second, 120 - width - 2)
        if len(first) > width - 2:
            lines.append('  ' + first)
            first = ''
        lines += [f'  {first if number == 0 else "":<{width}}{line}' for number, line in enumerate(told)]
    return lines


def help_text():
    commands, words = entries()
    lines = ['usage: isorepo COMMAND WORDS..', '', *aligned(commands, 34), '', CODES, '', ANSWERS, '', *aligned(rows('answer'), 40), '',
             FIRST, '', *aligned(rows('status'), 14), '',
             'Words that the launcher answers:', '', *aligned(words, 34), '', *textwrap.wrap(TOOLS, 118), *textwrap.wrap(SHOW, 118)]
    return '\n'.join(lines) + '\n'


# ---- isorepo.1

def roff(text):
    """A text in which nothing is a request; words in backquotes are bold."""
    parts = text.replace('\\', '\\e').replace('-', '\\-').split('`')
    made = ''.join(f'\\fB{part}\\fR' if number % 2 else part for number, part in enumerate(parts))
    return '\\&' + made if made[:1] in ("'", '.') else made


def usage(words):
    """Bold the command, italic what stands for something."""
    first, _, rest = words.partition(' ')
    return f'\\fB{roff(first)}\\fR' + (f' \\fI{roff(rest)}\\fR' if rest else '')


def listed(pairs):
    return [line for first, second in pairs for line in ('.TP', usage(first), roff(second))]


def manual():
    commands, words = entries()
    lines = ['.\\" made of docs/commands.txt by tools/make_manual.py', '.TH ISOREPO 1', '.SH NAME',
             'isorepo \\- check messages of ISO 20022 against a repository', '.SH SYNOPSIS']
    for words_of, _ in commands + words:
        lines += ['.br', f'\\fBisorepo\\fR {usage(words_of)}']
    lines += ['.SH DESCRIPTION',
              roff('`isorepo` reads a repository file in the manner of ISO 20022, or one that `import` makes of message schemas, compiles one of its messages, and checks instances against it, in XML or in ASN.1 DER; it writes them as canonical XML or as DER. It says that an instance is accepted, or what its first fault is: the rule, the byte, and the path of the element.'),
              '.PP', roff(CODES), '.SH COMMANDS', *listed(commands), '.SH "OTHER WORDS"', *listed(words),
              '.SH DIAGNOSTICS', roff(ANSWERS), *[line for first, second in rows('answer') for line in ('.TP', roff(f'`{first}`'), roff(second))],
              '.PP', roff(FIRST.rpartition('. ')[0] + '.'), '.SH "EXIT STATUS"',
              *[line for number, what in rows('status') for line in ('.TP', number, roff(what))],
              '.SH NOTES', roff(TOOLS), '.PP', roff(SHOW),
              '.SH EXAMPLES', '.nf', *[roff(line) for line in (
                  'isorepo import pain.001.001.09.xsd > pain.repository',
                  'isorepo check-xml pain.repository - pain.001.001.09 < message.xml',
                  'isorepo show pain.repository - pain.001.001.09 message.xml',
                  'isorepo check-all pain.repository - pain.001.001.09 inbox/ > verdicts.csv')], '.fi']
    return '\n'.join(lines) + '\n'


# ---- isorepo.bash

COMPLETION = r'''# Completions of bash for isorepo: made of docs/commands.txt by tools/make_manual.py

# _isorepo_offer WORD: offers those of the lines on standard input that begin with the word. What stands in a line is never expanded.
_isorepo_offer() {{
    local line
    while IFS= read -r line; do
        [[ $line != "$1"* ]] || COMPREPLY+=("$line")
    done
}}

# _isorepo_plain WORD: sets `plain` to what a word stands for, with its quotes and backslashes taken and ~/ as the home folder. Nothing else in it is expanded.
_isorepo_plain() {{
    local word=$1 at=0 character quote=
    plain=
    [[ $word != \~/* ]] || {{ plain=$HOME/; at=2; }}
    while [ "$at" -lt "${{#word}}" ]; do
        character=${{word:at:1}}
        at=$((at + 1))
        case $quote$character in
        \\ | \"\\)
            plain+=${{word:at:1}}
            at=$((at + 1))
            ;;
        \' | \") quote=$character ;;
        \'\' | \"\") quote= ;;
        *) plain+=$character ;;
        esac
    done
}}

# _isorepo_asked WORDS..: what the command answers, without a build
_isorepo_asked() {{
    local plain
    _isorepo_plain "${{COMP_WORDS[0]}}"
    ISOREPO_COMPLETES=1 "$plain" "$@" 2>/dev/null
}}

# _isorepo_messages REPO CODES: the identifiers of the messages. A name in the file may have line ends, and is not offered.
_isorepo_messages() {{
    local LC_ALL=C plain line repository
    _isorepo_plain "$1"
    repository=$plain
    _isorepo_plain "$2"
    while IFS= read -r line; do
        [[ ! ${{line%% *}} =~ ^{identifier}$ ]] || printf '%s\n' "${{line%% *}}"
    done < <(_isorepo_asked list "$repository" "$plain")
}}

_isorepo() {{
    local word=${{COMP_WORDS[COMP_CWORD]}} at=1 options=
    local -a wanted=()
    COMPREPLY=()
    if [ "$COMP_CWORD" = 1 ]; then
        mapfile -t COMPREPLY < <(compgen -W '{first}' -- "$word")
        return
    fi
    # behind `try` and a command stand the words of that command
    [ "${{COMP_WORDS[1]}}" != try ] || [ "$COMP_CWORD" = 2 ] || at=2
    case ${{COMP_WORDS[at]}} in
{cases}
    esac
    local count=${{#wanted[@]}} first=$((at + 1))
    [ "$count" -gt 0 ] || return
    while [ "$first" -lt "$COMP_CWORD" ] && [[ " $options " == *" ${{COMP_WORDS[first]}} "* ]]; do
        [ "${{COMP_WORDS[first]}}" != --from ] || first=$((first + 1))
        first=$((first + 1))
    done
    local place=$((COMP_CWORD - first))
    if [ "$place" = 0 ] && [[ $word == -* ]] && [ -n "$options" ]; then
        mapfile -t COMPREPLY < <(compgen -W "$options" -- "$word")
        return
    fi
    if [ "$place" = -1 ]; then
        wanted=(LIST) count=1 place=0
    fi
    if [ "$place" -ge "$count" ]; then
        case ${{wanted[count - 1]}} in
        *..) place=$((count - 1)) ;;
        *) return ;;
        esac
    fi
    compopt -o filenames 2>/dev/null
    case ${{wanted[place]}} in
    MSGID) _isorepo_offer "$word" < <(_isorepo_messages "${{COMP_WORDS[first]}}" "${{COMP_WORDS[first + 1]}}") ;;
    DIR) mapfile -t COMPREPLY < <(compgen -d -- "$word") ;;
    '[COMMAND]') mapfile -t COMPREPLY < <(compgen -W '{first}' -- "$word") ;;
    COMMAND) mapfile -t COMPREPLY < <(compgen -W '{tried}' -- "$word") ;;
    '[RULE]') _isorepo_offer "$word" < <(_isorepo_asked explain) ;;
    CODES) mapfile -t COMPREPLY < <(compgen -W - -- "$word"; compgen -f -- "$word") ;;
    *) mapfile -t COMPREPLY < <(compgen -f -- "$word") ;;
    esac
}}
complete -F _isorepo isorepo ./isorepo
'''


def arrays(words):
    """The words that a command wants, and its options; the words of an option stand in brackets."""
    options = [word.strip('[]') for word in words if word.startswith('[--')]
    wanted = [word for word in words if word in ('[COMMAND]', '[RULE]') or not (word.startswith('[--') or word.endswith(']'))]
    return f"wanted=({' '.join(map(shlex.quote, wanted))})" + (f" options='{' '.join(options)}'" if options else '')


def completions():
    commands, words = entries()
    named = [words_of.split(' ') for words_of, _ in commands + words]
    cases = '\n'.join(f"    {first}) {arrays(rest)} ;;" for first, *rest in named if rest)
    tried = [words_of.split(' ')[0] for who, words_of, _ in rows('command') if who == 'program'] + ['show']
    return COMPLETION.format(first=' '.join(first for first, *_ in named), cases=cases, tried=' '.join(tried), identifier=IDENTIFIER_FORM.pattern)


def main(folder):
    for name, text in (('help.txt', help_text()), ('isorepo.1', manual()), ('isorepo.bash', completions())):
        (Path(folder) / name).write_text(text)


if __name__ == '__main__':
    main(sys.argv[1])
