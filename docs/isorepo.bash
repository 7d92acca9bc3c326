# Completions of bash for isorepo: made of docs/commands.txt by tools/make_manual.py

# _isorepo_offer WORD: offers those of the lines on standard input that begin with the word. What stands in a line is never expanded.
_isorepo_offer() {
    local line
    while IFS= read -r line; do
        [[ $line != "$1"* ]] || COMPREPLY+=("$line")
    done
}

# _isorepo_plain WORD: sets `plain` to what a word stands for, with its quotes and backslashes taken and ~/ as the home folder. Nothing else in it is expanded.
_isorepo_plain() {
    local word=$1 at=0 character quote=
    plain=
    [[ $word != \~/* ]] || { plain=$HOME/; at=2; }
    while [ "$at" -lt "${#word}" ]; do
        character=${word:at:1}
        at=$((at + 1))
        case $quote$character in
        \\ | \"\\)
            plain+=${word:at:1}
            at=$((at + 1))
            ;;
        \' | \") quote=$character ;;
        \'\' | \"\") quote= ;;
        *) plain+=$character ;;
        esac
    done
}

# _isorepo_asked WORDS..: what the command answers, without a build
_isorepo_asked() {
    local plain
    _isorepo_plain "${COMP_WORDS[0]}"
    ISOREPO_COMPLETES=1 "$plain" "$@" 2>/dev/null
}

# _isorepo_messages REPO CODES: the identifiers of the messages. A name in the file may have line ends, and is not offered.
_isorepo_messages() {
    local LC_ALL=C plain line repository
    _isorepo_plain "$1"
    repository=$plain
    _isorepo_plain "$2"
    while IFS= read -r line; do
        [[ ! ${line%% *} =~ ^[a-z]{4}[.][A-Za-z0-9]{3}[.][0-9]{3}[.][0-9]{2}$ ]] || printf '%s\n' "${line%% *}"
    done < <(_isorepo_asked list "$repository" "$plain")
}

_isorepo() {
    local word=${COMP_WORDS[COMP_CWORD]} at=1 options=
    local -a wanted=()
    COMPREPLY=()
    if [ "$COMP_CWORD" = 1 ]; then
        mapfile -t COMPREPLY < <(compgen -W 'list types xsd asn1 check-xml check-der canon-xml xml-to-der der-to-xml drill import show check-all help try --version explain install' -- "$word")
        return
    fi
    # behind `try` and a command stand the words of that command
    [ "${COMP_WORDS[1]}" != try ] || [ "$COMP_CWORD" = 2 ] || at=2
    case ${COMP_WORDS[at]} in
    list) wanted=(REPO CODES) ;;
    types) wanted=(REPO CODES MSGID) ;;
    xsd) wanted=(REPO CODES MSGID) ;;
    asn1) wanted=(REPO CODES MSGID) ;;
    check-xml) wanted=(REPO CODES MSGID) ;;
    check-der) wanted=(REPO CODES MSGID) ;;
    canon-xml) wanted=(REPO CODES MSGID) ;;
    xml-to-der) wanted=(REPO CODES MSGID) ;;
    der-to-xml) wanted=(REPO CODES MSGID) ;;
    drill) wanted=(NUMBER SIZE) ;;
    import) wanted=(SCHEMA..) ;;
    show) wanted=(REPO CODES MSGID FILE) options='--der --json' ;;
    check-all) wanted=(REPO CODES MSGID FILES..) options='--der --from' ;;
    help) wanted=('[COMMAND]') ;;
    try) wanted=(COMMAND WORDS..) ;;
    explain) wanted=('[RULE]') ;;
    install) wanted=(DIR) ;;
    esac
    local count=${#wanted[@]} first=$((at + 1))
    [ "$count" -gt 0 ] || return
    while [ "$first" -lt "$COMP_CWORD" ] && [[ " $options " == *" ${COMP_WORDS[first]} "* ]]; do
        [ "${COMP_WORDS[first]}" != --from ] || first=$((first + 1))
        first=$((first + 1))
    done
    local place=$((COMP_CWORD - first))
    if [ "$place" = 0 ] && [[ $word == -* ]] && [ -n "$options" ]; then
        mapfile -t COMPREPLY < <(compgen -W "$options" -- "$word")
        return
    fi
    if [ "$place" = -1 ]; then
        wanted=(LIST) count=1 place=0
    fi
    if [ "$place" -ge "$count" ]; then
        case ${wanted[count - 1]} in
        *..) place=$((count - 1)) ;;
        *) return ;;
        esac
    fi
    compopt -o filenames 2>/dev/null
    case ${wanted[place]} in
    MSGID) _isorepo_offer "$word" < <(_isorepo_messages "${COMP_WORDS[first]}" "${COMP_WORDS[first + 1]}") ;;
    DIR) mapfile -t COMPREPLY < <(compgen -d -- "$word") ;;
    '[COMMAND]') mapfile -t COMPREPLY < <(compgen -W 'list types xsd asn1 check-xml check-der canon-xml xml-to-der der-to-xml drill import show check-all help try --version explain install' -- "$word") ;;
    COMMAND) mapfile -t COMPREPLY < <(compgen -W 'list types xsd asn1 check-xml check-der canon-xml xml-to-der der-to-xml drill show' -- "$word") ;;
    '[RULE]') _isorepo_offer "$word" < <(_isorepo_asked explain) ;;
    CODES) mapfile -t COMPREPLY < <(compgen -W - -- "$word"; compgen -f -- "$word") ;;
    *) mapfile -t COMPREPLY < <(compgen -f -- "$word") ;;
    esac
}
complete -F _isorepo isorepo ./isorepo
