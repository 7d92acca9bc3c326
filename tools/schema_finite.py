"""Which of the types that a message reaches have a finite instance (rule M11 of docs/FORMATS.md)."""
from repository_file import COMPONENTS


def needed(entry):
    """The types of which each instance of this one has some, None for one that is not known; a choice needs one of them."""
    return [element.reference for element in entry.elements if element.least > 0] if entry.kind in COMPONENTS else []


def finite(entries):
    """The keys of the types that have a finite instance, found from those that need none."""
    missing, users = {}, {}
    for key, entry in entries.items():
        found = [reference for reference in needed(entry) if reference is not None]
        is_choice = entry.kind == 'ChoiceComponent'
        missing[key] = len(found) if not is_choice else int(bool(found) and len(found) == len(needed(entry)))
        for reference in found:
            users.setdefault(reference, []).append(key)
    known = set()
    ready = [key for key in entries if missing[key] == 0]
    while ready:
        key = ready.pop()
        if key in known:
            continue
        known.add(key)
        for user in users.get(key, []):
            missing[user] -= 1
            if missing[user] <= 0:
                ready.append(user)
    return known
