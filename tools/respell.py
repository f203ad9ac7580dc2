#!/usr/bin/env python3
"""Brings the names of this repository's definitions, lemmas, fields and constructors to snake case. Run once, at the top, after the
kit's port.py. Functions and types of src/ keep their names, and so do the steps and goals that the check names. A new name that is
taken already is set apart: a lemma gets `_lem`, a definition the name that TAKEN gives it."""
import os
import re

# definitions whose name in snake case a function of src/ or another definition has, and what they are called
TAKEN = {
    "onePart": "one_part_of",
    "digitValue": "digit_value_of",
    "digitSum": "digit_sum_of",
    "digitOf": "decimal_of",
    "tokenAt": "token_of_offset",
    "tokenNumber": "token_of_number",
    "markSlots": "mark_slots",
    "spine-at": "spine_kind",
    "soundOr": "sound_or_fault",
    "lastOffset": "last_offset_of",
    "startOf": "start_of_line",
    "bracketAt": "bracket_of_offset",
    "beforeClose": "before_close_of",
    "insertDoor": "insert_door_of",
    "pasteDoor": "paste_door_of",
    "deleteDoor": "delete_door_of",
    "cutDoor": "cut_door_of",
    "layerName": "layer_name_of",
    "kindName": "kind_name_of",
    "matchName": "match_name_of",
    "isEdit": "is_an_edit",
    "readLine": "request_of_line",
    "doneOr": "done_or_fault",
    "markTotals": "totals_of_marks",
    "partFrom": "part_from_slot",
    "bothInside": "both_inside_of",
    "markFrom": "mark_of_offset",
    "lineOf": "line_of_offset",
    "afterOpen": "after_open_of",
}

SIGNATURE = re.compile(r"^(\s*)((?:abbrev |unfoldable |pub )*)([^\s(]\S*) : (.*)$")
RECORD = re.compile(r"^(\s*)(?:pub )?record \S+.* where\s*$")
TOKEN = re.compile(r"[^\s(){}\[\],;.|@]+")
STEPS = re.compile(r"(in|if|loop|returns|then|else|match)-")


def files(ending):
    for folder, _, names in sorted(os.walk("crates")):
        for name in sorted(names):
            if name.endswith(ending) and "/out" not in folder:
                yield os.path.join(folder, name)


def snake(name):
    name = re.sub(r"([a-z0-9])([A-Z])", lambda m: m.group(1) + "_" + m.group(2).lower(), name)
    return name.replace("-", "_").replace("′", "'")


def declared():
    names, fields = set(), set()
    for path in files(".antt"):
        record = None
        for line in open(path):
            if m := RECORD.match(line):
                record = len(m.group(1))
                continue
            m = SIGNATURE.match(line)
            if line.strip() and len(line) - len(line.lstrip()) <= (record if record is not None else -1):
                record = None
            if m and not re.match(r"(goal|need|needs)\.", m.group(4)):
                names.add(m.group(3))
                if record is not None:
                    fields.add(m.group(3))
    return names, fields


def is_old(name):
    mixed = name[0].islower() and re.search(r"[a-z0-9][A-Z]", name)
    return mixed or ("-" in name and re.match(r"[a-z]", name))


def of_libraries(text):
    """The names that a file takes from libraries, which keep their spelling there."""
    own = set(os.listdir("crates"))
    found = set()
    for path, names in re.findall(r"^(?:ghost )?use ([\w.]+)\.\{([^}]*)\}", text, re.M):
        parts = path.split(".")
        if not (parts[0] == "Rattle" and parts[1] in own):
            found.update(n.strip().split(" as ")[0] for n in names.split(","))
    return found


def renaming():
    names, fields = declared()
    taken = set()
    for ending in (".antt", ".rt"):
        for path in files(ending):
            taken.update(TOKEN.findall(open(path).read()))
    new = {}
    for name in sorted(filter(is_old, names), key=lambda name: ("-" in name, name)):
        to = TAKEN.get(name) or snake(name)
        if name not in TAKEN and (to in taken or to in new.values()):
            to += "_lem"
        assert to not in new.values() and (name in TAKEN or to not in taken), (name, to)
        new[name] = to
    return new, fields


def main():
    new, fields = renaming()

    def respell(text):
        kept = of_libraries(text)

        def one(m):
            name, start = m.group(0), m.start()
            if name not in new or name in kept:
                return name
            if start and text[start - 1] == ".":
                step = text[max(0, start - 2)] == "c" and not (start > 2 and (text[start - 3].isalnum() or text[start - 3] in "_-.'"))
                if name not in fields or step or STEPS.match(name):
                    return name
            return new[name]

        return TOKEN.sub(one, text)

    for ending in (".antt", ".rt", ".edit"):
        for path in files(ending):
            text = open(path).read()
            if (done := respell(text)) != text:
                open(path, "w").write(done)
    print(f"{len(new)} names")


main()
