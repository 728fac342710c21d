"""Changes each byte of a journal once, and looks at what `check` answers to the changed text.

usage: changed.py PROGRAM FOLDER MAIN JOURNAL

Where the text isn't of the form any more the answer has to be status 10 with the line that a second reader of journals, the one
of this file, finds. Where it is of the form, status 0, or status 10 with an event line that isn't before the changed one.
"""
import re
import subprocess
import sys

MOST = 4_194_304
U32 = 2 ** 32 - 1
NUMBER = "(0|[1-9][0-9]*)"
# The operations with the greatest number in each place.
FORMS = [
    ("class {} {} {}", (U32, U32, U32)),
    ("read {} {} {}", (U32, U32, U32)),
    ("write {} {} {}", (U32, U32, U32)),
    ("new {} {} {}", (U32, U32, U32)),
    ("enter {}", (U32,)),
    ("exit {}", (U32,)),
    ("exit {} no", (U32,)),
    ("wait {}", (U32,)),
    ("wait {} no", (U32,)),
    ("rewake {}", (U32,)),
    ("notify {} {}", (U32, 255)),
    ("notify {} no", (U32,)),
    ("print", ()),
    ("start {} {} {}", (U32, 10, 255)),
    ("start {} {} no", (U32, 10)),
    ("join {}", (U32,)),
    ("init {} ready", (U32,)),
    ("init {} bad", (U32,)),
    ("init {} claimed", (U32,)),
    ("done {} ok", (U32,)),
    ("done {} bad", (U32,)),
    ("end", ()),
    ("died {}", (U32,)),
]
EVENTS = [
    (re.compile(" ".join([NUMBER, NUMBER, form.format(*[NUMBER] * len(most))]).encode()), (255, 1_000_000_000) + most, form)
    for form, most in FORMS
]
UNDONE = re.compile(f"undone {NUMBER} {NUMBER} {NUMBER}".encode())


def in_range(numbers, most):
    return all(int(number) <= limit for number, limit in zip(numbers, most))


def is_event(line):
    """Whether a line is one of an event."""
    for pattern, most, form in EVENTS:
        found = pattern.fullmatch(line)
        if found and in_range(found.groups(), most) and int(found.group(1)) >= 1:
            if not form.startswith("start") or int(found.group(4)) >= 1:
                return True
    return False


def is_undone(line):
    """Whether a line is one of an undone level."""
    found = UNDONE.fullmatch(line)
    return bool(found) and in_range(found.groups(), (255, 255, U32)) and int(found.group(1)) >= 1 and int(found.group(2)) >= 1


def first_fault(text):
    """The first line that is wrong, missing, not ended, or after the last; None where the text is of the form."""
    lines = text.split(b"\n")
    ended, rest = lines[:-1], lines[-1]
    if not ended or ended[0] not in (b"jrev-trace 1", b"jrev-trace 2"):
        return 1
    events = items = 0
    for number, line in enumerate(ended[1:], 2):
        if line == b"end %d" % events:
            return number + 1 if number < len(ended) or rest else None
        if is_event(line):
            events += 1
        elif not (ended[0].endswith(b"2") and is_undone(line)):
            return number
        items += 1
        if items > MOST:
            return number
    return len(ended) + 1


def main():
    program, folder, name, path = sys.argv[1:]
    with open(path, "rb") as file:
        journal = file.read()
    wrong, faults, executions = [], 0, 0
    for place, old in enumerate(journal):
        other = b"0123456789 \nabenorx"
        new = other[(7 * place) % len(other)]
        if new == old:
            new = other[(7 * place + 1) % len(other)]
        text = journal[:place] + bytes([new]) + journal[place + 1:]
        seen = subprocess.run([program, "check", folder, name], input=text, capture_output=True)
        found = re.fullmatch(rb"not an execution: line ([0-9]+)\n", seen.stderr)
        fault = first_fault(text)
        changed = journal.count(b"\n", 0, place) + 1
        if seen.returncode == 0:
            executions += 1
            right = fault is None
        elif seen.returncode == 10 and found and not seen.stdout:
            line = int(found.group(1))
            right = line == fault if fault is not None else line >= changed
            faults += fault is not None
        else:
            right = False
        if not right:
            wrong.append(place)
    lines = journal.count(b"\n")
    what = f"each byte of a journal of {lines} lines changed: {faults} out of form, {executions} executions too"
    print(f"failed {what}: bytes {wrong[:10]}" if wrong or not 150 <= lines <= 400 else f"ok {what}")


main()
