#!/usr/bin/env python3
"""Counts the places in src/ that are written in an older form, by the points of docs/DESIGN-PASS.md.

Each place is found by its form alone: a place is where to look, and not yet a fault.

usage: places.py [ROOT]               prints a line for each point, with how many places there are
       places.py --list POINT [ROOT]  prints the places of a point, as file:line: what
"""

import collections
import glob
import re
import sys

FUNCTION = re.compile(r"^( *)(?:pub(?:\(crate\))? )?fn (\w+)[^\n]*?\(.*?^\1\}\n", re.M | re.S)
LOOP = re.compile(r"^( *)(?:'\w+: )?while ([^\n]*) \{\n(.*?)^\1\}\n", re.M | re.S)
REFUSALS = re.compile(
    r"\b(CARD_SHORT|BAD_[A-Z_]+|NO_VERTEX|NO_SUCH_[A-Z]+|HISTORY_[A-Z]+|BUFFER_SHORT|INVALID_BOARD|LINE_NO_[A-Z]+|"
    r"WEIGHT_TOO_HIGH|NAMED_BEFORE|NOT_ARBORESCENCE|WRONG_[A-Z]+|OVERCHARGED|HAS_RECORDS|[A-Z_]*OUT_OF_RANGE|UNEQUAL_PAIR)\b"
)
# A parameter's name and type, without the reference.
PARAMETER = re.compile(r"(\w+): &?(?:'a )?(?:mut )?([\w\[\]; ]+)")


class Source:
    """The functions of a file: each a line, a name, the text to its body, and the body."""

    def __init__(self, path, root):
        self.name = path[len(root) + 1 :]
        self.text = open(path, encoding="utf-8").read()
        self.functions = []
        for match in FUNCTION.finditer(self.text):
            whole = match.group(0)
            opening = re.search(r"^ *\{\n|\{\n", whole, re.M)
            at = opening.start() if opening else len(whole)
            self.functions.append((self.line(match.start()), match.group(2), whole[:at], whole[at:]))

    def line(self, at):
        return self.text.count("\n", 0, at) + 1


def signature(head):
    return re.split(r"\n\s*(?:requires|ensures)\b", head)[0]


def options(source):
    """Point 1: a flag or an answer with values beside it, functions that answer numbers, numbers for kinds."""
    for match in re.finditer(r"^ +(?:pub )?(found|ok|answer|known|failed): (?:bool|u32|u8),", source.text, re.M):
        yield source.line(match.start()), "field " + match.group(1)
    for match in re.finditer(r"^ +(Refused|Refuses)\(u32\)", source.text, re.M):
        yield source.line(match.start()), "variant " + match.group(1)
    for line, name, head, body in source.functions:
        if re.search(r"-> u(32|8)\b", signature(head)) and REFUSALS.search(body):
            yield line, "number of a refusal: " + name
    kinds = r"^(?:pub )?const ((?:PIN|BAN|CLEAR|BUDGET|TAKE_BACK|LOOK|WRITE|\w+_GROUP|\w+_KIND|FREE|ABSENT|EXCLUDED"
    kinds += r"|OPTIONAL|MANDATORY|NO_PIN|SEVERAL_PINS)): u(?:8|32)\b"
    for match in re.finditer(kinds, source.text, re.M):
        yield source.line(match.start()), "number of a kind: " + match.group(1)


def loops(source):
    """Point 3: a while loop that counts up or down by one, and a for loop over the places of a slice."""
    for match in LOOP.finditer(source.text):
        statements = [line.strip() for line in match.group(3).strip().split("\n")]
        for variable in set(re.findall(r"\w+", match.group(2))):
            if statements[-1] == variable + " += 1;" or statements[0] == variable + " -= 1;" or statements[-1] == variable + " -= 1;":
                yield source.line(match.start()), "while " + match.group(2)
                break
    for match in re.finditer(r"^ *for (\w+) in 0\.\.([\w.]+)\.len\(\)", source.text, re.M):
        yield source.line(match.start()), "for " + match.group(1) + " in 0.." + match.group(2) + ".len()"


def by_hand(source):
    """Point 4: functions that compare, copy, convert or print by hand, by their names."""
    for line, name, head, body in source.functions:
        if re.match(r"(same|equal|is_same|are_same|are_equal|copy|copied|clone)(_|$)|(\w+_number|\w+_code|\w+_kind|to_\w+_number)$", name):
            yield line, name


def together(source):
    """Point 5: functions whose parameters hold one of the groups that travel together."""
    groups = [("weights", "marks", "n", "root"), ("m", "n", "root"), ("keys", "parents", "n"), ("out", "at"), ("out", "w")]
    for line, name, head, body in source.functions:
        names = set(re.findall(r"(\w+): ", signature(head)))
        for group in groups:
            if names.issuperset(group):
                yield line, name + " (" + ", ".join(group) + ")"
                break


def buffers(source):
    """Point 6: a buffer with a length or a place beside it, and parallel slices."""
    for line, name, head, body in source.functions:
        words = signature(head)
        if re.search(r"\b(count|length|len|used|pairs): (usize|u32)", words) and re.search(r": &?(?:'a )?(?:mut )?\[", words):
            yield line, name + " (a slice or an array with its count)"
        elif {"kinds", "firsts", "seconds"} <= set(re.findall(r"(\w+): ", words)):
            yield line, name + " (parallel slices)"
    for match in re.finditer(r"struct \w+ \{\n((?:[^}]*\n)*?)\}", source.text):
        if re.search(r": \[[^\]]*\],", match.group(1)) and re.search(r"\b(count|length|len|used|next|pairs): (usize|u32)", match.group(1)):
            yield source.line(match.start()), "struct with an array and a count"


def switches(source):
    """Point 7: a chain of tests of a kind or a number."""
    for line, name, head, body in source.functions:
        tests = collections.Counter(re.findall(r"if (\w+(?:\.\w+)?) == [A-Z0-9_]+\b", body))
        for value, count in tests.items():
            if count >= 3:
                yield line, name + ": " + str(count) + " tests of " + value


POINTS = {"1": options, "3": loops, "4": by_hand, "5": together, "6": buffers, "7": switches}


def places(root, point):
    found = []
    for path in sorted(glob.glob(root + "/crates/*/src/*.rt")):
        source = Source(path, root)
        found += [(source.name, line, what) for line, what in POINTS[point](source)]
    return found


def answers(root):
    """Point 8: the answers to goals in proofs/."""
    count = 0
    for path in glob.glob(root + "/crates/*/proofs/**/Answers.antt", recursive=True):
        count += len(re.findall(r"^(?:pub )?\S+ : goal\.", open(path, encoding="utf-8").read(), re.M))
    return count


def main(words):
    if words[:1] == ["--list"]:
        for name, line, what in places(words[2] if words[2:] else ".", words[1]):
            print(f"{name}:{line}: {what}")
        return
    root = words[0] if words else "."
    for point in POINTS:
        found = places(root, point)
        print(f"point {point}: {len(found)} places in {len({name for name, _, _ in found})} files")
    print(f"point 8: {answers(root)} answers")


main(sys.argv[1:])
