#!/usr/bin/env python3
"""A second reader of captures, to judge the program `capture` by: tests/capture/reader.py [FILE.vcd]

Written from the twelve readings of docs/FORMATS.md, "Capture", and from nothing else; the numbers in the comments are theirs.
Writes what the program writes: `signals K`, a line for each tick, and `refused R P` at a fault. Without a file it reads standard input.
"""

import os
import re
import sys

WIDTHS = {"cycle": 7, "raster": 9, "ba": 1, "aec": 1, "dma": 8, "rc": 3, "vc": 10, "irq": 1}
MOST_SIGNALS = 64
LAST_TIME = 2**64 - 1
KNOWN, UNKNOWN = b"01", b"xzuwlh-"
PASSED_BY = (b"$end", b"$dumpvars", b"$dumpall", b"$dumpon", b"$dumpoff")


class Refused(Exception):
    def __init__(self, number, place):
        super().__init__(number, place)
        self.number, self.place = number, place


def words_of(data):
    """1: words are runs of bytes above 32, each here with its place."""
    return ((found.start(), found.group()) for found in re.finditer(rb"[^\x00-\x20]+", data))


def inside(words, place):
    """The words of a section up to its `$end`; 2: a section that the file's end cuts off is a fault at its first byte."""
    found = []
    for _, word in words:
        if word == b"$end":
            return found
        found.append(word)
    raise Refused(14, place)


def declarations(words, length):
    """The identifier of each of our signals that is declared, and all identifiers."""
    ours, declared, count = {}, set(), 0
    for place, word in words:
        # 6: a word outside a section; an `$end` ends one and begins none
        if not word.startswith(b"$") or word == b"$end":
            raise Refused(14, place)
        section = inside(words, place)
        if word == b"$enddefinitions":
            return ours, declared
        if word != b"$var":
            continue
        count += 1
        if len(section) < 4:
            raise Refused(14, place)
        _, size, identifier, name = section[:4]
        # 3: up to a `[`, capitals as small letters, the first declaration of a name
        name = name.split(b"[")[0].lower().decode("latin-1")
        if name in WIDTHS and name not in ours:
            # 4: the size's text
            if size != b"%d" % WIDTHS[name]:
                raise Refused(14, place)
            ours[name] = identifier
        # 5: after 14
        if count > MOST_SIGNALS:
            raise Refused(15, place)
        declared.add(identifier)
    # 2 and 6: where `$enddefinitions` is missing
    raise Refused(14, length)


def time_of(digits, place):
    """10: 0 to 2^64 - 1."""
    number = digits.lstrip(b"0")
    if not re.fullmatch(rb"[0-9]+", digits) or len(number) > 20 or int(number or b"0") > LAST_TIME:
        raise Refused(14, place)
    return int(number or b"0")


def fitted(digits, width, place):
    """8: a value to its width, as text of 0, 1 and x."""
    digits = digits.lower()
    if len(digits) > width or any(digit not in KNOWN + UNKNOWN for digit in digits):
        raise Refused(14, place)
    fill = "0" if digits[:1] in (b"0", b"1") else "x"
    return "".join(chr(digit) if digit in KNOWN else "x" for digit in digits).rjust(width, fill)


def read(data):
    """First how many of our signals are declared, then each tick's time and values; the values are one mapping, which changes."""
    words = words_of(data)
    ours, declared = declarations(words, len(data))
    yield len(ours)
    values, time = {name: "x" * width for name, width in WIDTHS.items()}, None
    for place, word in words:
        kind = word[:1].lower()
        if word in PASSED_BY:
            continue
        if kind == b"$":
            inside(words, place)
        elif kind == b"#":
            mark = time_of(word[1:], place)
            if time is not None and mark < time:
                raise Refused(16, place)
            # 12: what was before a later mark is known only here; 11: gaps have the values repeated
            while time is not None and time < mark:
                yield time, values
                time += 1
            time = mark
        else:
            digits, identifier = word[:1], word[1:]
            if kind in (b"b", b"r", b"s"):
                digits, (_, identifier) = word[1:], next(words, (None, None))
            # 8: an identifier that is declared; 2: and that is there
            if identifier not in declared:
                raise Refused(14, place)
            # 9: all of ours that have it
            for name in ours:
                if ours[name] == identifier:
                    if kind in (b"r", b"s"):
                        raise Refused(14, place)
                    values[name] = fitted(digits, WIDTHS[name], place)
    if time is not None:
        yield time, values


def shown(value):
    return value if "x" in value else str(int(value, 2))


def lines_of(data):
    """The program's text, line by line."""
    answers = read(data)
    try:
        yield f"signals {next(answers)}"
        for time, values in answers:
            yield f"{time} {' '.join(map(shown, values.values()))}"
    except Refused as fault:
        yield f"refused {fault.number} {fault.place}"


def main(names):
    if len(names) > 1:
        print("tests/capture/reader.py: one file at most", file=sys.stderr)
        return 2
    with open(names[0], "rb") if names else sys.stdin.buffer as source:
        data = source.read()
    try:
        for line in lines_of(data):
            print(line)
        sys.stdout.flush()
    except BrokenPipeError:
        # the reader of these lines has seen enough
        os.dup2(os.open(os.devnull, os.O_WRONLY), sys.stdout.fileno())
    return 0


if __name__ == "__main__":
    sys.exit(main(sys.argv[1:]))
