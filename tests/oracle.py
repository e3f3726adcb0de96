#!/usr/bin/env python3
"""A second reader of frozen files, to compare m4r with. It shares no code and no text with m4r.

    tests/oracle.py canon FILE      what `m4r --canon=FILE` has to print, and its status
    tests/oracle.py inspect FILE    what `m4r --inspect=FILE` has to print, and its status

Written from the GNU M4 manual ("Frozen file format") and docs/FROZEN_FILE.md, in the plainest way:
the file is one string of bytes, the state a few dictionaries. It is slow on purpose. Needs Python 3.
"""

import sys

BLANKS = b" \t"
DIGITS = b"0123456789"
LONGEST = 2**64 - 1
LEAST_DIVERSION, GREATEST_DIVERSION = -(2**31), 2**31 - 1
DEFAULT_QUOTES = (b"`", b"'")
DEFAULT_COMMENTS = (b"#", b"\n")

# The builtins that m4r has. A name that is not among them is listed as a placeholder.
BUILTINS = frozenset((b"define", b"undefine", b"pushdef", b"popdef", b"defn", b"indir", b"builtin", b"ifdef",
                      b"ifelse", b"shift", b"dumpdef", b"dnl", b"changequote", b"changecom", b"divert",
                      b"undivert", b"divnum", b"len", b"index", b"substr", b"translit", b"incr", b"decr",
                      b"eval", b"errprint", b"m4wrap", b"m4exit", b"__file__", b"__line__"))


class Fault(Exception):
    """Why a file is refused: the kind, and the offset of the byte where it is seen."""

    def __init__(self, kind, offset):
        super().__init__(kind, offset)
        self.kind, self.offset = kind, offset


class State:
    """What a frozen file holds."""

    def __init__(self):
        self.quotes, self.comments = DEFAULT_QUOTES, DEFAULT_COMMENTS
        self.table = {}  # name: definitions as (letter, text), the oldest first
        self.diversions = {}  # positive number: text
        self.current = 0
        self.issued = b""


class File:
    """The bytes of a file, and how far they are read."""

    def __init__(self, text):
        self.text, self.at = text, 0

    def peek(self):
        return self.text[self.at : self.at + 1]

    def skip_blanks(self):
        while self.peek() and self.peek() in BLANKS:
            self.at += 1

    def expect(self, byte):
        if not self.peek():
            raise Fault("F9 PrematureEnd", self.at)
        if self.peek() != byte:
            raise Fault("F8 SeparatorExpected", self.at)
        self.at += 1

    def digits(self):
        start = self.at
        while self.peek() and self.peek() in DIGITS:
            self.at += 1
        if start == self.at:
            raise Fault("F6 DigitExpected" if self.peek() else "F9 PrematureEnd", self.at)
        return int(self.text[start : self.at])

    def number(self, least, greatest):
        self.skip_blanks()
        start = self.at
        negative = least < 0 and self.peek() == b"-"
        if negative:
            self.at += 1
        value = self.digits()
        value = -value if negative else value
        if not least <= value <= greatest:
            raise Fault("F7 NumberTooLarge", start)
        return value

    def strings(self, lengths):
        self.expect(b"\n")
        found = []
        for length in lengths:
            if length > len(self.text) - self.at:
                raise Fault("F9 PrematureEnd", len(self.text))
            found.append(self.text[self.at : self.at + length])
            self.at += length
        self.expect(b"\n")
        return found

    def two_strings(self):
        first = self.number(0, LONGEST)
        self.skip_blanks()
        self.expect(b",")
        second = self.number(0, LONGEST)
        return self.strings([first, second])

    def version(self):
        self.skip_blanks()
        start = self.at
        value = self.digits()
        if value > 1:
            raise Fault("F2 Newer", start)
        if value == 0:
            raise Fault("F3 VersionZero", start)
        self.expect(b"\n")

    def skip_lines(self):
        """Skips empty lines and comment lines; tells whether the end was met."""
        while self.peek() and self.peek() in b"\n#":
            end = self.text.find(b"\n", self.at)
            if end < 0:
                self.at = len(self.text)
            else:
                self.at = end + 1
        return not self.peek()


def pair(begin, end, default_end):
    if not begin:
        return (b"", b"")
    return (begin, end or default_end)


def divert(state, number, text):
    state.current = number
    if number > 0 and text:
        state.diversions[number] = state.diversions.get(number, b"") + text
    elif number == 0:
        state.issued += text


def directive(file, state):
    letter = file.peek()
    if letter == b"V":
        raise Fault("F4 SecondVersion", file.at)
    if letter not in (b"C", b"D", b"F", b"Q", b"T"):
        raise Fault("F5 UnknownDirective", file.at)
    file.at += 1
    if letter == b"D":
        number = file.number(LEAST_DIVERSION, GREATEST_DIVERSION)
        file.skip_blanks()
        file.expect(b",")
        (text,) = file.strings([file.number(0, LONGEST)])
        return divert(state, number, text)
    first, second = file.two_strings()
    if letter == b"Q":
        state.quotes = pair(first, second, b"'")
    elif letter == b"C":
        state.comments = pair(first, second, b"\n")
    else:
        state.table.setdefault(first, []).append((letter, second))


def load(text):
    file, state = File(text), State()
    if file.skip_lines() or file.peek() != b"V":
        raise Fault("F1 NoVersion", file.at)
    file.at += 1
    file.version()
    while not file.skip_lines():
        directive(file, state)
    return state


def counted(letter, first, second):
    return b"%s%d,%d\n%s%s\n" % (letter, len(first), len(second), first, second)


def canonical(state):
    parts = [b"# m4 frozen state\nV1\n"]
    if state.quotes != DEFAULT_QUOTES:
        parts.append(counted(b"Q", *state.quotes))
    if state.comments != DEFAULT_COMMENTS:
        parts.append(counted(b"C", *state.comments))
    for name in sorted(state.table):
        parts += [counted(letter, name, text) for letter, text in state.table[name]]
    last = 0
    for number in sorted(state.diversions):
        text, last = state.diversions[number], number
        parts.append(b"D%d,%d\n%s\n" % (number, len(text), text))
    if state.current != last:
        parts.append(b"D%d,0\n\n" % state.current)
    return b"".join(parts) + b"# End of frozen state file\n"


def show(text):
    shown = (chr(b) if 33 <= b <= 126 and b != 92 else "\\%02x" % b for b in text)
    return "".join(shown) or "\\."


def delimiters(word, both):
    return "%s none" % word if both == (b"", b"") else "%s %s %s" % (word, *map(show, both))


def definition(name, letter, text):
    if letter == b"T":
        return "text %s %d" % (show(name), len(text))
    kind = "builtin" if text in BUILTINS else "placeholder"
    return "%s %s %s" % (kind, show(name), show(text))


def inspected(state):
    lines = [delimiters("quotes", state.quotes), delimiters("comments", state.comments)]
    for name in sorted(state.table):
        lines += [definition(name, *one) for one in state.table[name]]
    for number in sorted(state.diversions):
        lines.append("diversion %d %d" % (number, len(state.diversions[number])))
    lines.append("current %d" % state.current)
    if state.issued:
        lines.append("issued %d" % len(state.issued))
    return "".join(line + "\n" for line in lines).encode()


def answer(mode, name, text):
    """The output, the messages and the status of the mode on this file."""
    try:
        state = load(text)
    except Fault as fault:
        line = "m4: %s: %s at byte %d\n" % (name, fault.kind, fault.offset)
        return b"", line.encode(), 63 if fault.kind.startswith("F2") else 1
    if mode == "inspect":
        return inspected(state), b"", 0
    if state.issued:
        return b"", ("m4: %s: K1 text would be issued at reload\n" % name).encode(), 1
    return canonical(state), b"", 0


def main(words):
    if len(words) != 3 or words[1] not in ("canon", "inspect"):
        sys.exit(__doc__)
    with open(words[2], "rb") as file:
        output, messages, status = answer(words[1], words[2], file.read())
    sys.stdout.buffer.write(output)
    sys.stderr.buffer.write(messages)
    sys.exit(status)


if __name__ == "__main__":
    # Numbers of any length are read, as m4r reads them.
    if hasattr(sys, "set_int_max_str_digits"):
        sys.set_int_max_str_digits(0)
    main(sys.argv)
