"""Lines, tokens, numerals and names: what every text is made of.

A text is cut at its line feeds; a rest after the last line feed is a line if it isn't empty.
One carriage return at the end of a line is dropped, then the comment from `#` on, then the blanks
at both ends.  Blanks are the space and the tab.  What is left, if it isn't empty, is a content
line, and lines are numbered from 1 with the empty ones counted.  A content line may hold tabs and
the bytes 0x20 to 0x7E alone.  A numeral is decimal, or hexadecimal after `0x`, of any length.
"""

import re
import sys
from typing import NamedTuple

sys.set_int_max_str_digits(0)

DECIMAL = re.compile(rb"[0-9]+")
HEXADECIMAL = re.compile(rb"0x[0-9A-Fa-f]+")
EIGHT_DIGITS = re.compile(rb"[0-9A-Fa-f]{8}")
NAME = re.compile(rb"[A-Za-z_][A-Za-z0-9_]{0,23}")


class Line(NamedTuple):
    """A content line: its number, and its text without comment and outer blanks."""

    number: int
    text: bytes


class Fault(Exception):
    """The first fault of an input: a line number and the word for its kind."""

    def __init__(self, line, kind):
        super().__init__(line, kind)
        self.line = line
        self.kind = kind


def pieces(text):
    """All lines of a text, empty ones too, without their line feeds."""
    parts = text.split(b"\n")
    if parts[-1] == b"":
        parts.pop()
    return parts


def line_count(text):
    return len(pieces(text))


def content_lines(text):
    found = []
    for number, piece in enumerate(pieces(text), start=1):
        if piece.endswith(b"\r"):
            piece = piece[:-1]
        before_comment = piece.split(b"#")[0]
        trimmed = before_comment.strip(b" \t")
        if trimmed:
            found.append(Line(number, trimmed))
    return found


def is_plain(text):
    """Whether a content line holds no byte but tabs and 0x20 to 0x7E."""
    return all(byte == 0x09 or 0x20 <= byte <= 0x7E for byte in text)


def tokens(text):
    return [part for part in re.split(rb"[ \t]", text) if part]


def is_header(line):
    return tokens(line.text)[0].startswith(b"[")


def numeral(token):
    """The value of a numeral, or None if the token is none."""
    if DECIMAL.fullmatch(token):
        return int(token, 10)
    if HEXADECIMAL.fullmatch(token):
        return int(token[2:], 16)
    return None


def signed_numeral(token):
    if token.startswith(b"-"):
        value = numeral(token[1:])
        return None if value is None else -value
    return numeral(token)


def is_name(token):
    return NAME.fullmatch(token) is not None


def eight_digits(token):
    """The value of exactly eight hexadecimal digits, or None."""
    return int(token, 16) if EIGHT_DIGITS.fullmatch(token) else None
