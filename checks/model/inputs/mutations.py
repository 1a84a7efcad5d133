"""Changes of a text: of tokens, of lines, of bytes, and cuts."""

import re

from . import kernel_lines, spelling

LINES = ["[map]", "[kernels]", "[image]", "[end]", "[x]", "[", "[map] x", "[kernels] [image]",
         "[end]x", "[ end]", "plural 1", "plural 2", "plural 3", "plural", "plural 0x1", "plural 1 1",
         "memory 8", "memory 16", "memory 0", "memory 12", "memory 65544", "cache 1 1", "cache 3 1",
         "cache 128 1", "cache 1 5", "cache 0 1", "cache 1 0", "cache 1", "task t regular entry e "
         "budget 9", "task t dup 0 entry e budget 9", "task t dup 2 entry e budget 0", "task t",
         "task t regular entry nowhere budget 100000001", "task 9a regular entry e budget 1",
         "task t dup 16385 entry nowhere budget 1", "task t regular entry 9a budget 0",
         "after t any", "after t 0", "after t 00", "after t 2", "after t", "after 9a any",
         "after t any any", "join some", "join any", "join", "join some some", "memory 1048576",
         "memory 1048584", "read 1048575 0 1", "read 1048576 0 1", "read 0 1048576 1",
         "read 0 0 1048577", "read 0 0 1", "write 0 0 1", "read 0 0 0", "read 0 0", "write 7 1 1",
         "read 65536 0 1", "read 0 65536 1", "read 0 0 65537", "write 65535 65535 65536",
         "read 8 0 1", "readd 0 0 1", "e: ecall", "e:", "x: y: nop", "nop", "j e", "j nowhere",
         "li x5, 4294967296", "beqz x1, 4096", ".word -1", "00000000: 00000001",
         "00000001: 00000001", "00000008: 00000001", "00000000:", "00000000:00000001",
         "00000000 : 00000001", "00000000: 0", "00000007: 00000001 00000002",
         "00000000: 1 2 3 4 5 6 7 8 9", "0000000: 00000001", "ffffffff: 00000001",
         "00000000: " + " ".join(["00000001"] * 9), "log 1 cores 1", "log 1 cores 0",
         "log 1 cores 65", "log 2 cores 1", "log 01 cores 1", "task t ended 0", "task t skipped",
         "task t ended 2", "task t ended 00", "run t 0 code 0 n 1 loads 0 misses 0 stores 0 core 0 "
         "from 0 to 1", "run t 0 spent n 1 loads 0 misses 0 stores 0 core 0 from 0 to",
         "run t 0 trap 0 pc 00000000 n 1 loads 0 misses 0 stores 0 core 0 from 0 to 1",
         "run t 0 trap 9 pc 0000000 n 1 loads 0 misses 0 stores 0 core 0 from 0 to 1",
         "\x01", "é", "\x7f", "\r", "a\rb", "", "#", "# [end]"]

WORDS = ["any", "0", "1", "00", "01", "regular", "dup", "entry", "budget", "task", "after", "read",
         "write", "join", "some", "memory", "cache", "log", "cores", "ended", "skipped", "failed", "run", "code",
         "trap", "spent", "pc", "n", "loads", "misses", "stores", "core", "from", "to", "plural",
         "[map]", "[end]"]

BYTES = [0x00, 0x01, 0x09, 0x0A, 0x0B, 0x0C, 0x0D, 0x1F, 0x20, 0x23, 0x2C, 0x2D, 0x3A, 0x5B, 0x5D,
         0x7E, 0x7F, 0x80, 0xA0, 0xC2, 0xFF] + list(b"019axX_(")

TOKEN = re.compile(rb"[^ \t,:()\n\r]+")


def other_token(rng, token, text):
    """Something to stand in a token's place."""
    way = rng.random()
    if re.fullmatch(rb"-?(0x)?[0-9a-fA-F]+", token) and way < 0.75:
        if rng.random() < 0.3 and re.fullmatch(rb"[0-9]+", token) and len(token) < 30:
            return str(max(0, int(token) + rng.choice([-8, -1, 1, 8]))).encode()
        return spelling.some_number(rng).encode()
    if way < 0.3:
        return spelling.other_name(rng).encode()
    if way < 0.5:
        return rng.choice(TOKEN.findall(text))
    if way < 0.6:
        return rng.choice(spelling.ODD_REGISTERS + list(spelling.ALIASES.values())).encode()
    if way < 0.7:
        return rng.choice(kernel_lines.MNEMONICS).encode()
    if way < 0.85:
        return rng.choice(WORDS).encode()
    return rng.choice([token + b"x", token[:-1], token.upper(), token + b" " + token, b"x" + token,
                       token.lower(), b"", b"-" + token])


def change_token(rng, text, line_number=None):
    """The text with one token changed, on a given line if one is given."""
    lines = text.split(b"\n")
    number = rng.randrange(len(lines)) if line_number is None else line_number
    if number >= len(lines):
        return text
    found = list(TOKEN.finditer(lines[number]))
    if found:
        one = rng.choice(found)
        line = lines[number]
        changed = other_token(rng, one[0], text)
        lines[number] = line[:one.start()] + changed + line[one.end():]
    return b"\n".join(lines)


NUMBER = re.compile(rb"(?<![A-Za-z_0-9.\[])-?[0-9][0-9a-fA-Fx]*(?![A-Za-z_:\]])")
IDENTIFIER = re.compile(rb"[A-Za-z_][A-Za-z0-9_]*")


def change_found(rng, text, line_number, pattern, other):
    """The text with one place of a pattern changed, on a given line if one is given."""
    lines = text.split(b"\n")
    if line_number is None:
        all_of = [number for number, line in enumerate(lines) if pattern.search(line)]
        if not all_of:
            return text
        line_number = rng.choice(all_of)
    found = list(pattern.finditer(lines[line_number]))
    if found:
        one = rng.choice(found)
        line = lines[line_number]
        lines[line_number] = line[:one.start()] + other(one[0]) + line[one.end():]
    return b"\n".join(lines)


def change_number(rng, text, line_number=None):
    """A number changed into another one, so that the line keeps its shape."""
    def other(number):
        sign = b"-" if number.startswith(b"-") else b""
        if number.isdigit() and len(number) < 12 and rng.random() < 0.5:
            return str(max(0, int(number) + rng.choice([-8, -4, -2, -1, 1, 2, 4, 8]))).encode()
        return sign + spelling.number_at_limits(rng).encode()
    return change_found(rng, text, line_number, NUMBER, other)


def change_name(rng, text, line_number=None):
    """A name or word changed into another of the text, or into a fresh one."""
    def other(_):
        if rng.random() < 0.7:
            return rng.choice(IDENTIFIER.findall(text))
        return spelling.name(rng).encode()
    return change_found(rng, text, line_number, IDENTIFIER, other)


EIGHT_DIGITS = re.compile(rb"\b[0-9A-Fa-f]{8}\b")


def change_digits(rng, text, line_number=None):
    """Eight hexadecimal digits, of an image line, a pc or a word, changed into eight others."""
    def other(digits):
        value = int(digits, 16) + rng.choice([-8, -4, -1, 1, 4, 7, 8, 16, 64])
        changed = b"%08x" % (value % 2**32)
        return rng.choice([changed, changed, changed.upper(), b"00000000", b"ffffffff",
                           changed[:7], changed + b"0", changed[:7] + b"g"])
    return change_found(rng, text, line_number, EIGHT_DIGITS, other)


def change_one_line(rng, text):
    """Several tokens of one line changed, for lines with several faults."""
    number = rng.randrange(text.count(b"\n") + 1)
    for _ in range(rng.choice([2, 2, 3])):
        change = rng.choice([change_token, change_number, change_number, change_name,
                             change_digits])
        text = change(rng, text, number)
    return text


def change_lines(rng, text):
    """A line dropped, doubled, moved, swapped, or another one in between."""
    lines = text.split(b"\n")
    one, other = rng.randrange(len(lines)), rng.randrange(len(lines))
    way = rng.randrange(8)
    if way == 0:
        del lines[one]
    elif way == 7:
        first, last = sorted([one, other])
        lines[first:last] = rng.choice([[], [], lines[first:last] * 2])
    elif way == 1:
        lines.insert(other, lines[one])
    elif way == 2:
        lines.insert(one, lines[one])
    elif way == 3:
        lines[one], lines[other] = lines[other], lines[one]
    elif way == 4:
        lines.insert(other, lines.pop(one))
    elif way == 5:
        lines.insert(one, rng.choice(LINES).encode())
    else:
        lines[one] = rng.choice(LINES).encode()
    return b"\n".join(lines)


def change_bytes(rng, text):
    for _ in range(rng.choice([1, 1, 2, 5])):
        place = rng.randrange(len(text) + 1)
        byte = bytes([rng.choice(BYTES) if rng.random() < 0.8 else rng.randrange(256)])
        width = rng.choice([0, 0, 1, 1, 2])
        text = text[:place] + rng.choice([byte, byte, b"", byte * 2]) + text[place + width:]
    return text


def cut(rng, text):
    return text[:rng.randrange(len(text) + 1)]


def change_header(rng, text):
    headers = [b"[map]", b"[kernels]", b"[image]", b"[end]"]
    one = rng.choice(headers)
    other = rng.choice(headers + [b"", b"[x]", one + b" x", b"x " + one, one + one, one[:-1],
                                  b"[" + one, one + b"\n" + one, one.upper(), one + b"\x01",
                                  one + b"#", b" " + one + b"\t", one[1:], b"[ map ]"])
    return text.replace(one, other, rng.choice([1, 1, 2]))


def changed(rng, text):
    """The text with one to three changes."""
    ways = [change_token, change_number, change_number, change_number, change_name, change_name,
            change_digits, change_one_line, change_one_line, change_lines, change_lines,
            change_bytes, change_header, cut]
    for _ in range(rng.choice([1, 1, 1, 2, 3])):
        text = rng.choice(ways)(rng, text)
    return text
