"""Ways to spell one thing: numerals, registers, names, blanks, comments and line ends."""

import string

CORNERS = [0, 1, 2, 3, 4, 7, 8, 9, 15, 16, 17, 24, 31, 32, 33, 63, 64, 65, 127, 128, 129, 255, 256,
           2046, 2047, 2048, 2049, 4094, 4095, 4096, 4097, 4098, 16383, 16384, 16385, 65535, 65536,
           65537, 65544, 1048574, 1048575, 1048576, 1048578, 99999999, 100000000, 100000001,
           2**31 - 1, 2**31, 2**31 + 1, 2**32 - 1, 2**32, 2**32 + 1, 2**63, 2**64 - 1, 2**64,
           2**64 + 1, 2**128, 10**30]

ODD_NUMERALS = ["0x", "0X1", "00x1", "1_0", "+1", "--1", "-0", "-", "1.0", "0b1", "0x1g", "1e3",
                "0x-1", "-0x10", "-0x0", "0xFfFf", "x1", "\u0661", "0o7", "1,", "1-"]

ALIASES = {0: "zero", 1: "ra", 2: "sp", 3: "gp", 4: "tp", 5: "t0", 6: "t1", 7: "t2", 8: "s0",
           9: "s1"}
ALIASES.update({10 + n: f"a{n}" for n in range(8)})
ALIASES.update({16 + n: f"s{n}" for n in range(2, 12)})
ALIASES.update({25 + n: f"t{n}" for n in range(3, 7)})

ODD_REGISTERS = ["x32", "x33", "x00", "x01", "X1", "x-1", "x", "a8", "s12", "t7", "a10", "fp0",
                 "ZERO", "pc", "f0", "x100000000000"]


def numeral(rng, value):
    """One of the numerals of a value that isn't negative, mostly the plain one."""
    way = rng.random()
    if way < 0.8:
        return str(value)
    if way < 0.9:
        digits = f"{value:x}"
        return "0x" + "0" * rng.choice([0, 0, 1, 7, 30]) + rng.choice([digits, digits.upper()])
    return "0" * rng.choice([1, 2, 10, 40]) + str(value)


def signed(rng, value):
    return "-" + numeral(rng, -value) if value < 0 else numeral(rng, value)


def register(rng, n):
    if rng.random() < 0.8:
        return f"x{n}"
    return "fp" if n == 8 and rng.random() < 0.5 else ALIASES[n]


def name(rng):
    way = rng.random()
    if way < 0.6:
        return rng.choice(string.ascii_letters + "_") + str(rng.randrange(100))
    if way < 0.8:
        return rng.choice(["task", "any", "memory", "x5", "nop", "li", "run", "log", "image", "e",
                           "E", "_", "__", "entry", "failed", "spent", "zero", "read"])
    length = rng.choice([1, 2, 23, 24])
    first = rng.choice(string.ascii_letters + "_")
    return first + "".join(rng.choices(string.ascii_letters + string.digits + "_", k=length - 1))


def other_name(rng):
    """Something where a name stands that may be none."""
    return rng.choice(["9a", "a" * 24, "a" * 25, "a.b", "a-b", "", "é", "_", "a:", "[a", "A"])


def number_at_limits(rng):
    """A spelled number, mostly at a limit."""
    value = rng.choice(CORNERS) if rng.random() < 0.6 else rng.randrange(20)
    return numeral(rng, value)


def some_number(rng):
    """A spelled number, often at a limit, sometimes none at all."""
    way = rng.random()
    if way < 0.15:
        return rng.choice(ODD_NUMERALS)
    if way < 0.6:
        value = rng.choice(CORNERS)
    elif way < 0.9:
        value = rng.randrange(20)
    elif way < 0.905:
        return rng.choice(["0" * 5000 + "8", "9" * 5000, "0x" + "0" * 5000 + "10"])
    else:
        value = rng.randrange(2 ** rng.choice([8, 16, 32, 40, 64, 70]))
    if rng.random() < 0.2:
        value = -value
    return signed(rng, value)


def gap(rng):
    return rng.choice([" "] * 12 + ["\t", "  ", " \t ", "\t\t"])


def respaced(rng, line):
    """A line with other blanks between its tokens and after it."""
    return gap(rng).join(line.split(" ")) + rng.choice([""] * 6 + [" ", "\t"])


def commented(rng, line):
    return line + rng.choice(["#", " # x", "#[end]", " #\x00\x7f", "#é # y", "# \r x"])


def dressed(rng, lines):
    """A text of the lines, plain or with other blanks, comments, empty lines and line ends."""
    if rng.random() < 0.5:
        return "".join(line + "\n" for line in lines).encode()
    line_end = rng.choice(["\n", "\n", "\r\n"])
    made = []
    for line in lines:
        if rng.random() < 0.05:
            made.append(rng.choice(["", " ", "\t", "# x", "\r", " #", "#[map]"]))
        if rng.random() < 0.2:
            line = respaced(rng, line)
        if rng.random() < 0.1:
            line = rng.choice([" ", "\t", "    "]) + line
        if rng.random() < 0.1:
            line = commented(rng, line)
        made.append(line)
    text = "".join(line + line_end for line in made)
    if rng.random() < 0.1:
        text += rng.choice(["\n", "#", " ", "\r", "\r\n", "\n\n# x", "\t\n"])
    if rng.random() < 0.1:
        text = text.rstrip("\n")
    return text.encode()
