"""Words of the command line: those of the table, and those near it."""

COMMANDS = ["serial", "check", "asm", "dis", "verify", "run", "make"]
ODD = ["", "--", "-h", "--help", "help", "Serial", "serial ", "check=1", "--cores", "--order", "=",
       "--core", "--cores=", "--order=", "-cores", "--seed", "1", "0", "--cores=1=1", "--CORES",
       "==", "--version", "plural", "run"]
NUMBERS = ["0", "1", "2", "64", "65", "01", "00000000000000000001", "000000000000000000001",
           "18446744073709551615", "18446744073709551616", "99999999999999999999", "0x1", "-1",
           "+1", "1 ", " 1", "1.", "", "x", "\u0661", "1_0", "12345678901234567890", "--order"]


def option(rng):
    name = rng.choice(["--cores"] * 4 + ["--order"] * 2)
    number = rng.choice(["1"] * 10 + NUMBERS)
    return [f"{name}={number}"] if rng.random() < 0.5 else [name, number]


def some_words(rng):
    way = rng.random()
    if way < 0.15:
        words = [rng.choice(COMMANDS)]
    elif way < 0.45:
        words = ["run"]
        for _ in range(rng.choice([1, 1, 1, 2, 2, 3])):
            words += option(rng)
    elif way < 0.75:
        parts = [[rng.choice(NUMBERS)] for _ in range(rng.choice([1] * 8 + [2, 0]))]
        parts += [option(rng) for _ in range(rng.choice([0, 0, 0, 1, 2]))]
        rng.shuffle(parts)
        words = ["make"] + [word for part in parts for word in part]
    else:
        words = [rng.choice(COMMANDS + ODD) for _ in range(rng.randrange(4))]
    if rng.random() < 0.15:
        words.insert(rng.randrange(len(words) + 1), rng.choice(ODD + NUMBERS + COMMANDS))
    encoded = [word.encode() for word in words]
    if encoded and rng.random() < 0.03:
        encoded[rng.randrange(len(encoded))] += rng.choice([b"\xff", b"\xc3", b"\xc3\xa9"])
    return encoded
