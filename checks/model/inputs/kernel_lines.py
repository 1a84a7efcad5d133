"""Random kernel lines: instructions of every row, blocks that a task can run, and faulty lines."""

from . import spelling

REGISTER_OPS = ["add", "sub", "sll", "slt", "sltu", "xor", "srl", "sra", "or", "and", "mul", "mulh",
                "mulhsu", "mulhu", "div", "divu", "rem", "remu"]
IMMEDIATE_OPS = ["addi", "slti", "sltiu", "xori", "ori", "andi"]
SHIFT_OPS = ["slli", "srli", "srai"]
BRANCHES = ["beq", "bne", "blt", "bge", "bltu", "bgeu"]
LOADS = {"lb": 1, "lh": 2, "lw": 4, "lbu": 1, "lhu": 2}
STORES = {"sb": 1, "sh": 2, "sw": 4}
VALUES = [0, 1, 2, 3, 5, 31, 32, 33, 2047, 2048, 4095, 4096, 0x7FFFFFFF, 0x80000000, 0x80000001,
          0xFFFFFFFF, 0xFFFFFFFE, 0xFFFFF800, 0xFFFFF7FF, 0x12345678, 0x0000FFFF, 0xFFFF0000,
          0x7FFFF7FF, 0x7FFFF800, 0xAAAAAAAA]
# The registers that hold values; x5 and x6 hold addresses, x10 and x11 begin as number and quota.
POOL = [0, 1, 2, 7, 8, 9, 10, 11, 12, 13, 14, 15, 28, 31]


def value(rng):
    way = rng.random()
    if way < 0.5:
        return rng.choice(VALUES)
    return rng.randrange(2 ** rng.choice([4, 12, 32]))


def li(rng, rd, v):
    if v >= 2**31 and rng.random() < 0.5:
        v -= 2**32
    return f"li {spelling.register(rng, rd)}, {spelling.signed(rng, v)}"


def any_register(rng):
    return rng.choice(POOL) if rng.random() < 0.8 else rng.randrange(32)


def result_register(rng):
    return rng.choice([7, 8, 9, 12, 13, 14, 15, 28, 31, 0]) if rng.random() < 0.95 else \
        rng.randrange(32)


def computing(rng):
    """An instruction that only computes."""
    rd, a, b = result_register(rng), any_register(rng), any_register(rng)
    rd, a, b = (spelling.register(rng, n) for n in (rd, a, b))
    way = rng.random()
    if way < 0.5:
        return f"{rng.choice(REGISTER_OPS)} {rd}, {a}, {b}"
    if way < 0.7:
        imm = rng.choice([0, 1, -1, 2047, -2048, rng.randrange(-2048, 2048)])
        return f"{rng.choice(IMMEDIATE_OPS)} {rd}, {a}, {spelling.signed(rng, imm)}"
    if way < 0.85:
        amount = rng.choice([0, 1, 31, rng.randrange(32)])
        return f"{rng.choice(SHIFT_OPS)} {rd}, {a}, {spelling.numeral(rng, amount)}"
    if way < 0.92:
        field = rng.choice([0, 1, 524287, 524288, 1048575, rng.randrange(1048576)])
        return f"{rng.choice(['lui', 'auipc'])} {rd}, {spelling.numeral(rng, field)}"
    return rng.choice(["nop", f"mv {rd}, {a}", f"not {rd}, {a}", f"neg {rd}, {a}", "fence",
                       f".word 0x{rng.randrange(2**20) << 12 | rng.randrange(32) << 7 | 0x0f:08x}",
                       li(rng, rng.choice([7, 8, 9, 12, 13]), value(rng))])


def one_word(rng):
    """A computing instruction that isn't `li`, so that it is one word."""
    line = computing(rng)
    return one_word(rng) if line.startswith("li ") else line


def access(rng, base, region):
    """A load or store near a region whose byte address is in the register base."""
    mode, _, _, words = region
    is_load = rng.random() < (0.5 if mode == "write" else 0.97)
    mnemonic = rng.choice(list(LOADS if is_load else STORES))
    size = (LOADS if is_load else STORES)[mnemonic]
    offset = rng.randrange(4 * min(words, 400)) // size * size
    way = rng.random()
    if way < 0.02:
        offset += rng.choice([1, 2, 3])
    elif way < 0.04:
        offset = rng.choice([-1, -4, 4 * words, 4 * words + 4, -2048, 2047])
    offset = max(-2048, min(2047, offset))
    register = spelling.register(rng, result_register(rng) if is_load else any_register(rng))
    spelled = spelling.signed(rng, offset)
    return f"{mnemonic} {register}, {spelled}({spelling.register(rng, base)})"


def wild(rng):
    """A word that mostly traps."""
    return rng.choice(["ebreak", ".word 0", ".word 0xffffffff", ".word 0x00000173",
                       ".word 0x10500073", ".word 0x02109093", "lw x7, 0(x12)", "sw x7, 0(x13)",
                       "sh x7, 1(x5)", "sh x7, 3(x6)", "lh x7, 3(x5)", "lw x7, 2(x5)",
                       "sb x7, -1(x0)", "jal x0, 2", "jal x1, -6", "jal x1, 0x7fffe",
                       "jalr x1, 2(x0)", "jalr x0, 0(x12)", "beq x0, x0, 6", "bne x0, x0, 6",
                       "jalr x1, 3(x0)", "jal x0, -1048576", "jalr x7, -4(x0)", "ecall",
                       f".word {rng.randrange(2**32)}"])


def pair(rng):
    """Two values, often corners, equal, opposite or beside one another."""
    a = rng.choice([0, 1, 0xFFFFFFFF, 0x80000000, 0x7FFFFFFF, value(rng), value(rng)])
    b = rng.choice([0, 1, 0xFFFFFFFF, 0x80000000, 0x7FFFFFFF, a, -a, a + 1, a - 1, value(rng),
                    value(rng)])
    return a, b % 2**32


def operation(rng, place):
    """Lines that put the result of one instruction on two values into a word of the memory."""
    a, b = pair(rng)
    lines = [f"li x7, {a}", f"li x8, {b}"]
    way = rng.random()
    if way < 0.5:
        lines.append(f"{rng.choice(REGISTER_OPS)} x9, x7, x8")
    elif way < 0.65:
        imm = rng.choice([0, 1, -1, 2047, -2048, rng.randrange(-2048, 2048)])
        lines.append(f"{rng.choice(IMMEDIATE_OPS)} x9, x7, {imm}")
    elif way < 0.72:
        lines.append(f"{rng.choice(SHIFT_OPS)} x9, x7, {rng.choice([0, 1, 16, 30, 31])}")
    elif way < 0.85:
        lines += ["li x9, 1", f"{rng.choice(BRANCHES)} x7, x8, 8", "li x9, 0"]
    else:
        part = rng.choice(["sb x8, 0", "sb x8, 1", "sb x8, 2", "sb x8, 3", "sh x8, 0", "sh x8, 2"])
        load = rng.choice(["lb x9, 0", "lb x9, 1", "lb x9, 3", "lbu x9, 2", "lh x9, 0", "lh x9, 2",
                           "lhu x9, 0", "lhu x9, 2", "lw x9, 0"])
        lines += ["sw x7, 0(x0)", part + "(x0)", load + "(x0)"]
    return lines + [f"sw x9, {4 * place}(x0)"]


def region_address(rng, register, region, scratch):
    """The byte address of this instance's first word of a region, into a register."""
    _, base, stride, _ = region
    return [li(rng, scratch, 4 * stride), f"mul x{register}, x10, x{scratch}",
            li(rng, scratch, 4 * base), f"add x{register}, x{register}, x{scratch}"]


def branching(rng, fresh):
    """A forward branch or jump over a few computing lines, or a counted loop."""
    a, b = any_register(rng), any_register(rng)
    label = fresh()
    inside = [computing(rng) for _ in range(rng.randrange(4))]
    way = rng.random()
    branch = rng.choice(BRANCHES)
    if way < 0.35:
        return [f"{branch} x{a}, x{b}, {label}"] + inside + [f"{label}:"]
    if way < 0.5:
        words = rng.choice([4, 8, 12])
        jump = rng.choice([f"jal x1, {words}", f"{branch} x{a}, x{b}, {words}", f"j {words}",
                           f"beqz x{a}, {words}", f"bnez x{a}, {words}"])
        return [jump, one_word(rng), "nop", "nop"]
    if way < 0.65:
        low = rng.choice([0, 1, 2, 3]) if rng.random() < 0.1 else rng.choice([0, 1])
        return ["auipc x7, 0", f"jalr x{rng.choice([0, 1, 7])}, {12 + low}(x7)", computing(rng)]
    counter = rng.choice([28, 31])
    test = rng.choice([f"bnez x{counter}, {label}", f"bne x{counter}, x0, {label}",
                       f"blt x0, x{counter}, {label}"])
    inside = [line for line in inside if f"x{counter}," not in line]
    return [f"li x{counter}, {rng.randrange(1, 5)}", f"{label}: addi x{counter}, x{counter}, -1"
            ] + inside + [test]


def ending(rng, label):
    way = rng.random()
    if way < 0.45:
        return ["li x10, 0", "ecall"]
    if way < 0.65:
        return ["li x10, 1", "ecall"]
    if way < 0.8:
        return [f"andi x10, x{rng.choice([7, 8, 12])}, 1", "ecall"]
    if way < 0.9:
        return ["slti x10, x10, 2", "ecall"]
    if way < 0.93:
        return ["ecall"]
    if way < 0.94:
        return ["li x10, 2", "ecall"]
    if way < 0.96:
        return [f"j {label}"]
    if way < 0.97:
        return ["j 0"]
    return rng.choice([["xori x10, x10, 1", "ecall"], [], ["nop"], ["ebreak"], ["jalr x0, 0(x1)"]])


def block(rng, label, regions, fresh):
    """The lines of a task's code."""
    lines = []
    bases = {}
    for register, region in zip([5, 6], rng.sample(regions, min(2, len(regions)))):
        lines += region_address(rng, register, region, rng.choice([7, 28]))
        bases[register] = region
    for register in rng.sample([7, 8, 9, 12, 13, 14, 15], rng.randrange(4)):
        lines.append(li(rng, register, value(rng)))
    wildness = rng.choice([0, 0, 0, 0.02, 0.1])
    for _ in range(rng.choice([0, 1, 3, 6, 10, 20])):
        way = rng.random()
        if way < wildness:
            lines.append(wild(rng))
        elif way < 0.45 and bases:
            base = rng.choice(list(bases))
            lines.append(access(rng, base, bases[base]))
        elif way < 0.55:
            lines += branching(rng, fresh)
        else:
            lines.append(computing(rng))
    for base, (mode, _, _, words) in bases.items():
        for register in rng.sample(POOL, rng.randrange(5) if mode == "write" else 0):
            lines.append(f"sw x{register}, {4 * rng.randrange(min(words, 500))}(x{base})")
    lines += ending(rng, label)
    if lines and rng.random() < 0.8:
        return [f"{label}:{rng.choice(['', ' ', '  '])}{lines[0]}"] + lines[1:]
    return [f"{label}:"] + lines


MNEMONICS = (REGISTER_OPS + IMMEDIATE_OPS + SHIFT_OPS + BRANCHES + list(LOADS) + list(STORES) +
             ["lui", "auipc", "jal", "jalr", "fence", "ecall", "ebreak", ".word", "nop", "mv",
              "not", "neg", "j", "beqz", "bnez", "li"])


def operand(rng, kind, labels):
    if kind == "r":
        if rng.random() < 0.04:
            return rng.choice(spelling.ODD_REGISTERS)
        return spelling.register(rng, rng.randrange(32))
    if kind == "t" and rng.random() < 0.6:
        if labels and rng.random() < 0.9:
            return rng.choice(labels)
        return rng.choice(["nowhere", "x5", "9a", "a" * 24, "a" * 25, "."])
    if kind == "t" and rng.random() < 0.7:
        limit = rng.choice([4094, 4096, 4095, 1048574, 1048576, 1048575, 0, 1, 2, 8, 16, 2**40])
        return spelling.signed(rng, rng.choice([limit, -limit, -limit - 2]))
    if kind == "m":
        imm = operand(rng, "i", labels)
        base = operand(rng, "r", labels)
        return rng.choice([f"{imm}({base})"] * 20 + [f"{imm} ({base})", f"({base})", f"{imm}",
                          f"{imm}()", f"{imm}({base}", f"{imm}( {base})", f"{imm}({base})x",
                          f"{imm}(({base}))"])
    if kind == "i":
        limit = rng.choice([0, 1, 31, 32, 2047, 2048, 2049, 5])
        if rng.random() < 0.8:
            return spelling.signed(rng, rng.choice([limit, -limit, limit // 3]))
    if kind == "v" and rng.random() < 0.7:
        around = rng.choice([0, 2048, -2048, 2**31, -2**31, 2**32, 4096, 2**31 - 2048, 2**32 - 2048,
                             2**31 + 2048, 2**32 - 4096])
        return spelling.signed(rng, around + rng.randrange(-2, 3))
    if kind == "u" and rng.random() < 0.7:
        return spelling.signed(rng, rng.choice([0, 1, 1048575, 1048576, -1, 4096]))
    return spelling.some_number(rng)


def operand_kinds(mnemonic):
    if mnemonic in REGISTER_OPS:
        return "rrr"
    if mnemonic in IMMEDIATE_OPS + SHIFT_OPS:
        return "rri"
    if mnemonic in BRANCHES:
        return "rrt"
    if mnemonic in LOADS or mnemonic in STORES or mnemonic == "jalr":
        return "rm"
    return {"lui": "ru", "auipc": "ru", "jal": "rt", ".word": "v", "mv": "rr", "not": "rr",
            "neg": "rr", "j": "t", "beqz": "rt", "bnez": "rt", "li": "rv"}.get(mnemonic, "")


def instruction(rng, labels):
    """An instruction of any mnemonic with operands at their limits, now and then malformed."""
    mnemonic = rng.choice(MNEMONICS)
    kinds = operand_kinds(mnemonic)
    if rng.random() < 0.03:
        kinds = rng.choice([kinds + "r", kinds[:-1], kinds + "i", "r" + kinds])
    if rng.random() < 0.03:
        mnemonic = rng.choice([mnemonic.upper(), mnemonic + "x", "la", "call", "ret", "word",
                               "." + mnemonic, "fence.i", "sgt", mnemonic[:-1] or "x"])
    operands = [operand(rng, kind, labels) for kind in kinds]
    comma = rng.choice([", "] * 6 + [",", " , ", "\t,\t", " ,"])
    if rng.random() < 0.02:
        comma = rng.choice([" ", ",,", ";", ", ,"])
    blank = rng.choice([" "] * 9 + ["\t", "  "])
    line = mnemonic + (blank + comma.join(operands) if operands else "")
    return line + ("," if rng.random() < 0.01 else "")


def line(rng, labels, may_define):
    """A kernel line; labels that it defines are taken from may_define."""
    way = rng.random()
    if may_define and way < 0.3:
        label = may_define.pop() if rng.random() < 0.97 else rng.choice(labels)
        colon = rng.choice([": "] * 6 + [":", ":\t", ":  ", ":", ":"])
        if rng.random() < 0.02:
            colon = rng.choice([" :", "::", ": b:", " : "])
        rest = instruction(rng, labels) if rng.random() < 0.8 else ""
        return label + colon + rest
    if way < 0.32:
        return rng.choice(["[x]", "[image]", ":", "a b", "9a: nop", "a" * 25 + ": nop", "nop nop",
                           "e:", "nop # x", "nop;", "[", "] nop", "\x0bnop", "nop\x7f", "é: nop",
                           "e: \x01", "a1: [x]", "ecall x0", "fence 0", ".word", ".word 1, 2"])
    return instruction(rng, labels)


def some_lines(rng):
    """Kernel lines as the input of the assembler."""
    labels = list({spelling.name(rng) for _ in range(rng.randrange(6))})
    if rng.random() < 0.1:
        labels.append(rng.choice(["a" * 24, "a" * 25, "9a"]))
    may_define = labels[:]
    rng.shuffle(may_define)
    lines = [line(rng, labels, may_define) for _ in range(rng.choice([1, 1, 2, 3, 5, 10]))]
    while may_define and rng.random() < 0.97:
        lines.insert(rng.randrange(len(lines) + 1), may_define.pop() + ":")
    return lines


RANGES = {
    "rri": (-2048, 2047), "shift": (0, 31), "rrt": (-4096, 4094), "rt": (-1048576, 1048574),
    "rm": (-2048, 2047), "ru": (0, 1048575), "rv": (-2**31, 2**32 - 1), "v": (0, 2**32 - 1),
}


def limit_line(rng):
    """One instruction with right operands and a number at an end of its range, or just beyond."""
    mnemonic = rng.choice([name for name in MNEMONICS if operand_kinds(name) not in
                           ("", "rr", "rrr")] + ["li"] * 8)
    kinds = operand_kinds(mnemonic)
    low, high = RANGES["shift" if mnemonic in SHIFT_OPS else "rrt" if mnemonic in ("beqz", "bnez")
                       else "rt" if mnemonic == "j" else kinds]
    limit = rng.choice([low, high] * 3 + [0])
    if mnemonic == "li":
        limit = rng.choice([low, high, 0, -2048, 2048, 4096, 2**31 - 2048, 2**31, 2**32 - 2048])
    number = spelling.signed(rng, limit + rng.choice([-2, -1, 0, 0, 0, 1, 2]))
    operands = [spelling.register(rng, rng.randrange(32)) for kind in kinds if kind == "r"]
    if kinds[-1] == "m":
        number += f"({spelling.register(rng, rng.randrange(32))})"
    return f"{mnemonic} " + rng.choice([", ", ","]).join(operands + [number])


def far_lines(rng):
    """Branches to labels about as far as they reach, over fillers of several lengths."""
    mnemonic = rng.choice(["beqz x1, far", "bne x1, x2, far", "j far", "bnez x0, far",
                           "jal x3, far"])
    words = 1024 + rng.randrange(-3, 4)
    fillers = {"nop": 1, "li x1, 0x12345678": 2, "bad": 1, "li x1, 2047": 1, "li x1, 4096": 1,
               "li x1, 99999999999": 1, "l0: nop": 1, "l1:": 0, ".word 7": 1, "[x]": 1,
               "l2: bad": 1, "addi x1, x1, 2048": 1, "beqz x1, nowhere": 1}
    filling = []
    length = 0
    mixed = rng.random() < 0.7
    while length < words:
        filler = rng.choice(list(fillers)) if mixed and rng.random() < 0.01 else "nop"
        if length + fillers[filler] > words:
            filler = "nop"
        filling.append(filler)
        length += fillers[filler]
    if rng.random() < 0.5:
        return [mnemonic] + filling[1:] + ["far:" + rng.choice(["", " nop"])]
    return ["far: nop"] + filling[1:] + [mnemonic]


def many_lines(rng):
    """About as many words or labels as there may be."""
    count = 16384 + rng.randrange(-2, 3)
    if rng.random() < 0.3:
        lines = [f"l{n}:" for n in range(count)]
        lines += ["nop"] if rng.random() < 0.5 else []
    else:
        filler = rng.choice(["nop", ".word 1", "li x1, 4097", "add x1, x2, x3"])
        words = 2 if filler == "li x1, 4097" else 1
        lines = [filler] * (count // words) + ["nop"] * (count % words)
        tail = rng.choice([[], ["end:"], ["li x1, 4097"], ["bad"], ["beqz x1, -3"], ["j nowhere"],
                           ["addi x1, x1, 4096"], ["l: l: nop"], ["j 0"], ["j e"]])
        lines += tail
    if rng.random() < 0.3:
        other = ["e: nop", "e:", "j 1", "e: li x1, -9999", "bad", "beqz x1, e", "li x1, x1"]
        lines.insert(rng.randrange(len(lines)), rng.choice(other))
    return lines


def some_words(rng):
    """Lines of words for the disassembler: of the rows, near them, and at random."""
    opcodes = [0x37, 0x17, 0x6F, 0x67, 0x63, 0x03, 0x23, 0x13, 0x33, 0x0F, 0x73]
    lines = []
    for _ in range(rng.choice([1, 2, 5, 20, 60])):
        word = rng.randrange(2**32)
        way = rng.random()
        if way < 0.9:
            word = word & ~0x7F | rng.choice(opcodes)
        if way < 0.6:
            word = word & ~0xFE000000 | rng.choice([0, 0, 0x20, 1, 1, 2, 0x21, 0x40]) << 25
        if way > 0.95:
            word = rng.choice([0x73, 0x00100073, 0x00200073, 0x0FF0000F, 0x0000000F, 0x0000100F,
                               0, 0xFFFFFFFF, 0x00000173, 0x0330000F, 0x8330000F])
            word ^= 1 << rng.randrange(32) if rng.random() < 0.3 else 0
        digits = f"{word:08x}"
        digits = rng.choice([digits, digits, digits.upper()])
        if rng.random() < 0.01:
            digits = rng.choice([digits[1:], digits + "0", "0x" + digits, digits + " " + digits,
                                 digits[:-1] + "g", "[end]", digits + ":", "-" + digits[1:],
                                 digits[:4] + " " + digits[4:], "é", digits + "\x01"])
        lines.append(digits)
    return lines


def many_words(rng):
    count = 16384 + rng.randrange(-1, 3)
    lines = [f"{rng.randrange(2**32):08x}" for _ in range(count)]
    if rng.random() < 0.5:
        lines[rng.choice([-1, -1, -2, 0])] = rng.choice(["", "#", "bad", "0000000g"])
    return lines
