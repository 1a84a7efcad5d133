"""The instruction table of RV32IM: which words are instructions, and the fields of each.

A row fixes the opcode and, by its format, funct3, funct7 or the whole word.  All other bits are
fields: registers and an immediate, whose bits lie scattered in the word as its format says.
"""

from typing import NamedTuple


class Row(NamedTuple):
    mnemonic: str
    shape: str
    mask: int
    value: int


class Instruction(NamedTuple):
    """A row's mnemonic with its fields; those that the row doesn't have are 0."""

    mnemonic: str
    rd: int
    rs1: int
    rs2: int
    imm: int


# Where the bits of an immediate stand in the word, the highest bit of the immediate first.
I_BITS = list(range(31, 19, -1))
S_BITS = list(range(31, 24, -1)) + list(range(11, 6, -1))
B_BITS = [31, 7] + list(range(30, 24, -1)) + list(range(11, 7, -1))
U_BITS = list(range(31, 11, -1))
J_BITS = [31] + list(range(19, 11, -1)) + [20] + list(range(30, 20, -1))
SHIFT_BITS = list(range(24, 19, -1))

# shape: the bits of the immediate, zeros below them, signed or not, and the register fields.
SHAPES = {
    "U": (U_BITS, 0, False, ("rd",)),
    "J": (J_BITS, 1, True, ("rd",)),
    "jalr": (I_BITS, 0, True, ("rd", "rs1")),
    "load": (I_BITS, 0, True, ("rd", "rs1")),
    "I": (I_BITS, 0, True, ("rd", "rs1")),
    "shift": (SHIFT_BITS, 0, False, ("rd", "rs1")),
    "S": (S_BITS, 0, True, ("rs1", "rs2")),
    "B": (B_BITS, 1, True, ("rs1", "rs2")),
    "R": ([], 0, False, ("rd", "rs1", "rs2")),
    "fence": ([], 0, False, ()),
    "whole": ([], 0, False, ()),
}

PLACE = {"rd": 7, "rs1": 15, "rs2": 20}


def rows():
    """All rows of the table."""
    made = [Row("lui", "U", 0x7F, 0x37), Row("auipc", "U", 0x7F, 0x17), Row("jal", "J", 0x7F, 0x6F)]

    def with_funct3(shape, opcode, names):
        for mnemonic, funct3 in names.items():
            made.append(Row(mnemonic, shape, 0x0000707F, funct3 << 12 | opcode))

    def with_funct7(shape, opcode, names):
        for mnemonic, (funct3, funct7) in names.items():
            value = funct7 << 25 | funct3 << 12 | opcode
            made.append(Row(mnemonic, shape, 0xFE00707F, value))

    with_funct3("jalr", 0x67, {"jalr": 0})
    branches = {"beq": 0, "bne": 1, "blt": 4, "bge": 5, "bltu": 6, "bgeu": 7}
    with_funct3("B", 0x63, branches)
    with_funct3("load", 0x03, {"lb": 0, "lh": 1, "lw": 2, "lbu": 4, "lhu": 5})
    with_funct3("S", 0x23, {"sb": 0, "sh": 1, "sw": 2})
    immediates = {"addi": 0, "slti": 2, "sltiu": 3, "xori": 4, "ori": 6, "andi": 7}
    with_funct3("I", 0x13, immediates)
    with_funct7("shift", 0x13, {"slli": (1, 0x00), "srli": (5, 0x00), "srai": (5, 0x20)})
    with_funct7("R", 0x33, {
        "add": (0, 0x00), "sub": (0, 0x20), "sll": (1, 0x00), "slt": (2, 0x00),
        "sltu": (3, 0x00), "xor": (4, 0x00), "srl": (5, 0x00), "sra": (5, 0x20),
        "or": (6, 0x00), "and": (7, 0x00),
        "mul": (0, 0x01), "mulh": (1, 0x01), "mulhsu": (2, 0x01), "mulhu": (3, 0x01),
        "div": (4, 0x01), "divu": (5, 0x01), "rem": (6, 0x01), "remu": (7, 0x01),
    })
    with_funct3("fence", 0x0F, {"fence": 0})
    made.append(Row("ecall", "whole", 0xFFFFFFFF, 0x00000073))
    made.append(Row("ebreak", "whole", 0xFFFFFFFF, 0x00100073))
    return made


ROWS = rows()
ROW_OF = {row.mnemonic: row for row in ROWS}


def immediate(word, shape):
    bits, zeros, is_signed, _ = SHAPES[shape]
    value = 0
    for bit in bits:
        value = value * 2 + (word >> bit & 1)
    value <<= zeros
    if is_signed and word >> 31 & 1:
        value -= 1 << (len(bits) + zeros)
    return value


def decode(word):
    """The instruction of a word, or None if no row has its fixed fields."""
    for row in ROWS:
        if word & row.mask == row.value:
            registers = SHAPES[row.shape][3]
            fields = {name: word >> PLACE[name] & 31 for name in registers}
            return Instruction(row.mnemonic, fields.get("rd", 0), fields.get("rs1", 0),
                               fields.get("rs2", 0), immediate(word, row.shape))
    return None


def encode(instruction):
    """The word of an instruction whose fields fit; that of `fence` is 0ff0000f."""
    row = ROW_OF[instruction.mnemonic]
    if row.shape == "fence":
        return 0x0FF0000F
    bits, zeros, _, registers = SHAPES[row.shape]
    word = row.value
    for name in registers:
        word |= getattr(instruction, name) << PLACE[name]
    for place, bit in enumerate(reversed(bits)):
        word |= (instruction.imm >> (zeros + place) & 1) << bit
    return word
