"""The assembler's lines, the words that they mean, and the text of a word.

A line has a label, an instruction, or both.  A pseudo-instruction stands for one instruction, and
`li` for one or two.  Labels may be used before the line that defines them.  A line whose
instruction is malformed, or has a number out of its range, counts as one word when the places of
labels are counted, so that faults of earlier lines don't hang on it.
"""

import re
from typing import NamedTuple

from . import table, texts
from .texts import Fault

WORDS_LIMIT = 16384
LABELS_LIMIT = 16384

LABEL = re.compile(rb"([A-Za-z_][A-Za-z0-9_]{0,23}):")
WITH_BASE = re.compile(rb"([^()]*)\(([^()]*)\)")


def register_names():
    names = {f"x{n}".encode(): n for n in range(32)}
    fixed = {"zero": 0, "ra": 1, "sp": 2, "gp": 3, "tp": 4, "t0": 5, "t1": 6, "t2": 7,
             "s0": 8, "fp": 8, "s1": 9}
    names.update({name.encode(): n for name, n in fixed.items()})
    names.update({f"a{n}".encode(): 10 + n for n in range(8)})
    names.update({f"s{n}".encode(): 16 + n for n in range(2, 12)})
    names.update({f"t{n}".encode(): 25 + n for n in range(3, 7)})
    return names


REGISTERS = register_names()

# What the operands of each shape are, and the range of its immediate or of its target's offset.
OPERANDS = {
    "U": (("rd", "imm"), 0, 1048575),
    "J": (("rd", "target"), -1048576, 1048574),
    "jalr": (("rd", "imm(rs1)"), -2048, 2047),
    "load": (("rd", "imm(rs1)"), -2048, 2047),
    "S": (("rs2", "imm(rs1)"), -2048, 2047),
    "B": (("rs1", "rs2", "target"), -4096, 4094),
    "I": (("rd", "rs1", "imm"), -2048, 2047),
    "shift": (("rd", "rs1", "imm"), 0, 31),
    "R": (("rd", "rs1", "rs2"), 0, 0),
    "fence": ((), 0, 0),
    "whole": ((), 0, 0),
}

PSEUDO = {
    b"nop": (0, lambda: (b"addi", b"x0", b"x0", b"0")),
    b"mv": (2, lambda rd, rs: (b"addi", rd, rs, b"0")),
    b"not": (2, lambda rd, rs: (b"xori", rd, rs, b"-1")),
    b"neg": (2, lambda rd, rs: (b"sub", rd, b"x0", rs)),
    b"j": (1, lambda target: (b"jal", b"x0", target)),
    b"beqz": (2, lambda rs, target: (b"beq", rs, b"x0", target)),
    b"bnez": (2, lambda rs, target: (b"bne", rs, b"x0", target)),
}


class Malformed(Exception):
    """The instruction has none of the shapes."""


class OutOfRange(Exception):
    """The instruction has a shape, and a number out of its range."""


class Word(NamedTuple):
    """A word that is known already."""

    value: int


class Jump(NamedTuple):
    """An instruction whose target, an offset or a label's name, is still to be placed."""

    instruction: table.Instruction
    target: object
    low: int
    high: int


def number(token, low, high):
    value = texts.signed_numeral(token)
    if value is None:
        raise Malformed
    return value, low <= value <= high


def read_operand(kind, token, low, high):
    """The fields that one operand gives, and whether its number is in range."""
    if kind in ("rd", "rs1", "rs2"):
        if token not in REGISTERS:
            raise Malformed
        return {kind: REGISTERS[token]}, True
    if kind == "imm":
        value, fits = number(token, low, high)
        return {"imm": value}, fits
    if kind == "imm(rs1)":
        parts = WITH_BASE.fullmatch(token)
        if parts is None or parts[2] not in REGISTERS:
            raise Malformed
        value, fits = number(parts[1], low, high)
        return {"imm": value, "rs1": REGISTERS[parts[2]]}, fits
    value = texts.signed_numeral(token)
    if value is None and not texts.is_name(token):
        raise Malformed
    return {"target": token if value is None else value}, True


def plain_instruction(mnemonic, operands):
    """What one instruction of the table gives: a word, or a jump to be placed."""
    row = table.ROW_OF.get(mnemonic.decode("latin-1"))
    if row is None:
        raise Malformed
    kinds, low, high = OPERANDS[row.shape]
    if len(kinds) != len(operands):
        raise Malformed
    fields = {"rd": 0, "rs1": 0, "rs2": 0, "imm": 0}
    all_fit = True
    for kind, token in zip(kinds, operands):
        given, fits = read_operand(kind, token, low, high)
        fields.update(given)
        all_fit = all_fit and fits
    if not all_fit:
        raise OutOfRange
    target = fields.pop("target", None)
    instruction = table.Instruction(row.mnemonic, **fields)
    if target is None:
        return Word(table.encode(instruction))
    return Jump(instruction, target, low, high)


def load_immediate(operands):
    if len(operands) != 2 or operands[0] not in REGISTERS:
        raise Malformed
    value, fits = number(operands[1], -2147483648, 4294967295)
    if not fits:
        raise OutOfRange
    rd = REGISTERS[operands[0]]
    s = value - 4294967296 if value >= 2147483648 else value
    if -2048 <= s <= 2047:
        return [Word(table.encode(table.Instruction("addi", rd, 0, 0, s)))]
    quotient = (s + 2048) // 4096
    low = s - 4096 * quotient
    made = [Word(table.encode(table.Instruction("lui", rd, 0, 0, quotient % 1048576)))]
    if low != 0:
        made.append(Word(table.encode(table.Instruction("addi", rd, rd, 0, low))))
    return made


def read_instruction(text):
    """The words and jumps of one instruction, pseudo or not."""
    mnemonic = texts.tokens(text)[0]
    rest = text[len(mnemonic):].strip(b" \t")
    operands = [part.strip(b" \t") for part in rest.split(b",")] if rest else []
    if mnemonic == b".word":
        if len(operands) != 1:
            raise Malformed
        value, fits = number(operands[0], 0, 4294967295)
        if not fits:
            raise OutOfRange
        return [Word(value)]
    if mnemonic == b"li":
        return load_immediate(operands)
    if mnemonic in PSEUDO:
        wanted, spelled = PSEUDO[mnemonic]
        if len(operands) != wanted:
            raise Malformed
        mnemonic, *operands = spelled(*operands)
    return [plain_instruction(mnemonic, operands)]


class Read(NamedTuple):
    """A kernel line: its label or None, its words and jumps, and a fault of its own or None."""

    line: texts.Line
    label: object
    items: list
    fault: object

    def words(self):
        return len(self.items) if self.fault is None else 1


def split_label(text):
    """The label at the start of a line, or None, and the rest."""
    found = LABEL.match(text)
    if found is None:
        return None, text
    return found[1], text[found.end():].strip(b" \t")


def read_line(line):
    label, rest = split_label(line.text)
    if texts.is_header(line) or not texts.is_plain(line.text):
        return Read(line, label, [], "form")
    try:
        return Read(line, label, read_instruction(rest) if rest else [], None)
    except Malformed:
        return Read(line, label, [], "form")
    except OutOfRange:
        return Read(line, label, [], "number")


def names(lines):
    """The labels' names of kernel lines, faulty or not."""
    return {label for label, _ in (split_label(line.text) for line in lines) if label is not None}


def offset_of(jump, pc, places):
    """The offset of a jump at pc; its name is a label."""
    if isinstance(jump.target, bytes):
        return places[jump.target] - pc
    return jump.target


def reaches(jump, offset):
    return offset % 2 == 0 and jump.low <= offset <= jump.high


def fault_of(read, before, seen, places):
    """The least fault of a line with `before` words and the labels `seen` before it, or None."""
    if read.fault is not None:
        return read.fault
    jumps = [item for item in read.items if isinstance(item, Jump)]
    named = [jump for jump in jumps if isinstance(jump.target, bytes)]
    if read.label is not None and read.label in seen:
        return "name"
    if any(jump.target not in places for jump in named):
        return "name"
    if read.items and before + len(read.items) > WORDS_LIMIT:
        return "count"
    if read.label is not None and len(seen) + 1 > LABELS_LIMIT:
        return "count"
    if not all(reaches(jump, offset_of(jump, 4 * before, places)) for jump in jumps):
        return "reach"
    return None


def assemble(lines):
    """The words and the places of the labels of kernel lines; raises their first fault."""
    all_read = [read_line(line) for line in lines]
    places = {}
    before = 0
    for read in all_read:
        if read.label is not None and read.label not in places:
            places[read.label] = 4 * before
        before += read.words()
    code = []
    seen = set()
    for read in all_read:
        kind = fault_of(read, len(code), seen, places)
        if kind is not None:
            raise Fault(read.line.number, kind)
        if read.label is not None:
            seen.add(read.label)
        for item in read.items:
            if isinstance(item, Word):
                code.append(item.value)
            else:
                offset = offset_of(item, 4 * len(code), places)
                code.append(table.encode(item.instruction._replace(imm=offset)))
    return code, places


def word_text(word):
    """The assembler line of a word."""
    found = table.decode(word)
    if found is None or (found.mnemonic == "fence" and word != 0x0FF0000F):
        return f".word 0x{word:08x}"
    shape = table.ROW_OF[found.mnemonic].shape
    spelled = {"rd": f"x{found.rd}", "rs1": f"x{found.rs1}", "rs2": f"x{found.rs2}",
               "imm": f"{found.imm}", "target": f"{found.imm}",
               "imm(rs1)": f"{found.imm}(x{found.rs1})"}
    operands = ", ".join(spelled[kind] for kind in OPERANDS[shape][0])
    return f"{found.mnemonic} {operands}" if operands else found.mnemonic


def read_words(lines):
    """The words of lines of eight hexadecimal digits; raises their first fault."""
    found = []
    for place, line in enumerate(lines):
        value = texts.eight_digits(line.text)
        if value is None:
            raise Fault(line.number, "form")
        if place >= WORDS_LIMIT:
            raise Fault(line.number, "count")
        found.append(value)
    return found
