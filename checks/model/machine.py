"""The harts and the serial run.

An instance starts at its task's entry with its number in x10 and the quota in x11, all other
registers 0.  Each turn is one RV32IM instruction.  An instruction that traps changes nothing and
isn't counted.  Data is accessed by whole words; the words of an instance are those of its
regions, and those of its write regions may be stored to.  An instance whose count reaches the
budget without an end is exhausted.

The serial run takes the tasks in the order of the map and the instances of each by rising number, one
after another over one memory.  A load access misses if its line isn't among the last `ways`
different lines of its set; this is asked of the whole list of the instance's load accesses.
"""

from typing import NamedTuple

from . import maps, table

WORD = 1 << 32


def signed(value):
    return value - WORD if value >= 1 << 31 else value


class Trap(Exception):
    """The cause of a trap."""

    def __init__(self, cause):
        super().__init__(cause)
        self.cause = cause


class Program(NamedTuple):
    map: maps.Map
    code: list
    entries: list


class Record(NamedTuple):
    """What one instance did: its end as it is printed, and its counts."""

    t: int
    k: int
    end: str
    instructions: int
    loads: int
    misses: int
    stores: int


def divide(a, b):
    """Quotient and remainder of two signed numbers, rounded towards zero."""
    if b == 0:
        return -1, a
    quotient = abs(a) // abs(b)
    if (a < 0) != (b < 0):
        quotient = -quotient
    return quotient, a - quotient * b


def divide_unsigned(a, b):
    return (WORD - 1, a) if b == 0 else (a // b, a % b)


# What the instructions of two operands give, modulo 2^32.
RESULT = {
    "add": lambda a, b: a + b,
    "sub": lambda a, b: a - b,
    "sll": lambda a, b: a << b % 32,
    "slt": lambda a, b: int(signed(a) < signed(b)),
    "sltu": lambda a, b: int(a < b),
    "xor": lambda a, b: a ^ b,
    "srl": lambda a, b: a >> b % 32,
    "sra": lambda a, b: signed(a) >> b % 32,
    "or": lambda a, b: a | b,
    "and": lambda a, b: a & b,
    "mul": lambda a, b: a * b,
    "mulh": lambda a, b: signed(a) * signed(b) >> 32,
    "mulhsu": lambda a, b: signed(a) * b >> 32,
    "mulhu": lambda a, b: a * b >> 32,
    "div": lambda a, b: divide(signed(a), signed(b))[0],
    "divu": lambda a, b: divide_unsigned(a, b)[0],
    "rem": lambda a, b: divide(signed(a), signed(b))[1],
    "remu": lambda a, b: divide_unsigned(a, b)[1],
}

# The instruction of two registers that each instruction with an immediate is like.
LIKE = {"addi": "add", "slti": "slt", "sltiu": "sltu", "xori": "xor", "ori": "or", "andi": "and",
        "slli": "sll", "srli": "srl", "srai": "sra"}

TAKEN = {
    "beq": lambda a, b: a == b,
    "bne": lambda a, b: a != b,
    "blt": lambda a, b: signed(a) < signed(b),
    "bge": lambda a, b: signed(a) >= signed(b),
    "bltu": lambda a, b: a < b,
    "bgeu": lambda a, b: a >= b,
}

# Bytes, and whether the sign is copied, of each load and store.
LOADS = {"lb": (1, True), "lh": (2, True), "lw": (4, False), "lbu": (1, False), "lhu": (2, False)}
STORES = {"sb": 1, "sh": 2, "sw": 4}

decoded = {}


def decode(word):
    """The table's decoding, kept for each word that was asked for."""
    if word not in decoded:
        decoded[word] = table.decode(word)
    return decoded[word]


class Instance:
    """One running instance over a memory that it changes."""

    def __init__(self, program, t, k, memory):
        self.task = program.map.tasks[t]
        self.code = program.code
        self.k = k
        self.memory = memory
        self.registers = [0] * 32
        self.registers[10] = k
        self.registers[11] = self.task.quota
        self.pc = program.entries[t]
        self.count = 0
        self.end = None
        self.loads = []
        self.stores = 0

    def may_read(self, word):
        return any(word in region.words(self.k) for region in self.task.regions)

    def may_write(self, word):
        return any(word in region.words(self.k) for region in self.task.regions
                   if region.mode == "write")

    def jump(self, target):
        if target % 4 != 0:
            raise Trap(3)
        return target

    def load(self, address, size, copies_sign):
        if address % size != 0:
            raise Trap(4)
        if not self.may_read(address // 4):
            raise Trap(5)
        self.loads.append(address // 4)
        value = self.memory[address // 4] >> 8 * (address % 4) & (1 << 8 * size) - 1
        if copies_sign and value >> 8 * size - 1:
            value -= 1 << 8 * size
        return value % WORD

    def store(self, address, size, value):
        if address % size != 0:
            raise Trap(6)
        if not self.may_write(address // 4):
            raise Trap(7)
        place = 8 * (address % 4)
        mask = (1 << 8 * size) - 1
        if size < 4:
            self.loads.append(address // 4)
        old = self.memory[address // 4]
        self.memory[address // 4] = old & ~(mask << place) | (value & mask) << place
        self.stores += 1

    def effect(self, found):
        """The value for rd or None, and the next pc."""
        name = found.mnemonic
        a = self.registers[found.rs1]
        b = self.registers[found.rs2]
        next_pc = (self.pc + 4) % WORD
        if name == "lui":
            return found.imm * 4096, next_pc
        if name == "auipc":
            return (self.pc + found.imm * 4096) % WORD, next_pc
        if name == "jal":
            return next_pc, self.jump((self.pc + found.imm) % WORD)
        if name == "jalr":
            return next_pc, self.jump((a + found.imm) % WORD // 2 * 2)
        if name in TAKEN:
            return None, self.jump((self.pc + found.imm) % WORD) if TAKEN[name](a, b) else next_pc
        if name in LOADS:
            return self.load((a + found.imm) % WORD, *LOADS[name]), next_pc
        if name in STORES:
            self.store((a + found.imm) % WORD, STORES[name], b)
            return None, next_pc
        if name in LIKE:
            return RESULT[LIKE[name]](a, found.imm % WORD) % WORD, next_pc
        if name in RESULT:
            return RESULT[name](a, b) % WORD, next_pc
        if name == "ebreak":
            raise Trap(8)
        if name == "ecall" and self.registers[10] > 1:
            raise Trap(9)
        return None, next_pc

    def turn(self):
        if self.pc >= 4 * len(self.code):
            raise Trap(1)
        found = decode(self.code[self.pc // 4])
        if found is None:
            raise Trap(2)
        value, next_pc = self.effect(found)
        self.count += 1
        if found.mnemonic == "ecall":
            self.end = f"code {self.registers[10]}"
            return
        if value is not None and found.rd != 0:
            self.registers[found.rd] = value
        self.pc = next_pc
        if self.count == self.task.budget:
            self.end = "spent"

    def run(self):
        while self.end is None:
            try:
                self.turn()
            except Trap as trap:
                self.end = f"trap {trap.cause} pc {self.pc:08x}"


def hits(earlier, line, sets, ways):
    """Whether an access to a line hits after the lines of the earlier accesses."""
    others = set()
    for accessed in reversed(earlier):
        if accessed == line:
            return len(others) < ways
        if accessed % sets == line % sets:
            others.add(accessed)
    return False


def misses(loads, sets, ways):
    lines = [word // 8 for word in loads]
    return sum(not hits(lines[:i], line, sets, ways) for i, line in enumerate(lines))


def outcome_of(ends):
    if all(end.startswith("code") for end in ends):
        return max("ended " + end[-1] for end in ends)
    return "failed"


class Serial(NamedTuple):
    """What the serial run leaves."""

    image: list
    outcomes: list
    records: list


def serial(program, image):
    memory = list(image)
    outcomes = [None] * len(program.map.tasks)
    records = []
    for t in program.map.order:
        task = program.map.tasks[t]
        outcomes[t] = maps.decide(task, outcomes)
        if outcomes[t] is not None:
            continue
        ends = []
        for k in range(task.quota):
            instance = Instance(program, t, k, memory)
            instance.run()
            missed = misses(instance.loads, program.map.sets, program.map.ways)
            records.append(Record(t, k, instance.end, instance.count, len(instance.loads), missed,
                                  instance.stores))
            ends.append(instance.end)
        outcomes[t] = outcome_of(ends)
    return Serial(memory, outcomes, records)
