"""Random bundles whose instances write words that others read later, beside one another in lines."""

from . import kernel_lines
from .drafts import Draft, image_lines

ACCUMULATOR, WORD, SPARE = "x8", "x9", "x28"


class Task:
    """A task and the area that its instances write, each its own words of it."""

    def __init__(self, rng, number, low, earlier):
        self.number = number
        self.quota = rng.choice([1, 1, 2, 3, 4, 5, 8, 12])
        self.own = rng.choice([1, 1, 2, 3, 5, 8, 9, 20])
        self.low = low
        self.dependencies = rng.sample(earlier, min(len(earlier), rng.choice([0, 1, 1, 1, 2, 3])))
        self.before = set()
        for task in self.dependencies:
            self.before |= {task} | task.before
        self.reads = [self.read(rng, task) for task in self.before if rng.random() < 0.7][:6]

    def size(self):
        return self.quota * self.own

    def read(self, rng, task):
        """A region of a task before: the same words for all instances, or some for each."""
        if rng.random() < 0.4:
            count = rng.randrange(1, task.size() + 1)
            return task.low + rng.randrange(task.size() - count + 1), 0, count
        stride = rng.randrange(max(1, task.size() // self.quota) + 1)
        count = rng.randrange(1, task.size() - stride * (self.quota - 1) + 1) \
            if task.size() > stride * (self.quota - 1) else 0
        return (task.low, stride, count) if count else (task.low, 0, task.size())

    def map_lines(self, rng):
        budget = rng.choice([2000] * 12 + [rng.randrange(1, 200)])
        lines = [f"task t{self.number} dup {self.quota} entry e{self.number} budget {budget}"]
        for task in self.dependencies:
            lines.append(f"after t{task.number} {rng.choice(['any'] * 8 + ['0', '1'])}")
        lines += [f"read {base} {stride} {count}" for base, stride, count in self.reads]
        return lines + [f"write {self.low} {self.own} {self.own}"]

    def address(self, base, stride):
        """The lines that put the address of the instance's words into x5."""
        return [f"li x5, {4 * base}", f"li x6, {4 * stride}", "mul x6, x6, x10", "add x5, x5, x6"]

    def over(self, rng, name, region, lines):
        """The lines done at each word of a region, up to a few."""
        base, stride, count = region
        label = f"{name}{self.number}"
        first, *rest = lines
        return self.address(base, stride) + [
            f"li x7, {min(count, rng.choice([4, 16, 24, 30]))}", f"{label}: {first}"] + rest + [
            "addi x5, x5, 4", "addi x7, x7, -1", f"bnez x7, {label}"]

    def reading(self, rng, name, region):
        return self.over(rng, name, region, [
            f"lw {WORD}, 0(x5)", f"slli {SPARE}, {ACCUMULATOR}, 5",
            f"sub {ACCUMULATOR}, {SPARE}, {ACCUMULATOR}", f"add {ACCUMULATOR}, {ACCUMULATOR}, {WORD}"])

    def writing(self, rng, name):
        lines = [f"sw {ACCUMULATOR}, 0(x5)", f"addi {ACCUMULATOR}, {ACCUMULATOR}, {rng.randrange(99)}"]
        if rng.random() < 0.4:
            store, load = rng.choice([("sb", "lbu"), ("sh", "lh"), ("sw", "lw")])
            at = rng.choice([0, 2])
            lines += [f"{store} {ACCUMULATOR}, {at if store != 'sw' else 0}(x5)",
                      f"{load} {WORD}, {at if load != 'lw' else 0}(x5)",
                      f"add {ACCUMULATOR}, {ACCUMULATOR}, {WORD}"]
        return self.over(rng, name, (self.low, self.own, self.own), lines)

    def failing(self, rng):
        """Lines at which one instance traps."""
        last = rng.choice(["lw x9, 2(x0)", "ebreak", "sw x9, -4(x0)", ".word 0"])
        return [f"li x9, {rng.randrange(self.quota)}", f"bne x9, x10, ok{self.number}", last, f"ok{self.number}:"]

    def kernel_lines(self, rng):
        lines = [f"e{self.number}: li {ACCUMULATOR}, {kernel_lines.value(rng)}",
                 f"add {ACCUMULATOR}, {ACCUMULATOR}, x10"]
        for i, region in enumerate(self.reads):
            lines += self.reading(rng, f"r{i}_", region)
        lines += self.writing(rng, "w")
        lines += self.failing(rng) if rng.random() < 0.05 else []
        if rng.random() < 0.4:
            for i, region in enumerate(self.reads):
                lines += self.reading(rng, f"s{i}_", region)
            lines += self.writing(rng, "v")
        code = rng.choice(["li x10, 0"] * 6 + ["li x10, 1", f"andi x10, {ACCUMULATOR}, 1"])
        return lines + [code, "ecall"]


def sharing_draft(rng):
    """Tasks that read what those before them wrote; areas of tasks lie side by side, in any order."""
    made = Draft()
    tasks, low = [], rng.randrange(4)
    for number in range(rng.choice([2, 3, 4, 5, 6, 9])):
        tasks.append(Task(rng, number, low, tasks))
        low += tasks[-1].size() + rng.choice([0, 0, 0, 1, 5])
    words = -(-low // 8) * 8
    made.map_lines = [f"memory {words}", f"cache {rng.choice([1, 2, 4, 16, 64])} {rng.randint(1, 4)}"]
    for task in tasks:
        made.map_lines += task.map_lines(rng)
        made.kernel_lines += task.kernel_lines(rng)
    made.image_lines = image_lines(rng, words)
    return made
