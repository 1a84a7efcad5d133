"""Random bundles of version 2: tasks in any order, `join some`, cycles, many tasks, large memories."""

from . import kernel_lines
from .drafts import Draft, distinct_names

MOST_TASKS = 256
MOST_WORDS = 1048576

# Kernels that end with code 0, with code 1, and with a code that tells the instance, or trap.
ENDINGS = ["e: li x10, 0", "ecall", "f: li x10, 1", "ecall", "g: andi x10, x10, 1", "ecall", "h: ebreak"]


def groups_of(lines):
    """The task groups of map lines, each begun by its task line."""
    groups = []
    for line in lines:
        if line.startswith("task "):
            groups.append([])
        groups[-1].append(line)
    return groups


def with_join(rng, group, often):
    """The group with `join some` somewhere after its task line, or without."""
    depends = any(line.startswith("after ") for line in group)
    if rng.random() >= (often if depends else often / 5):
        return group
    place = rng.randrange(1, len(group) + 1)
    return group[:place] + ["join some"] + group[place:]


def of_version_2(rng, made):
    """The draft in version 2: its tasks in any order, some with `join some`."""
    made.version = 2
    groups = groups_of(made.map_lines[2:])
    if rng.random() < 0.8:
        rng.shuffle(groups)
    often = rng.choice([0, 0.3, 0.8])
    made.map_lines = made.map_lines[:2] + [
        line for group in groups for line in with_join(rng, group, often)]
    return made


def task_group(name, dependencies, rest, label="e", kind="regular"):
    """The lines of a task that depends on pairs of a name and a condition."""
    return ([f"task {name} {kind} entry {label} budget 9"] +
            [f"after {p} {when}" for p, when in dependencies] + rest)


def region(rng, words):
    """A region line of one word, or none."""
    mode = rng.choice(["read", "write", "write", None])
    return [f"{mode} {rng.randrange(words)} 0 1"] if mode else []


def diamond(rng, name, top, words):
    """Groups of arms that follow codes of the task `top`, and of the task that joins them again."""
    groups, ends = [], []
    codes = rng.choice([["0", "1"], ["0", "1"], ["0", "1", "any"], ["1", "1", "0"], ["0"]])
    for number, code in enumerate(codes):
        before = (top, code)
        for place in range(rng.choice([1, 1, 2])):
            arm = f"{name}_{number}_{place}"
            groups.append(task_group(arm, [before], region(rng, words), rng.choice("eeefg")))
            before = (arm, rng.choice(["any", "0", "0", "1"]))
        ends.append(before)
    if rng.random() < 0.2:
        ends.append((top, rng.choice(["any", "0", "1"])))
    join = ["join some"] if rng.random() < 0.8 else []
    return groups + [task_group(name, ends, join + region(rng, words), rng.choice("eefg"))]


def joined_draft(rng):
    """Branches that meet again, one after another or beside one another, and write few words."""
    made = Draft(2)
    made.map_lines = ["memory 8", "cache 1 1"]
    made.kernel_lines = ENDINGS
    words = rng.choice([1, 2, 4, 8])
    groups = [task_group("t", [], region(rng, words), rng.choice("efgh"))]
    tops = ["t"]
    for number in range(rng.randrange(1, 5)):
        groups += diamond(rng, f"d{number}", rng.choice(tops[-2:]), words)
        tops.append(f"d{number}")
    if rng.random() < 0.7:
        rng.shuffle(groups)
    made.map_lines += [line for group in groups for line in group]
    return made


def cycle_lengths(rng):
    """How many tasks there are, and the lengths of their cycles."""
    any_number = rng.randrange(1, MOST_TASKS + 1)
    tasks = rng.choice([1, 2, 3, 5, 8, 12, 40, MOST_TASKS, any_number, any_number, any_number])
    first = rng.choice([1, 2, tasks, tasks, rng.randrange(1, tasks + 1), rng.randrange(1, tasks + 1)])
    if first < tasks and rng.random() < 0.4:
        return tasks, [first, rng.randrange(1, tasks - first + 1)]
    return tasks, [min(first, tasks)]


def cycle_edges(rng):
    """For each task the tasks that it depends on: cycles, and tasks before, behind and beside them."""
    tasks, lengths = cycle_lengths(rng)
    numbers = rng.sample(range(tasks), tasks)
    edges = [set() for _ in range(tasks)]
    loose = rng.choice([0, 0, 0.2])
    ringed = 0
    for length in lengths:
        ring = numbers[ringed:ringed + length]
        for t, p in zip(ring, ring[1:] + ring[:1]):
            edges[t].add(p)
        ringed += length
    for place in range(tasks):
        others = numbers[:place] if place >= ringed else numbers[ringed:]
        for p in rng.sample(others, min(len(others), rng.choice([0, 0, 1, 1, 2]))):
            if place >= ringed or rng.random() < loose:
                edges[numbers[place]].add(p)
    if rng.random() < 0.15:
        edges[rng.randrange(tasks)].add(rng.randrange(tasks))
    return edges


def cyclic_draft(rng):
    """A map with a cycle, or with two, and with tasks that lie on none."""
    made = Draft(2)
    made.map_lines = ["memory 8", "cache 1 1"]
    made.kernel_lines = ENDINGS
    edges = cycle_edges(rng)
    names = distinct_names(rng, len(edges)) if len(edges) < 20 else [f"t{t}" for t in range(len(edges))]
    for t, before in enumerate(edges):
        deps = [(names[p], rng.choice(["any", "0", "1"])) for p in rng.sample(sorted(before), len(before))]
        made.map_lines += with_join(rng, task_group(names[t], deps[:16], []), 0.2)
    return made


def many_tasks_draft(rng):
    """About as many tasks as there may be, most of them behind others, each with a word of its own."""
    made = Draft(2)
    tasks = rng.choice([65, 100, MOST_TASKS - 1, MOST_TASKS, rng.randrange(65, MOST_TASKS + 1)])
    made.map_lines = [f"memory {tasks + 7 & ~7}", f"cache {rng.choice([1, 4])} {rng.randint(1, 4)}"]
    made.kernel_lines = ENDINGS
    numbers = rng.sample(range(tasks), tasks) if rng.random() < 0.8 else list(range(tasks))
    groups = [[] for _ in range(tasks)]
    for place, t in enumerate(numbers):
        near = numbers[max(0, place - rng.choice([2, 8, 300])):place]
        chosen = rng.sample(near, min(len(near), rng.choice([0, 1, 1, 2, 3, 16])))
        deps = [(f"t{p}", rng.choice(["any"] * 4 + ["0", "1"])) for p in chosen]
        kernel = f"k{t}" if rng.random() < 0.2 else rng.choice("eeeefg")
        group = task_group(f"t{t}", deps, [f"write {t} 0 1"], kernel, rng.choice(["regular", "regular", "dup 1"]))
        if kernel == f"k{t}":
            made.kernel_lines = made.kernel_lines + [f"{kernel}: sw x11, {4 * t}(x0)", "li x10, 0", "ecall"]
        groups[t] = with_join(rng, group, 0.3)
    made.map_lines += [line for group in groups for line in group]
    return made


def wide_word(rng, words):
    """A word near an end of the memory, or anywhere."""
    return rng.choice([0, 1, 65535, 65536, words - 9, words - 8, words - 1, rng.randrange(words)]) % words


def wide_draft(rng):
    """A large memory with accesses near its ends and over its middle."""
    made = Draft(2)
    words = rng.choice([65544, MOST_WORDS, MOST_WORDS, MOST_WORDS - 8, 8 * rng.randrange(8193, MOST_WORDS // 8)])
    made.map_lines = [f"memory {words}", f"cache {rng.choice([1, 64])} {rng.randint(1, 4)}"]
    made.kernel_lines = []
    for t in range(rng.choice([1, 2, 3])):
        quota = rng.choice([1, 2, 3])
        word = wide_word(rng, words)
        stride = rng.choice([0, 1, 7, (words - 1 - word) // max(1, quota - 1)]) % MOST_WORDS
        deps = [(f"t{t - 1}", "any")] if t > 0 and rng.random() < 0.7 else []
        made.map_lines += task_group(f"t{t}", deps, [f"write {word} {stride} 1"], f"e{t}", f"dup {quota}")
        made.kernel_lines += [
            f"e{t}: li x5, {4 * word}", f"li x6, {4 * stride}", "mul x6, x6, x10", "add x5, x5, x6",
            rng.choice(["lw x7, 0(x5)", "addi x7, x10, 9"]), "addi x7, x7, 1", "sw x7, 0(x5)", "li x10, 0", "ecall"]
    address = wide_word(rng, words)
    made.image_lines = [f"{address:08x}: {kernel_lines.value(rng):08x}"]
    return made


def put_before(rng, lines, wanted, line):
    """The lines with another one before one of those that begin so, or at the end of the map lines."""
    places = [place for place, text in enumerate(lines) if text.startswith(wanted)] or [len(lines)]
    place = rng.choice(places)
    return lines[:place] + [line] + lines[place:]


def names_draft(rng):
    """A small map of version 2 with one line more that stands at the edge of a rule on names, places or counts."""
    made = joined_draft(rng)
    ways = [("task ", "join some"), ("read ", "join some"), ("write ", "join some"), ("join ", "join some"),
            ("after ", "after t any"), ("after ", "after d0 0"), ("after ", "after nowhere any"),
            ("task ", "task t regular entry e budget 9"), ("task ", "task z regular entry e budget 0"),
            ("task ", "task z regular entry nowhere budget 9"), ("write ", "after z any"),
            ("cache", "join some"), ("cache", "task z regular entry e budget 9"), ("memory", "after t any"),
            ("task ", "join"), ("task ", "join all"), ("task ", "join some some"), ("task ", "task z regular entry"),
            ("write ", "read 0 0 1"), ("task ", "read 8 0 1"), ("task ", "read 1048576 0 1")]
    for _ in range(rng.choice([1, 1, 2])):
        made.map_lines = put_before(rng, made.map_lines, *rng.choice(ways))
    return made
