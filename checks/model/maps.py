"""Task maps: their lines, which task comes before which, exclusive branches and decisions.

A map has a memory, a cache and tasks.  A task has one instance or a quota of them, an entry label,
a budget of instructions, dependencies on tasks and regions of memory.  A dependency is on `any`
end of a task, or on its end with code 0 or 1.  Instance k has, for each region, `count` words from
base + stride * k on.

By version 1 a task depends on earlier ones alone.  By version 2 it may depend on any task of the
section, so that there may be cycles, which are faults; one of its dependencies is enough if it has
`join some`; and there may be more tasks and words.
"""

from typing import NamedTuple

from . import texts
from .texts import Fault

# The most words of a memory and the most tasks, by version.
WORDS_LIMIT = {1: 65536, 2: 1048576}
TASKS_LIMIT = {1: 64, 2: 256}
INSTANCES_LIMIT = 65536
DEPENDENCIES_LIMIT = 16
REGIONS_LIMIT = 8


class Region(NamedTuple):
    mode: str
    base: int
    stride: int
    count: int

    def words(self, k):
        """The words of instance k."""
        first = self.base + self.stride * k
        return range(first, first + self.count)


class Task(NamedTuple):
    name: bytes
    quota: int
    entry: bytes
    budget: int
    some: bool
    dependencies: list
    regions: list


class Map(NamedTuple):
    words: int
    sets: int
    ways: int
    tasks: list
    order: list


def form(line):
    return Fault(line.number, "form")


def numerals(line, spelled):
    """The values of tokens that must be numerals."""
    values = [texts.numeral(token) for token in spelled]
    if None in values:
        raise form(line)
    return values


def demand(holds, line, kind):
    if not holds:
        raise Fault(line.number, kind)


def read_memory(line, version):
    parts = texts.tokens(line.text)
    demand(len(parts) == 2 and parts[0] == b"memory", line, "form")
    (words,) = numerals(line, parts[1:])
    demand(words % 8 == 0 and 8 <= words <= WORDS_LIMIT[version], line, "number")
    return words


def read_cache(line, _):
    parts = texts.tokens(line.text)
    demand(len(parts) == 3 and parts[0] == b"cache", line, "form")
    sets, ways = numerals(line, parts[1:])
    demand(sets in (1, 2, 4, 8, 16, 32, 64) and 1 <= ways <= 4, line, "number")
    return sets, ways


def task_shape(line):
    """Name, quota, entry and budget on a line that has the shape of a task line."""
    parts = texts.tokens(line.text)
    demand(texts.is_plain(line.text) and parts[0] == b"task", line, "form")
    if len(parts) == 7 and parts[2] == b"regular":
        _, name, _, entry_word, entry, budget_word, budget = parts
        quota = b"1"
    elif len(parts) == 8 and parts[2] == b"dup":
        _, name, _, quota, entry_word, entry, budget_word, budget = parts
    else:
        raise form(line)
    demand(entry_word == b"entry" and budget_word == b"budget", line, "form")
    demand(texts.is_name(name) and texts.is_name(entry), line, "form")
    quota, budget = numerals(line, [quota, budget])
    return name, quota, entry, budget


def task_names(lines):
    """The names on the lines that have the shape of a task line, in their order."""
    found = []
    for line in lines:
        try:
            found.append(task_shape(line)[0])
        except Fault:
            pass
    return found


def read_task(line, tasks, labels, version):
    """A task line after the tasks before it."""
    name, quota, entry, budget = task_shape(line)
    demand(1 <= quota <= 16384 and 1 <= budget <= 100000000, line, "number")
    demand(all(name != task.name for task in tasks), line, "name")
    demand(entry in labels, line, "name")
    demand(len(tasks) < TASKS_LIMIT[version], line, "count")
    demand(sum(task.quota for task in tasks) + quota <= INSTANCES_LIMIT, line, "count")
    return Task(name, quota, entry, budget, False, [], [])


def read_after(line, parts, tasks, names):
    """An `after` line; the task that it names has one of these names."""
    demand(len(parts) == 3 and parts[2] in (b"any", b"0", b"1"), line, "form")
    demand(texts.is_name(parts[1]) and tasks, line, "form")
    current = tasks[-1]
    demand(parts[1] in names, line, "name")
    named = names.index(parts[1])
    demand(all(t != named for t, _ in current.dependencies), line, "name")
    demand(len(current.dependencies) < DEPENDENCIES_LIMIT, line, "count")
    current.dependencies.append((named, parts[2].decode()))


def read_join(line, parts, tasks):
    demand(parts == [b"join", b"some"] and tasks and not tasks[-1].some, line, "form")
    tasks[-1] = tasks[-1]._replace(some=True)


def read_region(line, parts, tasks, words, version):
    demand(len(parts) == 4, line, "form")
    base, stride, count = numerals(line, parts[1:])
    demand(tasks, line, "form")
    most = WORDS_LIMIT[version]
    demand(base < most and stride < most and 1 <= count <= most, line, "number")
    current = tasks[-1]
    demand(len(current.regions) < REGIONS_LIMIT, line, "count")
    region = Region(parts[0].decode(), base, stride, count)
    for k in range(current.quota):
        demand(base + stride * k + count <= words, line, f"outside {k}")
    current.regions.append(region)


def read_tasks(lines, labels, words, version):
    """The tasks of the lines after the first two."""
    tasks = []
    all_names = task_names(lines)
    for line in lines:
        demand(texts.is_plain(line.text), line, "form")
        parts = texts.tokens(line.text)
        if parts[0] == b"task":
            tasks.append(read_task(line, tasks, labels, version))
        elif parts[0] == b"after":
            names = all_names if version == 2 else [task.name for task in tasks[:-1]]
            read_after(line, parts, tasks, names)
        elif parts[0] == b"join" and version == 2:
            read_join(line, parts, tasks)
        elif parts[0] in (b"read", b"write"):
            read_region(line, parts, tasks, words, version)
        else:
            raise form(line)
    return tasks


def read_map(lines, labels, closing, version):
    """The map of its lines, closed by line number `closing`; raises the first fault but a cycle."""
    for line, reader in zip(lines, [read_memory, read_cache]):
        demand(texts.is_plain(line.text), line, "form")
        reader(line, version)
    if len(lines) < 2:
        raise Fault(closing, "form")
    words = read_memory(lines[0], version)
    sets, ways = read_cache(lines[1], version)
    tasks = read_tasks(lines[2:], labels, words, version)
    return Map(words, sets, ways, tasks, order(tasks))


def order(tasks):
    """The tasks in their order, as far as it goes.

    The next is the least that isn't in it and whose predecessors all are.
    """
    found, reached = [], set()

    def is_ready(t):
        return t not in reached and all(p in reached for p, _ in tasks[t].dependencies)
    while any(is_ready(t) for t in range(len(tasks))):
        found.append(min(t for t in range(len(tasks)) if is_ready(t)))
        reached.add(found[-1])
    return found


def cycle(task_map):
    """The tasks of a cycle, if the order doesn't reach all tasks.

    The walk to it begins with the least task that isn't reached, and goes from each to the least
    of these that it depends on.
    """
    left = set(range(len(task_map.tasks))) - set(task_map.order)
    walk = [min(left)]
    while True:
        following = min(p for p, _ in task_map.tasks[walk[-1]].dependencies if p in left)
        if following in walk:
            return walk[walk.index(following):]
        walk.append(following)


def demand_order(task_map, closing):
    """Raises the fault of a map with a cycle, which is that of the line that closes its section."""
    if len(task_map.order) < len(task_map.tasks):
        names = [task_map.tasks[t].name.decode() for t in cycle(task_map)]
        raise Fault(closing, " ".join(["cycle"] + names))


def predecessors(task_map):
    """For each task the set of tasks from which a chain of dependencies leads to it."""
    found = [set() for _ in task_map.tasks]
    for t in task_map.order:
        for p, _ in task_map.tasks[t].dependencies:
            found[t] |= {p} | found[p]
    return found


def needs(task_map):
    """For each task the pairs of a task and a code that it needs, along dependencies on codes.

    With `join some` these are the pairs that each of its dependencies gives, else all that one does.
    """
    found = [set() for _ in task_map.tasks]
    for t in task_map.order:
        task = task_map.tasks[t]
        given = [{(p, when)} | found[p] if when != "any" else set()
                 for p, when in task.dependencies]
        if given:
            found[t] = set.intersection(*given) if task.some else set.union(*given)
    return found


def exclusive(needs_of, t, u):
    """Whether one of two tasks needs code 0, the other code 1, of one task."""
    def opposed(one, other):
        return any((p, "1") in other for p, when in one if when == "0")
    return t != u and (opposed(needs_of[t], needs_of[u]) or opposed(needs_of[u], needs_of[t]))


def satisfied(when, outcome):
    if when == "any":
        return outcome in ("ended 0", "ended 1", "skipped")
    return outcome == "ended " + when


def decide(task, outcomes):
    """`failed` or `skipped` if no instance runs, else None."""
    if any(outcomes[p] == "failed" for p, _ in task.dependencies):
        return "failed"
    enough = any if task.some and task.dependencies else all
    if not enough(satisfied(when, outcomes[p]) for p, when in task.dependencies):
        return "skipped"
    return None
