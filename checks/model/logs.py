"""Logs: their lines, read and printed, and whether a log and a last image are legal.

The log has a header with the number of cores, one line per task with its outcome, and one line
per entry: an instance, its record, its core and its two tickets.  It's legal if its entries are
the instances of the serial run with their records, its tickets are drawn from one clock in an
order that the dependencies allow, no core runs two instances at once, and the outcomes and the
last image are the serial run's.  The verdict names the first rule that fails and its least place.
"""

from typing import NamedTuple

from . import images, machine, maps, texts
from .texts import Fault

ENTRIES_LIMIT = 65536
LARGEST = 4294967295


class Entry(NamedTuple):
    record: machine.Record
    core: int
    start: int
    end: int


class Log(NamedTuple):
    cores: int
    outcomes: list
    entries: list


def log_text(task_map, log):
    text = f"log 1 cores {log.cores}\n"
    for task, outcome in zip(task_map.tasks, log.outcomes):
        text += f"task {task.name.decode()} {outcome}\n"
    lines = []
    for record, core, start, end in log.entries:
        name = task_map.tasks[record.t].name.decode()
        lines.append(f"run {name} {record.k} {record.end} n {record.instructions}"
                     f" loads {record.loads} misses {record.misses} stores {record.stores}"
                     f" core {core} from {start} to {end}\n")
    return text + "".join(lines)


def output_text(task_map, log, image):
    """The text that a run writes."""
    return log_text(task_map, log) + "[image]\n" + images.image_text(image) + "[end]\n"


def serial_log(run):
    entries = [Entry(record, 0, 2 * i, 2 * i + 1) for i, record in enumerate(run.records)]
    return Log(1, run.outcomes, entries)


def demand(holds, line, kind):
    if not holds:
        raise Fault(line.number, kind)


def numerals(line, tokens):
    values = [texts.numeral(token) for token in tokens]
    demand(None not in values, line, "form")
    return values


def read_head(line):
    parts = texts.tokens(line.text)
    demand(len(parts) == 4 and parts[:3] == [b"log", b"1", b"cores"], line, "form")
    (cores,) = numerals(line, parts[3:])
    demand(1 <= cores <= 64, line, "number")
    return cores


OUTCOMES = [b"ended 0", b"ended 1", b"skipped", b"failed"]


def read_outcome(line, name):
    """The outcome on a task line, which has to be that of the task of this name."""
    first, *rest = texts.tokens(line.text)
    demand(first == b"task" and len(rest) >= 2 and texts.is_name(rest[0]), line, "form")
    outcome = b" ".join(rest[1:])
    demand(outcome in OUTCOMES, line, "form")
    demand(rest[0] == name, line, "name")
    return outcome.decode()


def read_end(line, parts):
    """The end, printed as a run prints it, and whether its cause is in range."""
    if parts in ([b"code", b"0"], [b"code", b"1"], [b"spent"]):
        return b" ".join(parts).decode(), True
    demand(len(parts) == 4 and parts[0] == b"trap" and parts[2] == b"pc", line, "form")
    (cause,) = numerals(line, parts[1:2])
    pc = texts.eight_digits(parts[3])
    demand(pc is not None, line, "form")
    return f"trap {cause} pc {pc:08x}", 1 <= cause <= 9


AFTER_END = [b"n", b"loads", b"misses", b"stores", b"core", b"from", b"to"]


def read_entry(line, task_names, entries_before):
    parts = texts.tokens(line.text)
    demand(len(parts) > 3 + 14 and parts[0] == b"run", line, "form")
    name, instance = parts[1:3]
    counts = parts[-14:]
    demand(texts.is_name(name) and counts[0::2] == AFTER_END, line, "form")
    numbers = numerals(line, [instance] + counts[1::2])
    end, cause_fits = read_end(line, parts[3:-14])
    demand(cause_fits and max(numbers) <= LARGEST, line, "number")
    demand(name in task_names, line, "name")
    demand(entries_before < ENTRIES_LIMIT, line, "count")
    k, instructions, loads, misses, stores, core, start, end_at = numbers
    record = machine.Record(task_names.index(name), k, end, instructions, loads, misses, stores)
    return Entry(record, core, start, end_at)


def read_log(task_map, lines, closing):
    """The log of its lines, closed by line number `closing`; raises the first fault."""
    task_names = [task.name for task in task_map.tasks]
    cores = 0
    outcomes = []
    entries = []
    for place, line in enumerate(lines):
        demand(texts.is_plain(line.text), line, "form")
        if place == 0:
            cores = read_head(line)
        elif place <= len(task_names):
            outcomes.append(read_outcome(line, task_names[place - 1]))
        else:
            entries.append(read_entry(line, task_names, len(entries)))
    if len(lines) < 1 + len(task_names):
        raise Fault(closing, "form")
    return Log(cores, outcomes, entries)


def overlap(one, other):
    return not (one.end < other.start or other.end < one.start)


def verdict(program, start, log, last):
    """None if the log and the last image are legal, else the rule and the place."""
    return failed_rule(program.map, machine.serial(program, start), log, last)


def failed_rule(task_map, run, log, last):
    """The same, beside a serial run."""
    before = maps.predecessors(task_map)
    entries = log.entries
    n = len(entries)
    ran = {(record.t, record.k): record for record in run.records}
    who = [(entry.record.t, entry.record.k) for entry in entries]
    tickets = [(entry.start, entry.end) for entry in entries]

    def rule_1(i):
        return ran.get(who[i]) != entries[i].record or who[i] in who[:i]

    def rule_2(i):
        earlier = {ticket for pair in tickets[:i] for ticket in pair}
        first, second = tickets[i]
        return first >= second or second >= 2 * n or first in earlier or second in earlier

    def rule_3(i):
        return any(other.record.t in before[entries[i].record.t] and other.end >= entries[i].start
                   for other in entries)

    def rule_4(i):
        return entries[i].core >= log.cores or any(
            other.core == entries[i].core and overlap(other, entries[i]) for other in entries[:i])

    def rule_5(i):
        return i > 0 and entries[i - 1].start >= entries[i].start

    def rule_6(t):
        return log.outcomes[t] != run.outcomes[t]

    def rule_7(a):
        return last[a] != run.image[a]

    places = {rule_1: n, rule_2: n, rule_3: n, rule_4: n, rule_5: n,
              rule_6: len(log.outcomes), rule_7: len(last)}
    for number, (fails, count) in enumerate(places.items(), start=1):
        for i in range(count):
            if fails(i):
                return number, i
        if number == 1 and not set(ran) <= set(who):
            return 1, n
    return None
