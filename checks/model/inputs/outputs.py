"""Inputs of the verifier: outputs of runs on several cores, legal ones and changed ones."""

from .. import logs, machine, maps
from . import spelling


def scheduled(rng, program, run):
    """A legal log of a run on several cores, in which instances overlap if they may."""
    before = maps.predecessors(program.map)
    cores = rng.choice([1, 1, 2, 3, 4, 64])
    waiting = list(run.records)
    running = {}
    entries = []
    clock = 0
    while waiting or running:
        busy = {record.t for record, _ in running.values()}
        unfinished = busy | {record.t for record in waiting}
        ready = [record for record in waiting if not before[record.t] & unfinished]
        free = [core for core in range(cores) if core not in running]
        if ready and free and (not running or rng.random() < 0.6):
            record = rng.choice(ready)
            waiting.remove(record)
            running[rng.choice(free)] = (record, clock)
        else:
            core = rng.choice(list(running))
            record, start = running.pop(core)
            entries.append(logs.Entry(record, core, start, clock))
        clock += 1
    entries.sort(key=lambda entry: entry.start)
    return logs.Log(cores, list(run.outcomes), entries)


def other_number(rng, value):
    return rng.choice([value + 1, max(0, value - 1), 0, value * 2, rng.randrange(8), 2**32 - 1,
                       value])


def other_end(rng, end):
    ends = ["code 0", "code 1", "spent", "trap 1 pc 00000000", "trap 9 pc 00000004"]
    if end.startswith("trap"):
        _, cause, _, pc = end.split(" ")
        ends += [f"trap {int(cause) % 9 + 1} pc {pc}",
                 f"trap {cause} pc {(int(pc, 16) + 4) % 2**32:08x}"] * 3
    return rng.choice(ends)


def other_record(rng, record, task_map):
    way = rng.randrange(7)
    if way == 0:
        return record._replace(t=rng.randrange(len(task_map.tasks)))
    if way == 1:
        return record._replace(k=other_number(rng, record.k))
    if way == 2:
        return record._replace(end=other_end(rng, record.end))
    field = ["instructions", "loads", "misses", "stores"][way - 3]
    return record._replace(**{field: other_number(rng, getattr(record, field))})


def change_entries(rng, log, task_map):
    """The log with one change in its entries."""
    entries = log.entries
    way = rng.randrange(9)
    i, j = rng.randrange(len(entries)), rng.randrange(len(entries))
    one = entries[i]
    if way == 0:
        entries[i] = one._replace(record=other_record(rng, one.record, task_map))
    elif way == 1:
        entries[i] = one._replace(core=rng.choice([other_number(rng, one.core), log.cores,
                                                   rng.randrange(log.cores)]))
    elif way == 2:
        entries[i] = one._replace(start=other_number(rng, one.start))
    elif way == 3:
        entries[i] = one._replace(end=rng.choice([other_number(rng, one.end), 2 * len(entries),
                                                  2 * len(entries) - 1]))
    elif way == 4:
        entries[i], entries[j] = entries[j], entries[i]
    elif way == 5:
        field = rng.choice(["start", "end"])
        entries[i], entries[j] = (one._replace(**{field: getattr(entries[j], field)}),
                                  entries[j]._replace(**{field: getattr(one, field)}))
    elif way == 6:
        entries.insert(j, one)
    elif way == 7:
        del entries[i]
    else:
        entries[i] = one._replace(record=entries[j].record)
        entries[j] = entries[j]._replace(record=one.record)


def change_all(rng, log, last, task_map):
    """The log and the last image with one change."""
    way = rng.random()
    if way < 0.7 and log.entries:
        change_entries(rng, log, task_map)
    elif way < 0.8 and log.outcomes:
        outcome = rng.choice(["ended 0", "ended 1", "skipped", "failed"])
        log.outcomes[rng.randrange(len(log.outcomes))] = outcome
    elif way < 0.9:
        place = rng.randrange(len(last))
        last[place] = rng.choice([last[place] ^ 1 << rng.randrange(32), 0, 0xFFFFFFFF])
    else:
        log = log._replace(cores=rng.choice([1, 2, 3, 64]))
    return log, last


def output(rng, program, image):
    """An output for a bundle: a legal one, or one with up to three changes."""
    run = machine.serial(program, image)
    log = logs.serial_log(run) if rng.random() < 0.2 else scheduled(rng, program, run)
    last = list(run.image)
    for _ in range(rng.choice([0, 0, 1, 1, 1, 2, 3])):
        log, last = change_all(rng, log, last, program.map)
    return logs.output_text(program.map, log, last)


def respelled(rng, text):
    """The output with other blanks, numerals and comments."""
    if rng.random() < 0.7:
        return text.encode()
    lines = []
    for line in text.splitlines():
        tokens = line.split(" ")
        if rng.random() < 0.2 and "pc" in tokens:
            tokens[6] = tokens[6].upper()
        if tokens[0] == "run":
            tokens = [spelling.numeral(rng, int(token)) if token.isdigit() and len(token) < 8
                      and tokens[i - 1] != "code" else token for i, token in enumerate(tokens)]
        lines.append(" ".join(tokens))
    return spelling.dressed(rng, lines)


def at_limits(rng, text):
    """The output with numbers of one line at the limits of what a log may hold."""
    lines = text.splitlines()
    number = rng.choice([0] + [place for place, line in enumerate(lines) if line[:1] in "rt"])
    tokens = lines[number].split(" ")
    if tokens[0] == "log":
        tokens[3] = rng.choice(["0", "1", "64", "65", "00", "0x40", "0x41", "x"])
    elif tokens[0] == "task":
        tokens = tokens[:2] + rng.choice([["ended"], ["ended", "2"], ["ended", "01"], ["failed"],
                                          ["skipped", "0"], ["ended", "0x1"], ["skipped"], []])
    else:
        if rng.random() < 0.5:
            end = rng.choice(["spent", "code 0", "code 1", "code 2", "code 00", "spent 0",
                              "trap 0 pc 00000000", "trap 1 pc 00000000", "trap 9 pc ffffffff",
                              "trap 10 pc 00000000", "trap 0x9 pc 00000000",
                              "trap 09 pc 00000000", "trap 1 pc 0000000", "trap 1 pc 000000000",
                              "trap x pc 00000000", "trap 1 00000000", "trap 1 pc 0000000g",
                              "trap 99999999999 pc 00000000"])
            tokens[3:-14] = end.split(" ")
        if rng.random() < 0.5:
            tokens[rng.choice([2, *range(-13, 0, 2)])] = rng.choice(
                ["4294967295", "4294967296", "0xffffffff", "0x100000000", "99999999999999999999",
                 "x", "-1", "0" * 30])
        if rng.random() < 0.2:
            tokens[1] = rng.choice(["nobody", "9", "a" * 25])
        if rng.random() < 0.1:
            del tokens[rng.randrange(len(tokens))]
    lines[number] = " ".join(tokens)
    return "".join(line + "\n" for line in lines)
