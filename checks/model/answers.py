"""The commands: words of the command line and an input give a status and a text.

The words come first, then the length of the input, its faults, the clash, and the run or the
verdict.  A run on one core and one in a drawn order have one text.  A run of several cores on
threads may come to any text that `cores` allows.
"""

import re
from typing import Callable, NamedTuple, Optional

from . import bundles, clashes, cores, filter_bundle, kernels, logs, machine, texts

USAGE = ("usage: plural run --cores N [--order SEED] | serial | check | asm | dis | "
         "make SEED [--cores N] | verify\n")
TO_TWENTY_DIGITS = re.compile(rb"[0-9]{1,20}")


def number(word, low, high):
    """The value of one to twenty decimal digits inside a range, or None."""
    if TO_TWENTY_DIGITS.fullmatch(word) and low <= int(word) <= high:
        return int(word)
    return None


def read_words(words):
    """The command with its numbers, or None if the words are in no row of the table."""
    if len(words) == 1 and words[0] in (b"serial", b"check", b"asm", b"dis", b"verify"):
        return words[0].decode(), {}
    if not words or words[0] not in (b"run", b"make"):
        return None
    command = words[0].decode()
    ranges = {"--cores": (1, 64)}
    if command == "run":
        ranges["--order"] = (0, 2**64 - 1)
    found = {}
    rest = list(words[1:])
    while rest:
        word = rest.pop(0)
        name, equals, value = word.partition(b"=")
        name = name.decode("latin-1")
        if name in ranges:
            if not equals:
                if not rest:
                    return None
                value = rest.pop(0)
            given = number(value, *ranges[name])
        elif command == "make":
            name, given = "seed", number(word, 0, 2**64 - 1)
        else:
            return None
        if given is None or name in found:
            return None
        found[name] = given
    wanted = "--cores" if command == "run" else "seed"
    return (command, found) if wanted in found else None


class Answer(NamedTuple):
    """A status and a text.  If the text isn't the only one, `departure` says what another has that
    it may not have, or None; the text is then that of the serial run."""

    status: int
    text: str
    departure: Optional[Callable] = None

    def difference(self, status, text):
        """What is wrong with the program's answer, or None."""
        if (status, text) == (self.status, self.text.encode()):
            return None
        if status != self.status:
            return "the status"
        return self.departure(text) if self.departure else "the text"


def clash_text(task_map, clash):
    t, u, k, l, word = clash
    one, other = task_map.tasks[t].name.decode(), task_map.tasks[u].name.decode()
    return f"clash: {one} {k} and {other} {l} at word {word}\n"


def status_of(run):
    return 1 if "failed" in run.outcomes else 0


def serial_answer(bundle):
    run = machine.serial(bundle.program, bundle.image)
    text = logs.output_text(bundle.program.map, logs.serial_log(run), run.image)
    return Answer(status_of(run), text)


def run_answer(bundle, count, seed):
    """The answer of a run on so many cores: in the order of a seed, or on threads if it is None."""
    task_map = bundle.program.map
    run = machine.serial(bundle.program, bundle.image)
    if count == 1 or seed is not None:
        log = cores.drawn_log(bundle.program, run, count, seed or 0)
        return Answer(status_of(run), logs.output_text(task_map, log, run.image))
    text = logs.output_text(task_map, logs.serial_log(run), run.image)
    return Answer(status_of(run), text, lambda it: cores.departure(bundle, run, count, it))


def check_answer(task_map):
    instances = sum(task.quota for task in task_map.tasks)
    return Answer(0, f"accepted: tasks {len(task_map.tasks)} instances {instances}\n")


def verify_answer(bundle, log, last):
    failed = logs.verdict(bundle.program, bundle.image, log, last)
    if failed is None:
        return Answer(0, f"legal: entries {len(log.entries)}\n")
    rule, place = failed
    return Answer(8, f"not legal: rule {rule} at {place}\n")


def lines_answer(command, text):
    lines = texts.content_lines(text)
    if command == "asm":
        code, _ = kernels.assemble(lines)
        return Answer(0, "".join(f"{word:08x}\n" for word in code))
    return Answer(0, "".join(kernels.word_text(word) + "\n" for word in kernels.read_words(lines)))


def read_and_answer(command, numbers, text):
    """The answer of a command that reads; raises the first fault."""
    if command in ("asm", "dis"):
        return lines_answer(command, text)
    if command == "verify":
        bundle, log, last = bundles.joint(text)
    else:
        bundle = bundles.bundle(text)
    if command == "serial":
        return serial_answer(bundle)
    clash = clashes.first_clash(bundle.program.map)
    if clash is not None:
        return Answer(4, clash_text(bundle.program.map, clash))
    if command == "check":
        return check_answer(bundle.program.map)
    if command == "run":
        return run_answer(bundle, numbers["--cores"], numbers.get("--order"))
    return verify_answer(bundle, log, last)


def made_answer(numbers):
    made = filter_bundle.made_line if "--cores" in numbers else filter_bundle.made_text
    return Answer(0, made(numbers["seed"]))


def answer(words, text):
    """The answer of the program to words and an input, both as bytes."""
    read = read_words(words)
    if read is None:
        return Answer(2, USAGE)
    command, numbers = read
    if command == "make":
        return made_answer(numbers)
    limit = 67108864 if command == "verify" else 16777216
    if len(text) > limit:
        return Answer(3, f"fault: input longer than {limit} bytes\n")
    try:
        return read_and_answer(command, numbers, text)
    except texts.Fault as fault:
        return Answer(3, f"fault: line {fault.line}: {fault.kind}\n")
