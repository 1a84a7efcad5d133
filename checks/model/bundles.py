"""Whole inputs: a bundle, and a bundle with the output of a run after it.

A bundle has the line `plural 1` or `plural 2`, which tells its version, and then map, kernel and
image lines, each section after its header, and `[end]`.  A header is a line whose first token
begins with `[`.  A line that stands where another is due is malformed, and if the text ends too
early it's the line after the last one.  The fault of an input is its first faulty line with the
least kind of that line.  A cycle of tasks is the last kind of the line that closes the map lines.
"""

from typing import NamedTuple

from . import images, kernels, logs, machine, maps, texts
from .texts import Fault


class Bundle(NamedTuple):
    program: machine.Program
    image: list


class Lines:
    """The content lines of a text, taken one after another."""

    def __init__(self, text):
        self.lines = texts.content_lines(text)
        self.after_last = texts.line_count(text) + 1
        self.place = 0

    def next_number(self):
        """The number of the line that stands next, or of the one after the last."""
        if self.place < len(self.lines):
            return self.lines[self.place].number
        return self.after_last

    def take(self):
        if self.place == len(self.lines):
            raise Fault(self.after_last, "form")
        self.place += 1
        return self.lines[self.place - 1]

    def header(self, wanted):
        line = self.take()
        if line.text != wanted:
            raise Fault(line.number, "form")

    def section(self):
        """The lines up to the next header or the end of the text."""
        found = []
        while self.place < len(self.lines) and not texts.is_header(self.lines[self.place]):
            found.append(self.take())
        return found

    def nothing_more(self):
        if self.place < len(self.lines):
            raise Fault(self.next_number(), "form")


def read_version(line):
    parts = texts.tokens(line.text)
    value = texts.numeral(parts[1]) if len(parts) == 2 and parts[0] == b"plural" else None
    if value is None or not texts.is_plain(line.text):
        raise Fault(line.number, "form")
    if value not in (1, 2):
        raise Fault(line.number, "number")
    return value


def label_names(lines):
    """The labels' names of the lines after the first `[kernels]`, up to the next header."""
    all_texts = [line.text for line in lines]
    if b"[kernels]" not in all_texts:
        return set()
    found = []
    for line in lines[all_texts.index(b"[kernels]") + 1:]:
        if texts.is_header(line):
            break
        found.append(line)
    return kernels.names(found)


def read_bundle(lines):
    """The bundle up to its `[end]`."""
    version = read_version(lines.take())
    lines.header(b"[map]")
    section = lines.section()
    closing = lines.next_number()
    task_map = maps.read_map(section, label_names(lines.lines), closing, version)
    lines.header(b"[kernels]")
    maps.demand_order(task_map, closing)
    code, places = kernels.assemble(lines.section())
    lines.header(b"[image]")
    image = images.read_image(lines.section(), task_map.words)
    lines.header(b"[end]")
    entries = [places[task.entry] for task in task_map.tasks]
    return Bundle(machine.Program(task_map, code, entries), image)


def bundle(text):
    """The bundle that a text spells; raises its first fault."""
    lines = Lines(text)
    found = read_bundle(lines)
    lines.nothing_more()
    return found


def read_output(lines, task_map):
    """The log and the last image of an output that ends the text."""
    section = lines.section()
    log = logs.read_log(task_map, section, lines.next_number())
    lines.header(b"[image]")
    last = images.read_image(lines.section(), task_map.words)
    lines.header(b"[end]")
    lines.nothing_more()
    return log, last


def output(task_map, text):
    """The log and the last image of an output that stands alone; raises its first fault."""
    return read_output(Lines(text), task_map)


def joint(text):
    """The bundle, the log and the last image of the input of `verify`."""
    lines = Lines(text)
    found = read_bundle(lines)
    return found, *read_output(lines, found.program.map)
