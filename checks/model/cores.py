"""The run on several cores: what a drawn order gives, and what every run keeps.

A free core looks at the tasks by rising number and claims the next instance of the first that is
armed and not wholly handed out.  Then each of its turns is one stage of this instance: its
beginning, at which it draws its start ticket; one instruction; its end, at which it draws its end
ticket and tells what this makes due.  A task has its outcome once its last instance has ended; a
task whose dependencies all have one is armed, or has its own outcome at once.  A core that found
nothing at a look leaves if it is the only one, or if its 4,096 turns before found nothing too.

In a drawn order all cores are on one thread.  Of those that haven't left, by rising number, the one
at the place that the next word of PCG32, modulo their number, tells has the next turn.

What each instance does is taken from the serial run; the program has to come to the same by itself.
"""

from . import bundles, logs, pcg, texts

PATIENCE = 4096


class Shared:
    """What the cores share: how many instances of each task were handed out, which ended."""

    def __init__(self, program, run):
        tasks = program.map.tasks
        self.records = [[] for _ in tasks]
        for record in run.records:
            self.records[record.t].append(record)
        self.waits_for = [len(task.dependencies) for task in tasks]
        self.successors = [[] for _ in tasks]
        for t, task in enumerate(tasks):
            for p, _ in task.dependencies:
                self.successors[p].append(t)
        self.left = [len(records) for records in self.records]
        self.handed = [0] * len(tasks)
        self.open = []
        self.clock = 0
        self.entries = []
        self.to_come = len(run.records)
        for t, count in enumerate(self.waits_for):
            if count == 0:
                self.decide(t)

    def decide(self, t):
        """Arms a task that runs; another has its outcome at once."""
        if self.records[t]:
            self.open.append(t)
            self.open.sort()
        else:
            self.tell(t)

    def tell(self, t):
        """The task has its outcome, which its successors wait for."""
        for u in self.successors[t]:
            self.waits_for[u] -= 1
            if self.waits_for[u] == 0:
                self.decide(u)

    def claim(self):
        """The record of the instance that a look finds, or None."""
        if not self.open:
            return None
        t = self.open[0]
        self.handed[t] += 1
        if self.handed[t] == len(self.records[t]):
            self.open.remove(t)
        return self.records[t][self.handed[t] - 1]

    def ticket(self):
        self.clock += 1
        return self.clock - 1

    def end(self, entry):
        self.entries.append(entry)
        self.to_come -= 1
        t = entry.record.t
        self.left[t] -= 1
        if self.left[t] == 0:
            self.tell(t)


class Core:
    def __init__(self, number, cores):
        self.number = number
        self.is_alone = cores == 1
        self.record = None
        self.start = None
        self.instructions = 0
        self.idle = 0

    def turn(self, shared):
        """One turn; whether the core stays."""
        if self.record is None:
            self.record = shared.claim()
            if self.record is None:
                if self.is_alone or self.idle == PATIENCE:
                    return False
                self.idle += 1
                return True
            self.idle = 0
        elif self.start is None:
            self.start = shared.ticket()
            # An instruction that traps has a turn and isn't counted.
            self.instructions = self.record.instructions + self.record.end.startswith("trap")
        elif self.instructions > 0:
            self.instructions -= 1
        else:
            shared.end(logs.Entry(self.record, self.number, self.start, shared.ticket()))
            self.record = self.start = None
        return True


def drawn_log(program, run, cores, seed):
    """The log of a run on so many cores in the order of a seed."""
    shared = Shared(program, run)
    staying = [Core(number, cores) for number in range(cores)]
    words = pcg.words(seed)
    # Once all has ended, the turns that are left find nothing.
    while shared.to_come > 0:
        place = next(words) % len(staying)
        if not staying[place].turn(shared):
            del staying[place]
    entries = sorted(shared.entries, key=lambda entry: entry.start)
    return logs.Log(cores, run.outcomes, entries)


def departure(bundle, run, cores, text):
    """What the text of a run on so many cores has that it may not have, or None."""
    task_map = bundle.program.map
    try:
        log, image = bundles.output(task_map, text)
    except texts.Fault as fault:
        return f"a fault of {fault.kind} in line {fault.line}"
    if logs.output_text(task_map, log, image).encode() != text:
        return "it isn't printed as outputs are"
    if log.cores != cores:
        return "the number of cores"
    if image != run.image:
        return "the last memory"
    if log.outcomes != run.outcomes:
        return "the outcomes"
    if sorted(entry.record for entry in log.entries) != sorted(run.records):
        return "the records"
    failed = logs.failed_rule(task_map, run, log, image)
    return f"rule {failed[0]} at {failed[1]}" if failed else None
