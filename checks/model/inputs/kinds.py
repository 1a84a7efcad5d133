"""The kinds of random input, each with how often it's made and how it is made."""

from .. import bundles, clashes, filter_bundle, machine, texts
from . import (command_lines, drafts, kernel_lines, mutations, outputs, sharing, spelling,
               version_2)

READERS = [[b"serial"], [b"run", b"--cores", b"1"], [b"check"]]


WORDS_LIMIT = 500000
INSTANCES_LIMIT = 1000
LONG_LIFE = 3000


def is_short(bundle):
    """Whether the serial run has few instances, which all end after few instructions."""
    tasks = bundle.program.map.tasks
    if sum(task.quota for task in tasks) > INSTANCES_LIMIT:
        return False
    limited = [task._replace(budget=min(task.budget, LONG_LIFE)) for task in tasks]
    program = bundle.program._replace(map=bundle.program.map._replace(tasks=limited))
    return all(record.instructions < LONG_LIFE
               for record in machine.serial(program, bundle.image).records)


def is_quick(words, text):
    """Whether the slow model can answer in about a second."""
    if words[0] in (b"asm", b"dis"):
        return True
    try:
        found = bundles.joint(text)[0] if words[0] == b"verify" else bundles.bundle(text)
    except texts.Fault:
        return True
    tasks = found.program.map.tasks
    all_words = sum(task.quota * region.count for task in tasks for region in task.regions)
    return all_words <= WORDS_LIMIT and (words[0] == b"check" or is_short(found))


def quick(rng, make):
    """An input that the model answers in about a second."""
    while True:
        words, text = make(rng)
        if is_quick(words, text):
            return words, text


def any_draft(rng):
    way = rng.random()
    if way < 0.7:
        return drafts.draft(rng)
    if way < 0.8:
        return drafts.branches_draft(rng)
    if way < 0.9:
        return rng.choice([drafts.computing_draft, drafts.caching_draft])(rng)
    return rng.choice([drafts.regions_draft] * 5 + [drafts.limits_draft])(rng)


CORES = [b"1"] * 2 + [b"2"] * 6 + [b"3"] * 6 + [b"8"] * 4 + [b"64"]


def run_words(rng, drawn=0.5):
    """The words for a run on some cores, as often in a drawn order as told."""
    words = [b"run", b"--cores", rng.choice(CORES)]
    if rng.random() < drawn:
        seed = rng.choice([0, 1, 2**64 - 1, rng.randrange(100), rng.randrange(2**64)])
        words += [b"--order", str(seed).encode()]
    return words


def plain_text(draft):
    return "".join(line + "\n" for line in draft.lines()).encode()


SMALL = ((drafts.draft, 7), (drafts.branches_draft, 3))


def accepted_draft(rng, makers=SMALL):
    """A small draft, mostly one without a clash."""
    while True:
        made = rng.choices(*zip(*makers))[0](rng)
        read = bundles.bundle(plain_text(made))
        if clashes.first_clash(read.program.map) is None or rng.random() < 0.02:
            return made


def text_of(rng, draft):
    return spelling.dressed(rng, draft.lines())


def whole_bundles(rng):
    return rng.choice(READERS), text_of(rng, drafts.draft(rng))


def runs_on_cores(rng):
    makers = ((drafts.draft, 4), (drafts.branches_draft, 2), (drafts.computing_draft, 1),
              (drafts.caching_draft, 1), (sharing.sharing_draft, 8))
    made = accepted_draft(rng, makers)
    return run_words(rng), text_of(rng, made) if rng.random() < 0.2 else plain_text(made)


def bundles_at_budgets(rng):
    """A bundle with a task whose budget is about what one of its instances needs."""
    made = rng.choice([drafts.draft, drafts.computing_draft])(rng)
    read = bundles.bundle(plain_text(made))
    records = machine.serial(read.program, read.image).records
    if records:
        record = rng.choice(records)
        budget = max(1, record.instructions + rng.choice([-1, 0, 0, 1, 1]))
        tasks = [place for place, line in enumerate(made.map_lines) if line.startswith("task")]
        line = made.map_lines[tasks[record.t]]
        made.map_lines[tasks[record.t]] = line[:line.index(" budget ")] + f" budget {budget}"
    return rng.choice(READERS[:2]), text_of(rng, made)


def computing_bundles(rng):
    return [b"serial"], text_of(rng, drafts.computing_draft(rng))


def operating_bundles(rng):
    return rng.choice(READERS[:2]), text_of(rng, drafts.operating_draft(rng))


def caching_bundles(rng):
    return rng.choice(READERS[:2]), text_of(rng, drafts.caching_draft(rng))


def branching_bundles(rng):
    return rng.choice(READERS + [[b"check"]] * 3), text_of(rng, drafts.branches_draft(rng))


def bundles_at_limits(rng):
    command = [b"check"] if rng.random() < 0.7 else rng.choice(READERS)
    return command, text_of(rng, drafts.limits_draft(rng))


def regions_at_limits(rng):
    return [b"check"], text_of(rng, drafts.regions_draft(rng))


def meeting_regions(rng):
    return [b"check"], text_of(rng, drafts.meeting_draft(rng))


def numbers_at_limits(rng):
    return [b"check"], text_of(rng, drafts.numbers_draft(rng))


def images_at_limits(rng):
    return rng.choice(READERS[:2]), text_of(rng, drafts.images_draft(rng))


def changed_bundles(rng):
    return quick(rng, lambda rng: (rng.choice(READERS),
                                   mutations.changed(rng, text_of(rng, any_draft(rng)))))


def assembler_lines(rng):
    text = spelling.dressed(rng, kernel_lines.some_lines(rng))
    return [b"asm"], mutations.changed(rng, text) if rng.random() < 0.1 else text


def single_instructions(rng):
    line = kernel_lines.limit_line(rng) if rng.random() < 0.5 else kernel_lines.instruction(rng, [])
    return [b"asm"], line.encode()


def far_assembler_lines(rng):
    return [b"asm"], spelling.dressed(rng, kernel_lines.far_lines(rng))


def many_assembler_lines(rng):
    return [b"asm"], "\n".join(kernel_lines.many_lines(rng)).encode()


def disassembler_lines(rng):
    text = spelling.dressed(rng, kernel_lines.some_words(rng))
    return [b"dis"], mutations.changed(rng, text) if rng.random() < 0.1 else text


def many_disassembler_lines(rng):
    return [b"dis"], "\n".join(kernel_lines.many_words(rng)).encode()


def joint(rng, makers=SMALL):
    """A bundle and an output of it, each ended by a line feed."""
    made = accepted_draft(rng, makers)
    read = bundles.bundle(plain_text(made))
    output = outputs.output(rng, read.program, read.image)
    text = text_of(rng, made).rstrip(b"\n") + b"\n"
    return text, outputs.respelled(rng, output)


def verifier_inputs(rng):
    bundle, output = joint(rng)
    return [b"verify"], bundle + output


def changed_verifier_input(rng):
    bundle, output = joint(rng)
    way = rng.random()
    if way < 0.4:
        return [b"verify"], bundle + mutations.changed(rng, output)
    if way < 0.8:
        change = rng.choice([mutations.change_number, mutations.change_name,
                             mutations.change_one_line, mutations.change_digits])
        return [b"verify"], bundle + change(rng, output)
    if way < 0.9:
        return [b"verify"], mutations.changed(rng, bundle) + output
    return [b"verify"], mutations.changed(rng, bundle + output)


def changed_verifier_inputs(rng):
    return quick(rng, changed_verifier_input)


def logs_at_limits(rng):
    made = accepted_draft(rng)
    read = bundles.bundle(plain_text(made))
    output = outputs.at_limits(rng, outputs.output(rng, read.program, read.image))
    return [b"verify"], plain_text(made) + outputs.respelled(rng, output)


def many_entries(rng):
    """A log with about as many entries as there may be."""
    bundle = ("plural 1\n[map]\nmemory 8\ncache 1 1\ntask t regular entry e budget 1\n"
              "[kernels]\ne: ecall\n[image]\n[end]\n")
    entry = "run t 0 code 0 n 1 loads 0 misses 0 stores 0 core 0 from 0 to 1\n"
    output = "log 1 cores 1\ntask t ended 0\n" + entry * (65536 + rng.randrange(-1, 2))
    last = rng.choice(["", entry.replace("t 0", "u 0"), entry.replace("core 0", "core x"), "[x]\n"])
    return [b"verify"], (bundle + output + last + "[image]\n[end]\n").encode()


def long_inputs(rng):
    """An input of about the greatest length."""
    words = rng.choice(READERS + [[b"asm"], [b"dis"], [b"verify"]])
    length = (67108864 if words[0] == b"verify" else 16777216) + rng.randrange(-1, 2)
    start = rng.choice([b"plural 1\n[map]\nmemory 8\ncache 1 1\n[kernels]\n[image]\n[end]\n", b""])
    if words[0] == b"verify" and start:
        start += b"log 1 cores 1\n[image]\n[end]\n"
    if words[0] in (b"asm", b"dis"):
        start = b"00000013\n" if words[0] == b"dis" else b"nop\n"
    filler = rng.choice([b"#", b" "])
    return words, start + filler * (length - len(start))


def words_of_command_lines(rng):
    bundle = b"plural 1\n[map]\nmemory 8\ncache 1 1\n[kernels]\n[image]\n[end]\n"
    return command_lines.some_words(rng), rng.choice([bundle, b"", b"nop", b"00000013"])


def generated_bundles(rng):
    seed = rng.choice([0, 1, 2**32, 2**64 - 1, rng.randrange(2**64), rng.randrange(1000)])
    return [b"make", str(seed).encode()], b""


def generated_counts(rng):
    return [b"make", str(rng.randrange(4)).encode(), b"--cores", rng.choice(CORES)], b""


def generated_runs(rng):
    """A generated bundle, or the small filter, run as it is or with another number in it."""
    made = filter_bundle.made_text(rng.randrange(2**64)) if rng.random() < 0.2 else \
        filter_bundle.small_text()
    text = made.encode()
    words = rng.choice(READERS[:2])
    if rng.random() < 0.5 and len(text) < 40000:
        changed = mutations.change_number(rng, text)
        text = changed if is_quick(words, changed) else text
    return words, text


def odd_bytes(rng):
    words = rng.choice(READERS + [[b"asm"], [b"dis"], [b"verify"]])
    way = rng.random()
    if way < 0.2:
        return words, b"\n" * rng.randrange(4)
    alphabet = mutations.BYTES if way < 0.6 else list(b"\n\n\r #plura1[]e: 0,x()")
    return words, bytes(rng.choices(alphabet, k=rng.randrange(60)))


def draft_of_version_2(rng):
    """A draft of version 2 without a fault."""
    make = rng.choices([version_2.joined_draft, drafts.draft, drafts.branches_draft,
                        sharing.sharing_draft], [8, 8, 4, 1])[0]
    made = make(rng)
    return made if made.version == 2 else version_2.of_version_2(rng, made)


def bundles_of_version_2(rng):
    return rng.choice(READERS), text_of(rng, draft_of_version_2(rng))


def joined_branches_of_version_2(rng):
    return rng.choice(READERS + [[b"check"]]), text_of(rng, version_2.joined_draft(rng))


def runs_of_version_2(rng):
    return run_words(rng, 0.9), plain_text(accepted_draft(rng, ((draft_of_version_2, 1),)))


def many_tasks_of_version_2(rng):
    drawn = [b"run", b"--cores", rng.choice([b"2", b"8"]), b"--order", b"%d" % rng.randrange(100)]
    return rng.choice(READERS + [drawn]), text_of(rng, version_2.many_tasks_draft(rng))


def wide_memories_of_version_2(rng):
    return rng.choice(READERS + [[b"check"]] * 3), text_of(rng, version_2.wide_draft(rng))


def cycles_of_version_2(rng):
    """A cycle, sometimes with a fault of form on the line that closes the map lines, or on one of them."""
    lines = version_2.cyclic_draft(rng).lines()
    closing = lines.index("[kernels]")
    way = rng.random()
    if way < 0.05:
        lines.insert(closing, rng.choice(["[image]", "[kernels] x", "[end]", "[map]", "[kernels]\x01"]))
    elif way < 0.1:
        lines = lines[:closing]
    elif way < 0.15:
        lines[rng.randrange(2, closing)] += rng.choice([" x", " 0", "\x7f"])
    return rng.choice(READERS), spelling.dressed(rng, lines)


def names_of_version_2(rng):
    return rng.choice(READERS), text_of(rng, version_2.names_draft(rng))


def limits_of_version_2(rng):
    made = drafts.limits_draft(rng, 2)
    return [b"check"], text_of(rng, version_2.of_version_2(rng, made) if rng.random() < 0.3 else made)


def numbers_of_version_2(rng):
    return [b"check"], text_of(rng, drafts.numbers_draft(rng, 2))


def regions_of_version_2(rng):
    return [b"check"], text_of(rng, drafts.regions_draft(rng, 2))


def images_of_version_2(rng):
    return rng.choice(READERS[:2]), text_of(rng, drafts.images_draft(rng, 2))


def changed_bundle_of_version_2(rng):
    way = rng.random()
    made = version_2.cyclic_draft(rng) if way < 0.2 else version_2.names_draft(rng) if way < 0.3 else \
        draft_of_version_2(rng)
    return rng.choice(READERS), mutations.changed(rng, text_of(rng, made))


def changed_bundles_of_version_2(rng):
    return quick(rng, changed_bundle_of_version_2)


def verifier_inputs_of_version_2(rng):
    bundle, output = joint(rng, ((draft_of_version_2, 1),))
    return [b"verify"], bundle + output


def read_as_other_version(rng):
    """A bundle of one version that says that it is of the other, or of none."""
    made = rng.choice([draft_of_version_2, drafts.draft, version_2.cyclic_draft])(rng)
    made.version = rng.choice([3 - made.version, 3 - made.version, 0, 3, "0x2", "02", "2 2"])
    return quick(rng, lambda rng: (rng.choice(READERS), text_of(rng, made)))


KINDS = {
    whole_bundles: 20,
    runs_on_cores: 20,
    bundles_at_budgets: 5,
    computing_bundles: 6,
    operating_bundles: 6,
    caching_bundles: 4,
    branching_bundles: 6,
    bundles_at_limits: 1,
    regions_at_limits: 3,
    meeting_regions: 3,
    numbers_at_limits: 3,
    images_at_limits: 2,
    changed_bundles: 24,
    assembler_lines: 16,
    single_instructions: 12,
    far_assembler_lines: 1,
    many_assembler_lines: 0.2,
    disassembler_lines: 6,
    many_disassembler_lines: 0.05,
    verifier_inputs: 12,
    changed_verifier_inputs: 10,
    logs_at_limits: 4,
    many_entries: 0.03,
    long_inputs: 0.05,
    words_of_command_lines: 5,
    generated_bundles: 0.3,
    generated_runs: 0.1,
    generated_counts: 0.02,
    odd_bytes: 2,
    bundles_of_version_2: 20,
    joined_branches_of_version_2: 20,
    runs_of_version_2: 8,
    many_tasks_of_version_2: 1,
    wide_memories_of_version_2: 0.6,
    cycles_of_version_2: 24,
    names_of_version_2: 16,
    limits_of_version_2: 1,
    numbers_of_version_2: 6,
    regions_of_version_2: 2,
    images_of_version_2: 0.6,
    changed_bundles_of_version_2: 24,
    verifier_inputs_of_version_2: 8,
    read_as_other_version: 4,
}
