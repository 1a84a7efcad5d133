"""Random bundles without fault: maps that are often accepted, kernels that fit them, images."""

from .. import maps
from . import kernel_lines, spelling


class Draft:
    """The version of a bundle, and its lines by section."""

    def __init__(self, version=1):
        self.version = version
        self.map_lines = []
        self.kernel_lines = []
        self.image_lines = []

    def lines(self):
        return ([f"plural {self.version}", "[map]"] + self.map_lines + ["[kernels]"] + self.kernel_lines +
                ["[image]"] + self.image_lines + ["[end]"])


def fresh_labels():
    count = 0

    def fresh():
        nonlocal count
        count += 1
        return f"l{count}"
    return fresh


def any_region(rng, words, quota):
    """A region that lies inside the memory for each instance, or None."""
    count = min(words, rng.choice([1, 1, 1, 2, 3, 4, 8, words]))
    most = (words - count) // (quota - 1) if quota > 1 else 65535
    stride = min(most, rng.choice([0, 1, 1, 2, count, count, 8, 65535]))
    base = rng.randrange(words - count - stride * (quota - 1) + 1) if quota > 1 else \
        rng.randrange(words - count + 1)
    return rng.choice(["read", "write"]), base, stride, count


def own_region(rng, low, words, quota):
    """A region of `words` words from low on in which no two instances meet, or None."""
    each = words // quota
    if each == 0:
        return None
    count = rng.randrange(1, each + 1)
    stride = rng.randrange(count, each + 1)
    return "write", low, stride, count


def task_regions(rng, words, tasks, t, quota, is_tidy):
    """Regions of a task; tidy ones are written to in a share of the memory of their own."""
    regions = []
    if not is_tidy:
        return [any_region(rng, words, quota) for _ in range(rng.choice([0, 1, 1, 2, 3, 8]))]
    share = words // (tasks + 1)
    own = own_region(rng, share * t, share, quota)
    if own is not None:
        regions.append(own)
    shared = words - share * tasks
    for _ in range(rng.choice([0, 1, 1, 2])):
        if shared > 0:
            count = rng.randrange(1, shared + 1)
            base = rng.randrange(share * tasks, words - count + 1)
            regions.append(("read", base, 0, count))
    rng.shuffle(regions)
    return regions


def region_line(rng, region):
    mode, base, stride, count = region
    return f"{mode} " + " ".join(spelling.numeral(rng, n) for n in (base, stride, count))


def task_line(rng, name, quota, label, budget):
    regular = quota == 1 and rng.random() < 0.7
    kind = "regular" if regular else "dup " + spelling.numeral(rng, quota)
    return f"task {name} {kind} entry {label} budget {spelling.numeral(rng, budget)}"


def distinct_names(rng, count):
    names = []
    while len(names) < count:
        name = spelling.name(rng)
        if name not in names:
            names.append(name)
    return names


def image_lines(rng, words):
    lines = []
    address = 0
    while address < words and rng.random() < 0.6:
        address += rng.choice([0, 0, 0, 1, 5, 8])
        count = min(rng.randrange(1, 9), words - address)
        if count <= 0:
            break
        digits = [f"{kernel_lines.value(rng):08x}" for _ in range(count)]
        digits = [rng.choice([d, d, d.upper()]) for d in digits]
        lines.append(f"{address:08x}: " + " ".join(digits))
        address += count
    return lines


def dependencies(rng, names, t, density):
    chosen = [p for p in range(t) if rng.random() < density]
    rng.shuffle(chosen)
    return [f"after {names[p]} {rng.choice(['any', 'any', '0', '1'])}" for p in chosen[:16]]


def draft(rng):
    made = Draft()
    words = 8 * rng.choice([1, 1, 2, 3, 4, 8, 16])
    sets, ways = rng.choice([1, 1, 2, 2, 4, 64]), rng.randint(1, 4)
    made.map_lines = [f"memory {spelling.numeral(rng, words)}",
                      f"cache {spelling.numeral(rng, sets)} {spelling.numeral(rng, ways)}"]
    tasks = rng.choice([0, 1, 1, 2, 3, 3, 4, 5, 8, 12])
    is_tidy = rng.random() < 0.6
    density = rng.choice([0, 0.2, 0.5, 0.9])
    names = distinct_names(rng, tasks)
    fresh = fresh_labels()
    blocks = []
    for t in range(tasks):
        quota = rng.choice([1, 1, 1, 2, 2, 3, 4, 7])
        regions = task_regions(rng, words, tasks, t, quota, is_tidy)
        if blocks and rng.random() < 0.15:
            label = rng.choice(blocks)[0]
        else:
            label = "e" + fresh()
            blocks.append((label, kernel_lines.block(rng, label, regions, fresh)))
        budget = rng.choice([1, 5, 10, 20, 40] + [100] * 4 + [200] * 12)
        made.map_lines.append(task_line(rng, names[t], quota, label, budget))
        details = dependencies(rng, names, t, density)
        details += [region_line(rng, region) for region in regions]
        if rng.random() < 0.3:
            rng.shuffle(details)
        made.map_lines += details
    rng.shuffle(blocks)
    for _, lines in blocks:
        made.kernel_lines += lines
    made.image_lines = image_lines(rng, words)
    return made


def computing_draft(rng):
    """One task that may write all words, computes much and stores what it has."""
    made = Draft()
    words = 8 * rng.choice([1, 2, 4])
    made.map_lines = [f"memory {words}", "cache 2 2",
                      f"task t dup {rng.choice([1, 2])} entry e budget 1000", f"write 0 0 {words}"]
    region = ("write", 0, 0, words)
    fresh = fresh_labels()
    lines = ["e: li x5, 0", "li x6, 4"]
    for register in [7, 8, 9, 12, 13, 14, 15]:
        lines.append(kernel_lines.li(rng, register, kernel_lines.value(rng)))
    for _ in range(rng.choice([5, 20, 60])):
        way = rng.random()
        if way < 0.5:
            register = rng.choice([7, 8, 9, 12, 13, 14, 15])
            lines.append(kernel_lines.computing(rng))
            lines.append(f"sw x{register}, {4 * rng.randrange(words)}(x0)")
        elif way < 0.7:
            lines.append(kernel_lines.access(rng, 5, region))
        elif way < 0.8:
            lines += kernel_lines.branching(rng, fresh)
        elif way < 0.9:
            register = rng.choice([7, 8, 9, 12, 13, 14, 15])
            lines.append(kernel_lines.li(rng, register, kernel_lines.value(rng)))
        else:
            lines.append(kernel_lines.computing(rng))
    made.kernel_lines = lines + rng.choice([["li x10, 0", "ecall"], ["andi x10, x7, 1", "ecall"]])
    made.image_lines = image_lines(rng, words)
    return made


def operating_draft(rng):
    """One task that stores the results of single instructions on chosen values."""
    made = Draft()
    made.map_lines = ["memory 24", "cache 2 2", "task t regular entry e budget 1000",
                      "write 0 0 24"]
    made.kernel_lines = ["e:"]
    for place in range(1, 24):
        made.kernel_lines += kernel_lines.operation(rng, place)
    made.kernel_lines += ["li x10, 0", "ecall"]
    return made


def caching_draft(rng):
    """One task that accesses a larger memory again and again, for the misses."""
    made = Draft()
    words = 8 * rng.choice([2, 3, 4, 8, 16, 60])
    made.map_lines = [f"memory {words}",
                      f"cache {rng.choice([1, 1, 2, 4, 8, 64])} {rng.randint(1, 4)}",
                      f"task t dup {rng.choice([1, 1, 2])} entry e budget {rng.choice([50, 1000])}",
                      f"write 0 0 {words}"]
    favourites = [rng.randrange(words) for _ in range(rng.randrange(2, 10))]
    lines = ["e: li x6, 3", "again: li x5, 4"]
    for _ in range(rng.choice([5, 10, 30])):
        word = rng.choice(favourites) if rng.random() < 0.9 else rng.randrange(words)
        mnemonic = rng.choice(["lw", "lw", "lw", "lb", "lhu", "sw", "sb", "sh", "lw x0,"]).split()
        register = "x0" if len(mnemonic) > 1 else f"x{rng.choice([7, 8, 9])}"
        lines.append(f"{mnemonic[0]} {register}, {4 * word}(x0)")
    lines += ["addi x6, x6, -1", "bnez x6, again"] if rng.random() < 0.5 else []
    made.kernel_lines = lines + ["li x10, 0", "ecall"]
    made.image_lines = image_lines(rng, words)
    return made


def branches_draft(rng):
    """A map of many tasks that depend on codes and write few words, for the exclusive branches."""
    made = Draft()
    made.map_lines = ["memory 8", "cache 1 1"]
    tasks = rng.randrange(3, 9)
    names = distinct_names(rng, tasks)
    density = rng.choice([0.3, 0.5, 0.8])
    sparse = rng.random() < 0.7
    writing = rng.sample(range(tasks), 2)
    for t in range(tasks):
        label = rng.choice(["e", "f", "g"])
        made.map_lines.append(f"task {names[t]} dup {rng.choice([1, 1, 2])} entry {label} budget 9")
        for p in range(t):
            if rng.random() < density:
                when = rng.choice(["0", "1", "0", "1", "any"])
                made.map_lines.append(f"after {names[p]} {when}")
        if sparse and t in writing:
            made.map_lines.append(f"write {writing.index(t)} 1 1")
        for _ in range(0 if sparse else rng.randrange(3)):
            mode = rng.choice(["read", "write"])
            made.map_lines.append(f"{mode} {rng.randrange(4)} {rng.randrange(4)} 1")
    made.kernel_lines = ["e: li x10, 0", "ecall", "f: li x10, 1", "ecall", "g: andi x10, x10, 1",
                         "ecall"]
    return made


def spread_region(rng, words):
    """A region whose instances lie apart over much of the memory, and its quota at most."""
    stride = rng.choice([1, 2, 3, 4, 5, 7, 8, 16, 31, rng.randrange(1, max(2, words // 3))])
    count = rng.choice([1, 1, 1, 2, 3, stride, max(1, stride - 1), stride + 1])
    count = min(count, words)
    base = rng.randrange(min(words - count, 4 * stride) + 1)
    most = (words - count - base) // stride + 1
    return (rng.choice(["read", "write", "write"]), base, stride, count), min(most, 16384)


def meeting_draft(rng):
    """Tasks of many instances whose regions meet rarely, so that the first clash lies far in."""
    made = Draft()
    words = 8 * rng.choice([2, 8, 50, 512, rng.randrange(1, 8193), 8192])
    made.map_lines = [f"memory {words}", "cache 1 1"]
    made.kernel_lines = ["e: ecall"]
    budget = rng.choice([2000, 2000, 20000, 20000, 200000])
    for t in range(rng.choice([1, 1, 2, 2, 2, 3])):
        regions, quotas = zip(*[spread_region(rng, words) for _ in range(rng.choice([1, 1, 2, 3]))])
        each = sum(region[3] for region in regions)
        quota = min(min(quotas), max(1, budget // each))
        quota = rng.choice([quota, quota, rng.randrange(1, quota + 1)])
        budget = max(1, budget - quota * each)
        made.map_lines.append(f"task t{t} dup {quota} entry e budget 1")
        made.map_lines += [region_line(rng, region) for region in regions]
        if t > 0 and rng.random() < 0.1:
            made.map_lines.append(f"after t{rng.randrange(t)} any")
    return made


def at(rng, low, high):
    """A number at the ends of a range, or one beyond, or inside."""
    return rng.choice([low, low, high, high, max(0, low - 1), high + 1, low + 1, high - 1])


def numbers_draft(rng, version=1):
    """A map whose numbers stand at the ends of their ranges, most of them inside."""
    made = Draft(version)
    most = maps.WORDS_LIMIT[version]
    faulty = rng.randrange(9)

    def number(place, low, high, inside):
        return spelling.numeral(rng, at(rng, low, high) if place == faulty else rng.choice(inside))

    made.map_lines = [
        f"memory {number(0, 8, most, [8, 16, most])}",
        f"cache {number(1, 1, 64, [1, 2, 4, 8, 16, 32, 64])} {number(2, 1, 4, [1, 2, 3, 4])}",
        f"task t dup {number(3, 1, 16384, [1, 2, 3])} entry e budget "
        f"{number(4, 1, 100000000, [1, 9, 100000000])}",
        f"read {number(5, 0, most - 1, [0, 1])} {number(6, 0, most - 1, [0, 1])} "
        f"{number(7, 1, most, [1, 2])}"]
    if faulty == 8:
        made.map_lines[1] = f"cache {rng.choice([0, 3, 5, 6, 12, 24, 31, 33, 48, 63, 65, 128])} 1"
        made.map_lines[0] = f"memory {rng.choice([8, 16])}"
    if faulty == 0 and rng.random() < 0.5:
        words = rng.choice([0, 4, 12, 20, most - 4, most - 8, most + 8, 65544, 2**32 + 8])
        made.map_lines[0] = f"memory {words}"
    made.kernel_lines = ["e: ecall"]
    return made


def images_draft(rng, version=1):
    """A bundle whose image lines meet the end of the memory or one another."""
    made = Draft(version)
    words = rng.choice([8, 16, 24, maps.WORDS_LIMIT[version]])
    made.map_lines = [f"memory {words}", "cache 1 1", "task t regular entry e budget 9"]
    made.kernel_lines = ["e: li x10, 0", "ecall"]
    address = rng.choice([0, 1, 3, 7, 8, words - 8, words - 9, words - 2, words - 1])
    for _ in range(rng.choice([1, 1, 2, 3])):
        count = rng.choice([1, 2, 7, 8, 8, 8, 9, 0]) if rng.random() < 0.7 else \
            max(1, min(8, words - address))
        digits = " ".join(f"{kernel_lines.value(rng):08x}" for _ in range(count))
        made.image_lines.append(f"{max(address, 0):08x}: {digits}")
        address += count + rng.choice([0, 0, 0, 1, -1, -1, -count, 2**32 - 8])
        address %= 2**32
    return made


def limits_draft(rng, version=1):
    """A map at the limits of its counts, or one beyond."""
    made = Draft(version)
    words = rng.choice([8, 64, 65528, 65536])
    made.map_lines = [f"memory {words}", f"cache {rng.choice([1, 64])} {rng.choice([1, 4])}"]
    made.kernel_lines = ["e: ecall", "f: andi x10, x10, 1", "ecall"]
    way = rng.randrange(4)
    if way == 0:
        for t in range(maps.TASKS_LIMIT[version] + rng.randrange(-1, 2)):
            made.map_lines.append(f"task t{t} regular entry e budget 9")
            if rng.random() < 0.3 and t > 0:
                made.map_lines.append(f"after t{rng.randrange(t)} any")
            if rng.random() < 0.3:
                made.map_lines.append(f"write {t % 8} 0 1")
        if rng.random() < 0.5:
            made.map_lines[-1] = rng.choice([
                "task t0 regular entry e budget 9", "task z regular entry nowhere budget 9",
                "task z dup 16385 entry e budget 9", "task z regular entry e budget 0",
                "task z regular entry 9 budget 9", "task z dup 16384 entry e budget 9"])
    elif way == 1:
        for t in range(20):
            made.map_lines.append(f"task t{t} regular entry f budget 9")
        made.map_lines.append("task last regular entry f budget 9")
        for p in rng.sample(range(20), 16 + rng.randrange(-1, 2)):
            made.map_lines.append(f"after t{p} {rng.choice(['any', '0', '0'])}")
        made.map_lines.append(rng.choice(["after t0 any", "write 0 0 1", "after last any",
                                          "after nowhere any", "after t0 2", "after t19 1"]))
    elif way == 2:
        made.map_lines.append("task t dup 2 entry f budget 9")
        for _ in range(8 + rng.randrange(-1, 2)):
            made.map_lines.append(f"{rng.choice(['read', 'read', 'write'])} {rng.randrange(8)} 0 1")
        made.map_lines.append(rng.choice(["read 8 0 1", "read 0 0 0", "read 65536 0 1", "read 0 0",
                                          "task u regular entry e budget 1", "read 7 0 1"]))
    elif way == 3 and rng.random() < 0.3:
        made.map_lines += [f"task t{t} dup 16384 entry e budget 9" for t in range(4)]
        made.map_lines.append(rng.choice([
            "task t0 regular entry e budget 9", "task z regular entry nowhere budget 9",
            "task z dup 0 entry e budget 9", "task z dup 1 entry e budget 9", "after t0 any"]))
    else:
        quotas = rng.choice([[16384] * 4, [16384, 16384, 16384, 16383, 1], [16384] * 3 + [16383],
                             [16384] * 4 + [1], [16384] * 3 + [16383, 2], [16385], [16384, 0]])
        for t, quota in enumerate(quotas):
            made.map_lines.append(f"task t{t} dup {quota} entry f budget {rng.choice([1, 9])}")
            if rng.random() < 0.3 and words > 16384:
                made.map_lines.append(f"{rng.choice(['read', 'write'])} {rng.randrange(9)} 1 1")
            if t > 0 and rng.random() < 0.5:
                made.map_lines.append(f"after t{t - 1} any")
    return made


def regions_draft(rng, version=1):
    """Few tasks whose regions end near the end of the memory, inside or outside."""
    made = Draft(version)
    most = maps.WORDS_LIMIT[version]
    words = rng.choice([8, 16, 64, 4096, most - 8, most])
    made.map_lines = [f"memory {words}", "cache 1 1"]
    made.kernel_lines = ["e: ecall"]
    for t in range(rng.choice([1, 1, 2, 3])):
        quota = rng.choice([1, 2, 3, 7, 100, 1000, 16384])
        made.map_lines.append(f"task t{t} dup {quota} entry e budget 1")
        for _ in range(rng.choice([1, 1, 2])):
            stride = rng.choice([0, 1, 2, 3, 7, words // quota, words // quota + 1, most - 1])
            many = max(1, min(300000 // quota, words))
            count = rng.choice([1, 1, 2, 3, many, max(1, words - stride * (quota - 1))])
            if count * quota > 400000 or count > most:
                count = 1
            stop = rng.choice([0, 0, 0, 1, 1, -1, stride, rng.randrange(3 * stride + 2)])
            base = max(0, min(most - 1, words - stride * (quota - 1) - count + stop))
            made.map_lines.append(f"{rng.choice(['read', 'write'])} {base} {stride} {count}")
        if t > 0 and rng.random() < 0.5:
            made.map_lines.append(f"after t{rng.randrange(t)} {rng.choice(['any', '0', '1'])}")
    return made
