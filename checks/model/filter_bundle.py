"""The bundle that `make` writes: a filter, a maximum over two levels and a branch.

The text has holes for the sizes of a small and a large filter; `make` fills in the large one, whose
image is drawn by PCG32 of the seed.  With `--cores` it writes a line on the run of that bundle.
"""

import functools
import itertools
import re

from . import bundles, images, machine, pcg


def holes(instances, words, taps, filtered, outputs, shift, partial):
    """What fills the holes: the sizes given, the words after them, and byte addresses."""
    filled = {"N": instances, "W": words, "TAPS": taps, "Y": filtered, "C": outputs, "S": shift,
              "M": partial}
    for place, name in enumerate(["BEST", "LOUD", "LIM", "QUIET", "DONE"]):
        filled[name] = partial + 8 + place
    for name in ["TAPS", "Y", "M", "LOUD", "QUIET"]:
        filled[name + "4"] = 4 * filled[name]
    return filled


SMALL = holes(64, 2096, 1040, 1056, 128, 9, 2080)
LARGE = holes(1024, 32816, 16400, 16416, 2048, 13, 32800)

LINES = """\
plural 1
[map]
memory W
cache 16 2
task fir dup N entry fir budget 10000
read 0 16 31
read TAPS 0 16
write Y 16 16
task top dup 8 entry top budget 100000
after fir any
read Y C C
write M 1 1
task best regular entry best budget 1000
after top any
read M 0 8
read LIM 0 1
write BEST 0 1
task loud regular entry loud budget 100
after best 1
write LOUD 0 1
task quiet regular entry quiet budget 100
after best 0
write QUIET 0 1
task done regular entry done budget 100
after loud any
after quiet any
read LOUD 0 1
read QUIET 0 1
write DONE 0 1
[kernels]
fir: slli x5, x10, 6
li x6, Y4
add x6, x6, x5
li x15, TAPS4
li x7, 16
fo: li x8, 0
li x9, 0
fi: add x11, x5, x9
lw x12, 0(x11)
add x13, x15, x9
lw x13, 0(x13)
mul x12, x12, x13
add x8, x8, x12
addi x9, x9, 4
slti x14, x9, 64
bnez x14, fi
sw x8, 0(x6)
addi x5, x5, 4
addi x6, x6, 4
addi x7, x7, -1
bnez x7, fo
li x10, 0
ecall
top: slli x5, x10, S
li x6, Y4
add x5, x5, x6
li x7, C
li x8, 0x80000000
tl: lw x9, 0(x5)
blt x9, x8, ts
mv x8, x9
ts: addi x5, x5, 4
addi x7, x7, -1
bnez x7, tl
slli x6, x10, 2
li x9, M4
add x6, x6, x9
sw x8, 0(x6)
li x10, 0
ecall
best: li x5, M4
li x7, 8
li x8, 0x80000000
bl: lw x9, 0(x5)
blt x9, x8, bs
mv x8, x9
bs: addi x5, x5, 4
addi x7, x7, -1
bnez x7, bl
sw x8, 0(x5)
lw x9, 8(x5)
slt x10, x8, x9
xori x10, x10, 1
ecall
loud: li x5, LOUD4
li x6, 1
sw x6, 0(x5)
ecall
quiet: li x5, QUIET4
li x6, 1
sw x6, 0(x5)
ecall
done: li x5, LOUD4
lw x6, 0(x5)
lw x7, 8(x5)
add x6, x6, x6
add x6, x6, x7
sw x6, 12(x5)
ecall
"""


def bundle_text(sizes, image):
    lines = re.sub(r"\b[A-Z]+4?\b", lambda hole: str(sizes[hole[0]]), LINES)
    return lines + "[image]\n" + images.image_text(image) + "[end]\n"


def small_text():
    image = [0] * SMALL["W"]
    image[:1039] = range(1039)
    image[1040:1056] = [1] * 16
    image[SMALL["LIM"]] = 16000
    return bundle_text(SMALL, image)


def made_text(seed):
    drawn = list(itertools.islice(pcg.words(seed), 16416))
    image = [0] * LARGE["W"]
    image[:16399] = [word % 4096 for word in drawn[:16399]]
    image[16400:16416] = [1 + word % 16 for word in drawn[16399:16415]]
    image[LARGE["LIM"]] = drawn[16415] % 1048576
    return bundle_text(LARGE, image)


@functools.lru_cache
def made_line(seed):
    """The line on the run of the bundle of a seed, which is the same on any number of cores."""
    bundle = bundles.bundle(made_text(seed).encode())
    run = machine.serial(bundle.program, bundle.image)
    instances = sum(task.quota for task in bundle.program.map.tasks)
    instructions = sum(record.instructions for record in run.records)
    stores = sum(record.stores for record in run.records)
    return (f"made: instances {instances} ran {len(run.records)} instructions {instructions}"
            f" stores {stores} best {run.image[LARGE['BEST']]} result {run.image[LARGE['DONE']]}\n")
