"""Random inputs: bundles, assembler and disassembler lines, logs, and words of the command line.

Every generator takes a `random.Random` and gives the words and the input of one run of the
program.  Faults are made on purpose and by chance: limits are met exactly and passed by one,
tokens, lines and bytes are changed, and texts are cut.
"""
