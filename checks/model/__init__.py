"""A second, independent statement of the formats and of the machine.

Each module says one part of the rules in the plainest way there is; nothing here is meant to be
fast.  `answers` puts them together: words of the command line and an input give a status and a
text.  The modules in `inputs` make random inputs; `checks/reference` compares on them.
"""
