"""Image lines: the words of a memory.

A line has the address of its first word, counted in words, a colon directly after it, and one to
eight words.  Addresses and words have eight hexadecimal digits.  Each line begins above the last
word of the image line before it, and all words lie inside the memory.  Words that no line names
are 0.  Printed lines have eight words each, and those whose words are all 0 are left out.
"""

from . import texts
from .texts import Fault


def read_line(line):
    """The address and the words of a line."""
    first, *rest = texts.tokens(line.text)
    address = texts.eight_digits(first[:-1]) if first.endswith(b":") else None
    words = [texts.eight_digits(token) for token in rest]
    if address is None or None in words or not 1 <= len(words) <= 8:
        raise Fault(line.number, "form")
    return address, words


def read_image(lines, size):
    """The memory of `size` words that the lines spell; raises their first fault."""
    image = [0] * size
    above = -1
    for line in lines:
        address, words = read_line(line)
        last = address + len(words) - 1
        if last >= size or address <= above:
            raise Fault(line.number, "address")
        image[address:last + 1] = words
        above = last
    return image


def image_text(image):
    text = ""
    for address in range(0, len(image), 8):
        words = image[address:address + 8]
        if any(words):
            text += f"{address:08x}: " + " ".join(f"{word:08x}" for word in words) + "\n"
    return text
