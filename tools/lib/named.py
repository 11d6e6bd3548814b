"""Octets that the input of a case program gives names, by lines `message NAME = WORD ..`."""
import re


def expanded(text):
    """The lines of a case program's input, except those that give names, with the octets in place of the names."""
    names, lines = {}, []
    for line in text.splitlines():
        found = re.fullmatch(r"message (\S+) = (.*)", line)
        if found:
            names[found[1]] = "".join(names.get(word, word) for word in found[2].split())
        elif line.startswith("#"):
            lines.append(line)
        else:
            lines.append(re.sub(r"[^\s;,]+", lambda word: names.get(word[0], word[0]), line))
    return lines
