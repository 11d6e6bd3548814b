"""The input of a case program, and what the program says of it."""
import re


def blocks_of(text):
    """The blocks of a case program's input, a case or a name that cases use, and in which line each begins. In place of a comment
    within a block is an empty line."""
    blocks = []
    for number, line in enumerate(text.splitlines(), 1):
        if line.startswith(" ") and blocks:
            first, block = blocks[-1]
            blocks[-1][1] += "\n" * (number - first - block.count("\n")) + line
        elif line and not line.startswith("#"):
            blocks.append([number, line])
    return blocks


def is_case(block):
    return " => " in block[1]


def input_of(blocks):
    """The input that has these blocks, each in the line in which it was."""
    lines = []
    for number, text in sorted(blocks):
        lines += [""] * (number - 1 - len(lines)) + text.split("\n")
    return "".join(f"{line}\n" for line in lines)


def counts_of(output, blocks, is_well, otherwise):
    """How many cases of these blocks passed and failed by the last line that a case program wrote, and the lines before it. If
    it counts other cases, or none wrong without ending well, all failed, and more lines say why."""
    wanted = sum(map(is_case, blocks))
    *said, last = output.splitlines() or [""]
    found = re.fullmatch(r"(\d+) cases, (\d+) wrong", last)
    if found and int(found[1]) == wanted and (is_well or found[2] != "0"):
        return wanted - int(found[2]), int(found[2]), said
    return 0, wanted, [*said, last, *otherwise, f"no count of {wanted} cases"]


def first_words(text):
    """The first word of each case."""
    return {block[1].split()[0] for block in blocks_of(text) if is_case(block)}
