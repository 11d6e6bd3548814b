"""A dialogue as a ladder: the switch on the left, scp on the right, and each message as an arrow between them, in text
or as a picture (SVG) that needs nothing from elsewhere."""
import html
import re
import textwrap

import runs
import words
from dialogues import Way

# Columns of the text: the time, and what is between the two lines.
TIME, BETWEEN = 15, 80


def rows_of(step):
    """The words of a step: its message, and a list of the lines below."""
    if step.way is Way.LINK:
        return step.remark, []
    message = words.message_of(step.octets, step.way is Way.SENT)
    return message.name + (f", {step.remark}" if step.remark else ""), list(map(str, message.components))


def wrapped(texts, width):
    """Lines of at most so many letters; what is in brackets stays together."""
    bound = [re.sub(r"\([^()]*\)", lambda found: found[0].replace(" ", "\u00A0"), text) for text in texts]
    lines = (line for text in bound for line in textwrap.wrap(text, width, subsequent_indent="  "))
    return [line.replace("\u00A0", " ") for line in lines]


def time_of(step):
    return runs.text_of(step.moment)[11:]


def days_of(steps):
    """Each step with its day if that is another than the day of the step before."""
    last = ""
    for step in steps:
        day = runs.text_of(step.moment)[:10] if step.way is not Way.LINK else last
        yield step, day if day != last else ""
        last = day


# Text

def text_of(steps):
    """The lines of the ladder."""
    yield " " * (TIME - 2) + "switch" + " " * (BETWEEN - 3) + "scp"
    for step, day in days_of(steps):
        name, below = rows_of(step)
        if day:
            yield day.ljust(TIME) + "|" + " " * BETWEEN + "|"
        if step.way is Way.LINK:
            yield " " * TIME + "|" + f" {name} ".center(BETWEEN, "x") + "|"
            continue
        arrow = f" {name} ".center(BETWEEN - 1, "-")
        yield time_of(step).ljust(TIME) + ("|" + arrow + ">|" if step.way is Way.CAME else "|<" + arrow + "|")
        for line in wrapped(below, BETWEEN - 6):
            yield " " * TIME + "|   " + line.ljust(BETWEEN - 3) + "|"


# The picture. Letters have one width, so it is known how many a line takes.

LETTER, LINE = 7.83, 18
LEFT, RIGHT, WIDTH, HEAD = 150, 900, 950, 46
LETTERS = int((RIGHT - LEFT - 36) / LETTER)


def escaped(text):
    return html.escape(text, quote=True)


def said(x, y, text, kind, anchor="start"):
    return f'<text x="{x}" y="{y}" class="{kind}" text-anchor="{anchor}">{escaped(text)}</text>'


def arrow_of(step, y):
    """The arrow of a message: of another colour, and dashed, if it was refused or not sent."""
    kind = "came" if step.way is Way.CAME else "sent"
    if step.remark:
        kind += " lost"
    start, tip, back = (LEFT, RIGHT, -10) if step.way is Way.CAME else (RIGHT, LEFT, 10)
    return (f'<g class="{kind}"><line x1="{start}" y1="{y}" x2="{tip + back}" y2="{y}"/>'
            f'<polygon points="{tip},{y} {tip + back},{y - 5} {tip + back},{y + 5}"/></g>')


def step_of(step, day, y):
    """The shapes of a step from this height on, and the height after it."""
    name, below = rows_of(step)
    shapes, middle = [], (LEFT + RIGHT) // 2
    if day:
        shapes.append(said(LEFT - 14, y + 12, day, "time", "end"))
        y += LINE
    if step.way is Way.LINK:
        return [*shapes, said(middle, y + 14, name, "name", "middle")], y + 2 * LINE
    shapes += [said(middle, y + 12, name, "name", "middle"), said(LEFT - 14, y + 24, time_of(step), "time", "end"),
               arrow_of(step, y + 20)]
    y += 24
    for line in wrapped(below, LETTERS):
        y += LINE
        indent = len(line) - len(line.lstrip())
        shapes.append(said(round(LEFT + 18 + indent * LETTER, 1), y - 3, line.strip(), "words"))
    return shapes, y + LINE


def picture_of(steps, title):
    """The ladder as an SVG element."""
    shapes, y = [], HEAD + 8
    for step, day in days_of(steps):
        found, y = step_of(step, day, y)
        shapes += found
    ends = [f'<line x1="{x}" y1="{HEAD - 8}" x2="{x}" y2="{y}" class="end"/>'
            f'<rect x="{x - 45}" y="8" width="90" height="{HEAD - 16}" rx="5" class="box"/>'
            + said(x, 28, name, "name", "middle") for x, name in ((LEFT, "switch"), (RIGHT, "scp"))]
    return (f'<svg xmlns="http://www.w3.org/2000/svg" viewBox="0 0 {WIDTH} {y + 8}" role="img" '
            f'aria-label="{escaped(title)}">\n' + "\n".join(ends + shapes) + "\n</svg>")
