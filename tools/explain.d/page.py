"""The page that tools/explain --html writes: one file, without script, and with nothing from elsewhere."""
import runs
from ladder import escaped, picture_of

STYLE = """
:root { color-scheme: light dark; --ground: #ffffff; --ink: #1b1f24; --faint: #57606a; --line: #c4ccd4; --box: #f1f4f7;
    --came: #0550ae; --sent: #116329; --lost: #a40e26; --chosen: #dcf5e1; }
@media (prefers-color-scheme: dark) { :root { --ground: #14181d; --ink: #e6eaef; --faint: #a3adb8; --line: #4a535d;
    --box: #222930; --came: #7db7ff; --sent: #6fd98b; --lost: #ff8f97; --chosen: #173d24; } }
body { background: var(--ground); color: var(--ink); font: 16px/1.5 system-ui, sans-serif; max-width: 1000px;
    margin: 2em auto; padding: 0 1em; }
h1 { font-size: 1.5em; } h2 { font-size: 1.15em; margin-top: 2em; }
p { margin: .3em 0; }
table { border-collapse: collapse; width: 100%; }
td, th { border-bottom: 1px solid var(--line); padding: .3em .6em; text-align: left; vertical-align: top; }
.chosen td { background: var(--chosen); font-weight: 600; } .not td { color: var(--faint); }
code { font: 13px/1.4 ui-monospace, "DejaVu Sans Mono", "Liberation Mono", monospace; overflow-wrap: anywhere; }
td:not(:last-child) { white-space: nowrap; } .rules td { white-space: normal; } .rules code { overflow-wrap: normal; }
.ladder { overflow-x: auto; } svg { width: 100%; min-width: 720px; height: auto; }
svg text { fill: var(--ink); font: 13px ui-monospace, "DejaVu Sans Mono", "Liberation Mono", monospace; }
svg .name { font-weight: 700; } svg .time { fill: var(--faint); }
svg line { stroke-width: 1.5; } svg .end { stroke: var(--line); } svg .box { fill: var(--box); stroke: var(--line); }
svg .came line { stroke: var(--came); } svg .came polygon { fill: var(--came); }
svg .sent line { stroke: var(--sent); } svg .sent polygon { fill: var(--sent); }
svg .lost line { stroke: var(--lost); stroke-dasharray: 6 4; } svg .lost polygon { fill: var(--lost); }
"""


def rules_of(choice):
    """The rules of a choice as a table, with the sentences around it."""
    rows = "\n".join(f'<tr class="{rule.verdict.value}">'
                     f'<td><code>{escaped(rule.text).replace(",", ",<wbr>")}</code></td>'
                     f'<td>{escaped(rule.why)}</td></tr>' for rule in choice.rules)
    table = f'<table class="rules">\n<tr><th>Rule</th><th>Why</th></tr>\n{rows}\n</table>\n' if rows else ""
    before, after = ("".join(f"<p>{escaped(text)}</p>\n" for text in texts) for texts in (choice.before, choice.after))
    return before + table + after + (f"<p><strong>{escaped(choice.gets)}</strong></p>\n" if choice.gets else "")


def octets_of(steps):
    """The messages of a dialogue as octets."""
    rows = "\n".join(f"<tr><td>{escaped(runs.text_of(step.moment))}</td><td>{escaped(step.way.value)}</td>"
                     f"<td><code>{step.octets.hex().upper()}</code></td></tr>" for step in steps if step.octets)
    return f"<table>\n<tr><th>Moment</th><th>Message</th><th>Octets</th></tr>\n{rows}\n</table>\n"


def page_of(title, facts, choice, ladders):
    """The page: a title, sentences, the choice, if there was one, and ladders, each with a heading."""
    parts = [f"<h1>{escaped(title)}</h1>\n", *(f"<p>{escaped(fact)}</p>\n" for fact in facts)]
    if choice:
        parts.append(f"<h2>The choice</h2>\n{rules_of(choice)}")
    for heading, steps in ladders:
        parts.append(f"<h2>{escaped(heading)}</h2>\n<div class=\"ladder\">\n{picture_of(steps, heading)}\n</div>\n"
                     f"<details><summary>Octets</summary>\n{octets_of(steps)}</details>\n")
    return (f'<!DOCTYPE html>\n<html lang="en">\n<head>\n<meta charset="utf-8">\n'
            '<meta http-equiv="Content-Security-Policy" content="default-src \'none\'; style-src \'unsafe-inline\'">\n'
            '<meta name="viewport" content="width=device-width">\n'
            f"<title>{escaped(title)}</title>\n<style>{STYLE}</style>\n</head>\n"
            f"<body>\n{''.join(parts)}</body>\n</html>\n")
