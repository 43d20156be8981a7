"""A listing with its explanation: for each line the event, the meaning, and the text's own note."""
from rehearsal.explain.answer import explain
from rehearsal.explain.changes import changes
from rehearsal.language.forms import event_text
from rehearsal.machine.state import start_state


def explained(source, run, with_state=False):
    """The whole listing in columns, as text."""
    script = source.decoded()
    before = start_state(script.image)
    rows, changed = [], []
    for event, answer, after in zip(script.events, run.answers, run.states):
        rows.append((answer.text, event_text(event), explain(event, answer, before, after, script.header)))
        changed.append(changes(before, after) if with_state else [])
        before = after
    widths = [max((len(row[k]) for row in rows), default=0) for k in range(2)]
    lines = [line for k, row in enumerate(rows) for line in block(source, k, row, changed[k], widths)]
    lines += heading_lines(source, len(rows)) + [run.listing.splitlines()[-1]]
    return "".join(line + "\n" for line in lines)


def block(source, index, row, changed, widths):
    """An event's line, and below it the note and what changed."""
    first, second, third = row
    indent = " " * (widths[0] + 2)
    note = source.note(index)
    lines = heading_lines(source, index)
    lines.append(f"{first.ljust(widths[0])}  {second.ljust(widths[1])}  {third}")
    lines += [f"{indent}# {note}"] if note else []
    return lines + [f"{indent}  {line}" for line in changed]


def heading_lines(source, index):
    headings = source.headings.get(index, [])
    return ["", *headings] if headings else []
