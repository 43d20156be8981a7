"""Writes the golden files again: what the built programs print of each example, and its explanation."""
from rehearsal.explain.show import explained
from rehearsal.machine.programs import Programs
from rehearsal.source import read_source
from tests.stored import EXAMPLES, GOLDEN


def main():
    programs = Programs()
    for path in sorted(EXAMPLES.glob("*.script")):
        source = read_source(str(path))
        run = programs.run(source.script, 0)
        (GOLDEN / f"{path.stem}.inspected").write_text(programs.inspected(source.script, 0))
        (GOLDEN / f"{path.stem}.explained").write_text(explained(source, run))
        (GOLDEN / f"{path.stem}.states").write_text(explained(source, run, with_state=True))


main()
