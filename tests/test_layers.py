"""tools/layers refuses what opens a lower crate's definition, in a proof file or by an attribute."""
from pathlib import Path
import shutil
import subprocess
import tempfile
import unittest

from tests.stored import ROOT

PROOF = """use Rattle.machine.specs.Event.{step_of, line_of as shown}
use Rattle.machine.specs.Run as run
use Rattle.mmu.specs.Walk.{walk_of}
use Rattle.mmu.specs.Check as check

law : step_of ≡ step_of
unfolding %s
law = refl
"""
CODE = """// no attribute: #[tactic(auto)]
#[tactic(auto, unfolding(%s))]
fn f() {}
"""


class Layers(unittest.TestCase):
    def said(self, name, text):
        """The tool's exit status and lines over a repository of one upper crate with one file."""
        with tempfile.TemporaryDirectory() as folder:
            tree = Path(folder)
            for file, content in (("docs/DESIGN.md", "Upper crates: `machine`.\n"), (f"crates/machine/{name}", text)):
                (tree / file).parent.mkdir(parents=True)
                (tree / file).write_text(content)
            (tree / "tools").mkdir()
            shutil.copy(ROOT / "tools" / "layers", tree / "tools")
            done = subprocess.run([tree / "tools/layers"], capture_output=True, text=True, check=False)
        return done.returncode, done.stdout.splitlines()

    def refuses(self, name, text, line, *opened):
        wanted = [f"crates/machine/{name}:{line}: unfolds `{each}`, which is no definition of its own crate" for each in opened]
        self.assertEqual(self.said(name, text), (1, wanted))

    def test_the_repository_is_good(self):
        done = subprocess.run([ROOT / "tools/layers"], capture_output=True, text=True, check=False)
        self.assertEqual((done.returncode, done.stdout), (0, ""))

    def test_the_crates_own_definitions(self):
        self.assertEqual(self.said("proofs/Laws.antt", PROOF % "law step_of shown run.run_over -- walk_of"), (0, []))
        self.assertEqual(self.said("src/lib.rt", CODE % "crate::specs::Event::step_of, crate::specs::Run::run_over"), (0, []))

    def test_a_lower_crates_definition(self):
        self.refuses("proofs/Laws.antt", PROOF % "step_of walk_of", 7, "walk_of")
        self.refuses("proofs/Laws.antt", PROOF % "check.check_page line_of", 7, "check.check_page", "line_of")

    def test_a_lower_crates_definition_in_an_attribute(self):
        self.refuses("src/lib.rt", CODE % "crate::specs::Event::step_of,\n    mmu::specs::Walk::walk_of", 2, "mmu::specs::Walk::walk_of")


if __name__ == "__main__":
    unittest.main()
