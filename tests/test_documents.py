"""What the documents show is so."""
import re
import unittest

from rehearsal.language import names
from rehearsal.language.forms import FORMS
from rehearsal.text.assemble import assemble
from rehearsal.text.fields import FIELDS
from rehearsal.text.reading import IMAGE_LINES
from tests.stored import EXAMPLES, GOLDEN, ROOT

TEXT = (ROOT / "docs" / "TEXT.md").read_text()


class Documents(unittest.TestCase):
    def test_the_whole_case(self):
        example = re.search(r"```\n(.*?)```", TEXT, re.DOTALL).group(1)
        self.assertEqual(assemble(example).script.encode(), (ROOT / "crates" / "runner" / "stdin").read_bytes())

    def test_every_keyword_and_name_is_described(self):
        described = set(re.findall(r"`([A-Za-z0-9_-]+)", TEXT))
        keywords = {*FIELDS, *IMAGE_LINES, "kind", *(form.name for form in FORMS)}
        registers = {name for name in names.SYSTEM_REGISTERS if not re.fullmatch("RGN[1-7]_.*", name)}
        cache = {*names.CACHE_REGISTERS, *names.CACHE_FLAGS}
        flags = {*names.STATUS_FLAGS, *names.REGION_FLAGS, *names.CAUSE.names}
        self.assertEqual((keywords | registers | cache | flags) - described, set())

    def test_the_readme_shows_lines_of_the_demo(self):
        readme = (ROOT / "README.md").read_text()
        shown = re.findall(r"^    (\d+ [VXBN] .*)$", readme, re.MULTILINE)
        demo = (GOLDEN / "pit_goes_wrong.explained").read_text().splitlines()
        self.assertEqual([line for line in shown if line not in demo], [])
        self.assertGreater(len(shown), 2)

    def test_commands_of_the_examples(self):
        for path in EXAMPLES.glob("*.script"):
            for command in re.findall(r"\./rehearse .*?(examples/\S+)", path.read_text()):
                self.assertTrue((ROOT / command).exists(), command)


class Sentences(unittest.TestCase):
    """docs/SENTENCES.md: numbered without a gap, and every name that it gives is there."""

    def rows(self):
        lines = (ROOT / "docs" / "SENTENCES.md").read_text().splitlines()
        return [[cell.strip() for cell in line.strip("|").split("|")] for line in lines if re.match(r"\| \d", line)]

    def test_numbers(self):
        numbers = [int(row[0]) for row in self.rows()]
        self.assertEqual(numbers, list(range(1, len(numbers) + 1)))

    def test_names(self):
        named = {name.split("::")[-1] for row in self.rows() for cell in row[2:4] for name in re.findall("`([^`]+)`", cell)}
        specs, code = (sorted((ROOT / "crates").glob(pattern)) for pattern in ("*/specs/**/*.antt", "*/src/**/*.rt"))
        edits = {path.stem for path in (ROOT / "crates").glob("*/must-fail/*.edit")}
        declared = {name for path in specs for name in re.findall(r"^\s*(?:\w+ )*([\w-]+) ?[:({]", path.read_text(), re.MULTILINE)}
        written = {name for path in code for name in re.findall(r"\w+", path.read_text())}
        self.assertEqual(named - edits - declared - written, set())


if __name__ == "__main__":
    unittest.main()
