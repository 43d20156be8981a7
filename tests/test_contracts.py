"""tools/contracts refuses a statement that says less than its function's contract, or is of another's, and an export that is not its library's."""
from pathlib import Path
import re
import shutil
import subprocess
import tempfile
import unittest

from tests.stored import ROOT


def tells(function):
    """What a function's contract tells, as crates/contracts writes it."""
    return f"(λ κs a r e. Claim (({function}.clauses 𝓛 mem run κs a).ensures tt r e) (r_last _))"


OWN = tells("tables.write.write_tables")
LOAD = tells("cache.flat.load") + " (λ κs a. SameWords cache_words cache_at a.0.now)"
WHOLE = "(machine.run.list_whole.clauses 𝓛 mem run κs a).ensures tt r e) (r_join _ _ (r_last _) (r_last _))"


def copied(folder):
    """What the tool reads, copied: itself, the document, every crate's source and edits, and the statements."""
    unread = shutil.ignore_patterns("proofs", "stdin", "stdout", "data", "out")
    shutil.copytree(ROOT / "crates", folder / "crates", ignore=unread)
    for name in ("crates.txt", "tools/contracts", "docs/CONTRACTS.md"):
        (folder / name).parent.mkdir(exist_ok=True)
        shutil.copy(ROOT / name, folder / name)
    return folder


class Contracts(unittest.TestCase):
    @classmethod
    def setUpClass(cls):
        folder = tempfile.TemporaryDirectory()
        cls.addClassCleanup(folder.cleanup)
        cls.tree = copied(Path(folder.name))

    def said(self):
        """The exit status of the tool over the copy, and its lines without their places."""
        done = subprocess.run([self.tree / "tools/contracts"], capture_output=True, text=True, check=False)
        return done.returncode, [line.split(": ", 1)[1] for line in done.stdout.splitlines()]

    def with_edit(self, name, old, new):
        """The same, where one text stands in place of another."""
        file = self.tree / name
        text = file.read_text()
        self.assertEqual(text.count(old), 1, old)
        file.write_text(text.replace(old, new))
        try:
            return self.said()
        finally:
            file.write_text(text)

    def refuses(self, name, old, new, *lines):
        self.assertEqual(self.with_edit(name, old, new), (1, list(lines)))

    def test_the_repository_is_good(self):
        self.assertEqual(self.said(), (0, []))

    def test_another_functions_contract(self):
        self.refuses("crates/contracts/specs/Tables.antt", OWN, tells("tables.mapping.good_list"),
                     "tables::write::write_tables is stated in crates/contracts with another contract than its own")

    def test_a_contract_that_says_nothing(self):
        self.refuses("crates/contracts/specs/Tables.antt", OWN, "(λ κs a r e. Unit)",
                     "tables::write::write_tables is stated in crates/contracts with another contract than its own")

    def test_a_reading_that_tells_nothing(self):
        self.refuses("crates/contracts/specs/Machine.antt", WHOLE, WHOLE.replace("(r_last _) (r_last _)", "(r_last _) (r_whole _)"),
                     "machine::run::list_whole is stated in crates/contracts with another contract than its own")

    def test_a_function_without_a_statement(self):
        self.refuses("crates/contracts/specs/Tables.antt", "Settled tables.write.write_tables.ended", "Settled tables.write.ended",
                     "tables::write::write_tables is not settled in crates/contracts")

    def test_a_relation_without_a_name(self):
        self.refuses("crates/contracts/specs/Cache.antt", LOAD, tells("cache.flat.load") + " (λ κs a o o'. Unit)",
                     "cache::flat::load is `SettledAs` by a relation that crates/contracts does not name",
                     "cache::flat::load is `SettledAs` by a relation or a reading that docs/CONTRACTS.md does not explain")

    def test_a_reading_that_forgets_all(self):
        self.refuses("crates/contracts/specs/Cache.antt", LOAD, LOAD.replace("cache_at", "(λ l. 0)"),
                     "cache::flat::load is `SettledAs` by a relation that crates/contracts does not name",
                     "cache::flat::load is `SettledAs` by a relation or a reading that docs/CONTRACTS.md does not explain")
        self.refuses("crates/contracts/specs/Cache.antt", LOAD, LOAD.replace("cache_at", "nothing_at"),
                     "cache::flat::load is `SettledAs` by a relation or a reading that docs/CONTRACTS.md does not explain")

    def test_an_exception_that_is_not_listed(self):
        self.refuses("docs/CONTRACTS.md", "| `cache::flat::load`, `cache::flat::fetch`, `cache::flat::store`, `cache::flat::external_write`,",
                     "| `cache::flat::fetch`, `cache::flat::store`, `cache::flat::external_write`,",
                     "cache::flat::load is `SettledAs`, and docs/CONTRACTS.md does not tell what that leaves open")

    def test_exports_of_a_static_library(self):
        library = self.tree / "crates" / "digest_c" / "src" / "lib.rt"
        library.parent.mkdir(parents=True)
        self.addCleanup(shutil.rmtree, library.parent.parent)
        listed = (self.tree / "crates.txt").read_text()
        self.addCleanup((self.tree / "crates.txt").write_text, listed)
        (self.tree / "crates.txt").write_text(f"{listed}digest_c staticlib: digest\n")
        text = (ROOT / "crates" / "digest" / "src" / "lib.rt").read_text()
        self.assertIn("pub fn fnv_byte", text)
        library.write_text(text)
        self.assertEqual(self.said(), (0, []))
        clause = re.search(r"pub fn fnv_byte.*?ensures \{ (.*?) \}", text, re.S).group(1)
        library.write_text(text.replace(clause, "result ≡ result", 1))
        self.assertEqual(self.said(), (1, ["digest_c::fnv_byte does not say what digest::fnv_byte says"]))
        library.write_text(text.replace("pub fn fnv_byte", "pub fn fnv_half"))
        self.assertEqual(self.said(), (1, ["digest_c::fnv_half has no function of that name in digest"]))

    def test_an_export_with_another_contract(self):
        self.refuses("crates/irqc_c/src/lib.rt", "result ≡ c.now.enable", "result ≡ c.now.pending",
                     "irqc_c::irqc_lent_enable_mask does not say what irqc::lent::irqc_lent_enable_mask says")

    def test_an_export_with_another_signature_in_a_file_that_is_not_public(self):
        self.refuses("crates/bridge_c/src/cache_calls.rt", "cache_new(ram_start: u32, ram_size: u32)", "cache_new(ram_size: u32, ram_start: u32)",
                     "bridge_c::cache_calls::cache_new does not say what bridge::cache_calls::cache_new says")

    def test_an_export_with_words_from_elsewhere(self):
        self.refuses("crates/race_c/src/lib.rt", "ghost use Rattle.machine.specs.State.{new_machine}", "ghost use Rattle.race_c.specs.Race.{new_machine}",
                     "race_c::race_run has words from elsewhere than race::race_run")

    def test_a_function_that_is_not_exported(self):
        self.refuses("crates/tables_c/src/lib.rt", '#[unsafe(no_mangle)]\n', "",
                     "tables::export::tables_write has a C name, and tables_c does not export it")


if __name__ == "__main__":
    unittest.main()
