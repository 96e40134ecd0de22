"""Files of edits: how they are read and applied, and which function they change."""
from support import SOURCE, Crates

from wrong_edits.edits import BadEdit, applied, edits_of, is_of_bodies, places_of, read_edit
from wrong_edits.places import module_of


class Reading(Crates):
    def setUp(self):
        super().setUp()
        self.write("src/sums.rt", SOURCE)

    def edit(self, *lines):
        return read_edit("an.edit", "\n".join(lines))

    def refused(self, why, *lines):
        with self.assertRaisesRegex(BadEdit, why):
            applied(self.edit(*lines), self.folder)

    def test_replaces_each_old_text(self):
        edit = self.edit("file: src/sums.rt", "old:     n + most", "new:     n + 1", "old: = 7", "new: = 8")
        changed = applied(edit, self.folder)["src/sums.rt"]
        self.assertEqual(changed, SOURCE.replace("    n + most", "    n + 1").replace("= 7", "= 8"))

    def test_an_empty_new_text_removes_the_old_one(self):
        changed = applied(self.edit("file: src/sums.rt", "old:     n + most", "new:"), self.folder)
        self.assertNotIn("n + most", changed["src/sums.rt"])

    def test_edits_lie_over_each_other(self):
        first = applied(self.edit("file: src/sums.rt", "old: = 7", "new: = 8"), self.folder)
        both = applied(self.edit("file: src/sums.rt", "old: = 8", "new: = 9"), self.folder, first)
        self.assertIn("MOST: u64 = 9", both["src/sums.rt"])

    def test_an_old_text_stands_exactly_once(self):
        self.refused("2 times, and not once", "file: src/sums.rt", "old: let", "new: x")
        self.refused("0 times, and not once", "file: src/sums.rt", "old: none such", "new: x")

    def test_the_file_is_one_of_the_crate(self):
        self.refused("there is no file", "file: src/other.rt", "old: a", "new: b")
        self.refused("names no file below", "file: src/../../other.rt", "old: a", "new: b")
        self.refused("names no file below", "file: wrong/other.rt", "old: a", "new: b")

    def test_pairs_are_whole(self):
        self.refused("before any", "old: a", "new: b")
        self.refused("no 'old:' and 'new:' pair", "file: src/sums.rt")
        self.refused("without its 'new:'", "file: src/sums.rt", "old: = 7", "new: = 8", "old: x")

    def test_says_what_to_check(self):
        edit = self.edit("only: sums::twice", "only: other", "file: src/sums.rt", "old: = 7", "new: = 8")
        self.assertEqual(edit.only, ["sums::twice", "other"])

    def test_lists_edits_and_what_is_none(self):
        for name in ("one.edit", "two words.edit", "below/three.edit", "notes.md", "four.txt"):
            self.write(f"wrong/{name}", "")
        good, stray = edits_of(self.folder)
        self.assertEqual([it.name for it in good], ["one.edit"])
        self.assertEqual([it.name for it in stray], ["three.edit", "four.txt", "two words.edit"])


class Places(Crates):
    def edit(self, old):
        self.write("src/sums.rt", SOURCE)
        return read_edit("an.edit", f"file: src/sums.rt\nold: {old}\nnew: x")

    def places(self, old):
        return places_of(self.edit(old), self.folder)

    def test_a_line_lies_in_its_function(self):
        self.assertEqual(self.places("    n + most"), ["sums::twice"])
        self.assertEqual(self.places("let _ = most"), ["sums::twice"])
        self.assertEqual(self.places("result ≡ n + n"), ["sums::twice"])

    def test_a_method_stands_below_its_type_and_trait(self):
        self.assertEqual(self.places("self.bytes"), ["sums::FileDiskDisk::len"])
        self.assertEqual(self.places("self.items.len()"), ["sums::List::size"])
        self.assertEqual(self.places("self.push()"), ["sums::ListListEntryKeeperu64::keep"])

    def test_functions_of_a_cycle_stand_together(self):
        heads = "#[cycle(walk)]\nfn {0}(n: u64) -> u64 {{\n    {1}(n)\n}}\n"
        beside = "\nfn beside() {\n    go()\n}\n\n// Up again.\n"
        self.write("src/walks.rt", heads.format("down", "up") + beside + heads.format("up", "down"))
        for old, found in (("    down(n)", ["walks::down", "walks::up"]), ("    go()", ["walks::beside"])):
            edit = read_edit("an.edit", f"file: src/walks.rt\nold: {old}\nnew: x")
            self.assertEqual(places_of(edit, self.folder), found)

    def test_constants_lie_in_no_function(self):
        self.assertIsNone(self.places("MOST: u64 = 7"))
        self.assertIsNone(self.places("WIDE: u64 = 9"))

    def test_contracts_and_heads_are_no_bodies(self):
        for old in ("requires { n < 1000 }", "result ≡ n + n", "pub fn twice", "MOST: u64 = 7"):
            self.assertFalse(is_of_bodies(self.edit(old), self.folder), old)
        for old in ("    n + most", "let _ = most", "self.bytes"):
            self.assertTrue(is_of_bodies(self.edit(old), self.folder), old)

    def test_definitions_are_no_bodies(self):
        self.write("specs/Sums.antt", "twice : ℕ → ℕ\n")
        edit = read_edit("an.edit", "file: specs/Sums.antt\nold: twice\nnew: x")
        self.assertIsNone(places_of(edit, self.folder))
        self.assertFalse(is_of_bodies(edit, self.folder))

    def test_modules_by_files(self):
        self.assertEqual(module_of("src/lib.rt"), [])
        self.assertEqual(module_of("src/a/mod.rt"), ["a"])
        self.assertEqual(module_of("src/a/b.rt"), ["a", "b"])
