"""Each check finds nothing in a small tree that is sound, and finds each thing that is then made wrong in it."""

import tempfile
import unittest
from pathlib import Path

from bindings import binding_faults
from cites import cite_faults
from counts import crate_faults, layer_faults, line_faults, number_faults, reading_faults, reference_faults
from tree import Tree

SOUND = {
    "README.md": "`high` and the 1 crates below it, of 2 crates with 1 edits; see `docs/MAP.md` and [two](#two).\n\n## Two\n",
    "CONTRIBUTING.md": "At commit 0123abc it took 7 minutes.\n",
    "compare/README.md": "Nothing.\n",
    "crates.txt": "# what each sees\nlow:\nhigh: low io\n",
    "crates/low/specs/Low.antt": """-- not `gone`: a comment
use Rattle.low.specs.Deep.{deep}
pub record Pair : Type 0 where
  pub left : ℕ

unfoldable pub twice : ℕ → ℕ
twice n = deep n
unfoldable pub stage : ℕ → ℕ
stage n = n
""",
    "crates/low/specs/Deep.antt": "unfoldable pub deep : ℕ → ℕ\ndeep n = n\n",
    "crates/low/specs/Aside.antt": "unfoldable pub aside : ℕ → ℕ\naside n = n\n",
    "crates/low/src/lib.rt": """// Doubles.
ghost use Rattle.low.specs.Low.{twice, stage};

pub fn double(x: u8) -> u8
    ensures { result ≡ twice x }
{
    x
}

fn inner(x: u8) -> u8
    requires { x ≡ 0 }
    ensures { result ≡ stage x }
{
    x
}
""",
    "crates/high/src/lib.rt": "use low::double;\nuse io::write;\nfn main() {\n    double(1);\n}\n",
    "crates/low/must-fail/one.edit": "# One.\nfile: src/lib.rt\n",
    "docs/MAP.md": """# Map

## What to read

From `low/src/lib.rt`: `double`.

| for | files |
|---|---|
| doubling | `low/specs/Low.antt`, `Deep.antt` |

## Layers

| crate | what it is | sees |
|---|---|---|
| `low` | the ground: `low/specs/Low.antt`: `twice`, `Pair` | – |
| `high` | a program | low and below |
""",
    "docs/DECISIONS.md": """# Decisions

## The decisions

| no. | what |
|---|---|
| 3 | a |
| 5 | F-1: b |

## Where the others are

| no. | what |
|---|---|
| 1, 4 | c |
""",
    "docs/PROTOCOL.md": "# Protocol\n\nDecision 3; DECISIONS 3 to 5.\n\n## 10. Requests\n\n| request | what |\n|---|---|\n| F-1 | d |\n",
    "include/semduoli.h": """/* uint64_t semduoli_gone(void); */
#define SEMDUOLI_SIZE ((size_t)13)
#define SEMDUOLI_TWICE(n) (2 * (size_t)(n))
#define SEMDUOLI_KIND 2 /* of a frame */
enum refusal {
    SEMDUOLI_ACCEPTED = 0, /* none */
    SEMDUOLI_REFUSED = 9
};
static inline size_t semduoli_length(const uint8_t *frame);
uint64_t semduoli_version(void);
uint64_t semduoli_open(size_t client, const uint8_t *state,
                       size_t state_length, uint8_t *out, size_t out_length);
""",
    "include/semduoli.rs": """//! Not semduoli_gone.
pub const SIZE: usize = 13;
pub const KIND: u8 = 2;
pub const ACCEPTED: u8 = 0;
pub const REFUSED: u8 = 9;
extern "C" {
    pub fn semduoli_version() -> u64;
    pub fn semduoli_open(
        client: usize, state: *const u8, state_length: usize, out: *mut u8, out_length: usize,
    ) -> u64;
}
""",
    "node/src/sem.rs": "pub fn version() -> u64 {\n    unsafe { raw::semduoli_version() }\n}\n",
}


class Text(unittest.TestCase):
    def faults(self, check, changed={}):
        """What a check says of the sound tree, in which the files of `changed` have another text."""
        with tempfile.TemporaryDirectory() as folder:
            for name, text in SOUND.items():
                path = Path(folder) / name
                path.parent.mkdir(parents=True, exist_ok=True)
                path.write_text(changed.get(name, text), encoding="utf-8")
            return [what for _, _, what in check(Tree(folder))]

    def changed(self, check, name, old, new):
        """What a check says when a text is changed at one place, which has to be there."""
        self.assertIn(old, SOUND[name])
        return self.faults(check, {name: SOUND[name].replace(old, new, 1)})

    def test_a_sound_tree_has_no_faults(self):
        checks = [cite_faults, reading_faults, layer_faults, number_faults, reference_faults, line_faults, binding_faults]
        for check in checks + [lambda tree: crate_faults(tree, 0)]:
            self.assertEqual(self.faults(check), [])

    def test_a_path_that_is_not_there(self):
        self.assertEqual(self.changed(cite_faults, "README.md", "docs/MAP.md", "docs/GONE.md"), ["there is no docs/GONE.md"])

    def test_a_path_of_a_command_that_is_not_there(self):
        self.assertEqual(self.changed(cite_faults, "compare/README.md", "Nothing.", "    docs/MAP.md target/none\n"), [])
        self.assertEqual(self.changed(cite_faults, "compare/README.md", "Nothing.", "    crates/high/out/high\n\nIn `crates/high/out/high`.\n"), [])
        self.assertEqual(self.changed(cite_faults, "compare/README.md", "Nothing.", "In `crates/high/gone/high`.\n"), ["there is no crates/high/gone/high"])
        self.assertEqual(self.changed(cite_faults, "compare/README.md", "Nothing.", "    run docs/GONE.md\n"), ["there is no docs/GONE.md"])

    def test_a_name_that_is_not_there(self):
        self.assertEqual(self.changed(cite_faults, "compare/README.md", "Nothing", "The `gone`"), ["nothing in the tree is called gone"])

    def test_a_name_that_another_file_has(self):
        self.assertEqual(self.changed(cite_faults, "docs/MAP.md", "`twice`, `Pair`", "`twice`, `deep`"), ["crates/low/specs/Low.antt defines no deep"])

    def test_a_name_of_another_crate(self):
        self.assertEqual(self.changed(cite_faults, "compare/README.md", "Nothing", "The `high::double`"), ["the crate high defines no double"])

    def test_a_file_that_the_reading_list_lacks(self):
        lacking = self.changed(reading_faults, "docs/MAP.md", ", `Deep.antt`", "")
        self.assertEqual(lacking, ["the reading list lacks low/specs/Deep.antt, which a promise or a theorem reaches"])

    def test_a_file_that_it_has_too_much(self):
        more = self.changed(reading_faults, "docs/MAP.md", "`Deep.antt`", "`Deep.antt`, `Aside.antt`")
        self.assertEqual(more, ["the reading list has low/specs/Aside.antt, which nothing reaches"])

    def test_a_definition_that_comes_to_be_reached(self):
        self.assertEqual(
            self.changed(reading_faults, "crates/low/specs/Deep.antt", "deep n = n", "deep n = aside n\nuse Rattle.low.specs.Aside.{aside}"),
            ["the reading list lacks low/specs/Aside.antt, which a promise or a theorem reaches"],
        )

    def test_an_entry_point_that_is_none(self):
        self.assertIn("inner of crates/low/src/lib.rt is no entry point: it has a requires", self.changed(reading_faults, "docs/MAP.md", "`double`", "`inner`"))

    def test_an_entry_point_that_is_not_there(self):
        self.assertIn("crates/low/src/lib.rt has no function gone", self.changed(reading_faults, "docs/MAP.md", "`double`", "`gone`"))

    def test_a_column_of_what_is_seen(self):
        self.assertEqual(self.changed(layer_faults, "docs/MAP.md", "| low and below |", "| – |"), ["high sees low"])
        self.assertEqual(self.changed(layer_faults, "docs/MAP.md", "`Pair` | – |", "`Pair` | high |"), ["low does not see high"])

    def test_a_crate_without_a_row(self):
        self.assertEqual(self.changed(layer_faults, "docs/MAP.md", "| `high` | a program | low and below |\n", ""), ["no row of the layers has high"])

    def test_a_row_without_a_crate(self):
        self.assertEqual(self.changed(layer_faults, "docs/MAP.md", "| `high` | a program |", "| `gone`, `high` | a program |"), ["there is no crate gone"])

    def test_crates_txt(self):
        crates = lambda tree: crate_faults(tree, 0)
        self.assertEqual(self.changed(crates, "crates.txt", "low io", "low io gone")[0], "high names gone, which is no crate")
        self.assertEqual(self.changed(crates, "crates.txt", "low io", "low io low"), ["high has low twice"])
        self.assertEqual(self.changed(crates, "crates.txt", "low:\n", "low:\ngone:\n"), ["there is no crate gone"])
        self.assertIn("crates/low is not listed", self.changed(crates, "crates.txt", "low:\n", ""))
        self.assertEqual(self.changed(crates, "crates.txt", "high:", "high staticlib:"), [])

    def test_an_entry_that_is_never_named(self):
        never = self.changed(lambda tree: crate_faults(tree, 0), "crates.txt", "low io", "low io libc")
        self.assertEqual(never, ["1 entries are never named in their crate's text, 0 were: take out those that are new"])
        fewer = self.faults(lambda tree: crate_faults(tree, 1))
        self.assertEqual(fewer, ["0 entries are never named in their crate's text, 1 were: write 0 for UNNAMED in .ci/text/counts.py"])

    def test_numbers(self):
        self.assertEqual(self.changed(number_faults, "README.md", "2 crates", "3 crates"), ["there are 2 crates, not 3"])
        self.assertEqual(self.changed(number_faults, "README.md", "1 edits", "4 edits"), ["there are 1 edits, not 4"])
        self.assertEqual(self.changed(number_faults, "README.md", "the 1 crates", "the 9 crates"), ["high has 1 crates below it, not 9"])
        minutes = self.changed(number_faults, "CONTRIBUTING.md", "At commit 0123abc it", "It")
        self.assertEqual(minutes, ["minutes are stated without the commit at which they were measured"])

    def test_decisions_and_requests(self):
        self.assertEqual(self.changed(reference_faults, "docs/PROTOCOL.md", "3 to 5", "3 to 6"), ["there is no decision 6"])
        self.assertEqual(self.changed(reference_faults, "docs/PROTOCOL.md", "Decision 3", "For F-2"), ["PROTOCOL, section 10, has no F-2"])
        falling = self.changed(reference_faults, "docs/DECISIONS.md", "| 3 | a |\n| 5 |", "| 5 | a |\n| 3 |")
        self.assertEqual(falling, ["the decisions do not rise, or one is there twice"])

    def test_lines_and_links(self):
        self.assertEqual(self.changed(line_faults, "compare/README.md", "Nothing", "long " * 33), ["a line of 166 characters"])
        self.assertEqual(self.changed(line_faults, "README.md", "(#two)", "(#three)"), ["no heading is called three"])

    def test_a_call_that_one_side_lacks(self):
        call = "uint64_t semduoli_version(void);\n"
        self.assertEqual(self.changed(binding_faults, "include/semduoli.h", call, ""), ["the header has no call semduoli_version"])
        call = "    pub fn semduoli_version() -> u64;\n"
        self.assertEqual(self.changed(binding_faults, "include/semduoli.rs", call, ""), ["the call semduoli_version of the header is missing"])

    def test_a_call_with_other_arguments(self):
        fewer = self.changed(binding_faults, "include/semduoli.rs", ", out_length: usize", "")
        self.assertEqual(fewer, ["semduoli_open has 4 arguments, in the header 5"])
        more = self.changed(binding_faults, "include/semduoli.h", "version(void)", "version(size_t which)")
        self.assertEqual(more, ["semduoli_version has 0 arguments, in the header 1"])
        renamed = self.changed(binding_faults, "include/semduoli.rs", "client: usize", "server: usize")
        self.assertEqual(renamed, ["semduoli_open has server: usize, in the header it is client: usize"])

    def test_a_call_with_other_types(self):
        written = self.changed(binding_faults, "include/semduoli.h", "const uint8_t *state,", "uint8_t *state,")
        self.assertEqual(written, ["semduoli_open has state: *const u8, in the header it is state: *mut u8"])
        shorter = self.changed(binding_faults, "include/semduoli.rs", "client: usize", "client: u32")
        self.assertEqual(shorter, ["semduoli_open has client: u32, in the header it is client: usize"])
        answer = self.changed(binding_faults, "include/semduoli.rs", "version() -> u64", "version() -> u32")
        self.assertEqual(answer, ["semduoli_version has -> u32, in the header it is -> u64"])

    def test_numbers_of_the_bindings(self):
        other = self.changed(binding_faults, "include/semduoli.rs", "usize = 13", "usize = 12")
        self.assertEqual(other, ["SIZE is 12, in the header 13"])
        self.assertEqual(self.changed(binding_faults, "include/semduoli.h", "REFUSED = 9", "REFUSED = 8"), ["REFUSED is 9, in the header 8"])
        missing = self.changed(binding_faults, "include/semduoli.rs", "pub const KIND: u8 = 2;\n", "")
        self.assertEqual(missing, ["the number KIND of the header is missing"])
        foreign = self.changed(binding_faults, "include/semduoli.h", "SEMDUOLI_KIND 2", "SEMDUOLI_SORT 2")
        self.assertEqual(foreign, ["the header has no number KIND", "the number SORT of the header is missing"])

    def test_a_call_that_is_declared_elsewhere(self):
        elsewhere = self.changed(binding_faults, "node/src/sem.rs", "pub fn", 'extern "C" {\n    fn semduoli_version() -> u64;\n}\npub fn')
        self.assertEqual(elsewhere, ["declares semduoli_version: include/semduoli.rs does"])


if __name__ == "__main__":
    unittest.main()
