"""Tests of tools/over-holes: which functions lose their bodies, and where their holes stand."""
import importlib.machinery
import importlib.util
import sys
import tempfile
import unittest
from pathlib import Path

sys.dont_write_bytecode = True
LOADER = importlib.machinery.SourceFileLoader("over_holes", str(Path(__file__).with_name("over-holes")))
OVER_HOLES = importlib.util.module_from_spec(importlib.util.spec_from_loader("over_holes", LOADER))
LOADER.exec_module(OVER_HOLES)

TEXT = """//! Steps.
pub struct Steps {
    left: u64,
}

impl Steps {
    /// As many.
    pub fn new(left: u64) -> Steps {
        Steps { left }
    }

    pub fn tick(&mut self)
        requires { 0 < self.old.left }
        ensures { self.new.left ≡ self.old.left - 1 }
    {
        self.left -= 1;
    }
}

impl Iterator for Steps {
    fn next(&mut self) -> Option<u64> {
        None
    }
}

fn count(n: u64) -> u64
    ensures { result ≡ n }
{
    if n == 0 { 0 } else { 1 + count(n - 1) }
}

fn law()
    ensures { 1 ≡ 1 }
{
}

#[cfg(test)]
mod tests {
    fn tested() {}
}
"""

RECORD = """fn clear(steps: &mut Steps)
    ensures { steps.new ≡ record steps.old {
        left = 0;
      } }
{
    steps.left = 0;
}
"""


class Bodies(unittest.TestCase):
    def test_own_functions_lose_their_bodies(self):
        text, paths = OVER_HOLES.without_bodies(TEXT, ["walks"], {"Steps": ["steps"]})
        self.assertEqual(paths, [["steps", "Steps", "new"], ["steps", "Steps", "tick"], ["walks", "law"]])
        self.assertNotIn("self.left -= 1;", text)
        self.assertIn("{\n        unreachable!()\n    }", text)

    def test_a_trait_and_a_recursion_keep_theirs(self):
        text, _ = OVER_HOLES.without_bodies(TEXT, [], {"Steps": []})
        self.assertIn("        None\n", text)
        self.assertIn("1 + count(n - 1)", text)

    def test_clauses_and_tests_stay(self):
        text, _ = OVER_HOLES.without_bodies(TEXT, [], {"Steps": []})
        self.assertIn("ensures { self.new.left ≡ self.old.left - 1 }", text)
        self.assertIn("fn tested() {}", text)


    def test_a_record_in_a_clause_is_no_end(self):
        text, paths = OVER_HOLES.without_bodies(RECORD, ["walks"], {})
        self.assertEqual(paths, [["walks", "clear"]])
        self.assertIn("left = 0;", text)
        self.assertNotIn("steps.left = 0;", text)


class Crates(unittest.TestCase):
    def test_each_stands_behind_those_that_it_uses(self):
        uses = {"low": [], "mid": ["low", "slab"], "top": ["mid", "low"]}
        self.assertEqual(OVER_HOLES.below(uses, "top"), ["low", "mid"])

    def test_a_hole_stands_in_the_place_of_a_proof(self):
        with tempfile.TemporaryDirectory() as folder:
            crate = Path(folder) / "walks"
            (crate / "src").mkdir(parents=True)
            (crate / "src/steps.rt").write_text(TEXT)
            (crate / "proofs/steps/law").mkdir(parents=True)
            (crate / "proofs/steps/law/Answers.antt").write_text("as it was")
            (crate / "proofs/steps/fn/law/inside").mkdir(parents=True)
            OVER_HOLES.stand_in(crate, Path(folder) / "made/walks")
            made = Path(folder) / "made/walks/proofs/steps"
            self.assertFalse((made / "law/Answers.antt").exists())
            self.assertFalse((made / "fn/law").exists())
            law = (made / "law/Proof.antt").read_text()
            self.assertIn("use Rattle.walks.proofs.steps.law.Statement.{statement}", law)
            self.assertIn("tick_spec = ?", (made / "Steps/tick/Proof.antt").read_text())


if __name__ == "__main__":
    unittest.main()
