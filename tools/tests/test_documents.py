"""The checks of documents and examples, on a repository of one crate."""
import subprocess
import sys
import tempfile
import unittest
from pathlib import Path

from capture_from_words import listed, usages
from check_documents import faults
from check_examples import faults as example_faults
from xlock import nfs, smb

SOURCE = '''
//! A crate. fn not_one() ensures no { }
ghost use Rattle.std.specs.Prelude.{All};
ghost use Rattle.xl_top.specs.Top.{compat, IsGood};
/// Adds. "ensures { }"
pub fn run<T: Into<u64>>(values: &[u8; 4], mark: char) -> Result<Vec<u8>, Error>
    requires { mark ≡ '{' }
    ensures free { All values (λ v. { compat v v }) } // {
    ensures lawful { result ≡ "}" }
{
    'outer: loop { if mark == '}' { break 'outer; } }
}
fn hidden() ensures { tt } { }
pub trait Keeper {
    fn load(&mut self) -> u8
        ensures held { tt }
        ensures later { tt };
    fn faults(&self) -> u64;
}
impl<'a, T: Drop> Keeper for Kept<'a, T> where T: Copy {
    fn load(&mut self) -> u8 { 0 }
}
impl Kept<'static, u8> {
    pub fn new() -> [u8; 2] ensures { result ≡ [] } { [0; 2] }
    pub(crate) fn inner() ensures a { tt } { }
}
mod plain { pub fn same() ensures { tt } { } }
'''
README = "# A\n\n## What is proved\n\nEach table is free (`free`), and lawful (`lawful`) by [this](docs/PROVED.md).\n\n## Rest\n\n(`nothing`)\n"
PROVED = """# Proved

| crate | page | what its contracts say |
|---|---|---|
| `xl_top` | [xl_top](proved/xl_top.md) | all |
"""
PAGE = """# The top: `xl_top`

| what is proved | function | clause |
|---|---|---|
| all | `run` | `free`, `lawful` |
| a keeper | `Kept::load`, `Keeper::load` | `held`, `later` |
| others | `Kept::new`, `plain::same` | — |
"""
REFUSALS = """# Refusals

| crate | call | what it refuses, and what holds then | clause |
|---|---|---|---|
| `xl_top` | `run` | nothing | `free` |
"""
DEFINITIONS = """# Definitions

| name | file | standard | what it says |
|---|---|---|---|
| `compat`, `IsGood` | `xl_top/Top` | RFC 7530 9 | both |
"""
DECISIONS = "# Decisions\n\n- **NLM-1 One.** So.\n- **NLM-2 Another.** So.\n"
EMBEDDING = "# Embedding\n\n```rust\n    let a = 1;\n```\n\n```text\none\n```\n"
WORDS = "\n".join([usages(), listed(nfs.OPS), listed(smb.USAGES)])
FIRST = {"capture": "O rpc\n", "transcript": "1 c0 00\n", "words": "null\n", "said": "0 c0 open\n1 c0 null\n"}
SHOWN = "\n".join("".join(f"    {line}\n" for line in text.splitlines()) for text in FIRST.values())
CAPTURE = f"# Captures\n\n## An example\n\n{SHOWN}\n## The words of the tools\n\n**Connections.**\n\n    file NAME\n\n{WORDS}\n\n## Rest\n"
SPECS = "-- two claims fit (NLM-1, NLM-2)\nabbrev pub compat : Claim → Claim → Bool\ncompat a b = true\npub record IsGood (s : State) : Type 0 where\n  pub other : tt\n"

# What is changed in which file, and the line that is found.
WRONG = [
    ("docs/proved/xl_top.md", "`free`, `lawful`", "`free`, `awful`", "docs/proved/xl_top.md: line 5: run of xl_top ensures no clause awful"),
    ("docs/proved/xl_top.md", "`free`, `lawful`", "`free`", "docs/proved/xl_top.md: no row has the clause lawful of run"),
    ("docs/proved/xl_top.md", ", `plain::same`", "", "docs/proved/xl_top.md: no row has the clause without a name of same"),
    ("docs/proved/xl_top.md", "`Kept::load`, `Keeper::load`", "`Kept::load`", "docs/proved/xl_top.md: no row has the clause held of Keeper::load"),
    ("docs/proved/xl_top.md", "`run`", "`walk`", "docs/proved/xl_top.md: line 5: xl_top has no public function walk"),
    ("docs/proved/xl_top.md", "`Kept::new`", "`hidden`", "docs/proved/xl_top.md: line 7: xl_top has no public function hidden"),
    ("docs/proved/xl_top.md", "`Kept::new`", "`Kept::inner`", "docs/proved/xl_top.md: line 7: xl_top has no public function Kept::inner"),
    ("docs/proved/xl_top.md", "`Kept::new`", "`new`", "docs/proved/xl_top.md: line 7: xl_top has no public function new"),
    ("docs/proved/xl_top.md", "`plain::same` | —", "`run` | —", "docs/proved/xl_top.md: line 7: run of xl_top ensures no clause without a name"),
    ("docs/proved/xl_top.md", "`held`, `later`", "its clauses", "docs/proved/xl_top.md: line 6 is no row: what is proved, functions, clauses"),
    ("docs/proved/xl_top.md", "what is proved |", "what |", "docs/proved/xl_top.md: each table begins with | what is proved | function | clause |"),
    ("docs/proved/xl_top.md", "`xl_top`", "the top", "docs/proved/xl_top.md: the page's heading doesn't name `xl_top`"),
    ("docs/PROVED.md", "`xl_top`", "`xl_tip`", "docs/PROVED.md: no row leads to docs/proved/xl_top.md"),
    ("docs/PROVED.md", "# Proved", "# Proved" + "\n" * 60, "docs/PROVED.md: 65 lines are more than 60"),
    ("README.md", "(`lawful`)", "(`awful`)", "README.md: run ensures no clause awful"),
    ("README.md", "\n\n## Rest", "\n" * 150 + "## Rest", "README.md: 157 lines are more than 150"),
    ("README.md", "# A", "# A\n\n| a | " + "b" * 101 + " |", "README.md: line 3 has a cell of more than 100 characters"),
    ("README.md", "docs/PROVED.md", "docs/PROOF.md", "README.md: docs/PROOF.md is linked, and isn't there"),
    ("docs/REFUSALS.md", "`run`", "`hidden`", "docs/REFUSALS.md: line 5: xl_top has no public function hidden"),
    ("docs/REFUSALS.md", "`free`", "`awful`", "docs/REFUSALS.md: line 5: run of xl_top ensures no clause awful"),
    ("docs/REFUSALS.md", "`run`", "run", "docs/REFUSALS.md: line 5 is no row: a crate, calls, what they refuse, clauses"),
    ("docs/REFUSALS.md", "| crate | call", "| crate | calls", "docs/REFUSALS.md: there are no rows"),
    ("docs/DEFINITIONS.md", "`compat`", "`compatible`", "docs/DEFINITIONS.md: line 5: crates/xl_top/specs/Top.antt doesn't define compatible"),
    ("docs/DEFINITIONS.md", "xl_top/Top", "xl_top/Tip", "docs/DEFINITIONS.md: line 5: crates/xl_top/specs/Tip.antt doesn't define compat"),
    ("docs/DEFINITIONS.md", "`compat`, ", "", "docs/DEFINITIONS.md: run cites compat, which is in no row"),
    ("docs/DECISIONS.md", "- **NLM-2 Another", "- **Another", "docs/DECISIONS.md: 1 decisions have no id"),
    ("docs/DECISIONS.md", "NLM-2", "NLM-1", "docs/DECISIONS.md: NLM-1 stands 2 times"),
    ("docs/DECISIONS.md", "NLM-2", "NLM-3", "docs/DECISIONS.md: crates/xl_top/specs/Top.antt cites NLM-2, which is no decision"),
    ("docs/DECISIONS.md", "NLM-2", "NLM-3", "docs/DECISIONS.md: no definition cites NLM-3"),
    ("docs/DECISIONS.md", "# Decisions", "# Decisions\n\n- **PROOF-2 Rose.** So.", "docs/DECISIONS.md: no definition cites PROOF-2"),
    ("crates/xl_top/specs/Top.antt", ", NLM-2", "", "docs/DECISIONS.md: no definition cites NLM-2"),
    ("crates/xl_top/specs/Top.antt", "NLM-2)\n", "NLM-2)\n\n", "docs/DECISIONS.md: crates/xl_top/specs/Top.antt cites NLM-2 at no definition"),
    ("crates/xl_top/specs/Top.antt", "NLM-2)\n", "NLM-2)\nuse Rattle.std\n", "docs/DECISIONS.md: crates/xl_top/specs/Top.antt cites NLM-1 at no definition"),
    ("crates/xl_top/src/lib.rt", "/// Adds.", "/// Adds (NLM-1,\n/// NLM-7).", "docs/DECISIONS.md: crates/xl_top/src/lib.rt cites NLM-7, which is no decision"),
    ("docs/EMBEDDING.md", "let a", "let b", "docs/EMBEDDING.md: the code that begins with 'let b = 1;' isn't so in crates/xl_example/src/main.rt"),
    ("docs/EMBEDDING.md", "one\n", "two\n", "docs/EMBEDDING.md: what the example prints isn't crates/xl_example/stdout"),
    ("docs/EMBEDDING.md", "text", "txt", "docs/EMBEDDING.md: there are pieces of code, `rust`, and what the example prints, `text`"),
    ("docs/CAPTURE.md", "    nfs_null\n", "", "docs/CAPTURE.md: the words lack 'nfs_null'"),
    ("docs/CAPTURE.md", "    1 c0 00\n", "    1 c0 01\n", "docs/CAPTURE.md: the first example isn't examples/first.transcript"),
    ("docs/CAPTURE.md", "    file NAME\n", "    fly NAME\n", "docs/CAPTURE.md: fly is no word"),
]  # fmt: skip


class Documents(unittest.TestCase):
    def found(self, changed=None, old="", new=""):
        """What is found where one text stands for another in one file."""
        with tempfile.TemporaryDirectory() as root:
            for name, text in [
                ("crates/xl_top/src/lib.rt", SOURCE), ("crates/xl_top/specs/Top.antt", SPECS), ("README.md", README),
                ("docs/PROVED.md", PROVED), ("docs/proved/xl_top.md", PAGE), ("docs/DEFINITIONS.md", DEFINITIONS), ("docs/DECISIONS.md", DECISIONS), ("docs/REFUSALS.md", REFUSALS),
                ("docs/EMBEDDING.md", EMBEDDING), ("docs/CAPTURE.md", CAPTURE),
                *((f"examples/first.{ending}", first) for ending, first in FIRST.items()),
                ("crates/xl_example/src/main.rt", "fn main() {\n    let a = 1;\n}\n"), ("crates/xl_example/stdout", "one\n"),
            ]:  # fmt: skip
                path = Path(root) / name
                path.parent.mkdir(parents=True, exist_ok=True)
                path.write_text(text.replace(old, new) if name == changed else text)
            return list(faults(root))

    def test_all_holds(self):
        self.assertEqual(self.found(), [])

    def test_wrong(self):
        for changed, old, new, wanted in WRONG:
            self.assertIn(wanted, self.found(changed, old, new))


class Examples(unittest.TestCase):
    def test_differences(self):
        with tempfile.TemporaryDirectory() as root:
            folder = Path(root)
            self.assertEqual(len(list(example_faults(folder))), 1)
            (folder / "null.words").write_text("null\n")
            (folder / "null.transcript").write_text("")
            self.assertEqual(len(list(example_faults(folder, writes=True))), 0)
            self.assertEqual(list(example_faults(folder)), [])
            (folder / "null.said").write_text("0   c0   open\n1   c0   lock\n")
            self.assertEqual(list(example_faults(folder)), ["examples/null.said isn't what it has to be, at line 2: 1   c0   null, and it is 1   c0   lock"])
            program = folder / "program"
            program.write_text("#!/bin/sh\ncat >/dev/null\necho 1 c0 00\n")
            program.chmod(0o755)
            found = list(example_faults(folder, str(program)))
            self.assertIn("the words [] end with (0, '')", found)
            self.assertIn("examples/null.transcript isn't", " ".join(found))


class Commands(unittest.TestCase):
    def test_help(self):
        # Each command has its help, and says so where its words are wrong.
        folder = Path(__file__).resolve().parent.parent
        for command in sorted(folder.glob("*.py")):
            ran = subprocess.run([sys.executable, "-B", command, "--help"], capture_output=True, text=True)
            self.assertEqual((ran.returncode, ran.stderr), (0, ""), command)
            self.assertIn("python3 tools/" + command.name, ran.stdout)
            self.assertEqual(subprocess.run([sys.executable, "-B", command, "--fly"], capture_output=True).returncode, 2)


if __name__ == "__main__":
    unittest.main()
