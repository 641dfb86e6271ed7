"""Which places that make an error of memory are found."""
import tempfile
import unittest
from pathlib import Path

import check_memory_errors

TEXT = """
pub enum Refused {{
    Full(u32),
    NoMemory,
}}

impl From<AllocError> for Refused {{
    fn from(_e: AllocError) -> Refused {{
        Refused::NoMemory
    }}
}}

fn copy(alloc: Global) -> Result<Copied, AllocError> {{
    Ok(Copied)
}}

fn join(count: u32) -> Result<(), Refused> {{
    Ok(())
}}

fn step(alloc: Global, list: &mut List, count: u32) -> Result<(), Refused> {{
    {body}
}}
"""

CASES = {
    # nothing failed
    "if count > 3 { return Err(Refused::NoMemory); } Ok(())": ["nothing"],
    "Err(Refused::NoMemory)": ["nothing"],
    # a call failed, perhaps for another reason
    "if join(count).is_err() { return Err(Refused::NoMemory); } Ok(())": ["join"],
    "let Ok(()) = join(count) else { return Err(Refused::NoMemory); }; Ok(())": ["join"],
    "match join(count) {\n Ok(()) => Ok(()),\n Err(_) => Err(Refused::NoMemory),\n }": ["join"],
    "match join(count) {\n Ok(()) => Ok(()),\n Err(Refused::Full(_)) => Err(Refused::NoMemory),\n Err(refused) => Err(refused),\n }": ["join"],
    # memory ran out below
    "if copy(alloc).is_err() { return Err(Refused::NoMemory); } Ok(())": [],
    "let copied = copy(alloc);\n let Ok(one) = copied else {\n return Err(Refused::NoMemory);\n };\n Ok(())": [],
    "match join(count) {\n Err(Refused::NoMemory) => Err(Refused::NoMemory),\n other => other,\n }": [],
    "if list.push(count).is_err() { return Err(Refused::NoMemory); } Ok(())": [],
    "matches!(join(count), Err(Refused::NoMemory)); Ok(())": [],
}


class Found(unittest.TestCase):
    def test_places(self):
        for body, causes in CASES.items():
            with self.subTest(body), tempfile.TemporaryDirectory() as root:
                folder = Path(root) / "crates" / "one" / "src"
                folder.mkdir(parents=True)
                (folder / "lib.rt").write_text(TEXT.format(body=body))
                found = [fault for fault in check_memory_errors.faults(root) if fault.startswith("crates/")]
                self.assertEqual([fault.rpartition(" by ")[2] for fault in found], causes)


if __name__ == "__main__":
    unittest.main()
