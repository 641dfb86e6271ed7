"""A program that is refused memory, one call at a time."""
import shutil
import subprocess
import sys
import tempfile
import unittest
from pathlib import Path

TOOLS = Path(__file__).resolve().parent.parent
PROGRAM = """
#include <stdio.h>
#include <stdlib.h>
#include <string.h>
int main(void) {{
    char *first = malloc(8), *second = malloc(8);
    if (!first || !second) return {status};
    puts("whole");
    return 0;
}}
"""


@unittest.skipUnless(shutil.which("cc"), "there is no C compiler")
class Refused(unittest.TestCase):
    def told(self, status):
        """The status and the last line for a program that ends so if one of its two calls is refused."""
        with tempfile.TemporaryDirectory() as folder:
            source, program, capture = (Path(folder) / name for name in ("main.c", "main", "capture"))
            source.write_text(PROGRAM.format(status=status))
            capture.write_text("")
            subprocess.run(["cc", "-O0", "-o", program, source], check=True)
            command = [sys.executable, TOOLS / "refuse_memory.py", program, capture, "--most", "2"]
            done = subprocess.run(command, capture_output=True, text=True, check=False)
            return done.returncode, done.stdout.splitlines()

    def test_no_memory(self):
        self.assertEqual(self.told(6), (0, ["2 runs, 2 of them ended with status 6; unrefused the status is 0"]))

    def test_another_status(self):
        status, lines = self.told(4)
        self.assertEqual((status, lines[0]), (1, "call 1: status 4, 0 bytes written, a beginning"))


if __name__ == "__main__":
    unittest.main()
