"""Which object files `tools/library make` takes for the program."""

import pathlib
import shutil
import subprocess
import sys
import tempfile
import unittest

TOOLS = pathlib.Path(__file__).resolve().parents[2] / "tools"


@unittest.skipUnless(shutil.which("cc") and shutil.which("readelf"), "there is no C compiler")
class Objects(unittest.TestCase):
    @classmethod
    def setUpClass(cls):
        sys.path.insert(0, str(TOOLS))
        from library import make

        cls.maker = make

    def tried(self, text):
        """Why a program of C is refused, or nothing where it is taken."""
        with tempfile.TemporaryDirectory() as work:
            made = f"{work}/program.o"
            subprocess.run(["cc", "-x", "c", "-O1", "-fPIC", "-c", "-", "-o", made], input=text, text=True, check=True)
            try:
                self.maker.known(made)
            except self.maker.NotMade as why:
                return str(why)
        return ""

    def test_what_the_program_calls_is_known(self):
        reads = "#include <unistd.h>\nint main(void) { char byte; return read(0, &byte, 1) != 1; }\n"
        self.assertEqual(self.tried(reads), "")
        asks = "#include <stdlib.h>\nint main(void) { return getenv(\"HOME\") != 0; }\n"
        self.assertIn("getenv", self.tried(asks))

    def test_it_keeps_no_more_than_a_byte_of_its_own(self):
        counts = "static int count; int main(void) { return ++count; }\n"
        self.assertIn("4 bytes of its own", self.tried(counts))
        self.assertTrue(self.tried(counts.replace("static", "static _Thread_local")))
        notes = "static char failed; int main(void) { failed = !failed; return failed; }\n"
        self.assertEqual(self.tried(notes), "")

    def test_it_has_a_main(self):
        self.assertIn("no main", self.tried("int begin(void) { return 0; }\n"))


if __name__ == "__main__":
    unittest.main()
