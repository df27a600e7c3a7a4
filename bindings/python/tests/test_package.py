"""The package as it is found, told and installed."""

import doctest
import os
import subprocess
import sys
import tempfile
import unittest
from pathlib import Path

from mirfodwel.library import NAME, path

HERE = Path(__file__).resolve().parents[1]


def pip(*arguments):
    # What a user has set of pip says nothing here.
    settings = {"PIP_CONFIG_FILE": os.devnull, "PIP_DISABLE_PIP_VERSION_CHECK": "1", "PYTHONDONTWRITEBYTECODE": "1"}
    return subprocess.run([sys.executable, "-m", "pip", *arguments], capture_output=True, text=True, env={**os.environ, **settings})


class Package(unittest.TestCase):
    def run_apart(self, code, folder, **environment):
        """Runs the code where the package is found in this folder alone."""
        kept = {name: each for name, each in os.environ.items() if name not in ("MIRFODWEL_LIB", "PYTHONPATH")}
        environment = {**kept, "PYTHONPATH": str(folder), **environment}
        return subprocess.run([sys.executable, "-c", code], capture_output=True, text=True, cwd="/", env=environment)

    def test_readme(self):
        failed, tried = doctest.testfile(str(HERE / "README.md"), module_relative=False)
        self.assertTrue(failed == 0 and tried > 5)

    def test_no_library(self):
        done = self.run_apart("import mirfodwel; mirfodwel.goals('')", HERE, MIRFODWEL_LIB="/none")
        self.assertIn("NoLibrary: no library at /none/libmirfodwel.so: ./library in the repository builds", done.stderr)

    def test_named_folder(self):
        with tempfile.TemporaryDirectory() as folder:
            named = Path(folder, NAME)
            named.symlink_to(path())
            code = "import mirfodwel as m, mirfodwel.library as it; print(it.path(), m.run_with_timeout(m.goals, 'ask 1 A', 60).lines)"
            done = self.run_apart(code, HERE, MIRFODWEL_LIB=folder)
            self.assertEqual(done.stdout, f"{named} ['A no 1 checked']\n", done.stderr)

    def test_wheel(self):
        if pip("--version").returncode:
            self.skipTest("this Python has no pip")
        with tempfile.TemporaryDirectory() as folder:
            made = pip("wheel", "--no-index", "--no-deps", "--no-build-isolation", "--wheel-dir", folder, str(HERE))
            self.assertEqual(made.returncode, 0, made.stderr)
            wheels = list(Path(folder).glob("*.whl"))
            target = Path(folder, "installed")
            put = pip("install", "--no-index", "--no-deps", "--target", str(target), *map(str, wheels))
            self.assertEqual((len(wheels), put.returncode), (1, 0), put.stderr)
            done = self.run_apart("import mirfodwel; print(mirfodwel.__file__, mirfodwel.goals('ask 1 A').lines)", target)
            self.assertEqual(done.stdout, f"{target.resolve()}/mirfodwel/__init__.py ['A no 1 checked']\n", done.stderr)
