"""What the tests share: a temporary folder, fake programs."""
import os
import stat
import tempfile
import unittest
from pathlib import Path
from unittest import mock

ROOT = Path(__file__).resolve().parents[3]
EXAMPLES = ROOT / "examples"


class FolderCase(unittest.TestCase):
    """A test with a folder of its own."""

    def setUp(self):
        holder = tempfile.TemporaryDirectory(prefix="packing-")
        self.addCleanup(holder.cleanup)
        self.folder = Path(holder.name)

    def file(self, name, content):
        """Writes a file and returns its path as a string."""
        path = self.folder / name
        path.write_bytes(content if isinstance(content, bytes) else content.encode("utf-8"))
        return str(path)

    def path(self, name):
        """The path of a file in the folder, as a string."""
        return str(self.folder / name)

    def fake_program(self, body):
        """A program that answers `make` as `pack` does, and else runs these shell lines."""
        start = '#!/bin/sh\nif [ "$1" = make ]; then echo "made 0 boxes 1 volume 52341"; exit 0; fi\n'
        path = Path(self.file("fake", start + body + "\n"))
        path.chmod(path.stat().st_mode | stat.S_IXUSR)
        return mock.patch.dict(os.environ, {"PACK": str(path)})

