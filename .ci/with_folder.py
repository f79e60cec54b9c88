"""For tests that need files."""
import os
import tempfile
import unittest


class WithFolder(unittest.TestCase):
    """A test with a folder of its own, and files there."""

    def setUp(self):
        room = tempfile.TemporaryDirectory()
        self.addCleanup(room.cleanup)
        self.folder = room.name

    def write(self, file, text):
        os.makedirs(os.path.dirname(f'{self.folder}/{file}'), exist_ok=True)
        with open(f'{self.folder}/{file}', 'w', encoding='utf-8') as it:
            it.write(text)

    def read(self, file):
        with open(f'{self.folder}/{file}', encoding='utf-8') as it:
            return it.read()
