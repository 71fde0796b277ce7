"""A folder of its own for each test that reads files."""
import os
import tempfile


class Folder:
    """Goes before unittest.TestCase."""

    def setUp(self):
        self.folder = tempfile.TemporaryDirectory()
        self.addCleanup(self.folder.cleanup)

    def place(self, *names):
        """Where a file of the folder is."""
        return os.path.join(self.folder.name, *names)

    def put(self, name, content):
        """Writes a file, bytes or text, and gives its place."""
        with open(self.place(name), 'wb') as out:
            out.write(content if isinstance(content, bytes) else content.encode())
        return self.place(name)
