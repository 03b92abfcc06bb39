"""What the checks of a crate have read and proved, for the checks that come after them: definitions and lemmas are then read once."""
import contextlib
import os
import shutil
import threading


def add_all(folder, to):
    """Adds the files of a folder to another one, where they aren't: by links what was checked, which a check replaces and never changes."""
    for at, _, names in os.walk(folder):
        into = os.path.join(to, os.path.relpath(at, folder))
        os.makedirs(into, exist_ok=True)
        for name in names:
            with contextlib.suppress(FileExistsError):
                if name.endswith(".oantt"):
                    os.link(f"{at}/{name}", f"{into}/{name}")
                elif not os.path.exists(f"{into}/{name}"):
                    shutil.copy2(f"{at}/{name}", f"{into}/{name}")


class Work:
    """A folder of kept work, of which each check has a copy."""

    def __init__(self, folder):
        self.folder, self.alone = folder, threading.Lock()

    def is_there(self):
        return os.path.isdir(self.folder)

    def lend(self, to):
        """Makes a copy for a check, if something is kept."""
        with self.alone:
            if self.is_there():
                add_all(self.folder, to)
        return to

    def take(self, lent):
        """Keeps what a check has left in its copy and was not kept before. Whoever reads a file of it looks whether it is up to date."""
        with self.alone:
            if os.path.isdir(lent):
                add_all(lent, self.folder)
        shutil.rmtree(lent, ignore_errors=True)
