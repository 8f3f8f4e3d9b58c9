"""The sources of docs/RECORDINGS.md: the files that gdb knows of.

It knows files and gdb's listings. It knows nothing of where the program stands, nor of the client.
"""
import os

import gdb

from texts import clean

MOST_SOURCES = 65536  # `dap host` takes no more


def paths_in(listed):
    """The files that `info sources` lists, also those with a comma in their path."""
    for line in listed.splitlines():
        path = ""
        for piece in line.split(", "):
            path = piece if piece.startswith("/") or not path else path + ", " + piece
            if path.startswith("/") and os.path.isfile(path):
                yield path
                path = ""


class Sources:
    """The sources that gdb knows of, behind one that no frame is in: `dap host` wants a line in the first.

    A file has as many empty lines as it has lines: an editor reads the file itself."""

    def __init__(self):
        self.all, self.told = [{"name": "(no source)", "text": "\n"}], 0
        self.places = {}  # of each path
        self.find()

    def news(self):
        """Those that were found since they were asked for before: they come behind the others."""
        before, self.told = self.told, len(self.all)
        return self.all[before:]

    def find(self):
        """Finds those that gdb knows of by now."""
        try:
            listed = gdb.execute("info sources", to_string=True)
        except gdb.error:  # there is no debug information
            listed = ""
        for path in sorted(set(paths_in(listed)) - set(self.places))[:MOST_SOURCES - len(self.all)]:
            self.places[path] = len(self.all)
            with open(path, "rb") as file:
                text = "\n" * sum(1 for _ in file)
            self.all.append({"name": clean(os.path.basename(path)), "path": clean(path), "text": text, "onDisk": True})

    def lines(self, path):
        """How many lines the source has, and none where there is no such source."""
        return len(self.all[self.places[path]]["text"]) if path in self.places else 0

    def of(self, frame):
        """The place of a frame's source and the line in it, where it has one."""
        sal = frame.find_sal()
        path = sal.symtab and sal.symtab.fullname()
        return {"source": self.places[path], "line": sal.line} if 1 <= sal.line <= self.lines(path) else {}
