"""Where the program stands, as a moment of docs/RECORDINGS.md: threads, frames, scopes, and what their holders hold.

It knows gdb's frames and symbols, and the moment that `dap host` wants. It knows nothing of the client, and changes nothing.
"""
import os

import gdb

from texts import clean
from values import all_parts, beside, has_parts, part, rest_of, shown

MOST_FRAMES = 200  # of a thread
OURS = 1000000  # holders from here on are ours; those of a moment are counted from 0


def name_of(frame, has_source):
    """The name of a frame's function, with the library where there is no source."""
    name = frame.name() or hex(frame.pc())
    library = None if has_source else gdb.solib_name(frame.pc())
    return clean("%s (%s)" % (name, os.path.basename(library)) if library else name)


def thread_numbers():
    """The numbers of the program's threads."""
    return {thread.num for thread in gdb.selected_inferior().threads()}


def module_of(objfile):
    """What the protocol tells of a file of code; nothing of one that has no name, nor of what another's symbols are in."""
    if not objfile.is_valid() or not objfile.filename or objfile.owner:
        return None
    path = clean(objfile.filename)
    if not os.path.isabs(path):  # the kernel's own, "system-supplied DSO at .."
        return {"id": path, "name": path}
    return {"id": path, "name": os.path.basename(path), "path": path}


class Stop:
    """A stop of the program. What is in a scope or a value is looked up once it is asked for."""

    def __init__(self, sources):
        self.sources, here = sources, gdb.selected_thread()
        self.frames = []  # of each frame of the moment, its thread and level
        self.holders = {}  # of each holder, the frame that it is in, and a call that gives its parts
        self.parts = {}  # of each holder that was told, its parts
        self.told = {}  # and their texts
        self.scopes, self.ours = 0, OURS
        threads = [self.thread(thread) for thread in sorted(gdb.selected_inferior().threads(), key=lambda thread: thread.num)]
        here.switch()
        self.thread_of_moment, self.moment = here.num, {"threads": threads, "thread": here.num}

    def thread(self, thread):
        frames = []
        try:
            thread.switch()
            frame = gdb.newest_frame()
            while frame and len(frames) < MOST_FRAMES:
                frames.append(self.frame(frame, thread.num, len(frames)))
                frame = frame.older()
            if frame:
                self.frames.append((thread.num, MOST_FRAMES))
                frames.append({"name": "(more frames than these %d)" % MOST_FRAMES})
        except gdb.error as fault:
            self.frames += [] if frames else [(thread.num, 0)]
            frames = frames or [{"name": "<%s>" % clean(fault)}]
        return {"id": thread.num, "name": clean(thread.name or "thread"), "frames": frames}

    def frame(self, frame, thread, level):
        source = self.sources.of(frame)
        self.frames.append((thread, level))
        more = {"instructionPointerReference": hex(frame.pc())}
        return {"name": name_of(frame, bool(source)), **source, "scopes": self.scopes_of(frame), "more": more}

    def scopes_of(self, frame):
        try:
            frame.block()
        except RuntimeError:  # the function has no debug information
            return []
        for arguments in False, True:
            self.holders[self.scopes] = self.frames[-1], lambda arguments=arguments: scope_of(arguments)
            self.scopes += 1
        return [{"name": "Locals"}, {"name": "Arguments"}]

    def is_told(self, holder):
        return holder in self.told

    def frame_of(self, holder):
        """The frame that a holder is in."""
        return self.holders[holder][0]

    def variables(self, holder, with_types):
        """The variables of a holder, in its frame, which is selected."""
        where, call = self.holders[holder]
        self.parts[holder] = all_parts(call)
        self.told[holder] = [shown(one.value) for one in self.parts[holder]]
        return [{"name": clean(one.name), "value": text, **self.holder_of(where, one), **beside(one.value, with_types)}
                for one, text in zip(self.parts[holder], self.told[holder])]

    def holder_of(self, where, one):
        """The holder of what is in a part, if something is."""
        if not has_parts(one):
            return {}
        self.ours += 1
        self.holders[self.ours] = where, one.parts
        return {"holder": self.ours}

    def part(self, holder, name):
        """The place of a part that was told by its name, and the part; the first one of this name."""
        return next((place, one) for place, one in enumerate(self.parts[holder]) if clean(one.name) == name)

    def is_found(self, where, text, value):
        """Whether this is the name of a variable with this value that `dap host` finds in the frame's scopes."""
        for holder in range(self.scopes):
            if self.holders[holder][0] != where:
                continue
            if holder not in self.parts:
                return False
            for one, told in zip(self.parts[holder], self.told[holder]):
                if clean(one.name) == text:
                    return told == value
        return False

    def has_changed(self, select):
        """Whether something that was told is not so any more."""
        for holder, told in list(self.told.items()):
            where, call = self.holders[holder]
            select(*where)
            if [shown(one.value) for one in all_parts(call)] != told:
                return True
        return False


def scope_of(arguments):
    """The variables of the frame that is selected, or its arguments."""
    return rest_of(lambda: symbols_of(gdb.selected_frame(), arguments), 0)


def symbols_of(frame, arguments):
    """The variables of a frame, or its arguments, each once."""
    block, seen = frame.block(), set()
    while block:
        for symbol in block:
            if (symbol.is_variable or symbol.is_argument) and symbol.name not in seen:
                seen.add(symbol.name)
                if symbol.is_argument == arguments:
                    yield part(symbol.name, symbol.name, lambda symbol=symbol, block=block: frame.read_var(symbol, block))
        block = None if block.function else block.superblock
