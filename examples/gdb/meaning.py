"""What a client's arguments mean: lines, addresses, frames, holders, places. The requests that are answered here share it.

It knows what the adapter has of the stop. It knows nothing of what becomes of it.
"""
from arguments import HIGHEST, Refusal, address_of, bad, number_of, present

MOST = 2 ** 31 - 1


class Meaning:
    """The adapter has what is asked about: the debuggee, the stop, and what the client has said of itself."""

    def __init__(self, adapter):
        self.adapter = adapter
        self.then = []  # what is to be done behind the answer
        self.targets = {}  # of each number of a place that the client was told in this stop, the place

    def line(self, line):
        """A line as the client counts them."""
        return line - 1 + self.adapter.first_line

    def gdb_line(self, arguments, key):
        """A line of the client's as gdb counts them."""
        return number_of(arguments, key, 0, MOST) + 1 - self.adapter.first_line

    def object_of(self, kind, number):
        """The frame or the holder that a number of the client means."""
        try:
            return self.adapter.object_of(kind, number)
        except KeyError:
            raise Refusal("staleReference", "%d is no %s of this stop." % (number, kind)) from None

    def frame(self, arguments):
        """The thread and level of `frameId`, or of the newest frame of the thread that stopped."""
        here = self.adapter.here
        if not present(arguments, "frameId"):
            return here.thread_of_moment, 0
        return here.frames[self.object_of("frame", number_of(arguments, "frameId", 0, MOST))]

    def target(self, arguments):
        """The place that `targetId` was told for."""
        number = number_of(arguments, "targetId", 0, MOST)
        if number not in self.targets:
            raise Refusal("staleReference", "targetId %d is no place of this stop." % number)
        return self.targets[number]

    def numbers_of(self, places):
        """Numbers for these places, each with its own."""
        numbered = [(len(self.targets) + n, place) for n, place in enumerate(places, 1)]
        self.targets.update(numbered)
        return numbered

    def address(self, arguments):
        """The address that `memoryReference` and `offset` give."""
        address = address_of(arguments, "memoryReference") + number_of(arguments, "offset", -HIGHEST, HIGHEST, 0)
        if not 0 <= address <= HIGHEST:
            raise bad("offset")
        return address

    def forget(self):
        """The program goes on: what was told of the stop counts no more."""
        self.targets = {}

    def has_changed(self):
        """Something was set: what is shown of it is told again."""
        self.then.append(self.adapter.tell_change)
        if self.adapter.says_of("supportsInvalidatedEvent"):
            self.then.append(lambda: self.adapter.tell_event("invalidated", areas=["variables"]))
