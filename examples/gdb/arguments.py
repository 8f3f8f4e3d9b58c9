"""The arguments of a request: each is looked at once it is wanted, and one that is missing or bad is a refusal that names it.

It knows what a client writes, and no gdb.
"""
# The failures of the protocol's profile (docs/PROFILE.md, "Failures") that are given here, with their numbers.
NUMBERS = {"badArguments": 1005, "notStopped": 1006, "unknownThread": 1008, "staleReference": 1009, "debuggee": 1013, "tooLarge": 1016}
HIGHEST = 2 ** 64 - 1  # address


class Refusal(Exception):
    """Why a request fails: the failure's short name, and words."""

    def __init__(self, name, words):
        super().__init__(name, words)
        self.name, self.words = name, words


def bad(key):
    return Refusal("badArguments", "The argument %s is missing or malformed." % key)


def present(arguments, key):
    """Whether there is a value: `null` is none."""
    return isinstance(arguments, dict) and arguments.get(key) is not None


def of_kind(arguments, key, kind):
    """The value of an argument that has to be there, and of this kind."""
    value = arguments[key] if present(arguments, key) else None
    if not isinstance(value, kind) or isinstance(value, bool) != (kind is bool):
        raise bad(key)
    return value


def text_of(arguments, key):
    return of_kind(arguments, key, str)


def number_of(arguments, key, low, high, default=None):
    """A number from low to high; where it is absent the default, if there is one."""
    if default is not None and not present(arguments, key):
        return default
    number = of_kind(arguments, key, int)
    if not low <= number <= high:
        raise bad(key)
    return number


def flag_of(arguments, key):
    return present(arguments, key) and of_kind(arguments, key, bool)


def rows_of(arguments, key, *texts):
    """The objects of a list, each with these texts. What else there is of a breakpoint has to be text too."""
    rows = of_kind(arguments, key, list)
    for row in rows:
        for text in texts:
            text_of(row, text)
        for text in "condition", "hitCondition", "logMessage":
            if present(row, text):
                text_of(row, text)
    return rows


def path_of(arguments, key="source"):
    """The path of a source."""
    return text_of(of_kind(arguments, key, dict), "path")


def address_of(arguments, key):
    """The address that a text says, as it was told to the client."""
    try:
        address = int(text_of(arguments, key), 0)
    except ValueError:
        raise bad(key) from None
    if not 0 <= address <= HIGHEST:
        raise bad(key)
    return address
