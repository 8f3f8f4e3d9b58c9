"""Values as a person looks at them: the text of one, its parts, and how one is set.

It knows gdb's values, and nothing of frames, of `dap host` or of the client.
"""
import collections
import itertools

import gdb

from texts import clean

MOST_PARTS = 1000  # of what is unfolded at once: what has more comes in windows
MOST_SHOWN = 100  # elements in the text of a value
MOST_TEXT = 500  # characters of a value
LEVELS = 3  # how deep the text of a value goes
RECORDS = gdb.TYPE_CODE_STRUCT, gdb.TYPE_CODE_UNION
REFERENCES = gdb.TYPE_CODE_REF, gdb.TYPE_CODE_RVALUE_REF

# What gdb, a printer, or the end of an evaluation's time raises.
FAULTS = Exception, KeyboardInterrupt

# Of a part: its name, the expression that gives it where there is one, its value, or a text in place of one, and a call that
# gives its own parts.
Part = collections.namedtuple("Part", "name expression value parts")


def object_of(value):
    """What a reference of C++ refers to; any other value is itself."""
    return value.referenced_value() if value.type.strip_typedefs().code in REFERENCES else value


def fresh(value):
    """The object of a value as it is now: gdb keeps what it has read once."""
    value = object_of(value)
    return value if value.address is None else value.address.dereference()


def shown(value):
    """The text of a value, or of why there is none."""
    try:
        text = value if isinstance(value, str) else object_of(value).format_string(max_elements=MOST_SHOWN, max_depth=LEVELS)
    except FAULTS as fault:
        text = "<%s>" % fault
    return within(text)


def within(text):
    return clean(text if len(text) <= MOST_TEXT else text[:MOST_TEXT] + "...")


def beside(value, with_type):
    """What stands beside a value: its type, and of a pointer where it points."""
    if not isinstance(value, gdb.Value):
        return {}
    more = {}
    try:
        kind = value.type.strip_typedefs()
        if with_type:
            more["type"] = within(str(value.type))
        if kind.code == gdb.TYPE_CODE_PTR:
            more["memoryReference"] = hex(int(value))
    except FAULTS:  # of the part that can't be read
        pass
    return {"more": more} if more else {}


def part(name, expression, call):
    """The part whose value the call gives, if it can."""
    try:
        value = call()
    except FAULTS as fault:
        return Part(name, None, "<%s>" % fault, nothing)
    return Part(name, expression, value, lambda: parts_of(name, expression, value))


def nothing():
    return iter(())


def parts_of(name, expression, value):
    """What is in a value."""
    value = fresh(value)
    if gdb.default_visualizer(value):
        return rest_of(lambda: printed(gdb.default_visualizer(fresh(value))), 0)
    kind = value.type.strip_typedefs()
    if kind.code == gdb.TYPE_CODE_PTR and int(value):
        target = kind.target().strip_typedefs()
        if target.code in RECORDS:
            return fields_of("*(%s)" % expression, value.dereference())
        return pointed_at(name, expression, value, target)
    if kind.code in RECORDS:
        return fields_of(expression, value)
    if kind.code == gdb.TYPE_CODE_ARRAY:
        return elements_of(expression, value, *kind.range())
    return nothing()


def printed(printer):
    for name, value in printer.children() if hasattr(printer, "children") else ():
        yield part(name, None, lambda value=value: gdb.Value(value))


def pointed_at(name, expression, value, target):
    if target.code not in (gdb.TYPE_CODE_VOID, gdb.TYPE_CODE_FUNC) and target.sizeof > 1:
        yield part("*" + name, "*(%s)" % expression, value.dereference)


def fields_of(expression, value):
    for field in value.type.strip_typedefs().fields():
        named = field.name and not field.is_base_class
        inner = "(%s).%s" % (expression, field.name) if named else expression
        yield part(field.name or "(unnamed)", inner, lambda field=field: value[field])


def elements_of(expression, value, low, high):
    """The elements of an array; windows onto them where they are many."""
    value, size = fresh(value), 1
    while high - low >= size * MOST_PARTS:
        size *= MOST_PARTS
    for first in range(low, high + 1, size):
        last = min(first + size - 1, high)
        if size == 1:
            yield part("[%d]" % first, "(%s)[%d]" % (expression, first), lambda first=first: value[first])
        else:
            yield Part("[%d..%d]" % (first, last), None, "%d elements" % (last - first + 1),
                       lambda first=first, last=last: elements_of(expression, value, first, last))


def rest_of(call, begin):
    """The parts that a call gives, from a place on: where they are many, one more holds the rest."""
    parts = call()
    yield from itertools.islice(parts, begin, begin + MOST_PARTS)
    if next(parts, None):
        begin += MOST_PARTS
        yield Part("[more]", None, "those from %d on" % begin, lambda: rest_of(call, begin))


def all_parts(call):
    """The parts that a call gives, up to a fault of it."""
    parts = []
    try:
        parts.extend(call())
    except FAULTS as fault:
        parts.append(Part("[fault]", None, "<%s>" % fault, nothing))
    return parts


def has_parts(part):
    try:
        return next(part.parts(), None) is not None
    except FAULTS:
        return False


def settable(part):
    """An expression that the part can be set by, if there is one."""
    if part.expression is None and isinstance(part.value, gdb.Value) and object_of(part.value).address:
        gdb.set_convenience_variable("_part", object_of(part.value).address)
        return "*$_part"
    return part.expression


def as_set(expression, value):
    """The text of what is in the expression once it was set to the value."""
    return shown(value.cast(object_of(gdb.parse_and_eval(expression)).type))
