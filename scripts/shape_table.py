"""The table of rule 8, scripts/shapes.txt, as the scripts read it. It has a line for each type, each closed list of texts and each message:

    type NAME: KEY TYPE, ..       an object. `!` after a key: it is required. Of a name that ends in Response or Event: its body
    choice NAME: TEXT ..          one of these texts
    request COMMAND TYPE          the arguments of a request; `!` after the command: it has to have them
    response COMMAND TYPE         the body of a successful response
    event NAME TYPE               the body of an event

A TYPE is text, boolean, whole, number, whole-or-text, the name of a type or a choice, or a list of one of these, in brackets. Keys
that may be absent and may have any value are left out. A type without keys is any object.
"""
import os

HERE = os.path.dirname(os.path.dirname(os.path.abspath(__file__)))
TABLE = os.path.join(HERE, "scripts", "shapes.txt")


class Table:
    """The table as it is read by others too."""

    def __init__(self, text):
        self.types, self.choices = {}, {}
        self.messages = {"request": {}, "response": {}, "event": {}}
        for line in text.splitlines():
            sort, rest = line.split(" ", 1)
            if sort == "type":
                name, rows = rest.split(":")
                self.types[name] = [self.row(row) for row in rows.split(",") if row.strip()]
            elif sort == "choice":
                name, values = rest.split(":")
                self.choices[name] = values.split()
            else:
                name, required, kind = self.row(rest)
                self.messages[sort][name] = (required, kind)

    @staticmethod
    def row(text):
        key, kind = text.split()
        return key.removesuffix("!"), key.endswith("!"), kind


def read_table():
    with open(TABLE) as file:
        return Table(file.read())
