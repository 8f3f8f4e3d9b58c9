"""The calls of the crates with their clauses, and the definitions that clauses are made of, read as text: no toolchain is asked.

The sources are laid out by `rt fmt`, on which this rests: an item begins at its line's start, what is in an `impl` or a `trait`
four blanks in, and a block ends in a line with its brace alone.
"""
import glob
import os
import re

HERE = os.path.dirname(os.path.dirname(os.path.realpath(__file__)))
NAME = re.compile(r"[^\W\d][\w'-]*")
FN = re.compile(r"^( {4})?(pub(?:\([a-z]+\))? )?(?:unsafe )?(?:extern \"C\" )?(?:const )?fn (\w+)")
ITEM = re.compile(r"^(pub(?:\([a-z]+\))? )?(?:struct|enum|trait|const|static|type) (\w+)")
CLAUSE = re.compile(r"\s*(requires|ensures)\*?(?: (\w+))? \{")
USE = re.compile(r"use Rattle\.(\w+)\.specs\.([\w.]+?)(?:\.\{(.*?)\}| as (\w+))?;?$")


class Call:
    """A function, or a law of a trait, with what its clauses say."""

    def __init__(self, crate, module, owner, name, public, path):
        self.crate, self.module, self.owner, self.name = crate, module, owner, name
        self.public, self.path = public, path
        self.clauses = []  # (kind, name or None, text)
        self.trait = self.of_trait = None  # the trait that it is a method of, and the file of that
        self.beside = ""  # what an `impl` gives the members of its trait

    def title(self):
        return "::".join(part for part in (self.crate, self.owner, self.name) if part)

    def names(self):
        return {name for _, name, _ in self.clauses if name}

    def ensures(self):
        return [clause for clause in self.clauses if clause[0] == "ensures"]

    def texts(self, name=None):
        return [text for _, own, text in self.clauses if name is None or own == name]


class Crate:
    def __init__(self, name):
        self.name = name
        self.calls = []
        self.types = {}  # name: is it public
        self.traits = set()
        self.modules = {}  # name: is it public
        self.handed_on = {}  # name: (crate, modules, name), by a `pub use`
        self.modules_hand_on = {}  # module: the same
        self.variants = {}  # type: the words in its body


def balanced(text, start):
    """The place behind the brace that closes the one at `start`."""
    depth = 0
    for place in range(start, len(text)):
        if text[place] == "{":
            depth += 1
        elif text[place] == "}":
            depth -= 1
            if depth == 0:
                return place + 1
    return len(text)


def clauses_at(text, place):
    """The clauses of the function whose name begins at this place."""
    found = []
    depth = 0
    while place < len(text):
        match = CLAUSE.match(text, place) if depth == 0 and text[place] in " \n" else None
        if match:
            end = balanced(text, match.end() - 1)
            found.append((match.group(1), match.group(2), text[match.end() : end - 1]))
            place = end
            continue
        if text[place] in "([":
            depth += 1
        elif text[place] in ")]":
            depth -= 1
        elif depth == 0 and text[place] in "{;":
            break
        place += 1
    return found


def without_comments(text):
    return re.sub(r"(?m)^\s*//.*$", "", text)


def read_exports(crate, text):
    """Which names of its modules a crate's `lib.rt` hands out, and which of other crates."""
    for public, module in re.findall(r"(?m)^(pub )?mod (\w+);", text):
        crate.modules[module] = bool(public)
    names, crate.handed_on = handed_on(text, crate.modules)
    return names


def handed_on(text, modules=()):
    names, others = set(), {}
    for path, names_in, single in re.findall(r"(?m)^pub use ([\w:]+?)::(?:\{([^}]*)\}|(\w+));", text):
        for name in re.findall(r"\w+", names_in or single):
            first, *inside = path.split("::")
            if first in modules:
                names.add(name)
            else:
                others[name] = (first, inside, name)
    return names, others


def own_handed_on(text):
    """The names of its own crate that a module hands out."""
    return {name for name, (first, _, _) in handed_on(text)[1].items() if first == "crate"}


def read_module(crate, path, exported):
    with open(path, encoding="utf-8") as file:
        text = without_comments(file.read())
    module = os.path.basename(path)[: -len(".rt")]
    if module != "lib":
        crate.modules_hand_on[module] = handed_on(text)[1]
    open_to_all = module == "lib" or crate.modules.get(module, False)

    def is_public(word, name):
        return word == "pub " and (open_to_all or name in exported)

    owner, trait, beside, place = None, None, "", 0
    for line in text.split("\n"):
        start = place
        place += len(line) + 1
        head = re.match(r"^(?:pub )?(?:unsafe )?(impl|trait)\b(.*)", line)
        if head:
            words = re.sub(r"<[^<>]*>", "", re.sub(r"<[^<>]*>", "", line))
            words = words.split(" where ")[0].rstrip("{ ")
            if head.group(1) == "trait":
                owner = trait = re.search(r"trait (\w+)", words).group(1)
                crate.traits.add(owner)
                crate.types[owner] = is_public("pub " if line.startswith("pub ") else None, owner)
            else:
                match = re.search(r"impl (?:([\w:]+) for )?&?([\w:]+)", words)
                trait, owner = match.group(1), match.group(2).split("::")[-1]
            block = text[start : balanced(text, text.index("{", start))]
            beside = block if trait and head.group(1) == "impl" else ""
            continue
        if line == "}":
            owner = trait = None
            continue
        item = ITEM.match(line)
        if item:
            crate.types[item.group(2)] = is_public(item.group(1), item.group(2))
            brace = text.find("{", start)
            if brace >= 0 and not line.rstrip().endswith(";"):
                crate.variants[item.group(2)] = set(re.findall(r"\w+", text[brace : balanced(text, brace)]))
            continue
        law = re.match(r"^    ghost (\w+): \{", line) if owner and trait == owner else None
        match = FN.match(line)
        if not law and not match:
            continue
        name = law.group(1) if law else match.group(3)
        if law or (trait and match.group(1)):
            public = "of the trait" if trait != owner else "pub "
        else:
            public = match.group(2)
        call = Call(crate.name, module, owner if law or match.group(1) else None, name, public, path)
        call.trait = trait if call.owner else None
        call.in_open = is_public(match.group(2) if match else "pub ", name)
        call.beside = beside
        if law:
            brace = text.index("{", start)
            call.clauses = [("ensures", None, text[brace + 1 : balanced(text, brace) - 1])]
        else:
            call.clauses = clauses_at(text, start + match.end())
        crate.calls.append(call)


def settle(crates):
    """Says of each call whether users reach it, and gives what implements a trait of the repository the trait's clauses."""
    own_traits = {name: crate.types[name] for crate in crates.values() for name in crate.types if name in crate.traits}
    traits = {}
    for call in [call for crate in crates.values() for call in crate.calls]:
        if call.trait and call.trait == call.owner:
            traits.setdefault(call.trait, []).append(call)
    for crate in crates.values():
        more = []
        for call in crate.calls:
            if call.owner is None:
                call.public = call.in_open
                continue
            is_open = crate.types.get(call.owner, False)
            if call.trait in own_traits and call.trait != call.owner:
                is_open = is_open and own_traits[call.trait]
            call.public = is_open and call.public in ("pub ", "of the trait")
            for other in traits.get(call.trait, []):
                if other is not call and other.name == call.name and call.owner != call.trait:
                    call.clauses = other.clauses + call.clauses
                    call.of_trait = other.path
        for owner, trait, beside, path in sorted({(c.owner, c.trait, c.beside, c.path) for c in crate.calls if c.trait}):
            if trait == owner or trait not in traits:
                continue
            for other in traits[trait]:
                if not any(c.owner == owner and c.name == other.name for c in crate.calls):
                    law = Call(crate.name, None, owner, other.name, crate.types.get(owner, False), path)
                    law.trait, law.beside, law.clauses = trait, beside, other.clauses
                    law.of_trait = other.path
                    more.append(law)
        crate.calls += more


def read_crates(here=HERE):
    crates = {}
    for folder in sorted(glob.glob(os.path.join(here, "crates", "*", "src"))):
        crate = Crate(os.path.basename(os.path.dirname(folder)))
        crates[crate.name] = crate
        exported = set()
        lib = os.path.join(folder, "lib.rt")
        if os.path.exists(lib):
            with open(lib, encoding="utf-8") as file:
                exported = read_exports(crate, without_comments(file.read()))
            for module in [module for module, public in crate.modules.items() if public]:
                with open(os.path.join(folder, module + ".rt"), encoding="utf-8") as file:
                    exported |= own_handed_on(without_comments(file.read()))
        for path in sorted(glob.glob(os.path.join(folder, "*.rt"))):
            read_module(crate, path, exported)
    settle(crates)
    return crates


class Definition:
    def __init__(self, crate, file, name):
        self.crate, self.file, self.name = crate, file, name
        self.text = ""
        self.fields = []


class Specs:
    """All definitions below `specs/`, and which of them a text names."""

    def __init__(self, here=HERE):
        self.here = here
        self.files = {}  # (crate, file): {name: Definition}
        self.scopes = {}  # (crate, file): {name: (crate, file, name)}, with names of files as (crate, file, None)
        self.passed_on = {}  # crate: {file: (crate, file)}, by `pub use` of a whole file
        self.handed_on = {}  # (crate, file): {name: (crate, file, name)}, by `pub use` of a definition
        for path in sorted(glob.glob(os.path.join(here, "crates", "*", "specs", "*.antt"))):
            self.read(path)
        self.reached = {}

    def read(self, path):
        crate = os.path.basename(os.path.dirname(os.path.dirname(path)))
        file = os.path.basename(path)[: -len(".antt")]
        with open(path, encoding="utf-8") as opened:
            text = re.sub(r"(?m)^\s*--.*$", "", opened.read())
        own = {}
        head = re.compile(
            r"^(?:(?:pub|abbrev|unfoldable) )*(?:(?:record|data) )?([^\W\d][\w'-]*|[◌\w'-]*◌[^ ]*)(?=[ :])"
        )
        current = None
        for line in text.split("\n"):
            if line.startswith(("use ", "pub use ", "pub mod ", "mod ")) or not line.strip():
                continue
            match = head.match(line)
            if match and not line.startswith(" "):
                name = match.group(1)
                current = own.setdefault(name, Definition(crate, file, name))
            if current is None:
                continue
            current.text += line + "\n"
            field = re.match(r"^  (?:pub )?([^\W\d][\w'-]*) :", line)
            if field:
                current.fields.append(field.group(1))
        self.files[crate, file] = own
        for line in re.findall(r"(?m)^pub use Rattle\.([\w.]+)$", text):
            parts = line.split(".")
            self.passed_on.setdefault(crate, {})[parts[-1]] = (parts[0], parts[-1])
        self.scopes[crate, file] = scope_of(text)
        handed = "\n".join(line[len("pub ") :] for line in text.split("\n") if line.startswith("pub use "))
        self.handed_on[crate, file] = {name: meant for name, meant in scope_of(handed).items() if meant[2] is not None}

    def home(self, crate, file):
        """The crate and file that a file's name in a crate means."""
        for _ in range(4):
            if (crate, file) in self.files:
                return crate, file
            passed = self.passed_on.get(crate, {}).get(file.split(".")[-1])
            if not passed:
                return None
            crate, file = passed
        return None

    def named(self, text, scope, own=()):
        """The definitions that a text names, in the scope of its file."""
        found = []
        for match in NAME.finditer(text):
            name = match.group()
            if name in own:
                found.append(own[name])
                continue
            behind = text[: match.start()]
            if behind.endswith("."):
                alias = re.search(r"([^\W\d][\w'-]*)\.$", behind[-80:])
                meant = scope.get(alias.group(1)) if alias else None
                if not meant or meant[2] is not None:
                    continue
                meant = (meant[0], meant[1], name)
            else:
                meant = scope.get(name)
            if not meant or meant[2] is None:
                continue
            definition = self.meant(*meant)
            if definition:
                found.append(definition)
        return found

    def meant(self, crate, file, name):
        """The definition that a name of a file means, also one of another file that this one hands on."""
        home = self.home(crate, file)
        if not home:
            return None
        other = self.handed_on[home].get(name)
        return self.meant(*other) if other else self.files[home].get(name)

    def below(self, definition):
        key = (definition.crate, definition.file)
        return self.named(definition.text, self.scopes[key], self.files[key])

    def below_and(self, definition):
        """A definition and all those that it is made of, each with its distance."""
        key = (definition.crate, definition.file)
        own = {name: (*key, name) for name in self.files[key]}
        return {**self.reach([definition.text], {**self.scopes[key], **own}), definition: 0}

    def reach(self, texts, scope):
        """How many steps below a text each definition is that it is made of."""
        steps = {}
        layer = [d for text in texts for d in self.named(text, scope)]
        depth = 1
        while layer:
            fresh = []
            for definition in layer:
                if definition not in steps:
                    steps[definition] = depth
                    if definition not in self.reached:
                        self.reached[definition] = self.below(definition)
                    fresh += self.reached[definition]
            layer, depth = fresh, depth + 1
        return steps


def scope_of(text):
    """What the names mean that a file's `use` lines bring in."""
    scope = {}
    for line in text.split("\n"):
        match = USE.search(line.strip().removeprefix("ghost ").removeprefix("pub "))
        if not match:
            continue
        crate, file, names, alias = match.groups()
        if names is None:
            scope[alias or file.split(".")[-1]] = (crate, file, None)
            continue
        for name in names.split(","):
            name = name.strip()
            if " as " in name:
                own, other = name.split(" as ")
                scope[other.strip()] = (crate, file, own.strip())
            elif name:
                scope[name] = (crate, file, name)
    return scope
