"""The header `yarntaupe.h`, made from the sources of the static libraries: their codes, the structs that cross to C, and the
exports. Also a C program that compares each struct's size and the offsets of its fields with what `repr(C)` says of the
source.

    python3 scripts/c_header.py header|layout    (to standard output; `scripts/make-c` calls it)

It reads lines that `rt fmt` has laid out, and stops at what it does not know.
"""
import re
import sys
from pathlib import Path

HERE = Path(__file__).resolve().parent.parent
# in the order of the header
FILES = [
    ("dap_c_parts", "codes"), ("dap_c_parts", "limits"), ("dap_c", "limits"), ("dap_c_parts", "found"), ("dap_c", "frames_handle"), ("dap_c", "frames"),
    ("dap_c", "write"),
    ("dap_c", "heading"), ("dap_c", "check"), ("dap_c", "client_handle"), ("dap_c", "client"), ("dap_c", "client_state"),
    ("dap_c", "layout"), ("dap_c_adapter", "adapter_handle"), ("dap_c_adapter", "adapter"), ("dap_c_adapter", "telling"), ("dap_c_adapter", "beside"), ("dap_c_adapter", "output"), ("dap_c_adapter", "no_value"),
    ("dap_c_adapter", "ahead"), ("dap_c_adapter", "emitting"), ("dap_c_adapter", "lending"), ("dap_c_adapter", "asking"), ("dap_c_adapter", "acts"),
    ("dap_c_adapter", "adapter_state"), ("dap_c_adapter", "adapter_layout"),
]
# what tells the sizes of the structs of a crate, and that crate's name in it
SIZES = {"dap_c": ("yt_sizes", "yt_sizes_of"), "dap_c_adapter": ("yt_adapter_sizes", "yt_adapter_sizes_of")}
NUMBERS = {
    "u8": ("uint8_t", 1), "u32": ("uint32_t", 4), "u64": ("uint64_t", 8), "i32": ("int32_t", 4), "i64": ("int64_t", 8),
    "usize": ("size_t", 8), "bool": ("bool", 1),
}
HEAD = """\
/* Yarntaupe for C: the Debug Adapter Protocol, proved.
 *
 * Made by scripts/make-c from the library's sources; docs/C.md says how it is used and what is trusted.
 *
 * Bytes go in by a pointer and a length, and come out by a copy into the caller's buffer, whose length an earlier call told.
 * A handle (yt_frames, yt_client, yt_adapter) is two words of the caller's, all zero for none: `yt_client c = {0};`. It is
 * never copied and used twice, and is used by one thread at a time, on the thread that opened it. Each call on a handle that
 * holds nothing answers YT_NONE. Nothing here is global, calls back, starts a thread, reads, writes or waits. */
#ifndef YARNTAUPE_H
#define YARNTAUPE_H
#include <stdbool.h>
#include <stddef.h>
#include <stdint.h>
#ifdef __cplusplus
extern "C" {
#endif
"""
TAIL = """\

#ifdef __cplusplus
}
#endif
#endif
"""


def stop(words):
    sys.exit(f"c_header.py: {words}")


def c_name(name):
    """The C name of a struct: `YtClientSeen` becomes `yt_client_seen`."""
    return re.sub(r"(?<!^)(?=[A-Z])", "_", name).lower()


def wrapped(text, before, first, after):
    """A comment of lines of at most 120 columns."""
    lines, line = [], before + first
    for word in text.split():
        if len(line) + 1 + len(word) > 117 and line.strip() not in ("", "/*", "*"):
            lines.append(line)
            line = before + " *"
        line += " " + word
    return "\n".join(lines + [line + after])


def source(crate, file):
    return (HERE / "crates" / crate / "src" / f"{file}.rt").read_text()


def in_c(text):
    """Words of a comment, with links to Rust items as plain words."""
    return text.replace("`", "").replace("[", "").replace("]", "")


def items(text):
    """The items of a file: their comments, attributes and text, up to the line that closes them."""
    comment, attributes, lines = [], [], []
    for line in text.splitlines():
        if lines:
            lines.append(line)
        elif line.startswith("/// "):
            comment.append(line[4:])
            continue
        elif line == "///":
            comment.append("")
            continue
        elif line.startswith("#["):
            attributes.append(line)
            continue
        elif re.match(r"(pub(\(crate\))? )?(const|struct|fn|extern)|impl", line):
            lines = [line]
        else:
            comment, attributes = [], []
            continue
        if line in ("}", ")") or (len(lines) == 1 and line.endswith((";", "}"))):
            yield " ".join(comment), attributes, lines
            comment, attributes, lines = [], [], []


def fields_of(lines):
    """The fields that a struct has in C, each with its comment; ghost fields take no room."""
    fields, comment = [], []
    for line in lines[1:-1]:
        line = line.strip()
        if line.startswith("/// "):
            comment.append(line[4:])
        elif re.match(r"(pub(\(crate\))? )?ghost ", line):
            comment = []
        else:
            found = re.fullmatch(r"(?:pub(?:\(crate\))? )?(\w+): ([\w* ]+),", line)
            if not found:
                stop(f"no field: {line}")
            fields.append((found[1], found[2], " ".join(comment)))
            comment = []
    return fields


class Header:
    def __init__(self):
        self.codes, self.structs, self.exports, self.order = [], {}, [], []
        for crate, file in FILES:
            if (HERE / "crates" / crate).is_dir():
                self.read("dap_c" if crate == "dap_c_parts" else crate, file, source(crate, file))

    def read(self, crate, file, text):
        for comment, attributes, lines in items(text):
            code = re.fullmatch(r"pub const (YT_\w+): u32 = (\d+);", lines[0])
            struct = re.fullmatch(r"pub struct (\w+) \{", lines[0])
            if code:
                self.codes.append((code[1], int(code[2]), comment))
            elif struct and "#[repr(C)]" in attributes:
                self.structs[struct[1]] = fields_of(lines)
                self.order.append((crate, file, "struct", struct[1], comment))
            elif 'extern "C"' in lines[0]:
                if "#[unsafe(no_mangle)]" not in attributes:
                    stop(f"no export: {lines[0]}")
                self.order.append((crate, file, "export", self.export(" ".join(lines)), comment))

    def export(self, text):
        found = re.match(r'pub extern "C" fn (\w+)\((.*?)\)(?: -> (\w+))?(?= +(?:ensures|requires|\{))', text)
        if not found:
            stop(f"no export: {text[:90]}")
        params = []
        for param in filter(None, (p.strip() for p in found[2].split(","))):
            name, kind = param.split(": ", 1)
            params += self.param(name, kind)
        result = NUMBERS[found[3]][0] if found[3] else "void"
        return f"{result} {found[1]}({', '.join(params) or 'void'});"

    def param(self, name, kind):
        if kind == "Global":
            return []
        if kind in NUMBERS:
            return [f"{NUMBERS[kind][0]} {name}"]
        piece = re.fullmatch(r"&(mut )?\[(\w+)\]", kind)
        if piece:
            return [f"{'' if piece[1] else 'const '}{NUMBERS[piece[2]][0]} *{name}", f"size_t {name}_len"]
        lent = re.fullmatch(r"&(mut )?(\w+)", kind)
        if lent:
            to = NUMBERS[lent[2]][0] if lent[2] in NUMBERS else c_name(lent[2])
            return [f"{'' if lent[1] else 'const '}{to} *{name}"]
        stop(f"no parameter: {name}: {kind}")

    def flat(self, name):
        """The fields of a struct, with those of a struct within in its place: it comes first, and has one word."""
        for field, kind, comment in self.structs[name]:
            if kind in self.structs:
                yield from self.flat(kind)
            elif kind == "*mut u8":
                yield field, "void *", 8, comment
            else:
                yield field, NUMBERS[kind][0] + " ", NUMBERS[kind][1], comment

    def layout(self, name):
        """Where `repr(C)` puts each field, and how large the struct is."""
        at, most, places = 0, 1, []
        for field, _, size, _ in self.flat(name):
            at = -(-at // size) * size
            places.append((field, at))
            at, most = at + size, max(most, size)
        return places, -(-at // most) * most

    def crossing(self, name):
        """Whether C sees the struct: the inner one of a handle it does not."""
        return name.startswith("Yt")

    def text(self):
        out = [HEAD]
        out.append("/* What calls answer. A number has one meaning in all calls. */\nenum {")
        out += [f"    {name} = {number}, /* {in_c(comment)} */" for name, number, comment in self.codes]
        out.append("};")
        section = None
        for _, file, what, name, comment in self.order:
            if what == "struct" and not self.crossing(name):
                continue
            if file != section:
                out.append(f"\n/* ---- {file.replace('_', ' ')} */")
                section = file
            out.append("")
            if comment:
                out.append(wrapped(in_c(comment), "", "/*", " */"))
            if what == "export":
                out.append(name)
                continue
            out.append("typedef struct {")
            for field, kind, _, words in self.flat(name):
                out.append(f"    {kind}{field};" + (f" /* {in_c(words)} */" if words else ""))
            out.append(f"}} {c_name(name)};")
        return "\n".join(out) + "\n" + TAIL

    def program(self):
        """Sizes and offsets: by the compiler against the rule, and by the library itself."""
        out = ["/* Made by scripts/make-c: the structs of yarntaupe.h lie as the library has them. */", '#include "yarntaupe.h"',
               "#include <stdio.h>", ""]
        crossing = [(crate, name) for crate, _, what, name, _ in self.order if what == "struct" and self.crossing(name)]
        for _, name in crossing:
            places, size = self.layout(name)
            c = c_name(name)
            out.append(f'_Static_assert(sizeof({c}) == {size}, "{c}");')
            out += [f'_Static_assert(offsetof({c}, {field}) == {at}, "{c}.{field}");' for field, at in places]
        out += ["", "int main(void) {", "    int wrong = 0;"]
        for crate in dict.fromkeys(crate for crate, _ in crossing):
            sizes, told = SIZES[crate]
            out += [f"    {sizes} in_{crate};", f"    {told}(&in_{crate});"]
        for crate, name in crossing:
            c = c_name(name)
            out.append(f'    if (in_{crate}.{c[3:]} != sizeof({c})) wrong += printf("{c}: %zu\\n", in_{crate}.{c[3:]});')
        out += [f'    printf("{len(crossing)} structs\\n");', "    return wrong != 0;", "}", ""]
        return "\n".join(out)


if __name__ == "__main__":
    if sys.argv[1:] not in (["header"], ["layout"]):
        sys.exit(__doc__)
    header = Header()
    print(header.text() if sys.argv[1] == "header" else header.program(), end="")
