"""Cases of scripts/try-program: help, usage and options of each command. The whole helps are in scripts/help."""
import os
import re
import textwrap

from trial import HERE, RECORDING, bytes_of, expect, expect_in, fault, fine, run, try_rows, try_usage

SIZES = [("max-header", 32, 65536, 8192), ("max-body", 1024, 16777216, 4194304)]
LIMITS = SIZES + [
    ("max-requests", 2, 4096, 64),
    ("max-references", 1, 1048576, 65536),
    ("max-breakpoints", 1, 65536, 4096),
    ("max-seq", 1, 9007199254740991, 9007199254740991),
    ("max-reference", 1, 2147483647, 2147483647),
]
LINE = [("max-line", 1026, 1073741826, 16777218)]
NO_UTF_8 = (2, b"", b"dap: a word of the command line is not UTF-8\n")
NO_WORD = "\udcff"


def joined(text):
    """The words of a text with one space between, however it is laid out."""
    return b" ".join(text.split())


def helped(name, words, told, *parts):
    """The help of a command has these parts. It is given back."""
    status, out, err = run([*words, "--help"])
    expect(name, (status, err), (0, b""))
    expect_in(told, joined(out), *parts)
    return out


def options_of(tool, out, good, bad, options, named):
    """Each option at its edges, and past them: what is refused is so before a file is opened."""
    for name, least, greatest, default in options:
        if (tool, name) == ("wrap", "max-header"):
            expect("help of wrap: no --max-header, which does nothing", b"--max-header" in out, False)
        else:
            told = f"{least} to {greatest} [default: {default}]".encode()
            expect_in(f"help of {named}--{name}", joined(out), f"--{name} <".encode(), told)
        prefix = "" if tool == "serve" else f"{tool} "
        try_rows([(f"{prefix}--{name} {n}", [*good, f"--{name}", str(n)], fine()) for n in (least, greatest)])
        words = [[f"--{name}={n}"] for n in (least - 1, greatest + 1)]
        words += [[f"--{name}", word] for word in ("-1", "abc", "99999999999999999999")]
        for option in words:
            status, told, err = run([*bad, *option])
            value = option[-1].partition("=")[2] or option[-1]
            expect(f"{prefix}--{name} {value}", (status, told), (2, b""))
            parts = [f"'{value}'", f"--{name}"] + [f"{least}..={greatest}"] * (len(option) == 1)
            expect_in(f"{prefix}--{name} {value}: message", err, *(part.encode() for part in parts))


def usage():
    status, out, err = run([])
    expect("no words", (status, out), (2, b""))
    expect_in("no words: usage", err, b"Usage: dap <COMMAND>")
    statuses = b"0 fine, 2 usage, 3 refused, 4 truncated"
    helped("help", [], "help: commands and statuses", b"serve", b"show", b"unwrap", statuses)
    statuses = b"Statuses: 0 the session or the input ended, 2 usage, 3 ", b"6 memory"
    out = helped("help of serve", ["serve"], "help of serve: statuses", *statuses)
    options_of("serve", out, ["serve", RECORDING], ["serve", "x"], LIMITS, "")
    out = helped("help of host", ["host"], "help of host: statuses", b"Statuses: 0 the input ended, 2 usage, 3 ")
    options_of("host", out, ["host", RECORDING], ["host", "x"], LIMITS + LINE, "host ")
    try_usage([
        (["serve"], b"<RECORDING>"),
        (["serve", "x", "y"], b"unexpected argument 'y'"),
        (["jump"], b"unrecognized subcommand 'jump'"),
        (["serve", "x", "--max-seq", "1", "--max-seq", "2"], b"cannot be used multiple times"),
    ])
    try_rows([
        ("version", ["--version"], fine(b"dap 0.1.0\n")),
        ("a word that is not UTF-8", ["serve", NO_WORD], NO_UTF_8),
        ("help that cannot be written", ["--help"], fault("Write"), b"", ["stdout"]),
        ("usage that cannot be written", ["jump"], (2, b"", b""), b"", ["stderr"]),
    ])


WRITES = {
    "show": b"A line has the offset of the frame, the sequence number, then",
    "unwrap": b"Line feeds and carriage returns between the tokens of a body are left out.",
    "wrap": b"Empty lines are skipped.",
}


def tool_usage():
    for tool, writes in WRITES.items():
        out = helped(f"help of {tool}", [tool], f"help of {tool}: its file", b"<FILE>", b"67108864 bytes")
        parts = writes, b"Statuses: 0 all is ", b"2 usage, 3 ", b"6 memory"
        expect_in(f"help of {tool}: what it writes, and statuses", joined(out), *parts)
        options_of(tool, out, [tool, "/dev/null"], [tool, "/missing"], SIZES, f"{tool} ")
        try_usage([
            ([tool], b"<FILE>"),
            ([tool, "x", "y"], b"unexpected argument 'y'"),
            ([tool, "x", "--max-seq", "1"], b"unexpected argument '--max-seq'"),
            ([tool, "x", "--max-body", "1024", "--max-body", "1024"], b"cannot be used multiple times"),
        ])
        try_rows([(f"{tool}: a word that is not UTF-8", [tool, NO_WORD], NO_UTF_8)])


def laid_out(text):
    """Help as it is printed: of a stored line that is longer than 80 characters the rest is below its own text."""
    lines = []
    for line in text.split("\n"):
        term = re.match(r" +(?:\S+(?: \S+)*? {2,}|\S+ )", line)
        indent = " " * (term.end() if term else 0)
        lines += textwrap.wrap(line, 80, subsequent_indent=indent, break_long_words=False, break_on_hyphens=False) or [""]
    return "\n".join(lines).encode()


def helps():
    """The whole help of each command is the text that is stored, laid out."""
    folder = os.path.join(HERE, "scripts", "help")
    for name in sorted(os.listdir(folder)):
        tool, wanted = name.removesuffix(".txt"), laid_out(bytes_of(os.path.join(folder, name)).decode())
        words = ["--help"] if tool == "dap" else [tool, "--help"]
        try_rows([(f"help of {tool}: the stored text", words, fine(wanted))])
        expect(f"help of {tool}: no line is too long", [line for line in wanted.split(b"\n") if len(line) > 80], [])
        if tool == "dap":
            try_rows([("no words: the help", [], (2, b"", wanted))])


GROUPS = {"usage": usage, "tool_usage": tool_usage, "helps": helps}
