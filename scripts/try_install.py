"""The manual pages and completions, and `make install` with what can be done with it, for scripts/try-program.

What the program prints as its help is taken apart here in few words of its own: an option is what begins with two minuses
before its text. So a page that lacks one is found whatever scripts/man makes of the stored texts.
"""
import os
import re
import shutil
import tempfile

from trial import DAP, EXAMPLES, HERE, bytes_of, expect, expect_in, fine, output_of, program_itself, run

RELEASE = os.path.join(HERE, "release")
SCRIPTS = "dap-gdb", "dap-record", "dap-transcripts"
TOOLS = "dap-record dap-transcripts recorder.py streams.py"


def text_of(*path):
    return bytes_of(os.path.join(RELEASE, *path)).decode()


def help_of(*words):
    status, out, err = run([*words, "--help"])
    expect("help of " + " ".join(("dap", *words)), (status, err), (0, b""))
    return out.decode()


def options_in(told):
    return re.findall(r"^ {2,6}(?:-\w, )?(--[\w-]+)", told, re.MULTILINE)


def manuals():
    """Pages and completions are what the help makes of them, and each option that the program prints is in all of them."""
    expect("scripts/man --check", output_of([os.path.join(HERE, "scripts", "man"), "--check"]), fine())
    top = help_of()
    commands = re.findall(r"^  (\w+)  ", top.split("Commands:\n")[1].split("\n\n")[0], re.MULTILINE)
    commands.remove("help")
    names = ["dap", *("dap-" + command for command in commands)]
    pages = sorted(name + ".1" for name in [*names, *SCRIPTS])
    expect("a page for each command, and no others", sorted(os.listdir(os.path.join(RELEASE, "man"))), pages)
    for name in SCRIPTS:
        page_of_script(name)
    shells = {name: text_of("completions", name) for name in ("dap.bash", "_dap", "dap.fish")}
    for name, told in zip(names, [top, *map(help_of, commands)]):
        page = text_of("man", name + ".1").replace("\\-", "-")
        expect(f"{name}.1: its name and version", re.search(r'^\.TH (\S+) 1 \S+ "(.*?)"', page, re.MULTILINE).groups(), (name.upper(), "dap 0.1.0"))
        expect(f"{name}.1: options", re.findall(r"^\\fB(?:-\w\\fR, \\fB)?(--[\w-]+)", page, re.MULTILINE), options_in(told))
        # The words of the help are in the page, in whatever order: but for the usage, and the marks of a term.
        words = set(re.findall(r"[\w'-]+", told)) - {"Usage", "Commands", "Arguments", "Options", "Statuses", "help", "Print", "this", "message", "given", "subcommand", "s"}
        expect(f"{name}.1: words", sorted(words - set(re.findall(r"[\w'-]+", re.sub(r"\\f[BIR]", "", page)))), [])
        expect(f"{name}: in bash, zsh and fish", [lacking(name, option, shells) for option in options_in(told)], [[]] * len(options_in(told)))
    expect("the version", run(["--version"]), fine(b"dap 0.1.0\n"))
    words_of_values()


def page_of_script(name):
    """The words of a script's help are in its page, with the names that are typed once it is installed."""
    script = os.path.join(EXAMPLES, "gdb", name) if name == "dap-gdb" else os.path.join(HERE, "scripts", name.removeprefix("dap-"))
    told = output_of([script, "--help"])[1].decode()
    # what argparse says of the words is not in the page
    told = re.sub(r"^usage: transcripts .*", "", told.split("\npositional arguments:")[0])
    told = re.sub(r"scripts/(?=record|transcripts)", "dap-", told).replace("bin/dap", "dap")
    page = re.sub(r"\\f[BIR]|\\&|\\\(ga", "", text_of("man", name + ".1").replace("\\-", "-"))
    heading = re.search(r'^\.TH (\S+) 1 \S+ "(.*?)"', page, re.MULTILINE).groups()
    expect(f"{name}.1: its name and version", heading, (name.upper(), "dap 0.1.0"))
    words = re.findall(r"[\w'-]+", told)
    expect(f"{name}.1: words", (len(words) > 50, sorted(set(words) - set(re.findall(r"[\w'-]+", page)))), (True, []))


BASH = """
. "$1"
compopt() { :; }
COMP_WORDS=(dap check --any-seq =)
COMP_CWORD=3
_dap
echo "${COMPREPLY[*]}"
COMP_WORDS+=(a)
COMP_CWORD=4
_dap
echo "${COMPREPLY[*]}"
"""


def words_of_values():
    """What a value may be is offered behind the sign of equality."""
    script = os.path.join(RELEASE, "completions", "dap.bash")
    expect("bash: the words of a value", output_of(["bash", "-c", BASH, "bash", script]), fine(b"client adapter both\nadapter\n"))


def lacking(name, option, shells):
    """The shells whose completions lack an option of a command, each looked up at the place of that command."""
    command, long = name.removeprefix("dap-"), option.removeprefix("--")
    if name == "dap":
        places = (rf"compgen -W '[^']* {option}[ ']", rf"_arguments -C (?:.*\\\n)*?.*{option}\b", rf"use_subcommand .*-l {long} ")
    else:
        places = (rf"^ +{command}\).*[ ']{option}[ ']", rf"^ +\({command}\)\n(?:.*\\\n)*?.*{option}\b", rf"from {command};.* -l {long} ")
    return [name for (name, text), place in zip(shells.items(), places) if not re.search(place, text, re.MULTILINE)]


def files_below(folder):
    return sorted(os.path.relpath(os.path.join(at, name), folder) for at, _, names in os.walk(folder) for name in names)


def installed_files(python):
    """The paths of all that is installed below PREFIX, and PYTHONDIR. The library is there where release/ has one."""
    pages = ["share/man/man1/" + name for name in os.listdir(os.path.join(RELEASE, "man"))]
    shells = ["bash-completion/completions/dap", "zsh/site-functions/_dap", "fish/vendor_completions.d/dap.fish"]
    gdb = [name for name in os.listdir(os.path.join(EXAMPLES, "gdb")) if name.endswith(".py")]
    scripts = ["gdb/" + name for name in ["dap-gdb", "README.md", *gdb]] + ["tools/" + name for name in TOOLS.split()]
    library = ["a", "so", "so.0", "so.0.1.0"]
    found = ["bin/dap", *("bin/" + name for name in SCRIPTS), *pages]
    found += ["share/" + path for path in shells] + ["share/yarntaupe/" + path for path in scripts]
    if has_library():
        found += ["lib/libyarntaupe." + end for end in library]
        found += ["include/yarntaupe.h", "lib/pkgconfig/yarntaupe.pc", f"{python}/yarntaupe.py"]
    return found


def has_library():
    return os.path.exists(os.path.join(RELEASE, "yarntaupe.pc"))


def install():
    """What `make install` puts somewhere is all that is to be there, it runs, and `make uninstall` takes it away again."""
    program = os.path.abspath(program_itself(DAP))
    version = output_of(["python3", "-c", "import sys; print('%d.%d' % sys.version_info[:2])"])[1].decode().strip()
    for words, below in ((["PREFIX={}"], ""), (["DESTDIR={}", "PREFIX=/opt/a"], "opt/a/")):
        with tempfile.TemporaryDirectory(prefix="a place ") as place:
            words = [word.format(place) for word in words]
            name = "make install " + words[0].split("=")[0]
            files = sorted(below + path for path in installed_files(f"lib/python{version}/site-packages"))
            expect(name, make("install", *words, f"PROGRAM={program}"), 0)
            expect(f"{name}: the files", files_below(place), files)
            at = os.path.join(place, below)
            expect(f"{name}: the program", output_of([os.path.join(at, "bin", "dap"), "--version"]), fine(b"dap 0.1.0\n"))
            try_scripts(name, at)
            if has_library():
                try_library(name, at, "/opt/a" if below else place, f"lib/python{version}/site-packages")
            else:
                print("skipped the library: release/ has none")
            expect("make uninstall", make("uninstall", *words), 0)
            expect("make uninstall: what is left", files_below(place), [])
            expect("make uninstall: the folders of its own", os.path.exists(os.path.join(at, "share", "yarntaupe")), False)
    with tempfile.TemporaryDirectory() as place:
        expect("make install: no program", make("install", f"PREFIX={place}", "PROGRAM=/missing") != 0, True)
        expect("make install: no program, and nothing else", files_below(place), [])
        words = [f"{folder}={place}/{folder}" for folder in ("PREFIX", "SHAREDIR", "LIBDIR", "PYTHONDIR", "INCLUDEDIR")]
        expect("make install: other folders", make("install", *words, f"PROGRAM={program}"), 0)
        folders = ["PREFIX", "SHAREDIR"] + (["LIBDIR", "PYTHONDIR", "INCLUDEDIR"] if has_library() else [])
        expect("make install: other folders, and theirs", sorted(os.listdir(place)), sorted(folders))
        expect("make uninstall: other folders", make("uninstall", *words), 0)
        expect("make uninstall: other folders, and what is left", files_below(place), [])


def try_scripts(name, at):
    """The scripts run from where they are installed, and name each other and the program as they are called then."""
    for script in SCRIPTS:
        status, out, _ = output_of([os.path.join(at, "bin", script), "--help"])
        expect(f"{name}: {script} --help", (status, script in out.decode(), "scripts/" in out.decode()), (0, True, False))
    recorded = os.path.join(at, "recorded.json")
    transcript = os.path.join(EXAMPLES, "transcripts", "debugpy.txt")
    status = output_of([os.path.join(at, "bin", "dap-record"), recorded, "--remote", "--from", transcript])[0]
    expect(f"{name}: dap-record", (status, os.path.exists(recorded)), (0, True))
    os.remove(recorded)
    # the program beside it, with no DAP, and gdb not needed
    gdb = os.path.join(at, "share", "yarntaupe", "gdb")
    words = ["python3", "-c", f"import sys; sys.path.insert(0, {gdb!r}); import lines; print(lines.DAP)"]
    environment = {key: value for key, value in os.environ.items() if key != "DAP"}
    found = output_of(words, env=environment)[1].decode().strip()
    expect(f"{name}: the program of dap-gdb", os.path.realpath(found), os.path.realpath(os.path.join(at, "bin", "dap")))


def try_library(name, at, prefix, python):
    """The names of the library, what pkg-config is told, the module for Python, and a program in C where there is a compiler."""
    folder = os.path.join(at, "lib")
    links = [os.readlink(os.path.join(folder, "libyarntaupe." + end)) for end in ("so", "so.0")]
    expect(f"{name}: the links", links, ["libyarntaupe.so.0", "libyarntaupe.so.0.1.0"])
    told = bytes_of(os.path.join(folder, "pkgconfig", "yarntaupe.pc")).decode().split("\n")
    expect(f"{name}: yarntaupe.pc", told[:3], [f"prefix={prefix}", f"libdir={prefix}/lib", f"includedir={prefix}/include"])
    expect_in(f"{name}: yarntaupe.pc, its version", told, "Version: 0.1.0")
    module = bytes_of(os.path.join(at, python, "yarntaupe.py")).decode()
    expect_in(f"{name}: the module knows the library", module, f'INSTALLED = "{prefix}/lib/libyarntaupe.so.0"\n')
    # Where it is below a DESTDIR, the paths are not yet those that it will have.
    environment = {key: value for key, value in os.environ.items() if key != "YARNTAUPE"} | {"PYTHONPATH": os.path.join(at, python)}
    if os.path.dirname(folder) != os.path.normpath(prefix):
        environment["YARNTAUPE"] = os.path.join(folder, "libyarntaupe.so.0")
    code = "import sys, yarntaupe; print(yarntaupe.check(sys.stdin.buffer.read()))"
    legal = b'> {"seq":1,"type":"request","command":"initialize","arguments":{"adapterID":"x"}}\n'
    expect(f"{name}: import yarntaupe", output_of(["python3", "-c", code], legal, env=environment), fine(b"None\n"))
    compiler = shutil.which("cc")
    if compiler is None:
        return print(f"skipped {name}, a program in C: there is no cc")
    source, judge = source_in_the_document(at), os.path.join(at, "judge")
    words = [compiler, source, "-I" + os.path.join(at, "include"), "-L" + folder, "-lyarntaupe", "-o", judge]
    if shutil.which("pkg-config"):
        environment["PKG_CONFIG_PATH"] = os.path.join(folder, "pkgconfig")
        flags = f"-I{prefix}/include -L{prefix}/lib -lyarntaupe".replace("a place ", "a\\ place\\ ")
        found = output_of(["pkg-config", "--cflags", "--libs", "yarntaupe"], env=environment)[1].decode().split("\n")[0].strip()
        expect(f"{name}: pkg-config", found, flags)
    environment["LD_LIBRARY_PATH"] = folder
    expect(f"{name}: cc", output_of(words)[0], 0)
    expect(f"{name}: a program in C", output_of([judge], env=environment), (1, b"line 1 rule 4\n", b""))
    for path in (source, judge):
        os.remove(path)


def source_in_the_document(folder):
    """The program of docs/C.md, as a file."""
    path = os.path.join(folder, "judge.c")
    with open(path, "wb") as file:
        file.write(bytes_of(os.path.join(HERE, "docs", "C.md")).split(b"```c\n")[1].split(b"```")[0])
    return path


def make(*words):
    return output_of(["make", "-s", "-C", HERE, *words])[0]


GROUPS = {"manuals": manuals, "install": install}
