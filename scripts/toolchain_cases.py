"""What is said where the toolchain's command `rt` is not on the PATH, as a group of scripts/try-program."""
import os
import shutil

from trial import FOLDER, HERE, bytes_of, expect, expect_in, file_of, output_of

# The commands that the scripts need, and no other.
COMMANDS = "awk bash cat chmod cmp cp cut dirname env find grep mkdir mktemp readlink rm sed sha256sum sort tail wc xargs"
LINE = "rattle-kit-0 logic 0"
NOT_THERE = 'rt, the command of the Rattle toolchain, is not on the PATH (README.md, "What you need")'
TAKEN = f"release: {NOT_THERE}: the line in release/made-of is taken for the toolchain's\n"


def without_rt(*words):
    """The status, output and errors of a command that finds no `rt`."""
    path = os.path.join(FOLDER, "commands")
    if not os.path.exists(path):
        os.mkdir(path)
        for command in COMMANDS.split():
            os.symlink(shutil.which(command), os.path.join(path, command))
    status, out, err = output_of(words, "/dev/null", env={"PATH": path})
    return status, out.decode(), err.decode()


def write(path, text):
    os.makedirs(os.path.dirname(path), exist_ok=True)
    os.chmod(file_of(path, text), 0o755)


def text_of(*names):
    return bytes_of(os.path.join(HERE, *names)).decode()


def no_toolchain():
    status, out, err = without_rt(os.path.join(HERE, ".ci", "run"))
    expect("the gate without rt", (status, out, err), (1, "", f".ci/run: {NOT_THERE}\n"))
    needs = text_of("README.md").split("\n## What you need\n")[1].split("\n## ")[0].replace("\n", " ")
    expect_in("what is needed is in the README", needs, "Rattle toolchain", "`rt`")
    time = "from nothing in half an hour or less on four cores"
    for name, text in [("the README", needs), ("bin/dap", text_of("bin", "dap"))]:
        expect_in(f"the time that making takes, in {name}", text, time)
    released()


def released():
    """A small repository, whose program is one line, and whose library is made of another one."""
    top = os.path.join(FOLDER, "repository")
    script, made = os.path.join(top, "scripts", "release"), os.path.join(top, "release", "made-of")
    for name in ("release", "digest", "version", "make-c", "c_header.py"):
        write(os.path.join(top, "scripts", name), text_of("scripts", name))
    write(os.path.join(top, "crates.txt"), "parts:\ndap:\ndap_c staticlib: parts\ndap_c_adapter staticlib: parts\n")
    write(os.path.join(top, "CHANGELOG.md"), "## [1.2.3] - 2026-11-27\n")
    for crate in ("parts", "dap", "dap_c", "dap_c_adapter"):
        write(os.path.join(top, "crates", crate, "src", "main.rt"), "fn main() {}\n")
    expect("release --tell without rt or a release", without_rt(script, "--tell"), (0, TAKEN + told("there is none", "run"), ""))
    write(os.path.join(top, "release", "dap"), "program\n")
    digests = []
    for words in ([LINE], ["--library", LINE]):
        status, digest, _ = without_rt(os.path.join(top, "scripts", "digest"), *words)
        expect(f"a digest without rt {words[0]}", (status, len(digest)), (0, 65))
        digests.append(digest)
    crates = without_rt(os.path.join(top, "scripts", "digest"), "--library", "--crates")
    expect("the crates of the library", crates, (0, "parts\ndap_c\ndap_c_adapter\n", ""))
    write(made, "".join([f"{LINE}\n", *digests, "objcopy 1\n"]))
    these, library = told("it was made of these sources"), told("the library for C was made of these sources")
    none = told("there is no library for C", "run")
    tells(script, "with no library", these + none)
    for name in ("libyarntaupe.a", "libyarntaupe.so", "yarntaupe.h", "yarntaupe.pc"):
        write(os.path.join(top, "release", name), "library\n")
    tells(script, "", these + library)
    write(os.path.join(top, "crates", "dap", "out", "dap"), "another\n")
    another = "release: it is not the program that is made of these sources: run scripts/release\n"
    tells(script, "of another program", another + library)
    other_library = told("the library for C was made of other sources", "run")
    for path in ("crates/parts/src/main.rt", "scripts/make-c"):
        before = text_of(top, path)
        write(os.path.join(top, path), before + "\n")
        tells(script, f"after an edit of {path}", another + other_library)
        write(os.path.join(top, path), before)
    write(os.path.join(top, "crates", "dap", "src", "main.rt"), "fn main() { }\n")
    others = told("it was made of other sources", "run")
    tells(script, "of other sources", others + library)
    for words in ([], ["--check"]):
        expect(f"release without rt {words}", without_rt(script, *words), (1, "", f"release: {NOT_THERE}\n"))


def told(text, run=""):
    return f"release: {text}: run scripts/release once the gate has passed\n" if run else f"release: {text}\n"


def tells(script, name, wanted):
    expect(f"release --tell without rt {name}", without_rt(script, "--tell"), (0, TAKEN + wanted, ""))


GROUPS = {"no_toolchain": no_toolchain}
