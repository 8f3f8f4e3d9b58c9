"""What is measured and with what: the inputs, which are generated and kept in `bench/out`, and the programs of this
repository."""
import os
import shutil
import subprocess
import sys
import time

HERE = os.path.dirname(os.path.abspath(__file__))
TOP = os.path.dirname(HERE)
OUT = os.path.join(HERE, "out")
SEED = 1
MOMENTS = 2
# Of each program: the environment variable that has another path, the paths where it is looked for, and how it is made.
PROGRAMS = {
    "dap": ("DAP", ("crates/dap/out/dap", "release/dap"), "(cd crates/dap && rt run -- --version)"),
    "bench_frames": ("BENCH_FRAMES", ("crates/bench_frames/out/bench_frames",),
                     "(cd crates/bench_frames && rt run -- data/frames.dap)"),
    "bench_client": ("BENCH_CLIENT", ("crates/bench_client/out/bench_client",),
                     "(cd crates/bench_client && rt run -- data/requests.dap data/answers.dap)"),
}


class Missing(Exception):
    """What is not there, or does not know its words."""


def make_input(kind, size):
    """The path of what is generated; it is kept until the generator changes."""
    generator = os.path.join(HERE, "generate.py")
    path = os.path.join(OUT, "%s-%d-%d.bin" % (kind, size, SEED))
    if not os.path.exists(path) or os.path.getmtime(path) < os.path.getmtime(generator):
        os.makedirs(OUT, exist_ok=True)
        with open(path + ".part", "wb") as file:
            subprocess.run([sys.executable, generator, kind, str(size), str(SEED)], stdout=file, check=True)
        os.replace(path + ".part", path)
    return path


def recording_for(kind):
    """What the servers serve where this kind of requests comes."""
    return make_input("recording", MOMENTS) if kind == "stopped" else os.path.join(TOP, "examples", "a.json")


def made_at(path):
    return time.strftime("%Y-%m-%d %H:%M", time.localtime(os.path.getmtime(path)))


def framing_in_c():
    """Where `c/frames.c` is, which is compiled here over the library for C, and when that was made."""
    folder = os.path.abspath(os.environ.get("YARNTAUPE_C") or os.path.join(TOP, "out", "c"))
    library, path, compiler = os.path.join(folder, "libyarntaupe.a"), os.path.join(OUT, "frames_c"), os.environ.get("CC", "cc")
    if not os.path.isfile(library):
        raise Missing("there is no %s; make it by `scripts/make-c`, or set YARNTAUPE_C to its folder" % library)
    if shutil.which(compiler) is None:
        raise Missing("there is no " + compiler)
    os.makedirs(OUT, exist_ok=True)
    words = [compiler, "-std=c11", "-O2", "-I" + folder, os.path.join(HERE, "c", "frames.c"), library, "-o", path]
    if subprocess.run(words).returncode != 0:
        raise Missing("`%s` fails" % " ".join(words))
    return path, made_at(library)


def program_path(name):
    """Where a program is, and when it was made."""
    if name == "frames_c":
        return framing_in_c()
    variable, defaults, made_by = PROGRAMS[name]
    named = os.environ.get(variable)
    paths = [os.path.abspath(named)] if named else [os.path.join(TOP, path) for path in defaults]
    for path in paths:
        if os.path.isfile(path) and os.access(path, os.X_OK):
            return path, made_at(path)
    raise Missing("there is no %s; make it by `%s`, or set %s" % (named or defaults[-1], made_by, variable))
