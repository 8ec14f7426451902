"""What the scripts in this folder share: their words, the root of the repository and its crates, and the check of one crate."""
import contextlib
import fcntl
import functools
import hashlib
import os
import pathlib
import re
import signal
import subprocess
import sys

# a reader of what is printed, such as head, may stop before the end
signal.signal(signal.SIGPIPE, signal.SIG_DFL)

# the folders of a crate that its check reads
PARTS = ("src", "specs", "proofs")


def words(use, least, most):
    """The words of the command line. --help prints the use; the first line of it is all that a wrong number of words prints."""
    given = sys.argv[1:]
    if given in (["--help"], ["-h"]):
        print(use.strip())
        sys.exit()
    if not least <= len(given) <= most:
        sys.exit("usage: " + use.strip().split("\n")[0])
    return given


def go_to_root():
    """The root is the nearest folder with a crates.txt, in or above the working folder, as for rt."""
    here = pathlib.Path.cwd()
    for folder in (here, *here.parents):
        if (folder / "crates.txt").is_file():
            os.chdir(folder)
            return
    sys.exit("no crates.txt in this folder or above it")


@functools.lru_cache
def listed():
    """Each crate of crates.txt, in its order, with the words behind its name and the libraries that it uses."""
    lines = pathlib.Path("crates.txt").read_text(encoding="utf-8").split("\n")
    heads = [(head.split(), libraries.split()) for head, colon, libraries in (line.split("#")[0].partition(":") for line in lines) if colon]
    return {name: (kind, libraries) for (name, *kind), libraries in heads}


def crates():
    """The crates of the repository, as crates.txt lists them."""
    return list(listed())


def need_crate(name):
    if name not in crates():
        sys.exit(f"no crate {name}: crates.txt lists {', '.join(crates())}")


@functools.lru_cache
def below(crate):
    """The crates of the repository that a crate is built on, each after those that it uses itself."""
    found, every = [], listed()
    for name in every[crate][1]:
        if name in every:
            found += [other for other in (*below(name), name) if other not in found]
    return found


@functools.lru_cache
def toolchain():
    """The folder of the toolchain."""
    return pathlib.Path(subprocess.run(["rt", "doc"], stdout=subprocess.PIPE, text=True, check=True).stdout.strip()).parent


def rattle_words(crate):
    """The words of `rattle check` and `rattle build` for a crate, as rt gives them in the crate's folder. They serve in a copy of it too. Each library
    of the repository is taken as it was built last, so see first that it is not stale."""
    every, kit = listed(), toolchain()
    kind, libraries = every[crate]
    root = "main" if pathlib.Path("crates", crate, "src", "main.rt").exists() else "lib"
    found = ["--crate-name", crate, f"src/{root}.rt", "-L", f"dependency={kit}/rlibs"]
    for name in ["std", *libraries]:
        built = pathlib.Path("crates", name, "out", "rlib").resolve() if name in every else kit / "rlibs"
        found += ["--extern", f"{name}={built}/{name}.rlib"]
    for name in below(crate):
        found += ["-L", f"dependency={pathlib.Path('crates', name, 'out', 'rlib').resolve()}"]
    found += ["--antt-project", f"{kit}/rattle/logic/antt-project.json", "--logic-built", f"{kit}/logic_built", "--jobs", "1", "--links", f"{crate}="]
    return found + ["--crate-type", "staticlib"] * ("staticlib" in kind)


@functools.lru_cache
def own_sum(crate):
    """A sum of the files of a crate that its check reads."""
    found = hashlib.sha256()
    for part in PARTS:
        for file in sorted(pathlib.Path("crates", crate, part).rglob("*")):
            if file.is_file():
                found.update(repr((str(file), file.read_bytes())).encode())
    return found.hexdigest()


@functools.lru_cache
def sum_of(crate):
    """A sum of all that the check of a crate reads: the toolchain's name, its line in crates.txt, its files and those of the crates below it."""
    version = subprocess.run(["rt", "version"], stdout=subprocess.PIPE, text=True, check=True).stdout
    return hashlib.sha256(repr([version, listed()[crate], *map(own_sum, (*below(crate), crate))]).encode()).hexdigest()


@contextlib.contextmanager
def alone(name):
    """Waits while another process is at the same work."""
    pathlib.Path("target").mkdir(exist_ok=True)
    with open(f"target/{name}.lock", "w", encoding="utf-8") as lock:
        fcntl.flock(lock, fcntl.LOCK_EX)
        yield


def build(file, crate, make):
    """Has `make` write a file that is built of a crate, unless it is there for the sources as they stand. Processes that run side by side ask for it at
    once."""
    made, wanted = file.with_name(f"{file.name}.made"), sum_of(crate)
    with alone(file.name):
        if file.exists() and made.exists() and made.read_text(encoding="utf-8") == wanted:
            return
        made.unlink(missing_ok=True)
        file.parent.mkdir(parents=True, exist_ok=True)
        make()
        made.write_text(wanted, encoding="utf-8")


def run_in(crate, *command, given=subprocess.DEVNULL):
    """Runs a command in a crate's folder. Where it fails, the script ends with what it said."""
    how = {"stdin": given, "stdout": subprocess.PIPE, "stderr": subprocess.STDOUT, "text": True, "errors": "replace"}
    run = subprocess.run(command, cwd=f"crates/{crate}", **how)
    if run.returncode:
        sys.exit(f"{run.stdout}{' '.join(command[:2])} failed in crates/{crate}")


def checked(crate, *options):
    """The lines that `rt check` prints of a crate, with paths as from the root. Where it did not come to the proofs, the script ends."""
    run = subprocess.run(["rt", "check", *options], cwd=f"crates/{crate}", stdin=subprocess.DEVNULL, stdout=subprocess.PIPE, stderr=subprocess.STDOUT, text=True)
    lines = run.stdout.rstrip("\n").split("\n")
    if not any(re.match("(logic|holes|started|generated)=", line) for line in lines):
        sys.exit("\n".join([*(cut(line, 300) for line in lines[-20:]), f"the check did not come to the proofs of {crate}"]))
    return [re.sub(r"^((?:note: |warning: |wrote )?)(?:\./)?((?:src|specs|proofs)/)", rf"\1crates/{crate}/\2", line) for line in lines]


def cut(text, length):
    return text if len(text) <= length else text[:length] + " .."


def short(text):
    """A term or a message with names for their paths: `length` for `lib.ListN.length`. A first part alone stays, as in `goal.Start`, and so does what an
    answer cites, as `c.args.top`."""
    return re.sub(r"(?<![\w·⟦⟧'.-])(?:[A-Z][\w·⟦⟧'-]*\.|[\w·⟦⟧'-]+\.(?=[A-Z]))(?:[\w·⟦⟧'+-]+\.)+(?=[^\s.])", "", text)
