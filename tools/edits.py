"""The must-fail edits of a crate: which mistakes they make, where each must be refused, and what a log says of them."""
import pathlib
import re
from typing import NamedTuple

from repository import short

# an error, or the note that says what `search` did not prove of a function
ERROR = re.compile(r"^(?:note: )?(?:\./)?(\S+?):(\d+):\d+: (error.*|it is not proved.*)", re.M)
UNANSWERED = re.compile(r"^fn \S+: no proof: expected answers in (?:\./)?(\S+); (`search` did not prove .*)", re.M)

# what is said of a name, of a proof that answers other goals, of what only follows, and where the prover stopped; a refused fact begins with the declaration
NAMES = "not in scope|cannot be named|can be named from here|has no field|has no module|is ambiguous|unknown-name"
# an answer that reads a place which the code has no more is of the second kind too: its record is named, and the rest stands on the next line
NEEDS = r": record `[^`]*\.Lts\."
FOLLOWS = "not admitted|was rejected|declarations? that depends? on"
LIMIT = "antt ran out of|outgrew the memory limit|stopped at the step limit|gave up at one of its limits"
FACT = "`[^`]*`: (?!this clause)|it is not proved|`search` did not prove"

# of a goal that was left to `search`, and that no values are known to make false
UNPROVED = re.compile("(?:it is not proved|`search` did not prove)(?!.*this goal is false)")

# a log that begins so says why nothing was tried
UNTRIED = "not tried: "


class Mistake(NamedTuple):
    """One wrong version: `place` is the declaration whose own proof must be refused, and `changes` has what it changes, each a file with its text and the
    new one. Beside what is wrong these are what follows it: an import, or in a proof the name of a goal, which has the number that a condition compares
    with."""

    crate: str
    edit: str
    label: str
    said: str
    place: str
    changes: list


class Error(NamedTuple):
    """One error of a log: the declaration where it stands, its text, and why it is no refused fact, if so."""

    place: str
    text: str
    why: str


def edits(crate):
    """The crate's files of edits."""
    return sorted(pathlib.Path("crates", crate, "must-fail").glob("*.edit"))


def mistakes(file):
    """The mistakes of a file, in its order: `# label: what is wrong`, then lines `refused:`, `file:`, `old:` and `new:`, the last two for each change."""
    found, label, said, place, name, old = [], "", "", "", "", ""
    for line in file.read_text(encoding="utf-8").split("\n"):
        key, _, text = line.partition(": ")
        if key in ("refused", "# refused"):
            place = text
        elif line.startswith("# "):
            label, said, place = key[2:], text, ""
        elif key == "file":
            name = text
        elif key == "old":
            old = text
        elif line.startswith("new:"):
            if not found or found[-1].label != label:
                found.append(Mistake(file.parts[1], file.stem, label, said, place, []))
            found[-1].changes.append((name, old, line[4:].removeprefix(" ")))
    return found


def changed(file):
    """The texts of the files that a file of edits changes, by their path in the crate, or why it cannot be made."""
    texts = {}
    for mistake in mistakes(file):
        for name, old, new in mistake.changes:
            source = pathlib.Path("crates", mistake.crate, name)
            if not source.is_file():
                return {}, f"there is no file {name}"
            text = texts.get(name) or source.read_text(encoding="utf-8")
            if not old or text.count(old) != 1:
                return {}, f"a text of {mistake.label} stands in {name} {text.count(old)} times, and not once"
            texts[name] = text.replace(old, new)
    return texts, None


def faults(file, tried):
    """What is wrong with the form of a file of edits. Where several mistakes share a run, each is in the body of a function of its own: the contracts
    stand, so none can refuse another's function."""
    if not tried:
        yield "no mistake"
    for mistake in tried:
        if not re.fullmatch("[a-z0-9-]+", mistake.label) or not mistake.said or not mistake.place:
            yield f"{mistake.label}: no line `# label: what is wrong`, or no line `refused:` behind it"
    if len(tried) == 1 and tried[0].label != file.stem:
        yield f"{tried[0].label}: the file of one mistake has its name"
    if len(tried) > 1:
        yield from shared_faults(tried)


def shared_faults(tried):
    for number, mistake in enumerate(tried):
        source, _, name = mistake.place.partition("#")
        if mistake.place in (earlier.place for earlier in tried[:number]):
            yield f"{mistake.label}: another mistake of this run is in {mistake.place}"
        text = body(pathlib.Path("crates", mistake.crate, source), name)
        if any((file != source or old not in text) and not file.startswith("proofs/") for file, old, _ in mistake.changes):
            yield f"{mistake.label}: what it changes is not in the body of {mistake.place}"


def functions(file):
    """The functions of a source file, in its order: the line where each begins, with its attributes, and its name."""
    lines = file.read_text(encoding="utf-8").split("\n")
    for number, line in enumerate(lines):
        head = re.match(r" *(?:pub(?:\(crate\))? )?(?:extern \"C\" )?fn (\w+)", line)
        if head:
            start = number
            while start > 0 and lines[start - 1].lstrip().startswith("#["):
                start -= 1
            yield start + 1, head[1]


def body(file, name):
    """The body of a function: from the brace that opens behind its contract to the one that closes it. Empty where there is none."""
    if not file.is_file():
        return ""
    found = re.search(rf"^( *)(?:pub(?:\(crate\))? )?(?:extern \"C\" )?fn {name}\b.*?(?:^\1|\) |> \w+ )\{{\n(.*?)^\1\}}", file.read_text(encoding="utf-8"), re.M | re.S)
    return found[2] if found else ""


def source_of(folder, inner):
    """The source file of the function whose proofs stand in a folder, named from `proofs`. The folder of a method names its type's module, and the method
    may stand in another."""
    *module, name = inner
    if module and module[-1][0].isupper():
        for file in sorted((folder / "src").rglob("*.rt")):
            text = file.read_text(encoding="utf-8")
            if re.search(rf"^impl\b.*\b{module[-1]}\b", text, re.M) and name in (function for _, function in functions(file)):
                return file.relative_to(folder).as_posix()
    root = "lib" if (folder / "src" / "lib.rt").exists() else "main"
    return f"src/{'/'.join(module) or root}.rt"


def place_of(crate, name, line, said):
    """The declaration where an error of an edited crate stands, as `src/file.rt#function`, `specs/File.antt#name` or `proofs/File.antt#name`. An edit
    changes no line's number."""
    folder, path = pathlib.Path("crates", crate), pathlib.PurePath(name)
    if path.parts[0] == "proofs" and path.name in ("Answers.antt", "Invariants.antt", "Proof.antt"):
        return f"{source_of(folder, path.parts[1:-1])}#{path.parts[-2]}"
    if path.parts[0] == "src":
        above = [function for start, function in functions(folder / name) if start <= line]
        return f"{name}#{above[-1]}" if above else name
    declared = re.match("error: `([^`]*)`: ", said)
    return f"{name}#{declared[1]}" if declared else name


def mark(said):
    """Why an error is no refused fact, if so."""
    for why, pattern in {"follows": FOLLOWS, "name": NAMES, "needs": NEEDS, "limit": LIMIT}.items():
        if re.search(pattern, said):
            return why
    return "" if re.match(FACT, said) else "parse"


def errors(crate, log):
    """The errors that the log of an edited crate has, in its order. Where a function's answers do not fit its goals, one of these may have lost its answer:
    that it is not proved then says nothing, unless it is false."""
    found = []
    for name, line, said in ERROR.findall(log):
        text = f"{name}:{line} {short(said.removeprefix('error: '))}"
        found.append(Error(place_of(crate, name, int(line), said), text, mark(said.removeprefix("error: "))))
    for name, said in UNANSWERED.findall(log):
        found.append(Error(place_of(crate, name, 0, said), f"{name} {said}", ""))
    unfit = {error.place for error in found if error.why in ("name", "needs")}
    found = [error._replace(why="needs") if error.place in unfit and UNPROVED.search(error.text) else error for error in found]
    unproved = re.search("^fn .*: (?:no proof|not proved).*", log, re.M)
    if not found and unproved:
        found.append(Error("", short(unproved[0]), "needs"))
    return found


def verdict(mistake, found):
    """What refused a mistake, among the errors of its run, and why that is worth nothing, if so. A fact that is refused at the mistake's own place
    counts; the first error at all is what shows why there is none."""
    own = [error for error in found if error.place == mistake.place]
    for error in own:
        if not error.why:
            return error.text, ""
    if own:
        return own[0].text, own[0].why
    if found:
        return found[0].text, found[0].why or "elsewhere"
    return "no error", "unrefused"
