"""check.py CLAIMS PAGE..: every name on the pages and in the must-fail edits exists, and the page of claims leaves nothing out.

`crate/specs/File.antt#name`, or so of proofs/, or `crate/src/file.rt#name` is a name that the file under crates/ declares, and `crate/specs/File.antt` such a
file; `edit crate/label` is a mistake that a must-fail edit tries; `name/path` that begins with a folder at the root is a path. The page of claims has a
row for each refusal that can be given and names every mistake. The place where a mistake must be refused is such a name of its crate.
"""
import pathlib
import re
import sys

# no __pycache__ beside the scripts
sys.dont_write_bytecode = True
sys.path.insert(0, "tools")
from edits import edits, mistakes
from repository import crates

CRATES = pathlib.Path("crates")
REFUSALS = [*range(1, 16), 19, 22]
PATH = r"(?:crates|tests|tools|docs|examples|include|bench|\.ci)(?:/[\w.-]+)*/?"


# every mistake, and by its crate and its label
MISTAKES = [mistake for crate in crates() for file in edits(crate) for mistake in mistakes(file)]
TRIED = {f"{mistake.crate}/{mistake.label}": mistake for mistake in MISTAKES}


def declares(file, name):
    """Whether a file declares a name, or a field `Record.field` of a record that it declares."""
    text = file.read_text(encoding="utf-8")
    if file.suffix == ".rt":
        return re.search(rf"\b(?:fn|struct|enum) {re.escape(name)}\b", text)
    record, _, field = name.partition(".")
    if field:
        body = re.search(rf"^pub record {re.escape(record)}[ (].*?(?=^\S|\Z)", text, re.M | re.S)
        return body and re.search(rf"^  pub {re.escape(field)} ", body[0], re.M)
    if re.search(rf"^pub ruleset {re.escape(name)} ", text, re.M):
        return True
    return re.search(rf"^\s*(?:unfoldable |abbrev )?(?:pub )?(?:record |data )?{re.escape(name)} [:({{]", text, re.M)


def problem_of(word):
    """What is wrong with a word of a page in code type, none where it is right, False where it names nothing."""
    if word.startswith("edit "):
        return None if word[5:] in TRIED else "no such edit"
    if "#" in word or re.fullmatch(r"\w+/(?:specs|proofs|src)/[\w/]+\.(?:antt|rt)", word):
        path, _, name = word.partition("#")
        file = CRATES / path
        if not file.is_file():
            return "no such file"
        return None if not name or declares(file, name) else "no such name"
    if re.fullmatch(PATH, word):
        return None if pathlib.Path(word).exists() else "no such path"
    return False


def left_out(claims):
    """The mistakes and the refusals that the page of claims has not, and the places of mistakes that are not there."""
    if len(TRIED) < len(MISTAKES):
        yield "two mistakes of one crate have the same label"
    for name, mistake in TRIED.items():
        if f"`edit {name}`" not in claims:
            yield f"not on the page: edit {name}"
        if problem_of(f"{mistake.crate}/{mistake.place}") is not None:
            yield f"no such place: {mistake.place}, where edit {name} must be refused"
    for number in REFUSALS:
        if not re.search(rf"^\| {number} \|", claims, re.M):
            yield f"no row for refusal {number}"


def main(pages):
    problems, names = [], 0
    for page in pages:
        for word in re.findall(r"`([^`\n]+)`", page):
            problem = problem_of(word)
            names += problem is not False
            if problem:
                problems.append(f"{problem}: {word}")
    problems += left_out(pages[0])
    for problem in problems:
        print(problem)
    print(f"claims: {names} names on {len(pages)} pages, {len(problems)} wrong")
    return 1 if problems or not names else 0


if __name__ == "__main__":
    sys.exit(main([pathlib.Path(page).read_text(encoding="utf-8") for page in sys.argv[1:]]))
