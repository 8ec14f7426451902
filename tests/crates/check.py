"""check.py: the rooms of the repository, by the text of its files. Run at the root.

The comment that opens a library's src/lib.rt has a line that begins "// Public:" or "// Internal:", and the README's table of crates
says the same; a program is called one there. In a public crate no `pub` function has a `requires`, and each has an `ensures`. Functions
for the crate's own modules alone are `pub(crate)`.
"""
import pathlib
import re
import sys

# no __pycache__ beside the scripts
sys.dont_write_bytecode = True
sys.path.insert(0, "tools")
from repository import crates

HEAD = re.compile(r'^(?P<indent> *)(?P<pub>pub )?(?:extern "C" )?fn (?P<name>\w+)')
CLAUSE = re.compile(r"^ *(requires|ensures)\b", re.M)
ROW = re.compile(r"^\| (?P<names>`\w+`(?:, `\w+`)*) \| (?P<kind>\w+) \|", re.M)


def kind_of(crate):
    """public, internal or program, by the crate's root file; none where it does not say."""
    root = pathlib.Path("crates", crate, "src", "lib.rt")
    if not root.exists():
        return "program"
    opening = re.match(r"(?://.*\n)*", root.read_text(encoding="utf-8"))[0]
    said = re.findall(r"^// (Public|Internal):", opening, re.M)
    return said[0].lower() if len(said) == 1 else None


def public_functions(file):
    """The name and the contract of each `pub` function of a file."""
    lines = file.read_text(encoding="utf-8").splitlines()
    for start, line in enumerate(lines):
        head = HEAD.match(line)
        if head and head["pub"]:
            # each clause stands in lines of its own, and ends with its brace
            end = start
            while not lines[end].rstrip().endswith("{"):
                end += 1
            yield head["name"], "\n".join(lines[start : end + 1])


def main():
    problems, functions = [], 0
    told = {}
    for row in ROW.finditer(pathlib.Path("README.md").read_text(encoding="utf-8")):
        for name in re.findall(r"\w+", row["names"]):
            told[name] = row["kind"]
    listed = crates()
    for crate in listed:
        kind = kind_of(crate)
        if kind is None:
            problems.append(f"{crate}: src/lib.rt does not say whether it is public or internal")
        if told.get(crate) != kind:
            problems.append(f"{crate} is {kind}, and the README's table says {told.get(crate)}")
        if kind != "public":
            continue
        for file in sorted(pathlib.Path("crates", crate, "src").rglob("*.rt")):
            for name, contract in public_functions(file):
                functions += 1
                clauses = CLAUSE.findall(contract)
                if "requires" in clauses:
                    problems.append(f"{file}: {name} is public and has a requires")
                if "ensures" not in clauses:
                    problems.append(f"{file}: {name} is public and has no ensures")
    for crate in told:
        if crate not in listed:
            problems.append(f"the README's table has {crate}, which crates.txt has not")
    for problem in problems:
        print(problem)
    print(f"crates: {len(listed)} listed, {functions} public functions, {len(problems)} wrong")
    return 1 if problems or not functions else 0


if __name__ == "__main__":
    sys.exit(main())
