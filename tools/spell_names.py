"""spell_names.py: brings the repository's own definitions and lemmas to the spelling of today's Rattle, once, after its port.py.

A definition or lemma of specs/ or proofs/*.antt, a field of a record or a constructor is written in words of lower case joined by `_`. Functions of src/,
types and modules keep their names. A name that would fall together with another of its files gets `_lem`. What a comment says of a name follows.
"""
import collections
import pathlib
import re
import sys

DECLARED = re.compile(r"^(?P<indent> *)(?:abbrev |unfoldable )?(?:pub )?(?:abbrev |unfoldable )?(?P<names>[^\s:{}()\[\].,;=]+(?: [^\s:{}()\[\].,;=]+)*?) :(?=\s|$)")
TOKEN = re.compile(r"[^\s(){}\[\].,;:\"⌜⌝]+")
# lemmas that port.py respelled already, and that would fall together with the definition that they are about
LEMMAS = {
    "box_in": ["table_rules/specs/Meaning.antt", "table_passes/specs/State.antt"],
    "move_in": ["table_rules/specs/Meaning.antt", "table_passes/specs/State.antt"],
    "too_many": ["model/specs/Theorems.antt", "table_passes/specs/Steps.antt"],
}
KEYWORDS = {"pub", "record", "data", "use", "where", "let", "in", "elim", "as", "abbrev", "unfoldable", "unfolding", "module", "open", "ghost"}


def respelled(name):
    """Lower case words joined by `_`; a name that begins with a capital is a type, or a lemma on one, and keeps it."""
    if not re.fullmatch(r"[A-Za-z][A-Za-z0-9_'-]*", name):
        return name
    head, rest = name[0], name[1:]
    if head.isupper():
        return name
    words = re.sub(r"(?<=[a-z0-9])([A-Z])", lambda m: "_" + m[1].lower(), rest).replace("-", "_")
    return head + re.sub("_+", "_", words)


def sources():
    for pattern in ("specs/**/*.antt", "proofs/**/*.antt", "src/**/*.rt"):
        yield from sorted(pathlib.Path("crates").glob(f"*/{pattern}"))


def is_own(path):
    """Files of definitions and lemmas; a folder of proofs/ belongs to one function, and its names are goals."""
    return path.parts[2] == "specs" or (path.parts[2] == "proofs" and len(path.parts) == 4)


def declared(path):
    for line in path.read_text(encoding="utf-8").split("\n"):
        found = DECLARED.match(line)
        if found and not line.lstrip().startswith("--"):
            for name in found["names"].split(" "):
                if name not in KEYWORDS:
                    yield name


def split_comment(line, rust):
    """The line without its comment, and the comment."""
    mark = "//" if rust else "--"
    at = 0
    while True:
        at = line.find(mark, at)
        if at < 0:
            return line, ""
        if line.count('"', 0, at) % 2 == 0 and (at == 0 or line[at - 1] in " \t"):
            return line[:at], line[at:]
        at += 1


def tokens(path):
    """The words of a file that may mean something else than a declaration: no part of a path; of code, only the parameters."""
    rust = path.suffix == ".rt"
    found = set()
    for line in path.read_text(encoding="utf-8").split("\n"):
        code = split_comment(line, rust)[0]
        if rust:
            found.update(re.findall(r"\b(\w+): &?(?:mut )?[\[\w]", code))
            code = code if code.lstrip().startswith(("ghost use", "requires", "ensures")) else ""
        for token in TOKEN.finditer(code):
            if code[token.end() : token.end() + 1] != "." or token.start() == 0 or code[token.start() - 1] not in ".":
                if not (token.start() and code[token.start() - 1] == "." and not code.lstrip().startswith("use")):
                    found.add(token[0])
    return found


def renamed(text, names, rust, in_comments):
    """The text with every name of the map that stands as a whole token."""
    lines = []
    for line in text.split("\n"):
        if foreign_line(line) is not None:
            lines.append(line)
            continue
        code, comment = split_comment(line, rust)
        code = TOKEN.sub(lambda m: names.get(m[0], m[0]), code)
        comment = re.sub(r"[A-Za-z][\w'-]*", lambda m: in_comments.get(m[0], m[0]), comment)
        lines.append(code + comment)
    return "\n".join(lines)


def local(path, token):
    """Whether a file binds this word itself."""
    text = path.read_text(encoding="utf-8")
    return re.search(rf"(?:λ|let|\(|^)[^=→]*(?<![\w.'-]){token}(?![\w.'-])[^=→]*(?:\.|=|:)", text, re.M) is not None


FOREIGN = re.compile(r"^ *(?:ghost )?(?:pub )?use ([^\s{;]+)\.\{([^}]*)\}")


def foreign_line(line):
    """The names of a line that takes them from a library of the toolchain, or None."""
    found = FOREIGN.match(line)
    if not found:
        return None
    parts = found[1].split(".")
    if parts[0] == "Rattle" and pathlib.Path("crates", parts[1]).is_dir():
        return None
    return [name.strip() for name in found[2].split(",")]


def foreign(path):
    """The names that a file takes from a library under their own name."""
    found = set()
    for line in path.read_text(encoding="utf-8").split("\n"):
        found.update(name for name in foreign_line(line) or [] if " as " not in name)
    return found


def plan():
    """Which names change, and to what."""
    own = [path for path in sources() if is_own(path)]
    names, places = {}, collections.defaultdict(set)
    for path in own:
        for name in declared(path):
            places[name].add(path)
            if respelled(name) != name:
                names[name] = respelled(name)
    clashes = collections.defaultdict(set)
    for path in sources():
        here = tokens(path)
        if path.suffix == ".antt":
            here = {token for token in here if token in places or token in names or not re.fullmatch("[a-z_0-9]+", token) or local(path, token)}
        made = collections.defaultdict(set)
        for name in here & names.keys():
            made[names[name]].add(name)
        for new, olds in made.items():
            if len(olds) > 1 or new in here:
                for old in olds:
                    clashes[old].add((new, str(path), tuple(sorted(olds | ({new} & here)))))
    return names, clashes


def main():
    names, clashes = plan()
    fixed = {name: names[name] + "_lem" for name in clashes if "-" in name}
    if "--plan" in sys.argv:
        for old in sorted(clashes):
            for new, path, olds in sorted(clashes[old]):
                print(f"{old} -> {new} in {path}: {', '.join(olds)}")
        print(f"{len(names)} names change, {len(clashes)} fall together")
        return
    names.update(fixed)
    for lemma, files in LEMMAS.items():
        for file in files:
            path = pathlib.Path("crates", file)
            path.write_text(renamed(path.read_text(encoding="utf-8"), {lemma: lemma + "_lem"}, False, {}), encoding="utf-8")
    for path in sources():
        known = {name: names[name] for name in names.keys() - foreign(path)}
        change(path, lambda text: renamed(text, known, path.suffix == ".rt", known))
    for path in sorted(pathlib.Path("crates").glob("*/must-fail/*.edit")):
        change(path, lambda text: re.sub(r"(?m)^(refused: .*#)(.*)$", lambda m: m[1] + names.get(m[2], m[2]), text))
    for path in [pathlib.Path("README.md"), *sorted(pathlib.Path("docs").glob("*.md"))]:
        change(path, lambda text: re.sub("`[^`\n]*`", lambda m: in_page(m[0], names), text))


def change(path, turn):
    old = path.read_text(encoding="utf-8")
    new = turn(old)
    if new != old:
        path.write_text(new, encoding="utf-8")


def in_page(span, names):
    """A name in a page stands alone or behind the file of its declaration."""
    if span.startswith("`edit "):
        return span
    return re.sub(r"(?<=[`#( ])[A-Za-z][\w'-]*(?=[`,.) ])", lambda m: names.get(m[0], m[0]), span)


if __name__ == "__main__":
    main()
