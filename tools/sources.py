"""What the tools read in the crates: public calls, functions with their contracts, declared records, definitions, claims.

`check-docs` and `reading` import it.
"""
import collections
import pathlib
import re
import shutil

HERE = pathlib.Path(__file__).resolve().parent.parent

# The crate whose public functions are the C interface. What is exported to C elsewhere, as from the static library, has to be one of them.
INTERFACE = "capi"

# Document 01, "What the store calls", and what requests add to it.
CALLS = {
    "cipher": ["encipher", "decipher"],
    "lists": ["prepare"],
    "engine": ["run"],
    "holder_from_key": ["make", "straight"],
    "holder_steps": ["forward", "back", "subkey"],
    "holder_walk": ["walk"],
    "roll": ["empty"],
    "roll_changes": ["enter", "withdraw", "change_right"],
    "issuing": ["issue"],
    "checking": ["check"],
    "queue": ["check"],
    "sealing": ["seal"],
    "opening": ["open"],
}

# A function: what stands before its name on the line, its name, the words of its contract's clauses, the comment above it, and its signature
# with its contract as they stand.
Function = collections.namedtuple("Function", "before name clauses comment contract")

# A struct or enum of src/: its file, the comment above it, and the declaration as it stands.
Record = collections.namedtuple("Record", "path comment declaration")

# A definition of specs/: its name, the line that gives its type, and the paragraph that it stands in.
Definition = collections.namedtuple("Definition", "name line paragraph")


def text(path):
    return path.read_text(encoding="utf-8")


def crate_of(path):
    """The crate that a file of specs/ or src/ belongs to."""
    parts = path.parts
    return parts[max(n for n, part in enumerate(parts) if part in ("specs", "src")) - 1]


def in_crates(root):
    """All files and folders of the crates, but for the folder out/ of each, in which rt keeps its work."""
    for crate in sorted((root / "crates").iterdir()):
        yield crate
        for part in (part for part in sorted(crate.iterdir()) if part.name != "out"):
            yield from [part, *part.rglob("*")]


def copied(room):
    """A copy of what the tools look at."""
    for part in ("crates", "docs", "include", "hosts", "tools", "reference"):
        shutil.copytree(HERE / part, room / part, ignore=shutil.ignore_patterns("target", "out"))
    shutil.copy(HERE / "README.md", room)
    return room


# ---- src/


def closing(code, start, opening, close):
    """The place after the bracket that closes the one at start."""
    depth = 0
    for at in range(start, len(code)):
        depth += (code[at] == opening) - (code[at] == close)
        if depth == 0:
            return at + 1
    return len(code)


def without_comments(whole):
    """Code with spaces where comments stand, so that places in it are places in the file."""
    return re.sub(r"//.*", lambda found: " " * len(found[0]), whole)


def comment_above(whole, start):
    """The comment on the lines before a place, without its marks; attributes may stand between, with comments of their own within them."""
    lines, attribute = [], False
    for line in reversed(whole[:start].splitlines()):
        line = line.strip()
        attribute = (attribute or line.endswith(")]")) and not line.startswith("#[")
        if line.startswith("//") and not attribute:
            lines.append(line[2:].strip())
        elif not (attribute or line.startswith("#[")):
            break
    return " ".join(reversed(lines))


def functions(path):
    """Each function of a file."""
    whole = text(path)
    code = without_comments(whole)
    for found in re.finditer(r"^([^\n]*?)\bfn (\w+)\s*(?:<[^>]*>)?\(", code, re.M):
        at = closing(code, found.end() - 1, "(", ")")
        clauses = []
        while True:
            brace = code.find("{", at)
            words = re.findall(r"\b(?:requires|ensures)\b", code[at : brace if brace >= 0 else len(code)])
            clauses += words
            if brace < 0 or not words:
                break
            at = closing(code, brace, "{", "}")
        contract = whole[found.start() : brace if brace >= 0 else len(whole)].rstrip()
        yield Function(found[1].strip(), found[2], clauses, comment_above(whole, found.start()), contract)


def source_files(root, crate="*"):
    """The files of src/, of one crate or of all, each crate's lib.rt first."""
    return sorted((root / "crates").glob(f"{crate}/src/**/*.rt"), key=lambda path: (crate_of(path), path.name != "lib.rt", path))


def exported(function):
    """Is it exported to C?"""
    return 'extern "C"' in function.before


def interface(root):
    """The calls of the C interface, by name."""
    return {f.name: f for path in source_files(root, INTERFACE) for f in functions(path) if f.before.startswith("pub")}


def records(root):
    """The structs and enums of src/, by crate and name."""
    found = {}
    for path in source_files(root):
        whole = text(path)
        for at in re.finditer(r"^pub (?:struct|enum) (\w+)[^{;]*\{", without_comments(whole), re.M):
            declaration = whole[at.start() : closing(whole, at.end() - 1, "{", "}")]
            found[crate_of(path), at[1]] = Record(path, comment_above(whole, at.start()), declaration)
    return found


# ---- specs/


def specs_files(root):
    return sorted((root / "crates").glob("*/specs/**/*.antt"))


def definitions(path):
    """The public definitions of a file; a record's fields are none."""
    for paragraph in re.split(r"\n(?:[ \t]*\n)+", text(path)):
        for line in paragraph.splitlines():
            found = re.match(r"( *)(\w+ )?pub (record |data )?([^\s:]+)", line)
            if found and (not found[1] or found[2] or found[3]) and found[4] not in ("mod", "use"):
                yield Definition(found[4], line, paragraph)


def claims(path):
    """The claims of a file, or its lemmas: named types; and where only claims or lemmas stand, records without parameters."""
    form = "unfoldable pub|pub record" if path.stem in ("Claims", "Lemmas") else "unfoldable pub"
    return re.findall(rf"^(?:{form}) ([A-Z]\w*) : Type", text(path), re.M)
