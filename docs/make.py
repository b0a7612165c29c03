#!/usr/bin/env python3
"""Makes docs/PROMISES.md, docs/DEFINITIONS.md and the crate table of docs/ARCHITECTURE.md from the crates' READMEs, and
in each README the paragraph that says on which crates it stands and which stand on it, from crates.txt.

  docs/make.py            writes these files, then checks
  docs/make.py --check    writes nothing and only checks

The checks: a made file is as it would be made; each definition that code cites stands in a README's table; each row of
definitions names what stands in its file; each row of promises names functions and clauses that stand in the crate's
code; each caller stands word for word in the file that it is said to be from. What is wrong is printed, a line each,
and the status is then 1.
"""
import re
import sys
import textwrap
from functools import lru_cache
from pathlib import Path

ROOT = Path(__file__).resolve().parent.parent
DOCS = ROOT / "docs"
PARTS = {"PROMISES.md": "Promises", "DEFINITIONS.md": "Definitions"}
TABLE_BEGIN = "<!-- This table is made by docs/make.py from the first sentences of the crates' READMEs. -->"
TABLE_END = "<!-- Here it ends. -->"
LONGEST_CALLER = 20
MOST_NAMED = 12


# --- the crates and their READMEs ---

@lru_cache(None)
def crates():
    """Each crate of crates.txt, in its order, with the libraries that it stands on."""
    found = {}
    for line in (ROOT / "crates.txt").read_text("utf-8").splitlines():
        if line.strip() and not line.startswith("#"):
            name, _, below = line.partition(":")
            found[name.split()[0]] = below.split()
    return found


def readme_of(crate):
    return ROOT / "crates" / crate / "README.md"


@lru_cache(None)
def readme(crate):
    path = readme_of(crate)
    return path.read_text("utf-8") if path.exists() else ""


def section(text, heading):
    """What stands in a README under a heading of the second level, up to the next such heading."""
    found = re.search(rf"^## {heading}\n(.*?)(?=^## |\Z)", text, re.M | re.S)
    return found.group(1).strip() if found else ""


def rows(text):
    """The cells of each row of the tables in a text, without heads. A bar inside of a cell is written \\|."""
    found = []
    for line in text.splitlines():
        if not line.startswith("|"):
            continue
        cells = [cell.strip() for cell in re.split(r"(?<!\\)\|", line.strip()[1:-1])]
        if set(line) <= set("|- :"):
            found.pop()
        else:
            found.append(cells)
    return found


def marked(cell):
    """What stands between backticks in a cell."""
    return re.findall(r"`([^`]+)`", cell)


def listed(names):
    return ", ".join(f"`{name}`" for name in names)


def place_of(crate):
    """The paragraph that says on which crates a crate stands, and which stand on it."""
    below = crates()[crate]
    own = [name for name in below if name in crates()]
    kit = [name for name in below if name not in crates()]
    above = [name for name, libraries in crates().items() if crate in libraries]
    says = f"Stands on {listed(own) or 'no other crate'}"
    says += f", and of the kit on {listed(kit)}." if kit else "."
    if len(above) > MOST_NAMED:
        says += f" Used by {len(above)} crates."
    else:
        says += f" Used by {listed(above) or 'no other crate'}."
    return textwrap.fill(says, 120, break_long_words=False, break_on_hyphens=False)


def with_place(crate):
    """A crate's README with that paragraph as it should be."""
    return re.sub(r"^Stands on .*?(?=\n\n|\Z)", lambda _: place_of(crate), readme(crate), count=1, flags=re.M | re.S)


# --- the files that are made ---

def joined(name):
    """PROMISES.md or DEFINITIONS.md: its head, then the part of each crate's README."""
    pieces = [(DOCS / f"{Path(name).stem.lower()}_head.md").read_text("utf-8").strip()]
    for crate in crates():
        body = section(readme(crate), PARTS[name])
        if body:
            pieces.append(f"## {crate}\n\n{body}")
    return "\n\n".join(pieces) + "\n"


def first_sentence(crate):
    paragraph = readme(crate).split("\n\n")[1] if "\n\n" in readme(crate) else ""
    return re.split(r"\.\s+(?=[A-Z`])", " ".join(paragraph.split()))[0].rstrip(".")


def architecture():
    text = (DOCS / "ARCHITECTURE.md").read_text("utf-8")
    lines = ["| Crate | What it is |", "|---|---|"]
    lines += [f"| [{crate}](../crates/{crate}/README.md) | {first_sentence(crate)} |" for crate in crates()]
    table = "\n".join([TABLE_BEGIN, ""] + lines + ["", TABLE_END])
    return re.sub(rf"{re.escape(TABLE_BEGIN)}.*?{re.escape(TABLE_END)}", lambda _: table, text, flags=re.S)


def made():
    """Each file that is made, with its text."""
    files = {readme_of(crate): with_place(crate) for crate in crates() if readme(crate)}
    files.update({DOCS / name: joined(name) for name in PARTS})
    files[DOCS / "ARCHITECTURE.md"] = architecture()
    return files


# --- what stands in specs/ ---

@lru_cache(None)
def definitions(path):
    """The definitions of a specs file, each with what belongs to it: a record's fields, a datatype's cases."""
    found, owner = {}, None
    for line in (ROOT / "crates" / path).read_text("utf-8").splitlines():
        top = re.match(r"\s*(?:abbrev pub|unfoldable pub|pub data|pub record) (\S+)|pub (?!use)(\S+)", line)
        inner = re.match(r"\s+(?:pub )?(\S+) :", line)
        handed_on = re.match(r"pub use .*\.\{([^}]*)\}", line)
        if top:
            owner = top.group(1) or top.group(2)
            found.setdefault(owner, set())
        elif handed_on:
            found.update({name.strip(): set() for name in handed_on.group(1).split(",")})
        elif inner and owner:
            found[owner].add(inner.group(1))
    return found


def has_definition(path, name):
    """Whether a file under crates/ has this definition, or a field or a case of this name."""
    if not (ROOT / "crates" / path).exists():
        return False
    if path.endswith(".rt"):
        return re.search(rf"\bghost {re.escape(name)}\b", (ROOT / "crates" / path).read_text("utf-8")) is not None
    known = definitions(path)
    return name in known or any(name in inner for inner in known.values())


@lru_cache(None)
def all_records():
    """The fields and cases of each definition of all crates, by its name."""
    found = {}
    for path in sorted((ROOT / "crates").glob("*/specs/*.antt")):
        for name, inner in definitions(str(path.relative_to(ROOT / "crates"))).items():
            found.setdefault(name, set()).update(inner)
    return found


def citations():
    """Each definition of our own crates that code cites: its file, its name, and the file that cites it."""
    for path in sorted((ROOT / "crates").glob("*/src/*.rt")):
        text = path.read_text("utf-8")
        lines = re.finditer(r"ghost use Rattle\.(\w+)\.specs\.(\w+)(?:\.\{([^}]*)\})?(?: as (\w+))?;", text)
        for crate, file, names, alias in (line.groups() for line in lines):
            if crate not in crates():
                continue
            cited = [name.split(" as ")[0].strip() for name in (names or "").split(",")]
            if alias:
                cited += re.findall(rf"\b{alias}\.(\w+)", text)
            for name in filter(None, cited):
                yield f"{crate}/specs/{file}.antt", name, path.relative_to(ROOT)


# --- what stands in src/ ---

def block_end(text, start):
    """Where the block that begins with the brace at a place ends."""
    depth = 0
    for at in range(start, len(text)):
        depth += {"{": 1, "}": -1}.get(text[at], 0)
        if depth == 0:
            return at + 1
    return len(text)


class Function:
    """A function of a crate: what it belongs to (the names in the head of its impl, or its trait), its module, and its
    clauses by label."""

    def __init__(self, owner, is_of_trait, module, name, contract):
        self.owner, self.is_of_trait, self.module, self.name = owner, is_of_trait, module, name
        self.labels, self.clauses = set(), ""
        for clause in re.finditer(r"\bensures (\w+ )?(?=\{)", contract):
            self.labels.add((clause.group(1) or "").strip())
            self.clauses += " " + contract[clause.end():block_end(contract, clause.end())]


def functions_in(module, text):
    """The functions of a file, and the ghost members of its traits and impls."""
    text = re.sub(r"//[^\n]*", "", text)
    owners = {}
    for block in re.finditer(r"^(?:pub(?:\(crate\))? )?(trait|impl|struct)\b([^{;]*)\{", text, re.M):
        owners[(block.start(), block_end(text, block.end() - 1))] = block
    heads = list(re.finditer(r"\bfn (\w+)|\bghost (\w+)\s*[:=]\s*(?=\{)", text))
    for head, after in zip(heads, heads[1:] + [None]):
        block = next((block for (low, high), block in owners.items() if low < head.start() < high), None)
        is_of_trait = block is not None and block.group(1) == "trait"
        names = re.findall(r"\b[A-Z]\w*", block.group(2)) if block else []
        contract = text[head.start():after.start() if after else len(text)]
        owner = set(names[:1] if is_of_trait else names)
        found = Function(owner, is_of_trait, module, head.group(1) or head.group(2), contract)
        if head.group(2):
            found.labels.add(head.group(2))
            found.clauses = contract[:block_end(contract, contract.index("{"))]
        yield found


@lru_cache(None)
def functions(crate):
    found = []
    for path in sorted((ROOT / "crates" / crate / "src").glob("*.rt")):
        found += functions_in(path.stem, path.read_text("utf-8"))
    return found


@lru_cache(None)
def all_functions():
    return [function for crate in crates() for function in functions(crate)]


@lru_cache(None)
def types(crate):
    text = "\n".join(path.read_text("utf-8") for path in (ROOT / "crates" / crate / "src").glob("*.rt"))
    return set(re.findall(r"\b(?:struct|enum|trait|type) (\w+)", text))


def with_traits(found):
    """The functions, and those of the same names in the traits that their owners have."""
    more = [other for one in found for other in all_functions()
            if other.is_of_trait and other.name == one.name and one.owner & other.owner]
    return found + more


def functions_named(crate, word):
    """The functions that a word of a table names: `f`, `Type::f`, `module::f`, or all of a type or a trait."""
    before, _, name = word.rpartition("::")
    if before:
        return with_traits([function for function in functions(crate) if function.name == name
                            and (before in function.owner or before == function.module)])
    owned = [function for function in functions(crate) if word in function.owner]
    return with_traits(owned or [function for function in functions(crate) if function.name == word])


# --- the checks ---

def wrong_files():
    for path, text in made().items():
        if path.exists() and path.read_text("utf-8") == text:
            continue
        yield f"{path.relative_to(ROOT)}: it differs from what docs/make.py makes"


def wrong_readmes():
    for crate in crates():
        if not readme(crate):
            yield f"crates/{crate}: there is no README.md"
        elif not re.search(r"^Stands on ", readme(crate), re.M):
            yield f"crates/{crate}/README.md: no paragraph begins with 'Stands on'"


def wrong_definitions():
    tabled = set()
    for crate in crates():
        for cells in rows(section(readme(crate), "Definitions")):
            if len(cells) != 3:
                yield f"crates/{crate}/README.md: '{cells[0][:50]}': the row has not three cells"
                continue
            files = cells[1].split(", ")
            for name in marked(cells[0]):
                tabled.update((file, name) for file in files)
                if not any(has_definition(file, name) for file in files):
                    yield f"crates/{crate}/README.md: {', '.join(files)} has no definition `{name}`"
    told = set()
    for file, name, citing in citations():
        if (file, name) in tabled or (file, name) in told or not (ROOT / "crates" / file).exists():
            continue
        owners = [owner for owner, inner in definitions(file).items() if name in inner]
        if not any((file, owner) in tabled for owner in owners):
            told.add((file, name))
            yield f"{citing}: it cites `{name}` of {file}, which is in no README's table"


def wrong_promise(crate, cells):
    """What is wrong with a row of promises."""
    where = f"crates/{crate}/README.md: '{cells[0][:50]}'"
    found, alone = [], []
    for word in marked(cells[1]):
        named = functions_named(crate, word)
        if not named and word not in types(crate):
            yield f"{where}: crates/{crate}/src has no `{word}`"
        found += named
        alone.append((word, named))
    if not marked(cells[1]):
        yield f"{where}: it names no function"
    lone = re.search(r"the one `ensures`|lone clause|one each", cells[2])
    if not lone and not marked(cells[2]):
        yield f"{where}: it names no clause"
    without = [word for word, named in alone if named and not any("" in function.labels for function in named)]
    if lone and (len(without) == len(alone) or lone.group(0) == cells[2].strip("()") and without):
        yield f"{where}: {listed(without)} has no clause without a label"
    known = set().union(*(function.labels for function in found)) if found else set()
    known |= set(re.findall(r"\w+", " ".join(function.clauses for function in found)))
    known |= {inner for name in list(known) for inner in all_records().get(name, ())}
    known |= {word.rpartition("::")[2] for word in marked(cells[1])} | {"ensures"}
    for word in marked(cells[2]):
        record, _, field = word.partition(".")
        if field in all_records().get(record, ()) or ("::" in word and functions_named(crate, word)):
            continue
        for name in re.findall(r"\w+", word):
            if name not in known:
                yield f"{where}: no clause `{name}` stands at {cells[1]}"


def wrong_promises():
    for crate in crates():
        for cells in rows(section(readme(crate), "Promises")):
            if len(cells) != 3:
                yield f"crates/{crate}/README.md: '{cells[0][:50]}': the row has not three cells"
            else:
                yield from wrong_promise(crate, cells)


def stands_in(lines, text):
    """Whether the lines stand in the text one after another, all of them as far indented as each other there."""
    wanted = [line.rstrip() for line in lines]
    there = [line.rstrip() for line in text.splitlines()]
    for start in range(len(there) - len(wanted) + 1):
        part = there[start:start + len(wanted)]
        if textwrap.dedent("\n".join(part)) == textwrap.dedent("\n".join(wanted)):
            return True
    return False


def wrong_callers():
    for crate in crates():
        where = f"crates/{crate}/README.md"
        blocks = list(re.finditer(r"^From `?([^`\n]+?)`?:\n\n```\w*\n(.*?)^```", readme(crate), re.M | re.S))
        if readme(crate) and not blocks:
            yield f"{where}: it has no caller, a line 'From FILE:' and a block"
        if len(re.findall(r"^```", readme(crate), re.M)) != 2 * len(blocks):
            yield f"{where}: a block has no line 'From FILE:' in front"
        for path, body in (block.groups() for block in blocks):
            lines = body.rstrip("\n").split("\n")
            if len(lines) > LONGEST_CALLER:
                yield f"{where}: the caller has {len(lines)} lines, and at most {LONGEST_CALLER} are wanted"
            if not (ROOT / path).exists():
                yield f"{where}: there is no {path}"
            elif not stands_in(lines, (ROOT / path).read_text("utf-8")):
                yield f"{where}: its caller does not stand in {path}"


def main():
    if sys.argv[1:] not in ([], ["--check"]):
        sys.exit(__doc__)
    if not sys.argv[1:]:
        for path, text in made().items():
            path.write_text(text, "utf-8")
        readme.cache_clear()
    wrong = [line for check in (wrong_files, wrong_readmes, wrong_definitions, wrong_promises, wrong_callers)
             for line in check()]
    for line in wrong:
        print(f"docs: {line}")
    if not wrong:
        print(f"docs: tables of {len(crates())} crates as expected")
    sys.exit(1 if wrong else 0)


if __name__ == "__main__":
    main()
