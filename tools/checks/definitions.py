#!/usr/bin/env python3
"""Checks the definitions of the house against its documents.

    tools/checks/definitions.py             the table of promises with their lines
    tools/checks/definitions.py --reading   the files of the headline and of "What a RIM binds" in the order of reading, as docs/PROMISES.md lists them
    tools/checks/definitions.py --wide      the files of proofs with a line of more than 160 columns, as tools/checks/wide_proofs.txt lists them
    tools/checks/definitions.py --check     status 1 where something does not hold

A promise of docs/PROMISES.md names definitions, as `FILE.word`. Its number is how many lines of definitions one
has to believe for it: those that it names and all that they are made of, down to the kit's own words.
Comments, imports and empty lines do not count. Types and constants that are declared in src/ count in the lists for reading alone.

The check asks ten things:
1. each number of docs/PROMISES.md is the one that is counted here, and its lists for reading are those that are made here;
2. docs/ARCHITECTURE.md names each file of specs/, but for those in specs/inside/, which hold what loops and
   fields keep;
3. each definition of specs/ is named by a contract, or by a definition that is. What only proofs need belongs in
   proofs/;
4. each constant that docs/ARCHITECTURE.md names is a public one of its file;
5. no line of a contract has more than 100 columns;
6. no line of a proof has more than 160, but in the files that tools/checks/wide_proofs.txt names. These are older than the rule: the list
   only shrinks, so a file in it without such a line is a fault too;
7. each crate but those of tests has a table in docs/PROMISES.md, or a row that says why it has none;
8. no row is twice in docs/PROMISES.md or in docs/DEFINITIONS.md;
9. README.md and docs/PROMISES.md name exactly the kit's crates that crates.txt has among what is trusted;
10. each name with `_` or `::` and each file that stands in backquotes in README.md, docs/, bench/RESULTS.md and the comments of crates exists.
"""
import pathlib
import re
import sys

TOP = pathlib.Path(__file__).resolve().parents[2]
HEAD = re.compile(r"^(?:abbrev |unfoldable )*(?:pub )?(?:data |record )?([^\s:(]+)(?: :|[ ({].*: Type)")
WORD = re.compile(r"[^\s(){}\[\],;.∷×→λ≡]+(?:\.[^\s(){}\[\],;.∷×→λ≡]+)*")
USE = re.compile(r"^\s*(?:ghost )?(?:pub )?use Rattle\.(\w+)\.specs\.([\w.]+?)(?:\.\{([^}]*)\}| as (\w+))?;?\s*$", re.M)


def spec_files():
    """Each file of definitions: its crate, its place in specs/ with dots, its path."""
    for path in sorted(TOP.glob("crates/*/specs/**/*.antt")):
        parts = path.relative_to(TOP / "crates").parts
        yield parts[0], ".".join(parts[2:])[: -len(".antt")], path


def blocks(text):
    """The declarations of a file, as (name, lines)."""
    name, lines = None, []
    for line in text.splitlines():
        if not line.strip() or line.lstrip().startswith("--") or re.match(r"(pub )?(use|mod|infix\w*) ", line):
            continue
        head = HEAD.match(line)
        if head and not line.startswith(" ") and "=" not in line.split(":")[0]:
            if name:
                yield name, lines
            name, lines = head.group(1), []
        lines.append(line)
    if name:
        yield name, lines


def imported(text):
    """What a text brings in: single names, and files under another name."""
    names, files = {}, {}
    for crate, path, listed, alias in USE.findall(text):
        if listed:
            for name in filter(None, (name.strip() for name in listed.split(","))):
                there, _, here = name.partition(" as ")
                names[(here or there).strip()] = (crate, path, there.strip())
        else:
            files[alias or path.rsplit(".", 1)[-1]] = (crate, path)
    return names, files


def spoken(text):
    """The words of a text, but for the names of fields; a word after a file's name keeps it."""
    text = re.sub(r"--.*", " ", text)
    text = re.sub(r"^  pub \w+ :", " ", text, flags=re.M)
    text = re.sub(r"(\{|;|^ )\s*\w+ = ", r"\1 ", text, flags=re.M)
    return WORD.findall(text)


def resolved(word, names, files):
    """The declarations that a word may stand for."""
    first, _, rest = word.partition(".")
    if first in names:
        yield names[first]
    if first in files and rest:
        crate, path = files[first]
        yield crate, path, rest.split(".")[0]


def declarations():
    """Each declaration: how many lines it has, and the declarations that it names."""
    found, named = {}, {}
    for crate, place, path in spec_files():
        text = path.read_text()
        names, files = imported(text)
        own = dict(blocks(text))
        names.update({name: (crate, place, name) for name in own})
        for name, lines in own.items():
            key = crate, place, name
            found[key] = len(lines)
            named[key] = {k for w in spoken("\n".join(lines)) for k in resolved(w, names, files)} - {key}
    return {key: (count, named[key]) for key, count in found.items()}


def declared_lines(crate, name):
    """The file in src/ that declares a type or a constant, and its lines without comments and attributes."""
    head = re.compile(rf"^pub(?:\(crate\))? (?:(?:struct|enum) {name}\b[^;{{]*(?:;|\{{\}}|\{{.*?^}})|const {name}\b.*?;)$", re.M | re.S)
    for path in sorted((TOP / "crates" / crate / "src").rglob("*.rt")):
        found = head.search(path.read_text())
        if found:
            return path, [line for line in found.group(0).splitlines() if line.strip() and not re.match(r"\s*(//|#\[)", line)]
    return None, []


def source_types(known, keys):
    """The types and constants of src/ that these declarations name, and the types of their fields: (file, name) and its lines.

    A type whose values the contracts see by a view (`impl Model`) is left out: its view is among the declarations."""
    own, _ = used_crates()
    left = [(k[0], k[2]) for key in keys for k in known[key][1] if k[1].startswith("declared.")]
    found = {}
    while left:
        crate, name = left.pop()
        path, lines = declared_lines(crate, name)
        if path is None or (path, name) in found:
            continue
        text = path.read_text()
        if re.search(rf"^impl.* Model for {name}\b", text, re.M):
            continue
        found[path, name] = lines
        homes = dict.fromkeys(re.findall(r"^pub (?:struct|enum|const) (\w+)", text, re.M), crate)
        for home, listed, alone in re.findall(r"^use (\w+)::(?:\w+::)*(?:\{([^}]*)\}|(\w+));", text, re.M):
            homes.update(dict.fromkeys(re.split(r",\s*", (listed or alone).strip()), crate if home == "crate" else home))
        words = set(re.findall(r"\b[A-Z]\w+", " ".join(lines[1:]))) - {name}
        left += [(homes[word], word) for word in words if homes.get(word) in own]
    return found


def reached(known, keys):
    """These declarations and all that they are made of."""
    seen, left = set(), list(keys)
    while left:
        key = left.pop()
        if key in known and key not in seen:
            seen.add(key)
            left += known[key][1]
    return seen


def cited(known):
    """The declarations that the code names: in contracts, ghost fields, models, and types of the machine."""
    for path in sorted(TOP.glob("crates/*/src/**/*.rt")):
        text = path.read_text()
        names, files = imported(text)
        yield from (key for key in names.values() if key in known)
        for word in set(WORD.findall(text)):
            yield from (key for key in resolved(word, {}, files) if key in known)
        for crate, place, word in re.findall(r"crate::()specs::([\w:]+)::(\w+)", text):
            yield path.relative_to(TOP / "crates").parts[0], place.replace("::", "."), word


def pointed_at(known, crate, cell):
    """The declarations that a cell of the table names. `FILE` alone stands for all of the file."""
    place = None
    for whose, word in re.findall(r"(?:`(\w+)`'s )?`([^`]+)`", cell):
        home = whose or crate
        if "." in word:
            place, word = word.rsplit(".", 1)
        homes = [home] + sorted({k[0] for k in known} - {home})
        for at in homes:
            keys = [k for k in known if k == (at, place, word)] or [k for k in known if k[:2] == (at, word)]
            if keys:
                yield from keys
                break


def promises(known):
    """Each promise: its crate, what it names, the number that is written, the number that is counted."""
    crate, keys = None, []
    for line in (TOP / "docs/PROMISES.md").read_text().splitlines():
        if line.startswith("## "):
            crate = line[3:].strip()
        cells = [cell.strip() for cell in line.strip().strip("|").split(" | ")]
        if not line.startswith("| ") or len(cells) < 4 or cells[0] == "Promise":
            continue
        keys = keys if cells[1].startswith("the same") else []
        keys = keys + list(pointed_at(known, crate, cells[1]))
        counted = str(sum(known[key][0] for key in reached(known, keys))) if keys else ""
        yield crate, cells[1], cells[3], counted


# The crate whose bold promise is "What a RIM binds" of docs/PROMISES.md. The other bold promises are the headline.
BINDING = "rim_binding"


def bold(known, is_binding):
    """What the bold promises of docs/PROMISES.md name: those of the headline, or that of what a RIM binds."""
    crate = None
    for line in (TOP / "docs/PROMISES.md").read_text().splitlines():
        if line.startswith("## "):
            crate = line[3:].strip()
        if line.startswith("| **") and (crate == BINDING) == is_binding:
            yield from pointed_at(known, crate, line.split(" | ")[1])


def in_order(known, roots, keys):
    """The files of these declarations, each before those that it is made of."""
    below = {}
    for key in keys:
        below.setdefault(key[:2], set()).update(k[:2] for k in known[key][1] & keys if k[:2] != key[:2])
    order, seen = [], set()

    def visit(file):
        if file not in seen:
            seen.add(file)
            for other in sorted(below.get(file, ()), reverse=True):
                visit(other)
            order.insert(0, file)

    for key in sorted(roots, reverse=True):
        visit(key[:2])
    return order


def first_sentence(text, mark):
    """The first sentence of the comment at the top of a file."""
    lines = re.match(rf"(?:{mark} .*\n)+", text).group(0).splitlines()
    whole = " ".join(line[len(mark) + 1:] for line in lines).strip()
    return re.match(r"(.*?)(?:\. |\.?$)", whole).group(1)


def rows(known, roots, keys, types):
    """The rows of a list for reading, without its sums: the files of the definitions and then those of src/, with what each holds."""
    counts = {}
    for key in keys:
        counts[key[:2]] = counts.get(key[:2], 0) + known[key][0]
    for crate, place in in_order(known, roots, keys):
        file = f"{crate}/specs/{place.replace('.', '/')}.antt"
        yield f"| `{file}` | {counts[crate, place]} | {first_sentence((TOP / 'crates' / file).read_text(), '--')} |"
    sources = {}
    for (path, _), lines in types.items():
        sources[path] = sources.get(path, 0) + len(lines)
    for path, count in sorted(sources.items()):
        yield f"| `{path.relative_to(TOP / 'crates')}` | {count} | {first_sentence(path.read_text(), '//!')} |"


def size(known, keys, types):
    """How many lines these declarations have."""
    return sum(known[key][0] for key in keys) + sum(map(len, types.values()))


def reading(known):
    """The rows of the list for reading the headline, with its sums."""
    roots = set(bold(known, False))
    keys = reached(known, roots)
    types = source_types(known, keys)
    yield from rows(known, roots, keys, types)
    edits = {key for key in keys if key[0] in ("fdt_header", "fdt_tree") or key[:2] == ("ipa_layout", "DtbEdit")}
    others = keys - edits
    yield f"| all | {size(known, keys, types)} | |"
    yield f"| all but the edits of a devicetree | {size(known, others, source_types(known, others))} | for launches whose devicetree is placed as its file |"


def binding(known):
    """The rows of the list for reading what a RIM binds: what the headline does not need, and the sums."""
    above = reached(known, set(bold(known, False)))
    roots = set(bold(known, True))
    keys = reached(known, roots)
    types, seen = source_types(known, keys), source_types(known, above)
    new, fresh = keys - above, {key: lines for key, lines in types.items() if key not in seen}
    yield from rows(known, roots, new, fresh)
    yield f"| in files of the headline | {size(known, keys, types) - size(known, new, fresh)} | |"
    yield f"| all that a RIM binds | {size(known, keys, types)} | |"


def unnamed_files():
    """The files of specs/ that docs/ARCHITECTURE.md does not name in the row of their crate's rules."""
    named = set()
    for line in (TOP / "docs/ARCHITECTURE.md").read_text().splitlines():
        crate = None
        for word in re.findall(r"`([^`]+)`", line):
            at = re.match(r"(\w+)/specs/(.*)", word)
            crate, word = (at.group(1), at.group(2)) if at else (crate, word)
            if crate and word.endswith(".antt"):
                named.add((crate, word[: -len(".antt")]))
    for crate, place, path in spec_files():
        if place not in ("Lib", "inside") and not place.startswith("inside.") and (crate, place) not in named:
            yield f"crates/{crate}/specs/{place}.antt"


def missing_constants():
    """The constants that docs/ARCHITECTURE.md names and that their files have not."""
    for line in (TOP / "docs/ARCHITECTURE.md").read_text().splitlines():
        for file, names in re.findall(r"`(\w+/src/[\w/]+\.rt)`: ((?:`\w+`(?:, )?)+)", line):
            text = (TOP / "crates" / file).read_text()
            for name in re.findall(r"`(\w+)`", names):
                if not re.search(rf"^pub(?:\(crate\))? const {name}: ", text, re.M):
                    yield f"docs/ARCHITECTURE.md: {file} has no constant {name}"


def wide_lines():
    """The lines of code and contracts with more than 100 columns: all but comments, attributes, imports and tests."""
    for path in sorted(TOP.glob("crates/*/src/**/*.rt")):
        if path.relative_to(TOP / "crates").parts[0].endswith("_tests"):
            continue
        for number, line in enumerate(path.read_text().splitlines(), 1):
            if len(line) > 100 and not re.match(r"\s*(//|#\[|(ghost )?use )", line):
                yield f"{path.relative_to(TOP)}:{number}: {len(line)} columns"


def wide_proofs():
    """The files of proofs with a line of more than 160 columns, by path."""
    paths = sorted(str(path.relative_to(TOP)) for path in TOP.glob("crates/*/proofs/**/*.antt"))
    return [path for path in paths if any(len(line) > 160 for line in (TOP / path).read_text().splitlines())]


def wrong_widths():
    """What is wrong with the widths of proofs and with the list of those that may be wide."""
    listed, wide = (TOP / "tools/checks/wide_proofs.txt").read_text().splitlines(), wide_proofs()
    if listed != sorted(set(listed)):
        yield "tools/checks/wide_proofs.txt: the paths are not sorted, or one is there twice"
    yield from (f"{path}: a line has more than 160 columns" for path in wide if path not in listed)
    yield from (f"tools/checks/wide_proofs.txt: {path} has no line of more than 160 columns" for path in listed if path not in wide)


def used_crates():
    """The crates of this repository, and those of the kit that they use, by crates.txt."""
    own, used = set(), set()
    for line in (TOP / "crates.txt").read_text().splitlines():
        head, _, needs = line.partition(":")
        if not line.startswith("#"):
            own.add(head.split()[0])
            used.update(needs.split())
    return own, used - own


def section(text, title):
    """The lines of a section of a document, from its title to the next one."""
    return text.partition(f"\n## {title}\n")[2].partition("\n## ")[0]


def unpromised():
    """The crates of which docs/PROMISES.md has neither a table nor a row that says why, or both."""
    text = (TOP / "docs/PROMISES.md").read_text()
    titles = set(re.findall(r"^## (\w+)$", text, re.M))
    excused = set(re.findall(r"^\| `(\w+)` \| \S", section(text, "Crates without a table"), re.M))
    crates = {crate for crate in used_crates()[0] if not crate.endswith("_tests")}
    yield from (f"docs/PROMISES.md: {crate} has no table, and no row says why" for crate in sorted(crates - titles - excused))
    yield from (f"docs/PROMISES.md: {crate} has a table, and a row says that it has none" for crate in sorted(titles & excused))
    yield from (f"docs/PROMISES.md: there is no crate {crate}" for crate in sorted(excused - crates))


def doubled_rows():
    """The rows that are twice in a document, but for the heads of tables."""
    for name in ("docs/PROMISES.md", "docs/DEFINITIONS.md"):
        lines, seen = (TOP / name).read_text().splitlines(), set()
        for line, following in zip(lines, lines[1:] + [""]):
            if line.startswith("| ") and not following.startswith("|---"):
                if line in seen:
                    yield f"{name}: a row is there twice: {line[:80]}"
                seen.add(line)


def wrong_trust():
    """What differs between the kit's crates that are used and those that the documents say are trusted."""
    used = used_crates()[1]
    promises = section((TOP / "docs/PROMISES.md").read_text(), "What is trusted")
    readme = re.search(r"^\*\*Trusted\*\*: .*?\n\n", (TOP / "README.md").read_text(), re.M | re.S)
    named = {
        "docs/PROMISES.md": set(re.findall(r"^\| `(\w+)` \|", promises, re.M)),
        "README.md": set(re.findall(r"`(\w+)`", readme.group(0) if readme else "")),
    }
    for name, crates in named.items():
        yield from (f"{name}: {crate} is used, and not said to be trusted" for crate in sorted(used - crates))
        yield from (f"{name}: {crate} is said to be trusted, and not used" for crate in sorted(crates - used))


# Files whose words are names, and those of other projects that documents speak of.
SOURCES = ("crates/*/src/**/*.rt", "crates/*/specs/**/*.antt", "crates/*/proofs/**/*.antt", "scripts/**/*", "tests/**/*", "tools/**/*", "library/**/*", "bench/*",
           "c/*", "examples/**/*", "docs/*.json", "crates.txt", "test", "rim", ".ci/run")
OTHERS = {"General_Category", "rmi_smc.h", "fdt_nop_property", "fdt_nop_node", "realms/measure", "lib/pkgconfig", "src/main.rs", "a/b"}
COMMENTS = {".rt": re.compile(r"//.*"), ".antt": re.compile(r"--.*")}


def texts():
    """Yields each source file with its text. Files that are not UTF-8 have no names."""
    for path in dict.fromkeys(path for pattern in SOURCES for path in TOP.glob(pattern)):
        if path.is_file() and not {"out", "__pycache__"} & set(path.parts):
            yield path, path.read_text(errors="ignore")


def exists(file, page):
    """Whether a file that a page names exists, from the top or from a folder that the page may mean."""
    crate = "/".join(page.relative_to(TOP).parts[:2])
    return any(True for place in ("", "docs/", "*/", "crates/*/", f"{crate}/src/") for _ in TOP.glob(place + file.rstrip("/")))


def missing_names():
    """Names and files in backquotes that do not exist."""
    known, prose = set(), {}
    for path, text in texts():
        comment = COMMENTS.get(path.suffix)
        known.update(path.relative_to(TOP).parts, re.findall(r"\w+", comment.sub("", text) if comment else text))
        if comment:
            prose[path] = "\n".join(comment.findall(text))
    for path in (TOP / "README.md", *sorted(TOP.glob("docs/*.md")), TOP / "bench/RESULTS.md"):
        prose[path] = re.sub(r"^```.*?^```", "", path.read_text(), flags=re.M | re.S)
    for path, text in prose.items():
        for word in sorted(set(re.findall(r"`([\w.:/-]+)`", text)) - OTHERS):
            if re.search(r"(\b|_)(NAME|MODULE|FUNCTION)(\b|_)", word):
                continue
            is_name = re.fullmatch(r"[A-Za-z]\w*((::|\.)\w+)*", word) and ("_" in word or "::" in word)
            is_file = "/" in word and not re.match(r"/|\.\.|\w+:", word)
            if is_name and not known.issuperset(re.findall(r"\w+", word)) or is_file and not exists(word, path):
                yield f"{path.relative_to(TOP)}: `{word}` does not exist"


def main():
    if "--wide" in sys.argv:
        print("\n".join(wide_proofs()))
        return 0
    known, wrong = declarations(), []
    if "--reading" in sys.argv:
        print("\n".join([*reading(known), "", *binding(known)]))
        return 0
    for crate, what, written, counted in promises(known):
        if "--check" not in sys.argv:
            print(f"{crate}\t{counted}\t{what}")
        elif written != counted:
            wrong.append(f"docs/PROMISES.md: {crate}: {what}: {written} lines are written, {counted} are counted")
    if "--check" in sys.argv:
        wrong += [f"docs/ARCHITECTURE.md does not name {path}" for path in unnamed_files()]
        listed = (TOP / "docs/PROMISES.md").read_text().splitlines()
        wrong += [f"docs/PROMISES.md: a list for reading lacks: {row}" for row in [*reading(known), *binding(known)] if row not in listed]
        wrong += [*missing_constants(), *wide_lines(), *wrong_widths()]
        wrong += [*unpromised(), *doubled_rows(), *wrong_trust(), *missing_names()]
        used = reached(known, cited(known))
        wrong += [f"crates/{c}/specs/{p}.antt: no contract needs {name}" for c, p, name in sorted(set(known) - used)]
    print("\n".join(wrong), end="\n" if wrong else "")
    return 1 if wrong else 0


if __name__ == "__main__":
    sys.exit(main())
