"""Where the names that pages give stand in the crates: calls, clauses and members in src/, definitions in specs/, and the lines
of crates.txt. A name is looked up by text: nothing here reads Rattle."""
import functools
import pathlib
import re

ROOT = pathlib.Path(__file__).resolve().parent.parent
CRATES = ROOT / "crates"
CRATE = r"(?:wy|law|test)_\w+|whyline|whylens"
SETTINGS = r"(?:pub |abbrev |unfoldable |data |record )*"
ITEM = r"^pub (?:fn|struct|enum|trait|type|mod|const)"


@functools.cache
def lines_of_crates():
    """Of each crate its heading, its sentence and its libraries, in the order of crates.txt."""
    heading, words, found = "", [], {}
    for line in (ROOT / "crates.txt").read_text().splitlines():
        named = re.fullmatch(r"([a-z]\w*)(?: [^:]*)?:([^#]*)(.*)", line)
        if line.startswith("# ----"):
            heading, words = line.strip("#- "), []
        elif line.startswith("#"):
            words.append(line.strip("# "))
        elif named:
            sentence = " ".join([*words, named[3].strip("# ")]).strip()
            found[named[1]] = (heading, sentence, named[2].split())
            words = []
        else:
            words = []
    return found


@functools.cache
def files(crate, folder, ending):
    """The text of each file of a folder of the crate, by its path below crates/."""
    return {f.relative_to(CRATES).as_posix(): f.read_text() for f in sorted((CRATES / crate / folder).rglob(f"*{ending}"))}


@functools.cache
def definitions_of(crate):
    """The files of specs/, with what stands in `mutual` or `module` at the margin."""
    return {path: at_the_margin(text) for path, text in files(crate, "specs", ".antt").items()}


def at_the_margin(text):
    lines, inside = [], False
    for line in text.split("\n"):
        inside = re.fullmatch(r"(?:\w+ )*mutual|module .* where", line) is not None or inside and (line[:2] in ("  ", "", "--"))
        lines.append(line[2:] if inside and line.startswith("  ") else line)
    return "\n".join(lines)


@functools.cache
def methods(crate):
    """File, type and name of each public method, and of each that a trait asks for."""
    found = []
    for path, text in files(crate, "src", ".rt").items():
        for head, body in re.findall(r"^((?:unsafe )?impl\b[^{;]*|pub trait [^{;]*)\{\n(.*?)^\}", text, re.M | re.S):
            asked = head.startswith("pub trait") or " for " in head
            owner = re.sub(r"<[^<>]*(?:<[^<>]*>[^<>]*)*>", "", head)
            owner = re.search(r"trait (\w+)|for (\w+)|impl\s+(\w+)", owner)
            name = next((g for g in owner.groups() if g), None) if owner else None
            pattern = r"^    (?:pub )?fn (\w+)" if asked else r"^    pub fn (\w+)"
            found += [(path, name, m) for m in re.findall(pattern, body, re.M)]
    return found


def call(crate, way, name):
    """The files in which a public item or method has this name, behind modules or a type of these names."""
    ways = [part for part in way if part != "lib"]
    found, modules = [], []
    for path, text in files(crate, "src", ".rt").items():
        for item in re.findall(rf"{ITEM} {name}\b", text, re.M):
            if all(part in modules_of(path) for part in ways):
                (modules if item.endswith(f"mod {name}") else found).append(path)
    for path, owner, method in methods(crate):
        if method == name and (not way or way[-1] == owner):
            found.append(path)
    found = sorted(set(found or modules))
    return [path for path in found if len(found) > 1 and not ways and modules_of(path)[:1] == handed_on(crate, name)] or found


def modules_of(path):
    modules = path[:-3].split("/")[2:]
    return modules[:-1] if modules[-1] in ("mod", "lib") else modules


def handed_on(crate, name):
    """The module from which lib.rt hands a name on."""
    text = files(crate, "src", ".rt").get(f"{crate}/src/lib.rt", "")
    used = re.findall(r"^pub use (\w+)::([^;]*);", text, re.M)
    return next(([module] for module, names in used if re.search(rf"\b{name}\b", names)), None)


@functools.cache
def definition(crate, name):
    """The files in which a definition, a type or a part of one has this name, where `File.name` and `Type.part` count too."""
    owner, _, part = name.partition(".")
    texts = definitions_of(crate)
    if part == "antt":
        return [path for path in texts if path.endswith("/" + name)]
    if not part:
        types = rf"^pub (?:struct|enum|trait|type) {re.escape(name)}\b"
        found = [path for path, text in files(crate, "src", ".rt").items() if re.search(types, text, re.M)]
        return [path for path, text in texts.items() if re.search(rf"^{SETTINGS}{re.escape(name)}(?![\w.])", text, re.M)] or found
    found = []
    for path, text in texts.items():
        if path.endswith(f"/{owner}.antt") and re.search(rf"^{SETTINGS}{re.escape(part)}(?![\w.])", text, re.M):
            found.append(path)
        for body in re.findall(rf"^{SETTINGS}{re.escape(owner)}(?![\w.]).*\n((?:[ \t]+.*\n|\n|--.*\n)*)", text, re.M):
            if re.search(rf"^[ \t]+(?:pub )?{re.escape(part)} :", body, re.M):
                found.append(path)
    return found


@functools.cache
def has_clause(crate, function, clause):
    """Whether the contract of the function has an `ensures` of this name."""
    for text in files(crate, "src", ".rt").values():
        for contract in re.findall(rf"^\s*(?:pub )?fn {function}\b(.*?)(?=^\s*(?:pub )?fn |\Z)", text, re.M | re.S):
            if re.search(rf"ensures {clause} \{{", contract):
                return True
    return False


@functools.cache
def has_member(crate, type_name, member):
    for text in files(crate, "src", ".rt").values():
        body = re.search(rf"^pub struct {type_name}\b[^{{]*\{{(.*?)^\}}", text, re.M | re.S)
        if body and re.search(rf"^\s+(?:pub )?(?:ghost )?{member}:", body[1], re.M):
            return True
    return False


@functools.cache
def text_of(crate):
    """All that a crate's own files say."""
    return "\n".join(
        text
        for folder, ending in (("src", ".rt"), ("specs", ".antt"), ("proofs", ".antt"))
        for text in files(crate, folder, ending).values()
    )


def uses(crate, library):
    return re.search(rf"\b{library}(?:::|\.)|\buse {library}\b", text_of(crate)) is not None


@functools.cache
def cited():
    """Of each crate the files of specs/ that clauses or definitions of another crate cite."""
    found = {}
    for crate in lines_of_crates():
        for folder, ending in (("src", ".rt"), ("specs", ".antt")):
            for text in files(crate, folder, ending).values():
                for other, name in re.findall(r"\bRattle\.(\w+)\.specs\.([A-Z]\w*)\b", text):
                    if other != crate:
                        found.setdefault(other, set()).add(name)
    return found
