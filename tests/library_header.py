"""What the header of the library declares, beside what its archive exports, and beside the functions and structs of the crate."""
import re
import subprocess

from lanes import TOP

COMMENT = re.compile(r"/\*.*?\*/|//[^\n]*", re.DOTALL)
# What a function or a struct of the crate has as this type, C has as these.
TYPES = {
    "u8": ["uint8_t"],
    "u32": ["uint32_t"],
    "u64": ["uint64_t"],
    "usize": ["size_t"],
    "bool": ["bool"],
    "*mut u8": ["void *"],
    "Global": [],
}
# What the C library and the linker give; the rest the library has itself.
WANTED = {"malloc", "realloc", "free", "memcpy", "memmove", "memset", "memcmp", "bcmp"}


def spaced(text):
    return re.sub(r"\s+", " ", text).strip()


def split(text):
    """The parts between commas that are in no brackets."""
    parts, depth = [""], 0
    for letter in text:
        depth += (letter in "<([{") - (letter in ">)]}")
        if letter == "," and depth == 0:
            parts.append("")
        else:
            parts[-1] += letter
    return [spaced(it) for it in parts if it.strip()]


# What the header has.


def without_name(parameter):
    """The type of a parameter or a field."""
    return spaced(re.sub(r"\b\w+$", "", parameter).replace("*", " *"))


def declared_functions(text):
    """The types of the parameters of each function that the header declares."""
    text = COMMENT.sub(" ", text)
    found = re.findall(r"mirfodwel_status\s+(mirfodwel_\w+)\s*\(([^)]*)\)\s*;", text)
    return {name: [without_name(it) for it in split(listed)] for name, listed in found}


def declared_structs(text):
    """The fields of each struct of the header, each with its type."""
    text = COMMENT.sub(" ", text)
    found = re.findall(r"typedef struct\s*\{([^}]*)\}\s*(\w+);", text)
    return {name: [(it.split()[-1].lstrip("*"), without_name(it)) for it in map(spaced, fields.split(";")) if it] for fields, name in found}


# What the crate has.


def sources():
    """The texts of the crate and of those that it stands on, without comments."""
    crates = [TOP / "crates" / "mirfodwel", *sorted((TOP / "crates").iterdir())]
    return "\n".join(COMMENT.sub(" ", path.read_text()) for crate in crates for path in sorted((crate / "src").rglob("*.rt")))


def exported_functions(text):
    """The types of the parameters of each function that the crate exports."""
    found = {}
    for name, listed in re.findall(r"#\[unsafe\(no_mangle\)\]\s*(?:#\[[^\n]*\]\s*)*pub extern \"C\" fn (\w+)(?:<[^>]*>)?\s*\(([^)]*)\)\s*->\s*u8", text):
        found[name] = [re.sub(r"'\w+ ?", "", it.split(":", 1)[1].strip()).replace("<>", "") for it in split(listed)]
    return found


def structs_of(text):
    """The fields of each struct for C in the crates, each with its type; what is for proofs alone is left out."""
    found = {}
    for name, body in re.findall(r"#\[repr\(C\)\]\s*(?:#\[[^\]]*\]\s*)*pub(?:\(crate\))? struct (\w+)(?:<[^>]*>)?\s*\{(.*?)\n\}", text, re.DOTALL):
        fields = [re.sub(r"^pub(?:\(crate\))? ", "", it) for it in split(body)]
        found[name] = [tuple(spaced(part) for part in it.split(":", 1)) for it in fields if not it.startswith("ghost ")]
    return found


class Pairs:
    """Which struct of the header stands for which one of the crate."""

    def __init__(self, structs):
        self.structs = structs
        self.named = {}

    def plain(self, kind):
        """A type without what it wraps alone: a struct for C of one field is that field."""
        kind = re.sub(r"<[^>]*>$", "", kind)
        fields = self.structs.get(kind)
        return self.plain(fields[0][1]) if fields is not None and len(fields) == 1 else kind

    def is_same(self, kind, wanted):
        """Whether C has this type so, where a struct has one name in C alone."""
        kind = self.plain(kind)
        if kind in TYPES:
            return TYPES[kind] == [wanted]
        return kind in self.structs and self.named.setdefault(kind, wanted) == wanted

    def fits(self, kind, declared):
        """How many of the declared parameters a parameter of this type is, or none where it is another one."""
        if kind == "Global":
            return 0
        found = re.fullmatch(r"&(mut )?(?:\[(.*)\]|(.*))", kind)
        if not found:
            return 1 if declared[:1] and self.is_same(kind, declared[0]) else None
        lead = "" if found[1] else "const "
        pointed = declared[0].removesuffix(" *") if declared else ""
        inner = pointed.removeprefix("const ")
        if not declared or not declared[0].endswith(" *") or f"{lead}{inner}" != pointed or not self.is_same(found[2] or found[3], inner):
            return None
        if found[2]:
            return 2 if declared[1:2] == ["size_t"] else None
        return 1


def is_declared_so(kinds, declared, pairs):
    """Whether the parameters of these types are those that are declared."""
    for kind in kinds:
        count = pairs.fits(kind, declared)
        if count is None:
            return False
        declared = declared[count:]
    return not declared


def compare_structs(pairs, declared):
    for name, wanted in sorted(pairs.named.items()):
        fields = pairs.structs[name]
        is_right = wanted in declared and len(fields) == len(declared[wanted])
        if is_right:
            for (field, kind), (as_field, as_kind) in zip(fields, declared[wanted]):
                is_nested = pairs.plain(kind) != kind
                is_right = is_right and pairs.is_same(kind, as_kind) and (is_nested or field == as_field)
        yield is_right, f"the struct {wanted} has {declared.get(wanted)}, and {name} of the crate {fields}"
    for name in sorted(declared.keys() - pairs.named.values()):
        yield False, f"no function of the crate takes the struct {name}"


def names_in(words):
    """The names that nm tells, with their letters."""
    told = subprocess.run(["nm", *map(str, words)], check=True, stdout=subprocess.PIPE, text=True).stdout
    return [(line.split()[-2], line.split()[-1].partition("@")[0]) for line in told.splitlines() if len(line.split()) >= 2]


def compare_header(library):
    """What is right, and what is said of that."""
    text = (library / "mirfodwel.h").read_text()
    yield text == (TOP / "bindings" / "c" / "mirfodwel.h").read_text(), "the header in out/ is not that of bindings/c"
    declared, code = declared_functions(text), sources()
    exported = exported_functions(code)
    for name in sorted(declared.keys() ^ exported.keys()):
        yield False, f"{name} is only {'declared' if name in declared else 'exported by the crate'}"
    pairs = Pairs(structs_of(code))
    for name in sorted(declared.keys() & exported.keys()):
        yield is_declared_so(exported[name], declared[name], pairs), f"{name} is declared with {declared[name]}, and the crate has {exported[name]}"
    yield from compare_structs(pairs, declared_structs(text))
    archived = {name for letter, name in names_in(["--defined-only", "-g", library / "libmirfodwel.a"]) if letter == "T" and name.startswith("mirfodwel")}
    yield archived == declared.keys(), f"the archive exports {sorted(archived ^ declared.keys())} otherwise"
    shown = {name for letter, name in names_in(["-D", "--defined-only", library / "libmirfodwel.so"])}
    yield shown == declared.keys(), f"the shared library shows {sorted(shown ^ declared.keys())} otherwise"
    asked = {name for letter, name in names_in(["-D", "--undefined-only", library / "libmirfodwel.so"]) if letter == "U"}
    yield asked <= WANTED, f"the shared library wants {sorted(asked - WANTED)}"
