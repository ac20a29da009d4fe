"""What documents name, checked against the sources: public calls, those that may wait or take memory, crates of tests, files, and links.

Each check gives its faults as texts that begin with file and line."""
import glob
import os
import re

PROOFS = "docs/PROOFS.md"
WAITING = "## Calls that may wait"
MEMORY = "## Calls that take memory"
# Crates whose calls that write may all take memory.
WRITING = ("text_", "commands_", "example_")
# Documents that docs/make writes of rows, each of which it checks.
MADE = ("docs/MODEL.md", "docs/INDEX.md")
FOLDERS = "docs|crates|tests|examples|timings|include|library|packaging|python"
BLOCK = re.compile(r"^impl\b([^{]*)\{(.*?)^\}", re.M | re.S)
CALL = re.compile(r"^(?:    )?(pub )?(?:const |unsafe |extern \"C\" )*fn (\w+)([^{;]*?)(?=\n *(?:requires|ensures)\b|\{|;)", re.M)
EXPORT = re.compile(r"^pub use ([\w:]+?)(?:::\{([^}]*)\})?;", re.M)
ALIAS = re.compile(r"^pub type (\w+)[^=]*= (\w+)", re.M)
FAULT = re.compile(r"^pub(?:\(crate\))? enum (\w+)[^{]*\{(.*?)^\}", re.M | re.S)
NAMED = re.compile(r"`([A-Za-z_][\w:]*)`")
CRATE_FILE = re.compile(r"\b\w+/(?:specs|src|proofs)/[\w/]+\.(?:antt|rt)\b")
FILE = re.compile(rf"(?<![\w/.])(?:\./)?((?:{FOLDERS})/[\w./*-]*[\w*])")
SCRIPT = re.compile(r"(?<![\w/.])\./([\w-]+)")
TESTS = re.compile(r"\btest_\w+")
LINK = re.compile(r"\]\(([^)\s]+)\)")


def read(path):
    with open(path, encoding="utf-8") as file:
        return file.read()


class Crate:
    """The calls that a crate offers, each as (type or None, name); and those of them that may wait, and that have an answer for no memory."""

    def __init__(self, name, wants):
        self.calls, self.waiting, self.wanting = set(), set(), set()
        self.wants = wants
        self.exports = self.exported(name)
        for path in glob.glob(f"crates/{name}/src/**/*.rt", recursive=True):
            self.take_file(read(path))
        self.calls = {call for call in self.calls if (call[0] or call[1]) in self.exports}
        self.waiting &= self.calls
        self.wanting &= self.calls

    @staticmethod
    def exported(name):
        root = f"crates/{name}/src/lib.rt"
        text = read(root) if os.path.exists(root) else ""
        names = set(re.findall(r"^pub (?:extern \"C\" )?(?:fn|struct|enum|trait|type) (\w+)", text, re.M))
        for path, listed in EXPORT.findall(text):
            names.update(item.strip() for item in listed.split(",")) if listed else names.add(path.split("::")[-1])
        return names

    def take_file(self, text):
        """Takes the calls of a file: those of each type, also under another name that the file gives it, and the others."""
        aliases = ALIAS.findall(text)
        for head, body in BLOCK.findall(text):
            _, found, kind = head.rpartition(" for ")
            match = re.match(r"(?:<.*?>\s*)?(\w+)", (kind if found else head).strip())
            kind = match.group(1) if match else None
            for name in [kind] + [alias for alias, of in aliases if of == kind]:
                self.take(name, head, body, bool(found))
        self.take(None, "", BLOCK.sub("", text), False)

    def take(self, kind, head, text, is_trait):
        for is_public, name, signature in CALL.findall(text):
            if is_public or is_trait:
                self.calls.add((kind, name))
                if re.search(r"\bWait\b", head + signature):
                    self.waiting.add((kind, name))
                if name != "from" and self.wants.search(signature.partition("->")[2]):
                    self.wanting.add((kind, name))


def wants_memory():
    """What a result names that has an answer for no memory: such a fault, or a fault with one."""
    names = ["AllocError", "NoMemory"]
    for path in glob.glob("crates/*/src/**/*.rt", recursive=True):
        names += [name for name, variants in FAULT.findall(read(path)) if re.search(r"\bNoMemory\b", variants)]
    return re.compile(rf"\b(?:{'|'.join(names)})\b")


def crates():
    """All crates but those of tests, with the calls of others that they offer as their own."""
    wants = wants_memory()
    found = {name: Crate(name, wants) for name in sorted(os.listdir("crates")) if os.path.isdir(f"crates/{name}/src") and not name.startswith("test_")}
    for crate in found.values():
        crate.calls |= {call for other in found.values() for call in other.calls
                        if (call[0] or call[1]) in crate.exports and call not in crate.calls}
    return found


def numbered(text):
    return enumerate(text.splitlines(), 1)


class Names:
    """Goes over names as documents write them: a crate in front stays for the names behind it."""

    def __init__(self, known):
        self.known, self.crate = known, None

    def resolve(self, name):
        """The crate and the call that a name is, None for the call where there is none."""
        parts = name.split("::")
        if parts[0] in self.known:
            self.crate = parts.pop(0)
        call = (parts[0], parts[1]) if len(parts) == 2 else (None, parts[0] if len(parts) == 1 else None)
        calls = self.known[self.crate].calls if self.crate else ()
        return self.crate, call if call in calls else None


def carried(known):
    """Each name under "Carried by" in docs/PROOFS.md must be a public call."""
    names, is_inside = None, False
    for number, line in numbered(read(PROOFS)):
        if line.startswith("Carried by "):
            names, is_inside = Names(known), True
        is_inside = is_inside and bool(line.strip())
        for name in NAMED.findall(line) if is_inside else ():
            crate, call = names.resolve(name)
            if call is None:
                yield f"{PROOFS}:{number}: {crate or 'no crate'} has no public call {name}"


def promised(known):
    """Each name of the README's column "Carried by" must be a crate, or something that a crate offers."""
    offered = {name for crate in known.values() for call in crate.calls for name in (call[1], "::".join(filter(None, call)))}
    is_inside = False
    for number, line in numbered(read("README.md")):
        is_inside = line.startswith("|") and (is_inside or "Carried by" in line)
        for name in NAMED.findall(line.split("|")[-2]) if is_inside else ():
            crate, _, rest = name.partition("::")
            if name in known or (crate in known and (rest in known[crate].exports or rest in offered)) or name in offered:
                continue
            yield f"README.md:{number}: no crate offers {name}"


def waits(known):
    """The table of docs/PROOFS.md must name exactly the public calls that may wait."""
    named, first, is_inside = set(), 1, False
    for number, line in numbered(read(PROOFS)):
        if line.startswith("## "):
            is_inside = line == WAITING
            first = number if is_inside else first
        if is_inside and line.startswith("| `"):
            names = Names(known)
            for name in NAMED.findall(line.split("|")[1]):
                crate, call = names.resolve(name)
                named.add((crate, call))
                if call is None or call not in known[crate].waiting:
                    yield f"{PROOFS}:{number}: {crate} has no public call {name} that may wait"
    for name, crate in known.items():
        for call in sorted(crate.waiting, key=str):
            if (name, call) not in named:
                yield f"{PROOFS}:{first}: doesn't name {name}::{'::'.join(filter(None, call))}, which may wait"


def takes_memory(known):
    """The part of docs/PROOFS.md about memory must name each public call that has an answer for no memory, but for those that write texts."""
    named, first, is_inside = set(), 1, False
    for number, line in numbered(read(PROOFS)):
        if line.startswith("## "):
            is_inside = line == MEMORY
            first = number if is_inside else first
        if is_inside:
            named.update(tuple(name.split("::")[-2:]) for name in NAMED.findall(line))
    for name, crate in known.items():
        for call in sorted(crate.wanting if not name.startswith(WRITING) else (), key=str):
            if tuple(filter(None, call)) not in named and (name, call[1]) not in named:
                yield f"{PROOFS}:{first}: doesn't name {name}::{'::'.join(filter(None, call))}, which may take memory"


def documents():
    paths = ["README.md", "CONTRIBUTING.md", "CHANGELOG.md", "tests/README.md", "examples/README.md"]
    paths += sorted(glob.glob("docs/*.md")) + sorted(glob.glob("examples/*/README.md")) + sorted(glob.glob("tests/*/README.md"))
    return [path for path in paths if path not in MADE]


def lines_of(path):
    """The numbered lines of a document; of the changelog those of what isn't released."""
    for number, line in numbered(read(path)):
        if path == "CHANGELOG.md" and re.match(r"## \d", line):
            return
        yield number, line


def anchors(path):
    plain = (re.sub(r"[^\w\- ]", "", re.sub(r"\[([^\]]*)\]\([^)]*\)", r"\1", line.lstrip("# "))).lower().replace(" ", "-")
             for line in read(path).splitlines() if line.startswith("#"))
    return set(plain)


def is_test(name):
    return os.path.isdir(f"crates/{name}") or bool(glob.glob(f"**/{name}.py", recursive=True))


def files():
    """Each file, each crate of tests and each link that a document names must be there."""
    for path in documents():
        for number, line in lines_of(path):
            wanted = [f"crates/{name}" for name in CRATE_FILE.findall(line)]
            wanted += [name for name in FILE.findall(line) if "/out" not in name and not CRATE_FILE.search(name)]
            wanted += SCRIPT.findall(line) if not path.startswith("examples/") else []
            missing = [name for name in wanted if "/NAME" not in name and not glob.glob(name.rstrip("."))]
            missing += [name for name in TESTS.findall(line) if not is_test(name)]
            missing += [link for link in LINK.findall(line) if "://" not in link and not leads(path, link)]
            for name in dict.fromkeys(missing):
                yield f"{path}:{number}: there is no {name}"


def leads(path, link):
    file, _, anchor = link.partition("#")
    target = os.path.normpath(os.path.join(os.path.dirname(path), file)) if file else path
    return os.path.exists(target) and (not anchor or anchor in anchors(target))


def faults():
    known = crates()
    yield from carried(known)
    yield from promised(known)
    yield from waits(known)
    yield from takes_memory(known)
    yield from files()
