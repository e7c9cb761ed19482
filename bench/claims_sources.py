"""What the sources say: the crates, their public functions, and the clauses of these with the
definitions that they cite. For bench/claims."""
import itertools
import os
import re

TOP = os.path.dirname(os.path.dirname(os.path.abspath(__file__)))
# Folders of specs/ that the compiler makes of a crate's types.
MADE = ("declared", "contracts")
CLAUSE_HEAD = re.compile(r"\b(requires|ensures)\b\*?\s*(\w+)?\s*$")
CONTAINER = re.compile(r"\b(impl|trait)\b")
DEFINITION = re.compile(r"^\s*(?:(?:abbrev|unfoldable) pub|pub (?:record|data)) (\w+)", re.M)
IMPORT = re.compile(r"\bghost\s+use\s+Rattle\.([\w.]+?)\.\{([^}]*)\}")


def read(path):
    with open(os.path.join(TOP, path), encoding="utf-8") as file:
        return file.read()


# ---- The crates

def crates():
    """The crates of crates.txt, each after those that it stands on, else in that file's order."""
    needs = {}
    for line in read("crates.txt").splitlines():
        line = line.split("#")[0]
        if ":" in line:
            name, rest = line.split(":", 1)
            needs[name.split()[0]] = rest.split()
    order = []

    def visit(name):
        if name in needs and name not in order:
            for need in needs[name]:
                visit(need)
            if name not in order:
                order.append(name)

    for name in needs:
        visit(name)
    return order


def is_shown(crate):
    """Worked examples and the runner of cases promise nothing to others."""
    return not crate.endswith("_client") and crate != "case_runner"


# ---- Reading a source file

def masked(text):
    """The text with comments, strings and characters blanked: each brace left is the code's."""
    pattern = re.compile(r'//[^\n]*|/\*.*?\*/|b?"(?:\\.|[^"\\])*"|b?\'(?:\\[^\']+|[^\'\\])\'', re.S)
    return pattern.sub(lambda found: re.sub(r"[^\n]", " ", found.group(0)), text)


def closing(text, start):
    """The place after the brace that closes the one at `start`."""
    depth = 0
    for place in range(start, len(text)):
        if text[place] == "{":
            depth += 1
        elif text[place] == "}":
            depth -= 1
            if depth == 0:
                return place + 1
    raise SystemExit("a brace is left open")


def chunk_end(text, start, end):
    """The place of the next brace or semicolon that stands outside round and square brackets."""
    depth = 0
    for place in range(start, end):
        sign = text[place]
        if sign in "([":
            depth += 1
        elif sign in ")]":
            depth -= 1
        elif sign in "{;" and depth == 0:
            return place
    return end


def imports(text):
    """The names of specs/ that `ghost use` lines give: name here -> (crate, file, name there)."""
    names = {}
    for path, listed in IMPORT.findall(text):
        parts = path.split(".")
        is_ours = os.path.isdir(os.path.join(TOP, "crates", parts[0]))
        if not is_ours or len(parts) < 3 or parts[1] != "specs" or parts[2] in MADE:
            continue
        for entry in listed.split(","):
            words = entry.split()
            if words:
                names[words[-1]] = (parts[0], "/".join(parts[2:]), words[0])
    return names


class Function:
    def __init__(self, name, path, doc, is_public):
        self.name = name
        self.path = path
        self.doc = doc
        self.is_public = is_public
        self.clauses = []


class Clause:
    def __init__(self, kind, name, text, cited):
        self.kind = kind
        self.name = name
        self.text = text
        self.cited = cited


def cited_in(text, scope):
    """The definitions that a clause cites, in the order in which they stand in it."""
    found = []
    for name in re.findall(r"(?<![\w.])[A-Za-z_]\w*", text):
        if name in scope and scope[name] not in found:
            found.append(scope[name])
    return found


class SourceFile:
    """The functions of one file, with the type or trait that each belongs to."""

    def __init__(self, path):
        self.path = path
        self.text = read(path)
        self.code = masked(self.text)
        self.functions = []
        self.items(0, len(self.code), "", False, imports(self.level(0, len(self.code))))

    def level(self, start, end):
        """What stands directly in a block: bodies of blocks left out, import lists kept."""
        out = []
        while start < end:
            place = chunk_end(self.code, start, end)
            head = self.code[start:place]
            if place < end and self.code[place] == "{":
                stop = closing(self.code, place)
                is_import = re.search(r"\buse\b[^;]*$", head)
                out.append(self.code[start:stop] if is_import else head + ";")
                start = stop
            else:
                out.append(self.code[start:place + 1])
                start = place + 1
        return "".join(out)

    def items(self, start, end, owner, is_open, scope):
        while start < end:
            place = chunk_end(self.code, start, end)
            head = self.code[start:place]
            name = re.search(r"\bfn\s+(\w+)", head)
            if name and not re.search(r"\buse\b", head):
                start = self.function(start, place, end, name.group(1), owner, is_open, scope)
            elif place < end and self.code[place] == "{":
                stop = closing(self.code, place)
                if CONTAINER.search(head):
                    self.container(head, place + 1, stop - 1, scope)
                start = stop
            else:
                start = place + 1

    def container(self, head, start, end, scope):
        inner = dict(scope)
        inner.update(imports(self.level(start, end)))
        is_trait = re.search(r"\btrait\s+(\w+)", head)
        if is_trait:
            self.items(start, end, is_trait.group(1), True, inner)
            return
        head = re.sub(r"^.*?\bimpl\b", "", head, flags=re.S)
        head = strip_angles(head)
        parts = re.split(r"\bfor\b", head)
        owner = re.search(r"(\w+)\s*$", parts[-1].split(" where ")[0].strip())
        self.items(start, end, owner.group(1) if owner else "", len(parts) > 1, inner)

    def function(self, start, place, end, name, owner, is_open, scope):
        head = self.code[start:place]
        is_test = re.search(r"#\[(test|cfg\(test\))", head)
        is_public = is_open or bool(re.search(r"\bpub\s+(?:\w+\s+)*fn\b", head))
        function = Function((owner, name), self.path, doc_of(self.text[start:place]), is_public)
        while place < end and self.code[place] == "{":
            clause = CLAUSE_HEAD.search(head)
            stop = closing(self.code, place)
            if not clause:
                place = stop
                break
            text = " ".join(self.code[place + 1:stop - 1].split())
            kind, name = clause.groups()
            function.clauses.append(Clause(kind, name, text, cited_in(text, scope)))
            start, place = stop, chunk_end(self.code, stop, end)
            head = self.code[start:place]
        if not is_test:
            self.functions.append(function)
        return place + 1 if place < end and self.code[place] == ";" else place


def strip_angles(text):
    """The text without what stands in angle brackets; an arrow's is none."""
    text = text.replace("->", "  ")
    while True:
        shorter = re.sub(r"<[^<>]*>", "", text)
        if shorter == text:
            return text
        text = shorter


def doc_of(text):
    lines = re.findall(r"^\s*///\s?(.*)$", text, re.M)
    return " ".join(line.strip() for line in lines if line.strip())


# ---- What a crate lets out

def root_of(crate):
    for name in ("lib.rt", "main.rt"):
        path = f"crates/{crate}/src/{name}"
        if os.path.exists(os.path.join(TOP, path)):
            return path
    raise SystemExit(f"no root of {crate}")


def let_out(root):
    """The names that the root re-exports; None for a program, which is shown whole."""
    if root.endswith("main.rt"):
        return None
    names = set()
    code = masked(read(root))
    for path, listed in re.findall(r"\bpub\s+use\s+([\w:]+?)(?:::\{([^}]*)\})?;", code):
        if listed:
            names.update(entry.split()[-1] for entry in listed.split(",") if entry.split())
        else:
            names.add(path.split("::")[-1])
    names.update(re.findall(r"\bpub\s+(?:\w+\s+)*(?:fn|struct|enum|trait)\s+(\w+)", code))
    return names


def sources(crate, root):
    """The files of a crate: its root, then those of its modules, in the order declared."""
    found = [root]
    folder = f"crates/{crate}/src"

    def add(code, folder):
        for name in re.findall(r"\bmod\s+(\w+)\s*;", code):
            for path in (f"{folder}/{name}.rt", f"{folder}/{name}/mod.rt"):
                if os.path.exists(os.path.join(TOP, path)):
                    found.append(path)
                    add(masked(read(path)), f"{folder}/{name}")

    add(masked(read(root)), folder)
    return found


def about(crate):
    """The first sentence of what the root of a crate says of it."""
    said = " ".join(re.findall(r"^//!\s?(.*)$", read(root_of(crate)), re.M))
    return re.split(r"(?<=\.) (?=[A-Z`])", said)[0]


def definition_files(crate):
    """The files that specs/Lib.antt names, each with what its first lines say of it."""
    path = f"crates/{crate}/specs/Lib.antt"
    if not os.path.exists(os.path.join(TOP, path)):
        return []
    found = []
    for name in re.findall(r"^(?:pub )?mod (\w+)", read(path), re.M):
        text = read(f"crates/{crate}/specs/{name}.antt")
        lines = itertools.takewhile(lambda line: line.startswith("--"), text.splitlines())
        found.append((name, " ".join(line.lstrip("- ") for line in lines)))
    return found


def definitions():
    """Each definition of a crate that is shown, but for worked rows: name -> its (crate, file)s."""
    places = {}
    for crate in crates():
        if is_shown(crate) and not crate.endswith("_rows"):
            for file, _ in definition_files(crate):
                for name in DEFINITION.findall(read(f"crates/{crate}/specs/{file}.antt")):
                    if (crate, file) not in places.setdefault(name, []):
                        places[name].append((crate, file))
    return places


def public_functions(crate):
    root = root_of(crate)
    names = let_out(root)
    shown = []
    for path in sources(crate, root):
        for function in SourceFile(path).functions:
            owner, name = function.name
            if names is None:
                if function.clauses:
                    shown.append(function)
            elif function.is_public and (owner or name) in names and function.clauses:
                shown.append(function)
    return shown
