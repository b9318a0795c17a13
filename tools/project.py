"""What the tools share: the project's files, their `use` lines, and what the antt files declare.

No tool of its own. Everything here reads text as text, but for `run_rt`, which asks the checker."""
import os
import re
import subprocess
import sys

WORD = r"[^\s(){}\[\];,.⌜⌝\"@λ]"
USE = re.compile(r"^\s*(?:ghost |unfoldable |pub )*use\s+([^\s{};]+?)(?:(?:\.|::)\{([^}]*)\}| as (\S+?))?;?$", re.M)
MARKS = r"(?:(?:abbrev|unfoldable|pub)\s+)*"
SIGNATURE = re.compile(rf"^({MARKS})({WORD}+)\s*:(?:\s|$)")
TYPE = re.compile(rf"^({MARKS})(data|record)\s+({WORD}+)")
MEMBER = re.compile(rf"^(?:pub )?({WORD}+) :")


def stop(message):
    """Ends the tool with a message and status 2: it was called wrongly, or something is not there."""
    print(f"{os.path.basename(sys.argv[0])}: {message}", file=sys.stderr)
    sys.exit(2)


def usage(text, most=None, least=0):
    """Prints the help where it is asked for, or where the arguments are too few or too many; and goes on only in the root."""
    given = sys.argv[1:]
    if {"-h", "--help"} & set(given):
        print(text)
        sys.exit(0)
    if len(given) < least or (most is not None and len(given) > most):
        print(text, file=sys.stderr)
        sys.exit(2)
    at_root()


def at_root():
    """Goes on only in the repository's root."""
    if not os.path.isfile("crates.txt") or not os.path.isdir("crates"):
        stop("run it in the repository's root: crates.txt and crates/ are not here")


def crates():
    """The crates that crates.txt names."""
    rows = (row.split("#")[0] for row in read("crates.txt").split("\n"))
    return [row.split(":")[0].split()[0] for row in rows if ":" in row]


def known_crate(name):
    if name not in crates():
        stop(f"crates.txt has no crate {name}")
    return name


def read(path):
    try:
        with open(path, encoding="utf-8") as file:
            return file.read()
    except OSError as error:
        stop(f"{path}: {error.strerror}")


def run_rt(crate, *words):
    """What `rt` says of a crate, on both of its streams."""
    try:
        run = subprocess.run(["rt", *words], cwd=f"crates/{crate}", stdin=subprocess.DEVNULL, capture_output=True, text=True)
    except OSError as error:
        stop(f"rt: {error.strerror}")
    return run.stdout + run.stderr


def sources(folder="crates", endings=(".antt", ".rt")):
    """Every file of code below a folder, in order."""
    if not os.path.isdir(folder):
        stop(f"no folder {folder}")
    for base, folders, files in os.walk(folder):
        folders[:] = sorted(f for f in folders if f not in ("out", "target"))
        yield from (os.path.join(base, f) for f in sorted(files) if f.endswith(endings))


def bare(text):
    """The text without its comments."""
    return re.sub(r"(?m)(?:^|(?<=\s))(--|//)[^\n]*", "", text)


def words(text):
    return re.findall(rf"{WORD}+", text)


def uses(text):
    """(module, name there, name here) for each name that a `use` line brings; a whole module has no name there."""
    for line in USE.finditer(text):
        module, names, alias = line.groups()
        if names is None:
            yield module, None, alias or re.split(r"\.|::", module)[-1]
            continue
        for item in filter(None, (n.strip() for n in names.split(","))):
            there, _, here = item.partition(" as ")
            yield module, there.strip(), (here or there).strip()


def without_uses(text):
    return USE.sub("", text)


class Declaration:
    """A declaration of an antt file: its name, its lines, and the telescopes of the modules around it."""

    def __init__(self, file, name, marks, kind, around):
        self.file, self.name, self.kind, self.around = file, name, kind, around
        self.public, self.stating = "pub" in marks, True
        self.lines, self.head, self.members = [], [], []

    def add(self, line, level):
        text = line[level:]
        if self.lines:
            self.stating = self.stating and not text.startswith("unfolding ") and not self.clause(text)
            member = MEMBER.match(text[2:]) if self.kind and text.startswith("  ") else None
            self.members += [member.group(1)] if member else []
        self.lines.append(line)
        self.head += [line] if self.stating else []

    def clause(self, text):
        return not text.startswith(" ") and words(text)[:1] == [self.name]

    def text(self):
        return bare("\n".join(self.around + self.lines))

    def statement(self):
        """What it says, without how it is shown: for a type all of it."""
        return self.text() if self.kind else bare("\n".join(self.around + self.head))


class Blocks:
    """The blocks that a line of an antt file stands in: how far they are indented, and the telescopes of the modules."""

    def __init__(self):
        self.around, self.heading = [(0, [])], None

    @property
    def level(self):
        return self.around[-1][0]

    def telescopes(self):
        return [row for _, rows in self.around for row in rows]

    def enter(self, telescope):
        self.around.append((self.level + 2, telescope))
        self.heading = None

    def leave(self, indent):
        """Whether the line ends a block."""
        inside = len(self.around)
        while indent < self.level:
            self.around.pop()
        return len(self.around) < inside

    def opens(self, line, indent):
        """Whether the line opens a block, or goes on with the telescope of one."""
        text = line.strip()
        if self.heading is not None and indent > self.level:
            self.heading.append(line)
        elif indent == self.level and text.startswith("module _"):
            self.heading = [line]
        elif indent == self.level and re.match(r"(unfoldable |abbrev )?mutual$", text):
            self.enter([])
            return True
        else:
            self.heading = None
            return False
        if text.endswith("where"):
            self.enter(self.heading)
        return True


def begun(path, text, blocks):
    """The declaration that a line begins, or None."""
    kind, signature = TYPE.match(text), SIGNATURE.match(text)
    if kind:
        return Declaration(path, kind.group(3), kind.group(1), kind.group(2), blocks.telescopes())
    if signature:
        return Declaration(path, signature.group(2), signature.group(1), None, blocks.telescopes())
    return None


def declarations(path):
    """The declarations of an antt file, those in `module _` and `mutual` blocks with the others."""
    blocks, found, current = Blocks(), [], None
    for line in filter(str.strip, read(path).split("\n")):
        indent, text = len(line) - len(line.lstrip()), line.strip()
        if blocks.leave(indent) or blocks.heading is not None:
            current = None
        if blocks.opens(line, indent):
            current = None
        elif indent > blocks.level:
            if current is not None:
                current.add(line, blocks.level)
        elif not re.match(r"--|(pub |unfoldable )*(use|mod) |infix", text):
            new = begun(path, text, blocks)
            found += [new] if new else []
            current = new or next((d for d in reversed(found) if d.clause(text)), current)
            if current is not None:
                current.add(line, blocks.level)
    return found


def file_of(module):
    """The file that a module's path names, or None: those of the kit and those that the checker makes have none."""
    parts = module.split(".")
    if len(parts) < 4 or parts[0] != "Rattle" or parts[2] not in ("specs", "proofs"):
        return None
    path = f"crates/{'/'.join(parts[1:])}.antt"
    return path if os.path.isfile(path) else None


class Tree:
    """All antt files of the project, and which declaration a word in one of them names."""

    def __init__(self):
        self.files = {path: declarations(path) for path in sources("crates", (".antt",))}
        self.own = {path: self.names(found) for path, found in self.files.items()}
        self.brought = {path: list(uses(read(path))) for path in self.files}

    @staticmethod
    def names(found):
        table = {}
        for declaration in found:
            for name in [declaration.name] + (declaration.members if declaration.kind == "data" else []):
                table.setdefault(name, declaration)
        return table

    def scope(self, path, brought=None):
        """name -> declaration, for what a file declares and what its `use` lines bring of the project."""
        table = {}
        for module, there, here in self.brought[path] if brought is None else brought:
            if there is not None and "." in there:
                module, there = f"{module}.{there.rpartition('.')[0]}", there.rpartition(".")[2]
            file = file_of(module)
            if file is None and there is not None:
                # constructors: `use ..Kinds.Kind.{..}`
                file = file_of(module.rpartition(".")[0])
            if file and there is not None and there in self.own[file]:
                table[here] = self.own[file][there]
        table.update(self.own.get(path, {}))
        return table

    def cites(self, text, scope):
        """The declarations that a text names, in the order in which it names them."""
        found = []
        for word in words(text):
            for name in (word, f"◌{word}◌", f"◌{word}", f"{word}◌"):
                if name in scope and scope[name] not in found:
                    found.append(scope[name])
        return found
