"""The repository's antt files and contracts as a graph of names, for the tools beside this file.

A file is a list of blocks, parted by empty lines; a block declares names and uses names. What a word of a block means follows from the file's
`use` lines. A word that the block binds itself (a parameter, `let`, λ) is taken for that, not for a definition of the same name.
"""
import pathlib
import re

WORD = re.compile(r"«[^»]*»|[^\s(){};,.«»\"]+")
SIGNATURE = re.compile(
    r"^(\s*)((?:(?:unfoldable|abbrev|pub|record|data)\s+)*)([^\s:(){}]+)((?:\s+(?:\{[^}]*\}|\((?:[^()]|\([^()]*\))*\)))*)\s+:(?=\s|$)"
)
# The files of a function's proof.
OF_FUNCTIONS = {"Answers", "Invariants", "Proof"}
USE = re.compile(r"^(pub )?use ([^\s{]+?)(?:\.\{([^}]*)\})?(?: as (\S+))?$")


def code(text):
    """The text without comments and quoted words."""
    lines = (re.sub(r"(^|\s)--(?=\s|$|-).*$", r"\1", line) for line in text.split("\n"))
    return re.sub(r'"[^"]*"', '""', "\n".join(lines))


def words(text):
    """The words of a code, names of fields left out."""
    text = re.sub(r"([{;]\s*)(«[^»]*»|[^\s(){};,.=]+)(\s*=\s)", r"\1 \3", text)
    return {m[0] for m in WORD.finditer(text) if m.start() == 0 or text[m.start() - 1] != "."}


def place(path):
    """(crate, specs or proofs, module) of a path that a `use` line names, or the path itself where it is std's or a toolchain's."""
    found = re.match(r"^Rattle\.(?!std\.)(\w+)\.(specs|proofs)((?:\.[^\s]+)?)$", path)
    return (found[1], found[2], tuple(x for x in found[3].split(".") if x)) if found else path


def imports(path, names):
    """What a `use` line brings: local name -> (place, name there)."""
    out = {}
    for name in filter(None, (n.strip() for n in names.split(","))):
        there, _, here = name.partition(" as ")
        out[here.strip() or there.strip()] = (place(path), there.strip())
    return out


class Block:
    def __init__(self, lines, file):
        self.lines, self.file = lines, file
        text = code("\n".join(lines))
        self.names, levels = [], {0}
        for line in text.split("\n"):
            module = re.match(r"^(\s*)module\b", line)
            if module and len(module[1]) in levels:
                levels.add(len(module[1]) + (4 if line.strip() == "module _" else 2))
            found = SIGNATURE.match(line)
            if found and len(found[1]) in levels:
                self.names.append(found[3])
        if re.search(r"^(pub )?data ", text, re.M):
            self.names += re.findall(r"^  ([^\s:]+) :", text, re.M)
        self.words = words(text)
        self.bound = self.binders(text)

    @staticmethod
    def binders(text):
        bound = set()
        for found in re.finditer(r"λ([^.→]*?)\.(?=\s|$)", text):
            for group in re.finditer(r"[({]([^:(){}]*):", found[1]):
                bound.update(WORD.findall(group[1]))
            bound.update(WORD.findall(re.sub(r"[({][^(){}]*[)}]", " ", found[1])))
        for found in re.finditer(r"[({]([^:(){}=;]*?)\s:\s", text):
            bound.update(WORD.findall(found[1]))
        bound.update(re.findall(r"\blet\s+(\S+)\s*(?::|=)", text))
        is_record = "record" in text.split("\n")[0]
        for line in text.split("\n"):
            found = re.match(r"^(\s*)(\S+)((?:\s+\S+)*?)\s+=(?:\s|$)", line)
            if found and not line.lstrip().startswith(("let ", "in ")):
                bound.update(WORD.findall(found[3]))
            found = re.match(r"^(\s+)([^\s:(){}]+)\s+:\s", line)
            if found and not is_record:
                bound.add(found[2])
        return bound

    def text(self):
        """The block without comments, for counting and comparing."""
        return [line for line in self.lines if line.strip() and not line.lstrip().startswith("--")]

    def signature(self, name):
        """The lines that say what a name's type is."""
        out, on = [], False
        for line in self.lines:
            found = SIGNATURE.match(line)
            if found and found[3] == name:
                on = True
            elif on and (re.match(r"^\s*unfolding\b", line) or re.match(r"^\s*" + re.escape(name) + r"(\s|$)", line)):
                break
            if on:
                out.append(line)
        return out


class File:
    def __init__(self, root, path):
        parts = path.relative_to(root / "crates").parts
        module = parts[2:-1] + (path.stem,)
        self.path, self.place = path, (parts[0], parts[1], () if module == ("Lib",) else module)
        self.uses, self.modules, self.blocks, chunk = {}, {}, [], []
        for line in path.read_text().split("\n"):
            found = USE.match(line)
            if found and found[3] is None:
                self.modules[found[4]] = place(found[2])
            elif found:
                self.uses.update(imports(found[2], found[3]))
            elif not re.match(r"^(pub )?mod ", line):
                if chunk and chunk[-1] == "" and line.strip() and not line.startswith(" "):
                    self.add(chunk)
                    chunk = []
                if line.strip() or chunk:
                    chunk.append(line.rstrip())
        self.add(chunk)
        self.own = {name: block for block in self.blocks for name in block.names}

    def add(self, lines):
        block = Block(lines, self)
        if block.names:
            self.blocks.append(block)


class Graph:
    def __init__(self, root):
        self.root = pathlib.Path(root)
        found = sorted((self.root / "crates").glob("*/specs/**/*.antt")) + sorted((self.root / "crates").glob("*/proofs/**/*.antt"))
        self.files = {file.place: file for file in (File(self.root, path) for path in found)}
        self.blocks = {file.place + (name,): block for file in self.files.values() for name, block in file.own.items()}
        for file in self.files.values():
            file.means = {name: self.follow(*target) for name, target in file.uses.items()}
            file.means.update({name: file.place + (name,) for name in file.own})

    def follow(self, target, name):
        """The definition that a `use` line brings, or (path, name) where it is a library's or made by the toolchain."""
        if isinstance(target, tuple) and target in self.files and name in self.files[target].own:
            return target + (name,)
        return (target, name)

    def used(self, means, found, bound=()):
        """What the words of a text mean."""
        out = {}
        for name, key in means.items():
            parts = [part for part in name.split("◌") if part] if "◌" in name else [name]
            if (name in found or all(part in found for part in parts)) and not (name in bound and len(key) == 4):
                out[name] = key
        return out

    def references(self, key, strict):
        block = self.blocks[key]
        bound = block.bound - set(block.names) if strict else ()
        return set(self.used(block.file.means, block.words, bound).values())

    def closure(self, roots, strict=True):
        seen, waiting = set(), list(roots)
        while waiting:
            key = waiting.pop()
            if key in self.blocks and key not in seen:
                block = self.blocks[key]
                seen.update(key[:3] + (name,) for name in block.names)
                for name in block.names:
                    waiting += [k for k in self.references(key[:3] + (name,), strict) if k not in seen]
        return seen

    def theorem(self, crate, name):
        """What a theorem's statement speaks of."""
        keys = [key for key in self.blocks if key[0] == crate and key[3] == name and key[1] == "proofs"]
        if len(keys) != 1:
            raise SystemExit(f"no theorem {name} in crate {crate}, or two")
        block = self.blocks[keys[0]]
        return keys[0], set(self.used(block.file.means, words(code("\n".join(block.signature(keys[0][3])))) - {keys[0][3]}).values())


class Function:
    """A function's contract: its clauses and what they speak of."""

    def __init__(self, crate, path, name, public, clauses, uses):
        self.crate, self.path, self.name, self.public, self.clauses, self.uses = crate, path, name, public, clauses, uses


def clause(text, at):
    """What stands between a clause's braces, of which the first ends at `at`."""
    end, depth = at, 1
    while depth and end < len(text):
        depth += {"{": 1, "}": -1}.get(text[end], 0)
        end += 1
    return text[at : end - 1]


def functions(root):
    out = []
    for path in sorted((pathlib.Path(root) / "crates").glob("*/src/**/*.rt")):
        text = path.read_text()
        uses = {}
        for found in re.finditer(r"^\s*ghost use ([^\s{]+?)\.\{([^}]*)\};", text, re.M):
            uses.update(imports(found[1], found[2]))
        starts = list(re.finditer(r'^(\s*)(pub )?(?:extern "C" )?fn (\w+)', text, re.M))
        owners = [(m.start(), m[1]) for m in re.finditer(r"^impl (\w+)", text, re.M)]
        for i, found in enumerate(starts):
            part = text[found.start() : starts[i + 1].start() if i + 1 < len(starts) else len(text)]
            owner = next((name for at, name in reversed(owners) if at < found.start()), None) if found[1] else None
            name = f"{owner}::{found[3]}" if owner else found[3]
            clauses = [clause(part, m.end()) for m in re.finditer(r"^\s*(?:requires|ensures)\*?(?:\s+\w+)?\s*\{", part, re.M)]
            out.append(Function(path.relative_to(pathlib.Path(root) / "crates").parts[0], path, name, bool(found[2]), clauses, uses))
    return out


def contract(graph, function):
    """The definitions that a function's clauses speak of."""
    found = words(code("\n".join(function.clauses)))
    means = {name: graph.follow(*target) for name, target in function.uses.items()}
    return set(graph.used(means, found).values())


def attributed(root):
    """The laws and definitions that functions' attributes name, as #[tactic(auto, using(..), unfolding(..))] does."""
    out = set()
    for path in sorted((pathlib.Path(root) / "crates").glob("*/src/**/*.rt")):
        crate = path.relative_to(pathlib.Path(root) / "crates").parts[0]
        for found in re.finditer(r"#\[tactic\(([^\]]*)\)\]", path.read_text()):
            for name in re.findall(r"[\w:]+::(?:specs|proofs)::[\w:-]+", found[1]):
                parts = name.split("::")
                out.add((crate if parts[0] == "crate" else parts[0], parts[1], tuple(parts[2:-1]), parts[-1]))
    return out
