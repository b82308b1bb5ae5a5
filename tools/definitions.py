"""The definitions of the crates, and which of them a statement reaches.

A definition stands in a file of `crates/*/specs`, or it is a Rust type or trait that a contract names. It reaches each
name in it, as the file's `use` lines say which is meant; a type reaches the types of its fields and what its view is; a
trait what its contracts say. Nothing is reached for standing in the same file, or for being imported.
"""
import glob
import os
import re

DECLARES = re.compile(r"^(?:(?:abbrev|unfoldable|opaque|pub|record|data)\s+)+([^\s:({]+)")
SIGNS = re.compile(r"^([^\s:({]+)\s*:")
USES = re.compile(r"^(pub )?use ([^\s{;]+?)(?:\.\{([^}]*)\}|\s+as\s+(\S+?))?;?$")
WORDS = re.compile(r"[^\s(){}\[\];,]+")
RUST_BLOCK = re.compile(r"^(?:pub(?:\([a-z]+\))? )?(struct|enum|trait) (\w+)", re.M)
MODEL = re.compile(r"^impl(?:<[^>]*>)? Model for (\w+)", re.M)


class Definition:
    """A definition: where it stands, its name, its comment, its text, and the words in it."""

    def __init__(self, file, name, comment, text):
        self.file, self.name, self.comment, self.text = file, name, comment, text


class SpecFile:
    """A file of definitions: its crate, its name below specs, its first paragraph, what it imports and what it has."""

    def __init__(self, crate, name, path):
        self.crate, self.name, self.path = crate, name, path
        self.imports, self.aliases, self.found = {}, {}, {}
        with open(path, encoding="utf-8") as it:
            lines = it.read().split("\n")
        self.first = paragraph(lines, "--")
        self.read(lines, [])

    def read(self, lines, outer):
        """Reads the items that stand at the left edge of these lines."""
        at, comment, last = 0, [], None
        while at < len(lines):
            line = lines[at]
            end = at + 1
            while end < len(lines) and (not lines[end].strip() or lines[end][0] == " "):
                end += 1
            whole = lines[at:end]
            at = end
            if line.startswith("--"):
                comment.append(line[2:].strip())
                if len(whole) > 1:
                    comment = [] if any(not it.strip() for it in whole[1:]) else comment
                continue
            if line.startswith("module "):
                self.read_module(whole, outer)
            elif line.startswith(("use ", "pub use ")):
                self.take_use(line)
            elif line.strip() and not line.startswith(("mod ", "pub mod ", "infix", "syntax")):
                last = self.take(whole, comment, outer, last)
            comment = []

    def read_module(self, whole, outer):
        """Reads a module with parameters: its items have the words of its head too."""
        head = 1
        while head < len(whole) and not whole[head - 1].rstrip().endswith("where"):
            head += 1
        self.read([it[2:] for it in whole[head:]], outer + whole[:head])

    def take(self, whole, comment, outer, last):
        """Takes an item, or a further equation of the last one."""
        named = DECLARES.match(whole[0]) or SIGNS.match(whole[0])
        if named:
            last = Definition(self, named[1], " ".join(comment), "\n".join(whole).rstrip())
            last.words = list(outer)
            self.found.setdefault(named[1].strip("◌"), last)
        if last:
            last.words += [re.sub(r"--.*", "", it) for it in whole]
            if not named:
                last.text += "\n" + "\n".join(whole).rstrip()
        return last

    def take_use(self, line):
        said = USES.match(line.strip())
        if not said:
            return
        public, path, names, alias = said.groups()
        if names:
            for name in names.split(","):
                old, _, new = name.strip().partition(" as ")
                self.imports[(new or old).strip().strip("◌")] = (path, old.strip("◌"))
        else:
            self.aliases[alias or path.rsplit(".", 1)[-1]] = path


def paragraph(lines, mark):
    """The first paragraph of comment at the head of a file."""
    said = []
    for line in lines:
        if not line.startswith(mark) or not line[len(mark):].strip():
            break
        said.append(line[len(mark):].strip())
    return " ".join(said)


def block(text, start):
    """The text from a place to the end of the block in braces, or of the item, that begins there."""
    depth = 0
    for at in range(start, len(text)):
        depth += {"{": 1, "}": -1}.get(text[at], 0)
        if text[at] == "}" and not depth or text[at] == ";" and not depth:
            return text[start:at + 1]
    return text[start:]


class Sources:
    """The files of definitions, types and traits of all crates, and what names mean in them."""

    def __init__(self, top):
        self.top, self.specs, self.rust, self.types = top, {}, {}, {}
        for path in sorted(glob.glob(f"{top}/crates/*/specs/**/*.antt", recursive=True)):
            crate, name = path[len(f"{top}/crates/"):-len(".antt")].split("/specs/")
            self.specs[crate, name] = SpecFile(crate, name, path)
        for path in sorted(glob.glob(f"{top}/crates/*/src/**/*.rt", recursive=True)):
            self.read_rust(path)

    def read_rust(self, path):
        """Notes the types and traits of a file, with their views and contracts."""
        crate = path[len(f"{self.top}/crates/"):].split("/")[0]
        with open(path, encoding="utf-8") as it:
            text = it.read()
        uses = {}
        for line in re.findall(r"^\s*ghost use ([^;]+);", text, re.M):
            said = USES.match(f"use {line}")
            for name in (said[3] or "").split(",") if said else []:
                old, _, new = name.strip().partition(" as ")
                uses[(new or old).strip().strip("◌")] = (said[2], old.strip("◌"))
        crates = set(re.findall(r"^(?:pub )?use (\w+)::", text, re.M)) | {crate}
        code = re.sub(r"//.*", "", text)
        for found in RUST_BLOCK.finditer(code):
            self.types.setdefault((crate, found[2]), []).append((block(code, found.start()), uses, crates))
        for found in MODEL.finditer(code):
            self.types.setdefault((crate, found[1]), []).append((block(code, found.start()), uses, crates))
        self.rust[path] = (code, uses, crates)

    def place(self, path):
        """What a path names: the crate and the rest below specs, where it is one of ours."""
        parts = path.split(".")
        if len(parts) < 3 or parts[0] != "Rattle" or parts[2] != "specs":
            return None
        crate, rest = parts[1], parts[3:]
        lib = self.specs.get((crate, "Lib"))
        if rest and lib and rest[0] in lib.aliases:
            return self.place(".".join([lib.aliases[rest[0]], *rest[1:]]))
        return crate, rest

    def named(self, path, name):
        """The definition, or the type, that a path and a name say."""
        found = self.place(path)
        if not found:
            return None
        crate, rest = found
        if rest and rest[0] == "declared":
            return (crate, rest[-2] if rest[-1] == "TheVariants" else rest[-1])
        file = self.specs.get((crate, "/".join(rest)))
        if not file:
            return None
        if name in file.found:
            return file.found[name]
        return self.named(*file.imports[name]) if name in file.imports else None

    def means(self, file, word):
        """What a word in a file of definitions means."""
        for name in (word.strip("◌."), word.split(".")[0].strip("◌")):
            if name in file.found:
                return file.found[name]
            if name in file.imports:
                return self.named(*file.imports[name])
            if name in file.aliases:
                rest = word.split(".")[1:]
                path = file.aliases[name]
                found = self.place(path)
                if found and found[1][:1] == ["declared"]:
                    return self.named(path, "")
                return self.named(path, rest[0]) if rest else None
        return None

    def of_type(self, key):
        """What a type or a trait reaches."""
        for text, uses, crates in self.types.get(key, []):
            for word in re.findall(r"[\w-]+", text):
                if word in uses:
                    yield self.named(*uses[word])
                elif word[:1].isupper():
                    yield from ((crate, word) for crate in crates if (crate, word) in self.types)

    def reached(self, starts):
        """All that is reached from these definitions and types."""
        seen, left = set(), [it for it in starts if it]
        while left:
            it = left.pop()
            if it in seen:
                continue
            seen.add(it)
            if isinstance(it, Definition):
                words = WORDS.findall("\n".join(it.words))
                found = [self.means(it.file, word) for word in words]
            else:
                found = list(self.of_type(it))
            left += [one for one in found if one and one not in seen]
        return seen

    def of_function(self, path, name):
        """What the contract of a function names."""
        code, uses, crates = self.rust[path]
        start = re.search(rf"^\s*pub(?:\([a-z]+\))? fn {name}\b", code, re.M).start()
        head = code[start:code.index("\n{", start)]
        for word in re.findall(r"[\w-]+", head):
            if word in uses:
                yield self.named(*uses[word])
            elif word[:1].isupper():
                yield from ((crate, word) for crate in crates if (crate, word) in self.types)
