"""Files of definitions, as the language reads them: what each declares, what its `use` lines bring, and what a name in it means."""

import dataclasses
import functools
import itertools
import os
import re

TOP = os.path.dirname(os.path.dirname(os.path.abspath(__file__)))
CRATES = os.path.join(TOP, "crates")
TOKEN = re.compile(r'"(?:\\.|[^"\\])*"|--.*|[(){};,]|[^\s(){};,"]+')
MARKS = r"(?:(?:pattern|unfoldable|abbrev|opaque|pub)\s+)*"
OPENING, CLOSING, SEPARATING = ["(", "{", "["], [")", "}", "]"], [",", ";"]
OWN = set("Type → × : = ¬ λ in if then else case of where record let with _ | ∀ . Unit ⊥ tt ∥ ∥₁".split())  # words of the language
OUTSIDE = None, False  # the meaning of a name that a library outside crates/ declares


def read(path):
    with open(path, encoding="utf-8") as file:
        return file.read()


def tokens(text):
    return [token for token in TOKEN.findall(text) if not token.startswith("--")]


@dataclasses.dataclass(frozen=True, order=True)
class Item:
    """A definition; with no file it is a type of the code."""
    crate: str
    file: str
    name: str


class File:
    """What a file declares, and what its `use` lines bring: names to paths, of items and of modules."""

    def __init__(self, crate, path):
        self.crate, self.path = crate, path
        self.lines, self.parts = {}, {}  # by the name of a definition: how long it is, and its text in parts
        self.constructors = {}           # each with its type
        self.items, self.modules, self.passed_on = {}, {}, {}

    def read_block(self, lines, around):
        """Reads the declarations of the file, or of a block within it; `around` are the parts that stand in front of each."""
        name = None
        for chunk in chunks(lines):
            text = "\n".join(line for line in chunk if not line.strip().startswith("--")).strip()
            use = re.match(r"(?:unfoldable )?(pub )?use\s", text)
            kind = re.match(MARKS + r"(module|mutual|record|data)\b\s*" + MARKS, text)
            signature = re.match(MARKS + r"(\S+)\s+:\s", text)
            if use:
                self.bring(text[use.end():], use[1])
            elif re.match(r"(pub )?mod |infix|syntax |unfolding ", text):
                pass
            elif kind:
                head, body = split_head(chunk)
                words = tokens(head[kind.end():])
                if kind[1] in ("module", "mutual"):
                    self.read_block(body, around + [("head", words)])
                else:
                    name = self.declare(words[0], chunk, around + [("head", words[1:])])
                    self.read_members(name, kind[1], body)
            elif signature:
                name = self.declare(signature[1], chunk, around + [("term", tokens(text[signature.end():]))])
            elif name and (text.startswith(name) or "◌" in name):
                self.lines[name] += length(chunk)
                self.parts[name].append(("clause", tokens(text)))
            else:
                raise SystemExit(f"crates/{self.crate}/{self.path}.antt: what is this? {text}")

    def declare(self, name, chunk, parts):
        self.lines[name], self.parts[name] = length(chunk), list(parts)
        return name

    def read_members(self, name, kind, lines):
        """Fields of a record, which stand for those below them, or constructors."""
        for chunk in chunks(lines):
            words = tokens("\n".join(chunk))
            colon = words.index(":")
            names = [word for word in words[:colon] if word != "pub"]
            self.parts[name].append(("term", words[colon + 1:]))
            if kind == "record":
                self.parts[name].append(("field", names))
            else:
                self.constructors.update({constructor: name for constructor in names})

    def bring(self, text, public=False):
        """Notes what a `use` line brings, by what follows its `use`: a module, or in braces, also nested ones, items by their paths."""
        words = re.findall(r"[{},]|[^\s{},]+", re.sub(r"\s--.*", "", text))
        brought, stems, path = {}, [[]], []
        for at, word in enumerate(words):
            if word == "{":
                stems.append(path)
            elif word == "}":
                stems.pop()
            elif word not in (",", "as") and words[at - 1:at] != ["as"]:
                first, *rest = word.rstrip(".").split(".")
                path = (stems[-1] + [first] if stems[-1] else self.root(first)) + rest
                if not word.endswith("."):
                    brought[words[at + 2] if words[at + 1:at + 2] == ["as"] else path[-1]] = path
        (self.items if "{" in words else self.modules).update(brought)
        if public:
            self.passed_on.update(brought)

    def root(self, name):
        """The path of what the path of a `use` line begins with: a module below this one, what another line has brought, or a library."""
        module = self.path.removesuffix("/Lib").split("/")
        below = find(self.crate, *module, name)
        return ["Rattle", self.crate, *module, name] if below else self.modules.get(name, [name])

    def meaning(self, word):
        """What a name that isn't bound means here, as `resolve` tells it."""
        head, *rest = word.split(".")
        if head in self.lines or head in self.constructors:
            return self.own(head)
        if head in ("Rattle", "package"):
            return resolve(word.removeprefix("package.").split("."))
        for brought in (self.modules, self.items) if rest else (self.items, self.modules):
            found = resolve(brought[head] + rest) if head in brought else None
            if found:
                return found
        names = (name for name in [*self.lines, *self.items] if "◌" in name and word in name.split("◌"))
        return next((self.meaning(name) for name in names), None)

    def own(self, name):
        """A declaration of the file, and whether it is named as one of its constructors."""
        return Item(self.crate, self.path, self.constructors.get(name, name)), name in self.constructors

    def named_in(self, name):
        """The names in a definition that aren't bound in it."""
        bound, found = {name}, []
        for kind, words in self.parts[name]:
            if kind == "field":
                bound = bound.union(words)
                continue
            variables = set()
            if kind == "clause":
                equals = sign_of_equality(words)
                patterns, words = words[:equals], words[equals + 1:]
                named = [word for word in patterns if (self.meaning(word) or OUTSIDE)[1]]  # constructors; all else is a variable
                found += named
                variables = set(patterns).difference(named)
            more, now = free(words, bound.union(variables))
            found += more
            bound = now if kind == "head" else bound
        return found


def length(chunk):
    return sum(1 for line in chunk if line.strip())


def split_head(chunk):
    """The head of a block, up to its `where`, as one text without comments, and the lines after it."""
    for at, line in enumerate(chunk):
        if re.search(r"\bwhere\s*(--.*)?$", line) and not line.strip().startswith("--"):
            break
    head = [re.sub(r"\bwhere\s*(--.*)?$", "", line) for line in chunk[:at + 1] if not line.strip().startswith("--")]
    return "\n".join(head).strip(), chunk[at + 1:]


def chunks(lines):
    """The declarations of a block: the lines of each, with the comment right above it."""
    def indent(line):
        return len(line) - len(line.lstrip())

    base = min((indent(line) for line in lines if tokens(line)), default=0)
    chunk, comment, opened = [], [], 0
    for line in lines:
        words = tokens(line)
        if not opened and words and indent(line) == base:
            if chunk:
                yield chunk
            chunk, comment = comment + [line], []
        elif not opened and not words and indent(line) <= base:
            comment = comment + [line] if line.strip() else []
        elif chunk:
            chunk, comment = chunk + comment + [line], []
        opened += sum(word in OPENING for word in words) - sum(word in CLOSING for word in words)
    if chunk:
        yield chunk


def find(crate, *path):
    """The file of a module of a crate, by its path below the crate and without its ending, or None."""
    names = ("/".join(path), "/".join(path) + "/Lib")
    return next((name for name in names if os.path.exists(os.path.join(CRATES, crate, name + ".antt"))), None)


@functools.cache
def file_at(crate, *path):
    """What the file of a module of a crate has, or None."""
    name = find(crate, *path)
    if not name:
        return None
    file = File(crate, name)
    file.read_block(read(os.path.join(CRATES, crate, name + ".antt")).splitlines(), [])
    return file


def resolve(path):
    """The item that a path from the root names, and whether it names a constructor. Outside of crates/ that is no item. None where
    the path names nothing, or a module."""
    if path[0] != "Rattle" or not os.path.isdir(os.path.join(CRATES, path[1])):
        return OUTSIDE
    crate, tree, *rest = path[1:]
    if rest[:1] == ["declared"]:
        types = [at for at, name in enumerate(rest) if name[:1].isupper()]
        return (Item(crate, "", ".".join(rest[1:types[0] + 1])), "TheVariants" in rest) if types else None
    file, at = file_at(crate, tree), [tree]
    while rest:
        name, *more = rest
        if file and name in file.passed_on:
            return resolve(file.passed_on[name] + more)
        below = file_at(crate, *at, name)
        if file and (name in file.lines or name in file.constructors) and not (below and more):
            return file.own(name)
        file, at, rest = below, at + [name], more
    return None


# ---- names in a text

def is_name(word):
    return (word[0].isalpha() or word[0] == "_") and "." not in word and word not in OWN


def free(words, bound):
    """The names in a term that aren't bound around it or in it, and what is bound at its end."""
    found, begin, now, around = [], set(bound), set(bound), []
    at = 0
    while at < len(words):
        word, at = words[at], at + 1
        if word in OPENING:
            names = list(itertools.takewhile(is_name, words[at:]))
            binds = names if words[at + len(names):][:1] == [":"] else []
            at += len(binds) + bool(binds)
            around.append((begin, now, binds))
            begin = now
        elif word in CLOSING:
            begin, now, binds = around.pop()
            now = now.union(binds)
        elif word in SEPARATING:
            now = begin
        elif word == "λ":
            end = next(i for i in range(at, len(words)) if words[i].endswith("."))
            names = [name.rstrip(".") for name in words[at:end + 1] if name not in OPENING + CLOSING]
            colon = names.index(":") if ":" in names else len(names)
            found += free(names[colon:-1], now)[0]
            now, at = now.union(names[:colon]), end + 1
        elif word == "let":
            now = now.union(words[at:at + 1])
        elif words[at:at + 1] == ["="] and words[at - 2] in "{;":
            at += 1  # a field's name, or that of an argument
        elif word[0] not in '".' and not word[0].isdigit() and word.split(".")[0] not in now and word not in OWN:
            found.append(word)
    return found, now


def sign_of_equality(words):
    """Where a clause's patterns end."""
    depth = 0
    for at, word in enumerate(words):
        depth += (word in OPENING) - (word in CLOSING)
        if word == "=" and not depth:
            return at
    return len(words)
