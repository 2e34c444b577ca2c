"""What the text of a function or of a definition names, in its own crate: which functions it calls, which constants it reads, which definitions it rests on.

A name counts only where it is resolved: a call, by the type that it is a method of; a constant, by its type; a definition, by the `use` lines of the file that
cites it. The same word as a field, a projection, a label, a bound name or a comment does not count, nor what another crate declares.
"""
import re

NAME = r"[^\s(){}.;,\"\[\]λ→×≡∷]+"


class Item:
    """A function, a constant, or a definition: its name, the type it belongs to, and the lines on which it stands."""

    def __init__(self, file, name, first, lines, owner=None):
        self.file, self.name, self.first, self.lines, self.owner = file, name, first, lines, owner
        self.text = file.plain("\n".join(lines))

    def has_line(self, path, line):
        return self.file.path == path and self.first <= line < self.first + len(self.lines)


def closing(text, at):
    """Where the bracket that opens at `at` is closed."""
    depth = 0
    for i in range(at, len(text)):
        depth += (text[i] in "({[") - (text[i] in ")}]")
        if depth == 0:
            return i
    return len(text) - 1


def outside(text, marks):
    """The text up to the first of the marks that stands in no bracket and ends a word, and that mark."""
    depth = 0
    for i, letter in enumerate(text):
        depth += (letter in "({[") - (letter in ")}]")
        for mark in marks:
            if depth == 0 and text.startswith(mark, i) and text[i + len(mark):i + len(mark) + 1] in ("", " ", "\n"):
                return text[:i], mark
    return text, None


def base(kind):
    """The name of a type, without references and lifetimes."""
    return re.sub(r"^(&|'\w+|mut\b|\s)+", "", kind).strip()


# ---- code


class Function(Item):
    """A function or a constant of a source file."""

    def __init__(self, *arguments):
        super().__init__(*arguments)
        self.is_public = bool(re.match(r'\s*pub (const |unsafe |extern "C" )*fn ', self.lines[0]))
        self.is_constant = bool(re.match(r"\s*(pub )?const (?!fn )", self.lines[0]))
        self.parameters, self.result, self.head = [], "", ""
        if self.is_constant:
            self.body = self.text.partition(" = ")[2]
        else:
            begins = self.text.index("(", self.text.index("fn " + self.name))
            ends = closing(self.text, begins)
            contract = re.compile(r"\b(requires|ensures)\b|\{").search(self.text, ends).start()
            body = contract
            while self.text[body] != "{":
                body = re.compile(r"\s*").match(self.text, closing(self.text, self.text.index("{", body)) + 1).end()
            self.head, self.body = self.text[contract:body], self.text[body:]
            self.result = re.sub(r"^\s*->\s*|\bwhere\b.*", "", self.text[ends + 1:contract], flags=re.S).strip()
            left = self.text[begins + 1:ends]
            while left.strip():
                parameter, _ = outside(left, ",")
                while parameter.replace("->", "").count("<") > parameter.replace("->", "").count(">"):
                    parameter += "," + outside(left[len(parameter) + 1:], ",")[0]
                name, _, kind = parameter.partition(":")
                lent = re.match(r"\s*(&\s*(?:'\w+\s+)?(?:mut\s+)?)self$", name.rstrip())
                if lent:
                    name, kind = "self", lent.group(1) + self.owner
                self.parameters.append((re.sub(r"^\s*mut\s", "", name).strip(), kind.strip() or self.owner))
                left = left[len(parameter) + 1:]

    def types(self, crate, upto):
        """The types of the names that are bound in the body before a place of it, where they can be told; a pattern's cannot."""
        known = {name: base(kind) for name, kind in self.parameters}
        for binder in re.finditer(r"\blet (?:mut )?(\w+)(?:: ([^=]+?))? = ([^;]*)|\b(?:let|for) ([^=;]*?) (?:=|in) |^(.*?) =>", self.body[:upto], re.M):
            name, kind, value, *patterns = binder.groups()
            if name:
                known[name] = base(kind) if kind else self.type_of(crate, value.strip(), known)
            else:
                known.update(dict.fromkeys(re.findall(r"\w+", patterns[0] or patterns[1]), None))
        return known

    def type_of(self, crate, value, known):
        """The type of an expression: a name or a field, a struct, or what a function of this crate answers."""
        if re.fullmatch(r"\w+(\.\w+)*", value):
            first, *fields = value.split(".")
            kind = known.get(first)
            for field in fields:
                kind = crate.fields.get((kind, field))
            return kind
        struct = re.match(r"(\w+) \{", value)
        if struct:
            return struct.group(1)
        call = re.match(r"((?:\w+::)*)(\w+)\(", value)
        called = call and closing(value, call.end() - 1) == len(value) - 1 and crate.function(self, call.group(1), call.group(2))
        return base(called.result).replace("Self", called.owner or "Self") if called else None

    def receiver(self, at):
        """The expression whose method is called at the dot there."""
        begins = at
        while begins > 0 and re.match(r"[\w.:)]", self.body[begins - 1]):
            if self.body[begins - 1] == ")":
                depth = 0
                while begins > 0:
                    begins -= 1
                    depth += (self.body[begins] == ")") - (self.body[begins] == "(")
                    if depth == 0:
                        break
            else:
                begins -= 1
        return self.body[begins:at]

    def calls(self, crate):
        """The functions that the body calls and the constants that it reads, of this crate."""
        for call in re.finditer(r"(?<![\w:])(?<![\w)\]]\.)((?:\w+::)*)(\w+)(\(?)", self.body):
            path, name, bracket = call.groups()
            if bracket:
                yield crate.function(self, path, name)
            if name.isupper():
                yield crate.constant(self, path, name)
        for call in re.finditer(r"\.(\w+)\(", self.body):
            owner = self.type_of(crate, self.receiver(call.start()), self.types(crate, call.start()))
            if owner:
                yield crate.function(self, owner + "::", call.group(1))


def used(tree):
    """The names that a `use` of code brings in, each with the path that it names."""
    tree = tree.strip()
    if tree.endswith("}"):
        path, _, group = tree[:-1].partition("{")
        while group.strip():
            one, _ = outside(group, ",")
            for whole, name in used(path + one.strip()) if one.strip() else ():
                yield whole, name
            group = group[len(one) + 1:]
    else:
        whole, _, name = re.sub(r"::self$", "", re.sub(r"\s+", " ", tree)).partition(" as ")
        yield whole, name or whole.rpartition("::")[2]


class Source:
    """A source file: its functions and constants, what it imports, and the fields of its structs."""

    def __init__(self, path):
        self.path = path
        lines = path.read_text().splitlines()
        text = self.plain("\n".join(lines))
        uses = [use for tree in re.findall(r"^\s*(?:pub )?use ([^;]+);", text, re.M) for use in used(tree)]
        self.imported = {name for path, name in uses if path.partition("::")[0] not in ("crate", "self", "super")}
        self.ghosts = {}
        for module, names in re.findall(r"^ghost use (\S+)\.\{([^}]*)\};", text, re.M):
            self.ghosts.update({name.strip(): module for name in names.split(",") if name.strip()})
        self.fields = {}
        for struct in re.finditer(r"\bstruct (\w+) \{", text):
            for field, kind in re.findall(r"(\w+): ([^,]+),", text[struct.end():closing(text, struct.end() - 1)]):
                self.fields[struct.group(1), field] = base(kind)
        self.items, owner = [], None
        for i, line in enumerate(lines):
            block = re.match(r"impl(?:<.*?>)? (?:.*\bfor )?(\w+)", line)
            owner = block.group(1) if block else None if line.startswith("}") else owner
            start = re.match(r'(\s*)(?:pub )?(?:unsafe |const (?=fn )|extern "C" )*(fn|const) (\w+)', line)
            if start:
                indent, kind, name = start.groups()
                end = i
                while end + 1 < len(lines) and not re.match(indent + r"[}\]]", lines[end]) and not (kind == "const" and lines[end].endswith(";")):
                    end += 1
                self.items.append(Function(self, name, i, lines[i:end + 1], owner))

    @staticmethod
    def uncommented(text):
        return re.sub(r'("[^"\n]*")|//.*', r"\1", text)

    @staticmethod
    def plain(text):
        """The text without its comments; of a string, the quotes."""
        return re.sub(r'"[^"\n]*"', '""', Source.uncommented(text))


# ---- definitions


def bound(text):
    """The names that a definition's text binds: parameters of its clauses, and those of λ, of `let` and of a type."""
    names = set()
    for clause in re.findall(r"^\S.*(?:\n .*)*", text, re.M):
        head, mark = outside(clause, (" :", " ="))
        if mark == " =":
            names |= set(re.findall(NAME, head)[1:])
    for group in re.findall(r"λ ([^.]*)\.", text) + re.findall(r"\blet (\S+)(?: :[^=]*)? =", text) + re.findall(r"[({]([^(){}:=]*) : ", text):
        names |= set(re.findall(NAME, group))
    return names


def cited(text, files=()):
    """The names in a definition's text that may be definitions: no projection, no label of a record, no name that the text binds. What stands in a file is `file.name`."""
    text = re.sub(r"(?<=[\s)\]])\.[^\s(){};,\]]+", " ", text)
    text = re.sub(r"([{;]\s*)[^\s(){};=]+\s*=(?= |$)", r"\1", text, flags=re.M)
    text = re.sub(r"^\s+pub \S+ :", " ", text, flags=re.M)
    names, words = bound(text), set()
    for word in re.findall(r"%s(?:\.%s)*" % (NAME, NAME), text):
        first, *further = word.split(".")
        if first not in names:
            words.add(".".join([first] + further[:1]) if first in files else first)
    return words


def is_cited(name, words):
    """Whether a name is among the words; a mixfix name is where all its parts are."""
    parts = [part for part in name.split("◌") if part] if "◌" in name and "«" not in name else [name]
    return all(part in words for part in parts)


class Definitions:
    """A file of definitions, and where each name stands that it imports from its own crate."""

    def __init__(self, path, module, crate):
        self.path, self.module = path, module
        lines = path.read_text().splitlines()
        own, self.imported = "Rattle.%s.specs." % crate, {}
        self.files = set(re.findall(r"^(?:pub )?use \S+ as (\S+)$", "\n".join(lines), re.M))
        for where, names, file_as in re.findall(r"^(?:pub )?use %s(\S+?)(?:\.\{([^}]*)\})?(?: as (\S+))?$" % re.escape(own), "\n".join(lines), re.M):
            for name in filter(None, map(str.strip, names.split(","))):
                name, _, known_as = name.partition(" as ")
                self.imported[known_as or name] = (where, name)
            if file_as:
                self.imported[file_as + "."] = (where, None)
        self.items, begun = [], None
        for i, line in enumerate(lines + ["-- end"]):
            start = re.match(r"(?:unfoldable |abbrev |opaque )*(?:pub )?(?:record |data )?(\S+)(?: [^:=]*)? :", line)
            if begun and (start or line.startswith(("--", "infix", "use "))):
                self.items.append(Item(self, begun[1], begun[0], lines[begun[0]:i]))
                begun = None
            if start and not line.startswith(("use ", "infix", "--", " ")):
                begun = (i, start.group(1))

    @staticmethod
    def uncommented(text):
        return re.sub(r'("[^"\n]*")|(?<!\S)--.*', r"\1", text)

    @staticmethod
    def plain(text):
        return re.sub(r'"[^"\n]*"', '""', Definitions.uncommented(text))

    def rests_on(self, item):
        """Where each definition stands that the item's text names: module and name."""
        words = cited(item.text, self.files)
        for other in self.items:
            if other is not item and is_cited(other.name, words):
                yield self.module, other.name
        for name, (module, original) in self.imported.items():
            if original:
                if is_cited(name, words):
                    yield module, original
            else:
                for word in words:
                    if word.startswith(name):
                        yield module, word[len(name):]


# ---- a crate


class Crate:
    """The functions and the definitions of a crate."""

    def __init__(self, folder):
        self.folder, self.name = folder, folder.name
        self.sources = [Source(path) for path in sorted((folder / "src").rglob("*.rt"))]
        self.functions = [item for source in self.sources for item in source.items]
        self.fields = {field: kind for source in self.sources for field, kind in source.fields.items()}
        specs = folder / "specs"
        self.modules = {}
        for path in sorted(specs.rglob("*.antt")):
            module = ".".join(path.relative_to(specs).with_suffix("").parts)
            self.modules[module] = Definitions(path, module, self.name)

    def declared(self, by, path, name, is_constant):
        """The function or constant of this crate that a path leads to, in the text of an item."""
        owner, *further = reversed(path.split("::")[:-1]) if path else [None]
        owner = by.owner if owner == "Self" else None if owner in ("crate", "self") else owner
        if any(part not in ("crate", "self") for part in further) or (owner or name) in by.file.imported:
            return None
        for item in self.functions:
            if item.is_constant == is_constant and item.name == name and item.owner == owner:
                return item
        return None

    def function(self, by, path, name):
        return self.declared(by, path, name, False)

    def constant(self, by, path, name):
        return self.declared(by, path, name, True)

    def definition(self, module, name):
        for item in self.modules[module].items if module in self.modules else []:
            if item.name == name:
                return item
        return None

    def contract(self, function):
        """The definitions that a function's contract names."""
        own = "Rattle.%s.specs." % self.name
        clauses = re.sub(r"\b(?:requires|ensures)\b\s*\*?\s*\w*\s*(?=\{)", "", function.head)
        words = cited(clauses) - {name for name, _ in function.parameters} - {"«%s»" % name for name, _ in function.parameters}
        for name, module in function.file.ghosts.items():
            if module.startswith(own) and is_cited(name, words):
                yield self.definition(module[len(own):], name)

    def reached(self, function):
        """The function, all that it calls in its crate, and all that its own contract rests on in its crate's definitions."""
        def onwards(first, further):
            seen, todo = [], list(first)
            while todo:
                item = todo.pop()
                if item and item not in seen:
                    seen.append(item)
                    todo += further(item)
            return seen

        code = onwards([function], lambda item: list(item.calls(self)))
        return code + onwards(self.contract(function), lambda item: [self.definition(*where) for where in item.file.rests_on(item)])
