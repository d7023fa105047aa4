"""What stands in the files of a crate's src/: its functions, each with its place. Not proved."""

import re

HEAD = re.compile(r" *(?:fn .*\} )?(?:pub(?:\([a-z]*\))? )?(?:extern \"C\" )?fn (\w+)[(<]")
OPENS = re.compile(r" *(pub|extern|fn|\)).*\{$")
TYPE = re.compile(r"^(?:pub(?:\([a-z]*\))? )?(?:struct|enum) (\w+)", re.M)
IMPL = re.compile(r"impl(?:<.*?>)? ([A-Z]\w*)(?:<[^{]*>)? \{$")


class Function:
    """A function in a file: its path in proofs/, and the places of its head and its body."""

    def __init__(self, file, path, head, opens, ends):
        self.file, self.path, self.head, self.opens, self.ends = file, path, head, opens, ends

    @property
    def name(self):
        return self.path.rpartition("/")[2]

    def has_name(self, name):
        return f"/{self.path}".endswith("/" + name.replace("::", "/"))


def files_of(root):
    return sorted((root / "src").rglob("*.rt"))


def module_of(root, file):
    """The names of the module that a file is."""
    parts = list(file.relative_to(root / "src").with_suffix("").parts)
    return [] if parts == ["lib"] else parts


def homes_of(root):
    """The module of each type: a check names a type's own functions by it, wherever they stand."""
    found = {}
    for file in files_of(root):
        for name in TYPE.findall(file.read_text()):
            found[name] = module_of(root, file)
    return found


def functions_of(root, file, homes):
    """The functions of a file that stand by themselves or in a type's own `impl`."""
    lines = file.read_text().split("\n")
    owner, at = None, 0
    while at < len(lines):
        if lines[at][:1].strip():
            impl = IMPL.match(lines[at])
            owner = impl[1] if impl else None
        head = HEAD.match(lines[at])
        indent = " " * (len(lines[at]) - len(lines[at].lstrip()))
        if head and (not indent or (indent == "    " and owner in homes)):
            opens = at
            while lines[opens] and lines[opens] != indent + "{" and not OPENS.match(lines[opens]):
                opens += 1
            if lines[opens]:
                ends = lines.index(indent + "}", opens)
                above = [*homes[owner], owner] if indent else module_of(root, file)
                yield Function(file, "/".join([*above, head[1]]), at, opens, ends)
                at = ends
        at += 1


def begins_at(lines, head):
    """Where a function begins whose head stands there: with its attributes and comments."""
    while re.match(r" *(///|#\[)", lines[head - 1]):
        head -= 1
    return head


class Sources:
    """A copy of a crate, in which wrong bodies are put beside the right ones."""

    def __init__(self, folder, root):
        self.folder, self.root, self.homes, self.complaints = folder, root, homes_of(root), {}

    def all_functions(self):
        return [it for file in files_of(self.root) for it in self.functions(file)]

    def functions(self, file):
        return list(functions_of(self.root, file, self.homes))

    def put_beside(self, edit, function, mark):
        """Puts a wrong body behind the right one, by a name of its own, and returns whether it
        could."""
        file = function.file.relative_to(self.root)
        whole = (self.folder / file).read_text()
        lines = function.file.read_text().split("\n")
        function = next(it for it in self.functions(function.file) if it.path == function.path)
        own = lines[begins_at(lines, function.head) : function.ends + 1]
        own = edit.put("\n".join(own), whole)
        if own is None or any(it != str(file) for it, _, _ in edit.pairs):
            self.complaints[edit.name] = "a text isn't in its file once, in the function"
            return False
        own = re.sub(rf"\bfn {function.name}\b", f"fn {function.name}{mark}", own, count=1)
        lines[function.ends + 1 : function.ends + 1] = ["", own]
        function.file.write_text("\n".join(lines))
        return True

    def put_in_place(self, edit):
        """Puts a wrong body in the place of the right one, and returns whether it could."""
        for name in dict.fromkeys(it for it, _, _ in edit.pairs):
            file = self.root / name
            text = edit.put(file.read_text(), (self.folder / name).read_text(), name)
            if text is None:
                self.complaints[edit.name] = "a text isn't in its file once"
                return False
            file.write_text(text)
        return True
