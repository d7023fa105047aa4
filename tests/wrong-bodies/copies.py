"""A crate's copy for a check: wrong bodies beside the right ones, all others empty. Not proved."""

import re
import shutil

from goals import is_of
from sources import Sources, files_of

ANSWER = re.compile(r"^pub (\S+) : goal\.\1$", re.M)

HOLE = """use {module}.Statement.{{statement}}

pub {name}_spec : {{M : Type 1}} → statement M
{name}_spec = ?
"""


class Judgement:
    """A function in the copy that is judged: the clauses whose answers are taken away."""

    def __init__(self, path, clauses, gone=(), is_by_hand=False):
        self.path, self.clauses, self.gone, self.is_by_hand = path, clauses, gone, is_by_hand

    @property
    def name(self):
        return self.path.replace("/", "::")


class Copy:
    """A crate's copy with its wrong bodies beside the right ones."""

    def __init__(self, folder, root, edits):
        for part in ("src", "specs", "proofs"):
            if (folder / part).exists():
                shutil.copytree(folder / part, root / part)
        self.crate, self.folder, self.root, self.edits = folder.name, folder, root, edits
        self.sources = Sources(folder, root)
        self.complaints = self.sources.complaints
        self.right, self.wrong = {}, {}

    def proofs_of(self, path):
        return f"Rattle.{self.crate}.proofs." + path.replace("/", ".")

    def make(self):
        """Puts each wrong body beside the right one, and leaves all others without bodies."""
        functions = self.sources.all_functions()
        for number, edit in enumerate(self.edits):
            found = [it for it in functions if it.has_name(edit.function)]
            if len(found) > 1:
                self.complaints[edit.name] = f"several functions are {edit.function}"
            elif found:
                self.put_beside(edit, found[0], f"_wrong_{number}")
            else:
                self.put_in_place(edit)
        judged = {it.path for it in [*self.right.values(), *self.wrong.values()]}
        for file in files_of(self.root):
            lines = file.read_text().split("\n")
            for function in reversed(self.sources.functions(file)):
                if function.path not in judged:
                    self.empty(function, lines)
            file.write_text("\n".join(lines))
        for folder in self.answered():
            path = str(folder.relative_to(self.root / "proofs"))
            of = [it for it in [*self.right.values(), *self.wrong.values()] if it.path == path]
            if not of:
                self.put_hole(path)
            elif not of[0].is_by_hand:
                self.leave_holes(folder, of[0])

    def put_beside(self, edit, function, mark):
        """Puts a wrong body behind the right one, by a name of its own, with its answers."""
        if not self.sources.put_beside(edit, function, mark):
            return
        name, path = function.name, function.path + mark
        if (self.root / "proofs" / function.path).is_dir():
            shutil.copytree(self.root / "proofs" / function.path, self.root / "proofs" / path)
            for answers in (self.root / "proofs" / path).rglob("*.antt"):
                text = answers.read_text()
                text = text.replace(f"{self.proofs_of(function.path)}.", f"{self.proofs_of(path)}.")
                answers.write_text(text.replace(f"{name}_spec", f"{name}{mark}_spec"))
        self.wrong[edit.name] = Judgement(path, [edit.clause], edit.gone, edit.is_by_hand)
        if not edit.is_by_hand and self.has_answers(function.path, edit.clause):
            right = self.right.setdefault(function.path, Judgement(function.path, []))
            right.clauses.append(edit.clause)

    def has_answers(self, path, clause):
        """Whether there are answers by hand to a clause of the right body. Where there are none,
        `rt ci` has shown that the tactics prove it."""
        folder = self.folder / "proofs" / path
        file = folder / "Answers.antt"
        goals = ANSWER.findall(file.read_text()) if file.exists() else []
        return (folder / "Proof.antt").exists() or any(is_of(it, clause, may=True) for it in goals)

    def put_in_place(self, edit):
        """Puts a wrong body of a trait's function in the place of the right one."""
        if self.sources.put_in_place(edit):
            self.wrong[edit.name] = Judgement(edit.function.replace("::", "/"), [edit.clause])

    def empty(self, function, lines):
        """Leaves a function without a body, with a hole for a proof."""
        indent = " " * (len(lines[function.head]) - len(lines[function.head].lstrip()))
        lines[function.opens + 1 : function.ends] = [indent + "    unreachable!()"]
        above, _, name = function.path.rpartition("/")
        shutil.rmtree(self.root / "proofs" / above / f"+{name}", ignore_errors=True)
        self.put_hole(function.path)

    def put_hole(self, path):
        folder = self.root / "proofs" / path
        folder.mkdir(parents=True, exist_ok=True)
        for name in ("Answers.antt", "Invariants.antt"):
            (folder / name).unlink(missing_ok=True)
        name = path.rpartition("/")[2]
        (folder / "Proof.antt").write_text(HOLE.format(module=self.proofs_of(path), name=name))

    def answered(self):
        """The folders of functions with proofs by hand, but those of parts of a recursion."""
        names = {"Answers.antt", "Invariants.antt", "Proof.antt"}
        files = (self.root / "proofs").glob("*/**/*.antt")
        found = {it.parent for it in files if it.name in names}
        return sorted(it for it in found if not any(part.startswith("+") for part in it.parts))

    def leave_holes(self, folder, judged):
        """Takes the answers to a judgement's clauses away; the function's others are holes then."""
        file = folder / "Answers.antt"
        if not file.exists():
            return
        goals = [it for it in ANSWER.findall(file.read_text()) if it not in judged.gone]
        kept = [it for it in goals if not any(is_of(it, of, may=True) for of in judged.clauses)]
        text = f"use {self.proofs_of(judged.path)}.Goals as goal\n"
        file.write_text(text + "".join(f"\npub {it} : goal.{it}\n{it} = ?\n" for it in kept))
