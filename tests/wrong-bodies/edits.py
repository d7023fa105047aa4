"""What a file NAME.edit says of a wrong body (see run-built). Not proved."""


class Edit:
    """A wrong body, and what is judged of it: `gone`, `also`, and the pairs of texts by file."""

    def __init__(self, path, is_right=False):
        self.name, self.gone, self.pairs, self.text = path.stem, [], [], path.read_text()
        self.is_right = is_right
        self.is_by_hand, self.also = False, []
        self.example, self.fault, self.no_example = "", None, None
        file = old = None
        for line in self.text.splitlines():
            word, _, rest = line.partition(": ")
            if word == "function":
                self.function = rest
            elif word == "clause":
                self.clause = rest
            elif word == "file":
                file = rest
            elif word == "old":
                old = rest
            elif word == "new":
                self.pairs.append((file, old, rest))
            elif word == "gone":
                self.gone.append(rest)
            elif word == "also":
                self.also = rest.split()
            elif word == "example":
                self.example += rest + "\n"
            elif word == "fault":
                self.fault = rest
            elif word == "no-example":
                self.no_example = rest
            elif line == "by: hand":
                self.is_by_hand = True

    @property
    def file(self):
        """The file of its first change."""
        return self.pairs[0][0]

    def complaint(self):
        """Why it can't be judged, if so."""
        if self.example and self.no_example:
            return "it has an example, and says why it has none"
        if not self.example and not self.no_example:
            return "not shown: no example, and no word on why"
        return None

    def put(self, text, whole, file=None):
        """A part of a file with the wrong body, or None where an old text isn't there once."""
        for of, old, new in self.pairs:
            if file and of != file:
                continue
            if whole.count(old) != 1 or text.count(old) != 1:
                return None
            text = text.replace(old, new)
        return text


def edits_of(folder, is_right=False):
    return [Edit(it, is_right) for it in sorted(folder.glob("*.edit"))]
