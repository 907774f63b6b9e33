"""Which wrong bodies need not be tried: what is known of crates whose wrong bodies were all refused.

The file tests/refused.txt has a line for each such crate. Its digests say what the verdicts rest on: the crate's own text with
its wrong bodies, and what lies below, which is the text of all crates below it and the toolchain. wrong_bodies.py alone writes it, behind a run in
which it saw the refusals; each line has a seal, so that one which was changed by hand counts as none.
"""
import dataclasses
import hashlib
import os

NAME = "tests/refused.txt"
HEAD = """# The crates whose wrong bodies were all refused, and what that rests on. Written by tests/wrong_bodies.py alone, which tries a
# crate whose line is missing, or whose text is another. The columns: the crate, the digest of its text, that of the crates below it,
# how many wrong bodies were refused, the processor seconds that this took, and a seal over the line.
"""
OWN, BELOW = ("src", "specs", "proofs", "wrong"), ("src", "specs", "proofs")
# The processor seconds of wrong bodies that a run tries though their crates are as they were: twelve minutes on four processors.
SHARE = 12 * 60 * 4


def sum_of(*texts):
    """A digest of texts, each with its length in front."""
    made = hashlib.sha256()
    for text in texts:
        made.update(len(text).to_bytes(8, "big") + text)
    return made.hexdigest()[:32]


def digest_of(folder, parts, *words):
    """The digest of the files in these parts of a crate's folder, and of words."""
    texts = [it.encode() for it in words]
    for part in parts:
        for at, folders, files in os.walk(f"{folder}/{part}"):
            folders.sort()
            for name in sorted(files):
                path = f"{at}/{name}"
                with open(path, "rb") as file:
                    texts += [os.path.relpath(path, folder).encode(), file.read()]
    return sum_of(*texts)


@dataclasses.dataclass(frozen=True)
class Line:
    """What is known of a crate: the digests, how many wrong bodies were refused, and the processor seconds that it took."""

    name: str
    own: str
    below: str
    refused: int
    seconds: int

    def words(self):
        return [self.name, self.own, self.below, str(self.refused), str(self.seconds)]

    def seal(self):
        return sum_of(b"all wrong bodies refused", *(it.encode() for it in self.words()))[:16]

    def text(self):
        return " ".join([*self.words(), self.seal()]) + "\n"


def line_of(text):
    """The line that a text is, if it has a right seal."""
    words = text.split()
    if len(words) != 6 or not (words[3].isdigit() and words[4].isdigit()):
        return None
    line = Line(*words[:3], int(words[3]), int(words[4]))
    return line if line.seal() == words[5] else None


class Verdicts:
    """The lines of a repository, by their crates, and the digests of its crates as they were when this was made."""

    def __init__(self, top, crates, kit):
        """The crates are by name: the folder of each, and the names of those below it, all of them."""
        self.path, self.lines, self.crates, self.kit = f"{top}/{NAME}", {}, crates, kit
        self.own = {name: self.own_now(name) for name in crates}
        texts = {name: self.text_now(name) for name in crates}
        self.below = {name: self.below_of(name, texts) for name in crates}
        if os.path.exists(self.path):
            with open(self.path, encoding="utf-8") as file:
                found = [it for it in map(line_of, file) if it]
            self.lines = {it.name: it for it in found}

    def own_now(self, name):
        folder, below = self.crates[name]
        return digest_of(folder, OWN, *sorted(below))

    def text_now(self, name):
        folder, below = self.crates[name]
        return digest_of(folder, BELOW, *sorted(below))

    def below_of(self, name, texts):
        return sum_of(self.kit.encode(), *(f"{it} {texts[it]}".encode() for it in sorted(self.crates[name][1]) if it in texts))

    def is_as_it_was(self, name):
        """Whether the text of a crate, and of those below it, is now what it was when this was made."""
        texts = {it: self.text_now(it) for it in self.crates[name][1] if it in self.crates}
        return self.own_now(name) == self.own[name] and self.below_of(name, texts) == self.below[name]

    def is_changed(self, name):
        """Whether a crate has no line, or its own text is another."""
        return name not in self.lines or self.lines[name].own != self.own[name]

    def is_over_changed(self, name):
        """Whether a crate's own text is as it was, and that below it is another."""
        return not self.is_changed(name) and self.lines[name].below != self.below[name]

    def due(self, names, commit, share=SHARE):
        """The crates whose wrong bodies are to be tried at a commit: those that changed, and a part of the others.

        The others stand in a circle, which begins at a place that the commit's own hash gives. First come those over changed
        crates, as far as two thirds of the share suffice, then the rest; of each at least one, so that each crate's turn comes.
        """
        changed = [it for it in names if self.is_changed(it)]
        over = [it for it in names if self.is_over_changed(it)]
        still = [it for it in names if it not in changed and it not in over]
        taken, left = [], share
        for circle, most in (over, share * 2 // 3 if still else share), (still, share):
            turned = sorted(circle, key=lambda it: sum_of(commit.encode(), it.encode()))
            for at, name in enumerate(turned):
                cost = self.lines[name].seconds
                if at and (cost > left or cost > most):
                    break
                taken.append(name)
                left, most = left - cost, most - cost
        return changed, taken

    def take(self, name, is_refused, refused, seconds):
        """Writes what was seen of a crate: its line where all were refused, or else none."""
        if is_refused:
            self.lines[name] = Line(name, self.own[name], self.below[name], refused, round(seconds))
        else:
            self.lines.pop(name, None)
        self.write()

    def write(self):
        """Writes the lines of the crates that are still there, in the order of their names."""
        os.makedirs(os.path.dirname(self.path), exist_ok=True)
        rows = [self.lines[it].text() for it in sorted(self.lines) if it in self.crates]
        with open(f"{self.path}.new", "w", encoding="utf-8") as file:
            file.write(HEAD + "".join(rows))
        os.replace(f"{self.path}.new", self.path)
