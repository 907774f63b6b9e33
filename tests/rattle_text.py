"""The functions of Rattle sources, as texts: where each is, and what a check calls it."""
import dataclasses
import json
import re
import subprocess
import tempfile


@dataclasses.dataclass(frozen=True)
class Function:
    """A function with a body. Lines count from 1."""

    name: str
    first: int  # its first line, with its attributes
    opens: int  # the line of the brace that opens its body
    last: int
    cycle: str  # the word of #[cycle(..)]: functions of one cycle have one proof
    block: str  # the impl that it is in: the type's name and the trait's, as the prover joins them
    is_of_trait: bool  # whether that is an impl of a trait, or the trait itself, which can have no further function

    def has_line(self, line):
        return self.first <= line <= self.last

    def has_in_body(self, start, end):
        """Whether the lines behind `start`, up to `end`, are in the body."""
        return self.opens < start + 1 and max(end, start + 1) <= self.last


def module_of(file):
    """The module that a source file holds, as a path below the crate: `a/b` of src/a/b.rt and of src/a/b/mod.rt."""
    path = file.removeprefix("src/").removesuffix(".rt")
    return "" if path in ("lib", "main") else path.removesuffix("/mod")


def names_of(file, function):
    """What --only takes for the function: a method by its type, which can be of another module; else all of the module."""
    module = module_of(file).replace("/", "::")
    if not function.block:
        return [f"{module}::{function.name}" if module else function.name]
    return [f"{function.block}::{function.name}", module]


def is_proof_of(path, file, function):
    """Whether a file of proofs/ belongs to the function's own proof."""
    if function.cycle:
        return f"/+{function.cycle}/" in path
    if not function.block:
        folders = [it for it in ("proofs", module_of(file), function.name) if it]
        return path.startswith("/".join([*folders, ""]))
    # (the prover's name of a block can say more of its type's arguments)
    return bool(re.search(rf"/{re.escape(function.block)}[\w+]*/{re.escape(function.name)}/", path))


def path_of(file, function):
    """The path of a function below the crate, as its proof has it, or None of a method, whose block can have another name there."""
    return None if function.block else "/".join(it for it in (module_of(file), function.name) if it)


def tokens_of(rattle, text):
    """The words of the code with their lines, or None where the lexer refuses the text."""
    with tempfile.NamedTemporaryFile("w", suffix=".rt", encoding="utf-8") as file:
        file.write(text)
        file.flush()
        ran = subprocess.run([rattle, "fmt", "--tokens", file.name], capture_output=True, text=True)
    if ran.returncode:
        return None
    rows = (row.split(" ", 4) for row in ran.stdout.split("\n"))
    return [(int(row[0]), json.loads(row[4])) for row in rows if len(row) == 5 and row[3] == "Code"]


def without_parameters(header):
    """The words of an impl's head behind its own parameters."""
    if not header or header[0] != "<":
        return header
    depth = 0
    for at, word in enumerate(header):
        depth += {"<": 1, ">": -(header[at - 1] != "-"), ">>": -2}.get(word, 0)
        if depth == 0:
            return header[at + 1 :]
    return []


def block_name(header):
    """The prover's name of an impl by the words of its head: `FaultFromAllocError` of `impl From<AllocError> for Fault`."""
    sides, depth = [([], [])], 0
    for at, word in enumerate(without_parameters(header)):
        if depth == 0 and word == "where":
            break
        if depth == 0 and word == "for":
            sides.append(([], []))
        elif depth < 2 and re.match(r"\w+$|&$", word):
            sides[-1][depth].append(word)
        depth += {"<": 1, ">": -1, ">>": -2}.get(word, 0)
    *traits, (own, _) = sides
    words = ["Ref"] * ("&" in own) + own[-1:]
    for outer, inner in traits:
        words += [*outer[-1:], *[it for it in inner if it != "&"][:1]]
    return "".join(it[:1].upper() + it[1:] for it in words)


def functions_of(rattle, text):
    """The functions of a source, in order, or None where the lexer refuses the text."""
    tokens = tokens_of(rattle, text)
    if tokens is None:
        return None
    found, blocks, started, depth, cycle, header, item = [], [], [], 0, "", None, 0
    for at, (line, word) in enumerate(tokens):
        before = tokens[at - 1][1] if at else "}"
        if before in ("{", "}", ";"):
            item = line
        if word == "cycle" and before == "[":
            cycle = tokens[at + 2][1]
        elif word == "fn" and re.match(r"\w+$", tokens[at + 1][1]):
            started.append({"name": tokens[at + 1][1], "first": item, "depth": depth, "cycle": cycle})
            cycle = ""
        elif word == "impl" and before in ("}", ";", "]", "unsafe"):
            header = []
        elif word == "trait" and tokens[at + 2][1] in ("{", ":", "<"):
            header = [word]
        elif word == "{":
            if header is not None:
                is_trait = header[:1] == ["trait"]
                blocks.append((depth, "" if is_trait else block_name(header), is_trait or "for" in without_parameters(header)))
                header = None
            elif started and "opens" not in started[-1] and started[-1]["depth"] == depth:
                started[-1]["opens"] = line
            depth += 1
        elif word == "}":
            depth -= 1
            if started and "opens" in started[-1] and started[-1]["depth"] == depth:
                made = started.pop()
                del made["depth"]
                _, block, is_of_trait = blocks[-1] if blocks else (0, "", False)
                found.append(Function(**made, last=line, block=block, is_of_trait=is_of_trait))
            elif blocks and blocks[-1][0] == depth:
                blocks.pop()
        elif word == ";" and started and "opens" not in started[-1] and started[-1]["depth"] == depth:
            started.pop()  # a method of a trait that has no body
        elif header is not None:
            header.append(word)
    return sorted(found, key=lambda it: it.first)
