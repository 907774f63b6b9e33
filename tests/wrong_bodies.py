#!/usr/bin/env python3
"""Tries wrong bodies, many in one check, and reports which of them the prover refuses.

    wrong_bodies.py [--jobs N] [--minutes M] [--after-ci [--due COMMIT] | --edits] [NAME..]     at the top of the repository; with no NAME, every crate

A wrong body is a file crates/NAME/wrong/*.edit or crates/NAME/must-fail/*.edit, in the form that `rt must-fail` reads.
It has to change the bodies of functions, and nothing else. Each function is proved from its own body and the contracts
of what it calls, so wrong bodies of different functions go into one copy of the crate, a batch, and one check of these
functions decides each of them. A wrong body is refused where a goal of a function that it changes stays open, and never
because another function is not proved. A wrong body that the front end refuses is a bad edit: it is taken out, and the
rest of its batch is checked again.

Without --after-ci each crate is checked first over the work that earlier checks kept, and each batch over a copy of it.
With --after-ci, which the test command gives, the libraries that `rt ci` left are used as they are, the functions of a
batch are proved from nothing, and only those of wrong/ are tried: `rt ci` has tried the others. It has proved the functions that a
wrong body calls too, so their proofs are left out, but for methods: each gets a proof with a hole, and counts as proved.
With --due only those of the crates that are due at a commit are tried: verdicts.py says which. Whatever is tried, what was seen of
a crate is written to tests/refused.txt: that all wrong bodies of wrong/ were refused, or, where one wasn't, nothing more of it.
With --minutes no crate is begun any more after that time: the crates that changed come first, and of these the small ones. Those that
it didn't come to keep no line of their old text, so they come first the next time.
With --edits nothing is checked, and the edits of wrong/ are only read, in seconds: each has to change the bodies of functions.
The last line is 'N passed, M failed', with ', K skipped' where the time was up before K wrong bodies, and the exit status is 1 where M is not 0.

Written for the kits rattle-kit-13b and 13f: how a crate is checked is taken from its rtlib.py, and the form of the lines that a
check prints from its rattle.
"""
import argparse
import collections
import dataclasses
import difflib
import glob
import importlib.machinery
import importlib.util
import math
import os
import re
import shutil
import subprocess
import sys
import tempfile
import time
from concurrent.futures import ThreadPoolExecutor, as_completed

sys.dont_write_bytecode = True
sys.path.insert(0, os.path.dirname(os.path.realpath(__file__)))
from prove import each_once  # noqa: E402
from rattle_text import functions_of, is_proof_of, names_of, path_of  # noqa: E402
from verdicts import Verdicts  # noqa: E402

ONE_JOB = ["--jobs", "1"]
# What `--progress` prints as the check of a function's proof has ended.
ENDED = re.compile(r"checked (\S+), \d+ of \d+$")
AT = re.compile(r"(?:note: )?(?:\./)?((?:src|specs|proofs)/\S+?):(\d+):\d+: (.*)")
# What is said of a wrong body whose function may have waited for the proof of one that it calls.
WAITS = False, "NOT TRIED: its function is not proved, but no goal of it is open"
# An answer that names what the edit took away, as a step or a goal of a call, says little of the contract.
SHAPE = re.compile(r"has no field|is not in scope|has no `|was not admitted")
# A long message says in its second line what the record of a step, or the module of the goals, lacks.
LACKS = re.compile(r"  (?:module `\S+` )?has no (?:field )?`")
# The proof of a function that is proved elsewhere: all but a goal that is cheap to print.
LEFT_OUT = """use Rattle.{crate}.proofs.{path}.Statement.{{statement}}

left_out : ⊥
left_out = ?

pub {name}_spec : {{M : Type 1}} → statement M
{name}_spec = absurd left_out
"""
# What is said of such a proof where the function has none of its own: one that calls itself, or is for tests.
MISPLACED = re.compile(r"\./proofs/(\S+)/Proof\.antt(?::\d+:\d+)?: error")
# How a check that leaves proofs out ends the line of a function that is proved but for these.
IS_PROVED = "(?:proved|no holes|depends on a hole)"


def kit():
    """The toolchain's rtlib, which knows the crates of a repository and the words of a check."""
    rt = shutil.which("rt") or sys.exit("wrong_bodies: there is no rt on the PATH")
    loader = importlib.machinery.SourceFileLoader("rtlib", f"{os.path.dirname(os.path.realpath(rt))}/rtlib.py")
    module = importlib.util.module_from_spec(importlib.util.spec_from_loader("rtlib", loader))
    sys.modules["rtlib"] = module
    loader.exec_module(module)
    # rtlib's stamp reads a library's files once for each way that leads to it: 150,000 times for the highest crates.
    module.Crate.stamp = once(module.Crate.stamp)
    # It goes to the crates below in the same way, too.
    module.Crate.below = each_once(module.Crate.below)
    return module


def once(stamp):
    """A stamp that is computed once for each folder: the crates' own files don't change while wrong bodies are tried."""
    found = {}

    def known(crate):
        if crate.folder not in found:
            found[crate.folder] = stamp(crate)
        return found[crate.folder]

    return known


rtlib = kit()


class BadEdit(Exception):
    """Why an edit can't be tried."""


def edited(path, folder):
    """The texts of the files that an edit changes, by their paths in the crate."""
    file, old, texts = "", None, {}
    with open(path, encoding="utf-8") as lines:
        for line in lines.read().split("\n"):
            word, _, text = line.partition(" ")
            if word == "file:":
                file = text.strip()
            elif word == "old:":
                old = text
            elif word == "new:" and file and old:
                if file not in texts:
                    with open(f"{folder}/{file}", encoding="utf-8") as it:
                        texts[file] = it.read()
                if texts[file].count(old) != 1:
                    raise BadEdit(f"an 'old:' text is in {file} {texts[file].count(old)} times, and not once")
                texts[file], old = texts[file].replace(old, text), None
    if not texts:
        raise BadEdit("it has no 'file:', 'old:' and 'new:' lines")
    return texts


@dataclasses.dataclass(eq=False)
class WrongBody:
    """An edit: the lines that it replaces, and the functions whose bodies these are."""

    name: str
    replaced: dict  # by file: the lines behind `start`, up to `end`, and what is written there
    functions: set  # of (file, function)
    copied: list = None  # the lines of the function with the wrong body, where it can stand beside the function itself

    def keys(self):
        """What no two wrong bodies of a batch may share: none where it is a function of its own."""
        if self.copied:
            return set()
        return {f"+{it.cycle}" if it.cycle else (it.block or file, it.name) for file, it in self.functions}


class Sources:
    """The files of a crate, read once."""

    def __init__(self, folder):
        self.folder, self.known = folder, {}

    def lines(self, file):
        return self.read(file)[0]

    def functions(self, file):
        return self.read(file)[1]

    def read(self, file):
        if file not in self.known:
            with open(f"{self.folder}/{file}", encoding="utf-8") as it:
                text = it.read()
            self.known[file] = text.split("\n"), functions_of(rtlib.RATTLE, text)
        return self.known[file]

    def paths(self):
        """The functions that are no methods and have a proof of their own, by the paths of their proofs."""
        found = {}
        for path in sorted(glob.glob(f"{glob.escape(self.folder)}/src/**/*.rt", recursive=True)):
            file = os.path.relpath(path, self.folder)
            for it in self.functions(file) or []:
                path = None if it.cycle or it.name == "main" else path_of(file, it)
                if path:
                    found[path] = file, it
        return found

    def wrong_body(self, name, path):
        """The wrong body of an edit's file."""
        try:
            texts = edited(path, self.folder)
        except (OSError, UnicodeDecodeError) as error:
            raise BadEdit(f"it can't be read ({error})") from None
        made = WrongBody(name, {}, set())
        for file, text in texts.items():
            if not file.startswith("src/"):
                raise BadEdit(f"{file} is not of the code")
            before, after = self.lines(file), text.split("\n")
            changes = difflib.SequenceMatcher(None, before, after, autojunk=False).get_opcodes()
            made.replaced[file] = [(a, b, after[c:d]) for what, a, b, c, d in changes if what != "equal"]
            for start, end, _ in made.replaced[file]:
                around = [it for it in self.functions(file) or [] if it.has_in_body(start, end)]
                if not around:
                    raise BadEdit("it changes more than the bodies of functions")
                made.functions.add((file, max(around, key=lambda it: it.first)))
            names = [it.name for it in functions_of(rtlib.RATTLE, text) or []]
            if names != [it.name for it in self.functions(file)]:
                raise BadEdit("it adds or hides a function")
        if not made.functions:
            raise BadEdit("it changes nothing")
        (file, of), *others = made.functions
        if not (others or of.cycle or of.is_of_trait):
            again = functions_of(rtlib.RATTLE, texts[file])[self.functions(file).index(of)]
            made.copied = texts[file].split("\n")[again.first - 1 : again.last]
        return made


def renamed(lines, old, new):
    """The lines of a function, under another name."""
    return re.sub(rf"\bfn {old}\b", f"fn {new}", "\n".join(lines), count=1).split("\n")


class Merged:
    """The texts of a batch, and its functions as they are there, by their wrong bodies.

    A wrong body stands beside its function where it can, as a function of its own under another name and with the same
    contract: then all others call the function itself, and any number of wrong bodies of one function fit in a batch.
    """

    def __init__(self, batch, sources):
        self.texts, self.functions, self.copies = {}, {it: set() for it in batch}, []
        changes, names = {}, {}
        for number, body in enumerate(batch):
            for file, it in body.functions:
                name = f"{it.name}__{number}" if body.copied else it.name
                names.setdefault(file, {})[it.block, name] = body
                if body.copied:
                    self.copies.append((it, file, name))
                    changes.setdefault(file, []).append((it.last, it.last, renamed(body.copied, it.name, name)))
            for file, replaced in {} if body.copied else body.replaced.items():
                changes.setdefault(file, []).extend(replaced)
        for file, of_file in changes.items():
            lines = list(sources.lines(file))
            for start, end, new in sorted(of_file, key=lambda it: it[:2], reverse=True):
                lines[start:end] = new
            self.texts[file] = "\n".join(lines)
            for it in functions_of(rtlib.RATTLE, self.texts[file]) or []:
                if body := names[file].get((it.block, it.name)):
                    self.functions[body].add((file, it))

    def write(self, room):
        """Writes them over a copy of the crate. A function under another name has the proof files of the one that it is a copy of."""
        for path, text in self.texts.items():
            with open(f"{room}/{path}", "w", encoding="utf-8") as file:
                file.write(text)
        for of, file, name in self.copies:
            folders = [it for it in glob.glob(f"{room}/proofs/**/{of.name}/", recursive=True) if is_proof_of(os.path.relpath(it, room) + "/", file, of)]
            for folder in folders:
                copy = f"{os.path.dirname(folder.rstrip('/'))}/{name}"
                shutil.copytree(folder, copy)
                for path in glob.glob(f"{copy}/*.antt"):
                    with open(path, encoding="utf-8") as it:
                        text = it.read()
                    with open(path, "w", encoding="utf-8") as it:
                        it.write(re.sub(rf"^(use Rattle\.\w+\.proofs\.\S*\b){of.name}(\.(?:Goals|Given)\b)", rf"\g<1>{name}\2", text, flags=re.M))

    def leave_out(self, room, crate, sources, misplaced):
        """Replaces the proofs of the functions that no wrong body of the batch changes, in a copy of the crate."""
        changed = {(file, it) for body in self.functions if not body.copied for file, it in body.functions}
        for path, function in sources.paths().items():
            if function in changed or path in misplaced or os.path.isdir(f"{room}/proofs/{os.path.dirname(path)}/+{function[1].name}"):
                continue
            shutil.rmtree(f"{room}/proofs/{path}", ignore_errors=True)
            os.makedirs(f"{room}/proofs/{path}")
            with open(f"{room}/proofs/{path}/Proof.antt", "w", encoding="utf-8") as file:
                file.write(LEFT_OUT.format(crate=crate.name, path=path.replace("/", "."), name=function[1].name))

    def has_place(self, body, path, line):
        """Whether a place is in a function that a wrong body changes, or in its proof."""
        return any(path == file and it.has_line(line) or is_proof_of(path, file, it) for file, it in self.functions[body])


def batches_of(bodies):
    """As few batches as first fit finds, in each of which no two wrong bodies change one function."""
    batches = []
    for body in sorted(bodies, key=lambda it: -len(it.functions)):
        room = next((it for it in batches if not any(body.keys() & other.keys() for other in it)), None)
        if room is None:
            batches.append(room := [])
        room.append(body)
    return batches


@dataclasses.dataclass
class Ran:
    """What a check printed, and the processor seconds that it took."""

    lines: list
    seconds: float

    def ended(self):
        """Whether the check went through all of its functions."""
        return bool(self.lines) and bool(re.match(r"only=\d+ (?:proved|holes)=\d+", self.lines[-1]))


def link_or_copy(file, to):
    """Gives a kept file a second name: a check writes new files, and changes none in place."""
    try:
        os.link(file, to)
    except OSError:
        shutil.copy2(file, to)


class Trial:
    """The wrong bodies of one crate, tried."""

    def __init__(self, crate, kept, is_own):
        # (a check writes what it proved of the edited text into the kept work: others see that only where it is the trial's own)
        self.crate, self.kept, self.is_own, self.sources = crate, kept, is_own, Sources(crate.folder)
        self.said, self.checks, self.seconds, self.took = {}, 0, 0.0, collections.Counter()
        # (over kept work nothing is gained by it)
        self.leaves_out = is_own
        self.misplaced = set()  # the paths at which a proof that is left out can't stand

    def run(self, paths):
        """The name of each wrong body, whether it is refused, and what is to be printed of it."""
        bodies = []
        for path in paths:
            name = f"{self.crate.name}/{os.path.basename(path)}"
            self.said[name] = False, "NOT TRIED"
            try:
                bodies.append(self.sources.wrong_body(name, path))
            except BadEdit as why:
                self.said[name] = False, f"BAD EDIT: {why}"
        for batch in batches_of(bodies):
            self.try_batch(batch)
        # (what was not refused is tried with all proofs, and in the place of its function)
        self.leaves_out = False
        again = [it for it in bodies if not self.said[it.name][0] and (it.copied or self.is_own)]
        for body in again:
            body.copied = None
        for batch in batches_of(again):
            self.try_batch(batch)
        return [(name, *said) for name, said in self.said.items()]

    def try_batch(self, batch):
        merged = Merged(batch, self.sources)
        ran = self.checked(merged)
        found = {body: [] for body in batch}
        for line, below in zip(ran.lines, [*ran.lines[1:], ""]):
            if at := AT.match(line):
                text = f"{at[3]} {below.strip()}" if LACKS.match(below) else at[3]
                for body in batch:
                    if merged.has_place(body, at[1], int(at[2])):
                        found[body].append(text)
        if not ran.ended():
            self.without_bad_edits(batch, found, ran)
            return
        waiting = []
        for body in batch:
            said = self.judged(merged.functions[body], found[body], ran)
            if said == WAITS and len(batch) > 1 and not self.leaves_out:
                waiting.append(body)
            else:
                self.said[body.name] = said
        # (a function that calls one with another wrong body of the batch waits for its proof: without that one it is tried)
        for again in [waiting] if len(waiting) < len(batch) else [[it] for it in waiting]:
            if again:
                self.try_batch(again)

    def without_bad_edits(self, batch, found, ran):
        """The check ended before the prover began: what the errors name is a bad edit, and the rest is tried again."""
        bad = [it for it in batch if any(re.match(r"error\b", line) for line in found[it])]
        if not bad and len(batch) == 1:
            bad = batch
        for it in bad:
            self.said[it.name] = False, f"BAD EDIT: it did not reach the prover: {(found[it] or ran.lines or [''])[0][:200]}"
        rest = [it for it in batch if it not in bad]
        # (where the errors name none of them, each is tried alone)
        for again in [rest] if bad and rest else [[it] for it in rest]:
            self.try_batch(again)

    def judged(self, functions, found, ran):
        """Whether a wrong body of a check that ended is refused, and what is to be printed of it."""
        open_goals = [it for it in found if it.startswith("it is not proved") or re.match(r"error\b", it)]
        # (a goal that is open says more than an answer that doesn't fit)
        of_meaning = sorted((it for it in open_goals if not SHAPE.search(it)), key=lambda it: not it.startswith("it is not proved"))
        if of_meaning:
            return True, f"refused: {of_meaning[0][:160]}"
        if open_goals:
            why = "a proof file names what the edit took away: keep the calls, and change a value"
            return False, f"NOT TRIED: it is refused for its shape, {why}: {open_goals[0][:300]}"
        names = "|".join(re.escape(it.name) for _, it in functions)
        if any(re.match(rf"fn \S*\b({names}): (?!{IS_PROVED})", it) for it in ran.lines):
            return WAITS
        if not any(re.match(rf"fn \S*\b({names}): {IS_PROVED}", it) for it in ran.lines):
            return False, "NOT TRIED: the check did not come to its function"
        return False, "NOT REFUSED: its function is still proved"

    def checked(self, merged):
        """Checks the functions of a batch in a copy of the crate."""
        while True:
            ran = self.checked_once(merged)
            found = {it[1] for it in map(MISPLACED.match, ran.lines) if it} - self.misplaced if self.leaves_out else None
            if not found:
                return ran
            self.misplaced |= found

    def checked_once(self, merged):
        self.checks += 1
        # (each function comes with what --only may take for it)
        names = [names_of(file, it) for body in merged.functions.values() for file, it in sorted(body, key=str)]
        with tempfile.TemporaryDirectory(prefix="wrong-bodies-") as room:
            for part in rtlib.PARTS:
                if os.path.isdir(f"{self.crate.folder}/{part}"):
                    shutil.copytree(f"{self.crate.folder}/{part}", f"{room}/{part}")
            merged.write(room)
            kept = self.kept
            if self.leaves_out:
                merged.leave_out(room, self.crate, self.sources, self.misplaced)
            if not self.is_own:
                kept = shutil.copytree(self.kept, f"{room}/kept", copy_function=link_or_copy)
            ran = None
            while ran is None or self.is_unnamed(ran, names):
                only = [word for it in dict.fromkeys(it[0] for it in names) for word in ("--only", it)]
                words = [*self.crate.words([*ONE_JOB, *only], keeps=False), *["--allow-holes"] * self.leaves_out]
                ran = self.call([rtlib.RATTLE, "check", *words, "--incremental", kept], room)
        return ran

    def is_unnamed(self, ran, names):
        """Whether the check found no function of a name. It then goes by the next name that --only may take for it."""
        refused = re.search(r"error: (?:`\w+` has no function|several functions are named) `([^`]*)`", "\n".join(ran.lines[-3:]))
        for it in names if refused else []:
            if it[0] == refused[1] and len(it) > 1:
                del it[0]
                return True
        return False

    def call(self, words, folder):
        how = {"cwd": folder, "stdin": subprocess.DEVNULL, "stdout": subprocess.PIPE, "stderr": subprocess.STDOUT, "errors": "replace"}
        lines, last = [], None
        with subprocess.Popen([*rtlib.guarded(), *words, "--progress"], **how) as process:
            for line in process.stdout:
                now = time.time()
                if ended := ENDED.match(line):
                    # (the first waits for all that is read before it)
                    self.took[ended[1]] += now - last if last else 0
                    last = now
                else:
                    lines.append(line.rstrip("\n"))
            _, _, used = os.wait4(process.pid, 0)
        self.seconds += used.ru_utime + used.ru_stime
        return Ran(lines, used.ru_utime + used.ru_stime)

    def is_proved(self):
        """Whether the crate is proved as it is, over the work that earlier checks kept."""
        with tempfile.TemporaryFile("w+", errors="replace") as self.crate.out:
            return not self.crate.check(ONE_JOB)


def edits_of(crate, after_ci=False):
    """The files of a crate's wrong bodies; behind rt ci, which has tried those of must-fail/, the others."""
    folders = ("wrong",) if after_ci else ("wrong", "must-fail")
    return [it for part in folders for it in sorted(glob.glob(f"{glob.escape(crate.folder)}/{part}/*.edit"))]


@dataclasses.dataclass
class Tried:
    """What came of a crate's wrong bodies: the lines to print, how many were refused, the lines of the others, and the seconds."""

    crate: object
    lines: list
    refused: int
    others: list
    seconds: float


def tried(crate, after_ci):
    """Tries a crate's wrong bodies."""
    start, paths = time.time(), edits_of(crate, after_ci)
    with tempfile.TemporaryDirectory(prefix="wrong-bodies-") as room:
        trial = Trial(crate, room if after_ci else f"{crate.folder}/out/incremental", after_ci)
        if after_ci or trial.is_proved():
            verdicts = trial.run(paths)
        else:
            verdicts = [(f"{crate.name}/{os.path.basename(it)}", False, "NOT TRIED: the crate is not proved as it is") for it in paths]
    lines = [f"{name}: {text}" for name, _, text in verdicts]
    others = [line for line, (_, is_refused, _) in zip(lines, verdicts) if not is_refused]
    lines.append(
        f"cost of wrong bodies: {crate.name} {trial.seconds:.0f} processor seconds, {len(paths)} wrong bodies, "
        f"{trial.checks} checks, {time.time() - start:.0f} seconds"
        + "".join(f", {it} {seconds:.0f}" for it, seconds in trial.took.most_common(4) if seconds > 4)
    )
    return Tried(crate, lines, len(verdicts) - len(others), others, trial.seconds)


def verdicts_of(top, crates):
    """What is known of the crates' wrong bodies."""
    with open(f"{rtlib.KIT}/KIT-ID", encoding="utf-8") as file:
        kit = file.read().strip()
    return Verdicts(top, {it.name: (it.folder, {below.name for below in it.below()} | {*it.of_kit}) for it in crates}, kit)


def take(verdicts, seen):
    """Writes down what was seen of a crate, if its text and that below it are still those that were tried."""
    is_refused = not seen.others and verdicts.is_as_it_was(seen.crate.name)
    verdicts.take(seen.crate.name, is_refused, len(edits_of(seen.crate, after_ci=True)), seen.seconds)


def due(verdicts, crates, commit):
    """The crates that are due at a commit, and a line that says how many."""
    names = [it.name for it in crates]
    changed, taken = verdicts.due(names, commit)
    wanted = {*changed, *taken}
    line = f"wrong bodies of {len(changed)} crates that changed, and of {len(taken)} of the {len(names) - len(changed)} others: {' '.join(sorted(wanted))}"
    return [it for it in crates if it.name in wanted], line


def report(passed, failed, left=()):
    """Prints what failed, where the end of a long output shows it, and the sum, and returns the exit status."""
    if failed:
        print("\n".join(["failed:", *failed]))
    skipped = sum(len(edits_of(it, after_ci=True)) for it in left)
    if left:
        print(f"the time was up before {skipped} wrong bodies of {len(left)} crates: {' '.join(sorted(it.name for it in left))}")
    print(f"{passed} passed, {len(failed)} failed" + (f", {skipped} skipped" if skipped else ""))
    return 1 if failed else 0


def try_all(chosen, given, verdicts):
    """Tries the wrong bodies of crates side by side, as long as there is time, and returns what came of them."""
    deadline = time.time() + 60 * given.minutes if given.minutes is not None else math.inf
    passed, failed, left = 0, [], []
    with ThreadPoolExecutor(given.jobs) as pool:
        begun = {pool.submit(lambda it: tried(it, given.after_ci) if time.time() < deadline else None, it): it for it in chosen}
        for task in as_completed(begun):
            seen = task.result()
            if seen is None:
                left.append(begun[task])
                continue
            passed, failed = passed + seen.refused, failed + seen.others
            print("\n".join(seen.lines), flush=True)
            take(verdicts, seen)
    return passed, failed, left


def read(crates):
    """Of how many crates each edit of wrong/ can be tried, and what is to be printed of the edits that can't."""
    passed, failed = 0, []
    for crate in crates:
        sources, before = Sources(crate.folder), len(failed)
        for path in edits_of(crate, after_ci=True):
            name = f"{crate.name}/{os.path.basename(path)}"
            try:
                sources.wrong_body(name, path)
            except (BadEdit, OSError) as why:
                failed.append(f"{name}: BAD EDIT: {why}")
        passed += len(failed) == before
    return passed, failed


def main():
    parser = argparse.ArgumentParser(description=__doc__, formatter_class=argparse.RawDescriptionHelpFormatter)
    parser.add_argument("names", nargs="*", metavar="NAME")
    parser.add_argument("--jobs", type=int, default=len(os.sched_getaffinity(0)), help="how many crates are tried side by side")
    parser.add_argument("--after-ci", action="store_true", help="rt ci has just proved the crates, and left its libraries")
    parser.add_argument("--due", metavar="COMMIT", help="only the crates that are due at this commit")
    parser.add_argument("--minutes", type=float, help="begin with no further crate after so many minutes")
    parser.add_argument("--edits", action="store_true", help="only read the edits")
    given = parser.parse_args()
    rtlib.guarded()  # (its first call sets a signal's handler, which only the main thread may)
    crates = rtlib.crates_below(os.getcwd())
    if unknown := {*given.names} - {it.name for it in crates}:
        sys.exit(f"wrong_bodies: no crate is named {' '.join(sorted(unknown))}")
    chosen = [it for it in crates if edits_of(it, given.after_ci) and (not given.names or it.name in given.names)]
    if given.edits:
        return report(*read(chosen))
    verdicts = verdicts_of(os.getcwd(), crates)
    if given.due is not None:
        chosen, line = due(verdicts, chosen, given.due)
        print(line, flush=True)
    for library in dict.fromkeys(below for it in chosen for below in it.below()):
        is_left_by_ci = os.path.isdir(library.rlib) and not os.path.isfile(f"{library.folder}/out/rlib/stamp")
        if not (given.after_ci and is_left_by_ci) and library.build_rlib(ONE_JOB, anew=False):
            sys.exit(f"wrong_bodies: the library {library.name} is not proved")
    if given.minutes is None:
        chosen.sort(key=lambda it: -it.count(rb"\n"))
    else:
        chosen.sort(key=lambda it: (not verdicts.is_changed(it.name), it.count(rb"\n")))
    return report(*try_all(chosen, given, verdicts))


if __name__ == "__main__":
    sys.exit(main())
