#!/usr/bin/env python3
"""What the documents say of files and codes, compared with the code.

    docs.py --check    each file of a crate that a document names exists; docs/LINKING.md lists the files of definitions that the
                       linking theorem uses, directly or not, and no others but those of refusals; the numbers of lines there are
                       right, and in all no more than MOST_LINES; docs/ERRORS.md has each code of an error, and the program explains
                       those that it prints by their rows; docs/LEFT_OUT.md has
                       the numbers of cases that wait for what is left out, and docs/PROVED.md those of all files of cases; the names
                       of the cases of a file differ; CONTRIBUTING.md leads to each file in which its examples are found; no more clauses are wider than 100 columns than MOST_WIDE, a number that only
                       falls. The last line is 'N passed, M failed', and the exit status is 1 where M is not 0.
    docs.py --write    fills the numbers of lines in docs/LINKING.md, which count definitions (no imports, comments or blank lines), and
                       the tables of cases of docs/LEFT_OUT.md and docs/PROVED.md, and the texts of crates/explanations.
"""
import collections
import glob
import os
import re
import sys
import textwrap

sys.dont_write_bytecode = True
TOP = os.path.dirname(os.path.dirname(os.path.realpath(__file__)))
sys.path.insert(0, f"{TOP}/tests")
from cases import count_of  # noqa: E402
from cases import files_of as files_of_cases  # noqa: E402
from cases import programs  # noqa: E402

LINKING = f"{TOP}/docs/LINKING.md"
LEFT_OUT = f"{TOP}/docs/LEFT_OUT.md"
LEFT_OUT_CASE = re.compile(r': (?:prepare: |E3 Lower: )?P8 LeftOut what="([^"]*)" <- ')
PROVED = f"{TOP}/docs/PROVED.md"
CASES_HEAD = "| Program | File | Cases | What |\n|---|---|---|---|\n"
CASES_TABLE = re.compile(re.escape(CASES_HEAD) + r"(\|.*\n)*")
LEFT_OUT_HEAD = "| What | Cases |\n|---|---|\n"
THEOREM = "comp_encoder/specs/Component"
REFUSALS = {"comp_encoder/specs/Refusals", "comp_encoder/specs/Outputs", "comp_encoder/specs/CanonicalNames", "core_options/specs/Causes", "comp_worlds/specs/Bases", "comp_worlds/specs/Made", "comp_worlds/specs/Absent"}
MOST_LINES = 4000
CLAUSE = re.compile(r"\s*(ensures|requires)\b")
WIDTH, MOST_WIDE = 100, 23
USE = re.compile(r"^use Rattle\.(\w+)\.specs\.([\w.]+?)(?:\.\{| as|$)", re.M)
ROW = re.compile(r"^(\| .* \| )(`.*`)( \| )(\d+)( \|)$", re.M)
TOTAL = re.compile(r"(lines of definitions, )([\d,]+)( in all)")
NO_DEFINITION = re.compile(r"\s*(use |--|$)")
QUOTED = re.compile(r"`([^`]+)`")
CONTRIBUTING = f"{TOP}/CONTRIBUTING.md"
# What was added last of its kind, by the word that its files have, and the sections that lead through them.
EXAMPLES = {
    r"\bemit_canonical_names\b": ["A new option of the command line"],
    r"\bSubtaskCancel\b": ["A new role of core imports", "A new kind of definition"],
    r"\bInstantiate\b": ["A new kind of definition"],
}
CODE = re.compile(r'#\[error\("([A-Z]\d+) (\w+)')
ERRORS = f"{TOP}/docs/ERRORS.md"
ERROR_HEAD = "| Code | Cause | Example | What to do | Library |\n"
EXPLAINED = f"{TOP}/crates/explanations/src/codes.rt"
TEXTS = f"{TOP}/crates/explanations/src/texts.rt"
TEXTS_HEAD = "//! What codes mean, and what to do. `tests/docs.py --write` writes this file, after docs/ERRORS.md.\n"
TEXT_WIDTH = 90


def text_of(path):
    with open(path, encoding="utf-8") as file:
        return file.read()


def spec_file(name):
    return f"{TOP}/crates/{name}.antt"


def used_by(name):
    """The files of definitions that this one uses, by the forms CRATE/specs/NAME."""
    named = {f"{crate}/specs/{path.replace('.', '/')}" for crate, path in USE.findall(text_of(spec_file(name)))}
    return {it for it in named if os.path.exists(spec_file(it))}


def used_at_all(name):
    found, rest = set(), [name]
    while rest:
        it = rest.pop()
        if it not in found:
            found.add(it)
            rest += used_by(it)
    return found


def files_of(cell):
    """The files that a cell names: `CRATE/specs/NAME`, and then `NAME` for more of the same folder."""
    folder, files = "", []
    for name in QUOTED.findall(cell):
        if "/" in name:
            folder = name.rpartition("/")[0]
        files.append(f"{folder}/{name.rpartition('/')[2]}")
    return files


def lines_of(names):
    """The lines of definitions of these files."""
    return sum(not NO_DEFINITION.match(line) for name in names for line in text_of(spec_file(name)).splitlines())


def with_lines(text):
    """The text of docs/LINKING.md with the numbers of lines of each row, and of all."""
    listed = [it for row in ROW.finditer(text) for it in files_of(row[2])]
    text = ROW.sub(lambda row: f"{row[1]}{row[2]}{row[3]}{lines_of(files_of(row[2]))}{row[5]}", text)
    return TOTAL.sub(lambda total: f"{total[1]}{lines_of(listed):,}{total[3]}", text)


def faults_of_list():
    listed = {it for row in ROW.finditer(text_of(LINKING)) for it in files_of(row[2])}
    used = used_at_all(THEOREM) | REFUSALS
    faults = [f"docs/LINKING.md: {it} is not listed" for it in sorted(used - listed)]
    return faults + [f"docs/LINKING.md: {it} is listed, and the theorem doesn't use it" for it in sorted(listed - used)]


def faults_of_lines():
    text, faults = text_of(LINKING), []
    total = lines_of(it for row in ROW.finditer(text) for it in files_of(row[2]))
    if total > MOST_LINES:
        faults.append(f"docs/LINKING.md: {total} lines of definitions are listed, and {MOST_LINES} are the most")
    if not TOTAL.search(text) or with_lines(text) != text:
        faults.append("docs/LINKING.md: the numbers of lines are not right; docs.py --write fills them")
    return faults


def faults_of_linking():
    faults = faults_of_list()
    return faults or faults_of_lines()


def exists(name):
    """Whether a file or folder of a crate exists, with or without its ending."""
    path = f"{TOP}/crates/{name}"
    return any(os.path.exists(path + it) for it in ("", ".antt", ".rt"))


def faults_of_document(path, crates):
    faults = []
    for name in QUOTED.findall(text_of(path)):
        name = name.removeprefix("crates/")
        if re.fullmatch(r"[a-z_]+/(src|specs|proofs|data|wrong|must-fail)(/[\w/.]+)?", name) and name.split("/")[0] in crates and not exists(name):
            faults.append(f"{os.path.relpath(path, TOP)}: there is no crates/{name}")
    return faults


def faults_of_errors():
    listed, faults = text_of(f"{TOP}/docs/ERRORS.md"), []
    for path in sorted(glob.glob(f"{TOP}/crates/*/src/**/*.rt", recursive=True)):
        for code, name in CODE.findall(text_of(path)):
            if f"`{code} {name}" not in listed and f"{code} {name}" not in listed:
                faults.append(f"docs/ERRORS.md: {code} {name} of {os.path.relpath(path, TOP)} is missing")
    return faults


def error_rows():
    """The cells of docs/ERRORS.md of each code that the program prints: of several rows of one code, the last."""
    rows = {}
    for table in text_of(ERRORS).split(ERROR_HEAD)[1:]:
        for line in table.partition("\n\n")[0].splitlines()[1:]:
            code, cause, example, remedy, library = [it.strip() for it in re.split(r"(?<!\\)\|", line)[1:-1]]
            if library != "library":
                rows[code] = [it.replace("\\|", "|") for it in (cause, example, remedy)]
    return rows


def explained(code, cause, example, remedy):
    """The text for a code, as a constant."""
    parts = [f"{code}: {cause}.", f"Example: {example}"] + ([f"What to do: {remedy}."] if remedy else [])
    lines = [line for part in parts for line in textwrap.wrap(part.replace("*", ""), TEXT_WIDTH, break_long_words=False, break_on_hyphens=False)]
    quoted = [line.replace("\\", "\\\\").replace('"', '\\"') for line in lines]
    return f'pub(crate) const {code}: &str = "' + "".join(f"\\\n    {line}\\n" for line in quoted) + '";\n'


def texts():
    rows = sorted(error_rows().items(), key=lambda it: ("ECPFRL".index(it[0][0]), int(it[0][1:])))
    return TEXTS_HEAD + "".join("\n" + explained(code, *cells) for code, cells in rows)


def faults_of_texts():
    lacking = [it for it in error_rows() if f'"{it}" => Some({it}),' not in text_of(EXPLAINED)]
    faults = [f"crates/explanations/src/codes.rt: {it} of docs/ERRORS.md is missing" for it in lacking]
    if text_of(TEXTS) != texts():
        faults.append("crates/explanations/src/texts.rt: it has not the rows of docs/ERRORS.md; docs.py --write fills it")
    return faults


def case_files():
    """The files of cases, each with its crate."""
    return [(crate, file) for crate in programs(TOP) for file in files_of_cases(TOP, crate)]


def with_left_out(text):
    """The text of docs/LEFT_OUT.md with the table of what is left out, and how many cases wait for it."""
    counts = collections.Counter()
    for crate, file in case_files():
        counts.update(LEFT_OUT_CASE.findall(text_of(f"{TOP}/crates/{crate}/data/{file}")))
    rows = [f"| `{what}` | {count} |\n" for what, count in sorted(counts.items(), key=lambda it: (-it[1], it[0]))]
    return text.partition(LEFT_OUT_HEAD)[0] + LEFT_OUT_HEAD + "".join(rows) + f"| in all | {sum(counts.values())} |\n"


def words_of(crate, file):
    """What the comment at the head of a file of cases says."""
    lines = text_of(f"{TOP}/crates/{crate}/data/{file}").splitlines()
    head = []
    for line in lines:
        if not line.startswith("# "):
            break
        head.append(line[2:])
    return " ".join(head).partition(". ")[0].rstrip(".").replace("|", "\\|")


def with_cases(text):
    """The text of docs/PROVED.md with the table of the files of cases."""
    rows, before = [], None
    for crate, file in case_files():
        name = f"`{crate}`" if crate != before else ""
        rows.append(f"| {name} | `{file}` | {count_of(TOP, crate, file)} | {words_of(crate, file)} |\n")
        before = crate
    return CASES_TABLE.sub(lambda _: CASES_HEAD + "".join(rows), text)


def faults_of_case_table():
    is_right = CASES_HEAD in text_of(PROVED) and with_cases(text_of(PROVED)) == text_of(PROVED)
    return [] if is_right else ["docs/PROVED.md: the table of cases is not right; docs.py --write fills it"]


def faults_of_left_out():
    return [] if with_left_out(text_of(LEFT_OUT)) == text_of(LEFT_OUT) else ["docs/LEFT_OUT.md: the numbers of cases are not right; docs.py --write fills them"]


def faults_of_case_names():
    faults = []
    for crate, file in case_files():
        lines = [it for it in text_of(f"{TOP}/crates/{crate}/data/{file}").splitlines() if not it.startswith(("#", "given: "))]
        counts = collections.Counter(it.partition(": ")[0] for it in lines)
        faults += [f"crates/{crate}/data/{file}: {count} cases have the name {name!r}" for name, count in counts.items() if count > 1]
    return faults


def wide_clauses():
    """How many lines of clauses are wider than they should be, by their files."""
    counts = collections.Counter()
    for path in glob.glob(f"{TOP}/crates/*/src/**/*.rt", recursive=True):
        counts[os.path.relpath(path, TOP)] = sum(len(it) > WIDTH and bool(CLAUSE.match(it)) for it in text_of(path).splitlines())
    return counts


def faults_of_clauses():
    counts = wide_clauses()
    if (total := sum(counts.values())) <= MOST_WIDE:
        return []
    return [f"crates: {total} clauses are wider than {WIDTH} columns, and {MOST_WIDE} are the most: give what they say a name in specs/"]


def led_to(sections):
    """The files to which the tables of these sections of CONTRIBUTING.md lead, and the crates."""
    files, crates = set(), set()
    for title in sections:
        names, folder = [], ""
        section = text_of(CONTRIBUTING).partition(f"\n## {title}\n")[2].partition("\n## ")[0]
        for row in filter(lambda line: line.startswith("|"), section.splitlines()):
            cells = row.split("|")
            names = QUOTED.findall(cells[1]) or names
            for file in QUOTED.findall(cells[2]):
                folder = file.rpartition("/")[0] if "/" in file else folder
                files.update(f"{name}/{folder}/{file.rpartition('/')[2]}" for name in names)
            crates.update(names)
    return files, crates


def is_led_to(path, files, crates):
    """Whether a file of a crate is among those, or in a folder that is; the crate is enough for proofs and for what proofs are made of."""
    crate, part = path.split("/")[:2]
    whole = path.rpartition(".")[0]
    return crate in crates and (part not in ("src", "specs") or any(it.endswith("/") and path.startswith(it) or it in (path, whole) for it in files))


def faults_of_ways():
    faults, texts = [], {}
    for ending in ("src/**/*.rt", "specs/**/*.antt", "proofs/**/*.antt"):
        for path in sorted(glob.glob(f"{TOP}/crates/*/{ending}", recursive=True)):
            texts[os.path.relpath(path, f"{TOP}/crates")] = text_of(path)
    for word, sections in EXAMPLES.items():
        files, crates = led_to(sections)
        found = [path for path, text in texts.items() if re.search(word, text) and "/Worked" not in path]
        faults += [f"CONTRIBUTING.md: {' and '.join(sections)}: no row leads to crates/{path}" for path in found if not is_led_to(path, files, crates)]
    return faults


def check():
    crates = set(os.listdir(f"{TOP}/crates"))
    documents = [f"{TOP}/README.md", f"{TOP}/CONTRIBUTING.md", *sorted(glob.glob(f"{TOP}/docs/*.md"))]
    parts = [faults_of_linking(), faults_of_errors(), faults_of_texts(), faults_of_left_out(), faults_of_case_table(), faults_of_case_names(), faults_of_ways(), faults_of_clauses(), *(faults_of_document(it, crates) for it in documents)]
    for faults in parts:
        for fault in faults:
            print(fault)
    failed = sum(bool(it) for it in parts)
    print(f"{len(parts) - failed} passed, {failed} failed")
    return 1 if failed else 0


def write():
    for path, filled in (LINKING, with_lines), (LEFT_OUT, with_left_out), (PROVED, with_cases):
        text = filled(text_of(path))
        with open(path, "w", encoding="utf-8") as file:
            file.write(text)
    with open(TEXTS, "w", encoding="utf-8") as file:
        file.write(texts())


def main():
    if sys.argv[1:] == ["--check"]:
        return check()
    if sys.argv[1:] == ["--write"]:
        write()
        return 0
    sys.exit(__doc__)


if __name__ == "__main__":
    sys.exit(main())
