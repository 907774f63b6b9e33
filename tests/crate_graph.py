#!/usr/bin/env python3
"""The graph of the crates, from crates.txt.

    crate_graph.py            prints it as text: a layer a paragraph, lowest first, each crate with what it depends on
    crate_graph.py --write    fills the columns 'Depends on' of the tables in docs/ARCHITECTURE.md, one for each group of crates.txt
    crate_graph.py --check    compares these tables, and the folders of crates/, with crates.txt

A crate is in the layer above the highest of those that it depends on. Shown are the direct dependencies, without those
that another one of them depends on too. The libraries of the toolchain, which crates.txt doesn't list as crates, follow.
The column 'Its one idea' is kept in the tables. A group is a comment in crates.txt, and a heading in docs/ARCHITECTURE.md. With --check the last line is 'N passed, M failed', and the exit status is 1
where M is not 0.
"""
import os
import re
import sys

TOP = os.path.dirname(os.path.dirname(os.path.realpath(__file__)))
TABLE = f"{TOP}/docs/ARCHITECTURE.md"
ROW = re.compile(r"^\| `(\w+)` \| (.*?) \| ?([^|]*?) ?\|$")


def read_graph(path):
    """The crates in the order of the file, each with the names that it lists."""
    graph = {}
    with open(path, encoding="utf-8") as lines:
        for line in lines:
            name, colon, names = line.partition("#")[0].partition(":")
            if colon:
                graph[name.split()[0]] = names.split()
    return graph


def below(graph, name):
    """The crates that a crate depends on, directly or not."""
    found, rest = set(), [it for it in graph[name] if it in graph]
    while rest:
        it = rest.pop()
        if it not in found:
            found.add(it)
            rest += [other for other in graph[it] if other in graph]
    return found


def shown(graph, name):
    """The direct dependencies without those that another one has, then the libraries of the toolchain."""
    crates = [it for it in graph[name] if it in graph]
    libraries = [it for it in graph[name] if it not in graph]
    implied = set().union(*(below(graph, it) for it in crates)) if crates else set()
    return [it for it in crates if it not in implied] + libraries


def layers(graph):
    """The number of each crate's layer, from 0."""
    layer = {}

    def layer_of(name):
        if name not in layer:
            layer[name] = max((layer_of(it) + 1 for it in graph[name] if it in graph), default=0)
        return layer[name]

    for name in graph:
        layer_of(name)
    return layer


def groups_of(path):
    """The headings of the groups of crates.txt, each with its crates."""
    groups = {}
    with open(path, encoding="utf-8") as lines:
        for line in list(lines)[1:]:
            if line.startswith("# "):
                groups[line[2:].strip()] = heads = []
            elif ":" in line:
                heads.append(line.partition(":")[0].split()[0])
    return groups


def print_graph(graph):
    layer = layers(graph)
    width = max(map(len, graph))
    for number in range(max(layer.values()) + 1):
        print(f"{number}:")
        for name in graph:
            if layer[name] == number:
                print(f"   {name:{width}}  {' '.join(shown(graph, name))}".rstrip())


def column(graph, name):
    return ", ".join(f"`{it}`" for it in shown(graph, name)) or "-"


def write(graph):
    with open(TABLE, encoding="utf-8") as file:
        lines = file.read().split("\n")
    for at, line in enumerate(lines):
        row = ROW.match(line)
        if row and row[1] in graph:
            lines[at] = f"| `{row[1]}` | {row[2]} | {column(graph, row[1])} |"
    with open(TABLE, "w", encoding="utf-8") as file:
        file.write("\n".join(lines))


def tables_of(path):
    """The rows of each table of crates, by the heading above it: the crate, its idea and the column 'Depends on'."""
    tables, rows = {}, None
    with open(path, encoding="utf-8") as file:
        for line in file.read().split("\n"):
            if line.startswith("### "):
                tables[line[4:].lower()] = rows = []
            elif rows is not None and (row := ROW.match(line)):
                rows.append((row[1], row[2].strip(), row[3].strip()))
    return {head: rows for head, rows in tables.items() if rows}


def faults_of_groups(groups, tables):
    """Where the tables have not the groups of crates.txt, each with its crates in order."""
    named = {head: [it[0] for it in rows] for head, rows in tables.items()}
    if [*named] != [*groups]:
        return [f"docs/ARCHITECTURE.md: the groups are {', '.join(named)}, and those of crates.txt {', '.join(groups)}"]
    return [f"docs/ARCHITECTURE.md: the rows of {it} are not the crates of that group, in order" for it in groups if named[it] != groups[it]]


def faults_of_folders(graph):
    folders = {it for it in os.listdir(f"{TOP}/crates") if os.path.isdir(f"{TOP}/crates/{it}/src")}
    faults = [f"crates/{it} is not in crates.txt" for it in sorted(folders - graph.keys())]
    return faults + [f"crates.txt: there is no crates/{it}/src" for it in sorted(graph.keys() - folders)]


def faults_of_row(graph, name, rows):
    found = [it for it in rows if it[0] == name]
    if len(found) != 1:
        return [f"docs/ARCHITECTURE.md: {len(found)} rows of {name}"]
    _, idea, depends = found[0]
    faults = [] if idea else [f"docs/ARCHITECTURE.md: {name} has no idea"]
    if depends != column(graph, name):
        faults.append(f"docs/ARCHITECTURE.md: {name} depends on {column(graph, name)}, the table says {depends}")
    return faults


def check(graph):
    tables = tables_of(TABLE)
    rows = [row for of_group in tables.values() for row in of_group]
    parts = [faults_of_groups(groups_of(f"{TOP}/crates.txt"), tables), faults_of_folders(graph)]
    parts += [faults_of_row(graph, name, rows) for name in graph]
    parts.append([f"docs/ARCHITECTURE.md: {it[0]} is not in crates.txt" for it in rows if it[0] not in graph])
    for faults in parts:
        for fault in faults:
            print(fault)
    failed = sum(bool(it) for it in parts)
    print(f"{len(parts) - failed} passed, {failed} failed")
    return 1 if failed else 0


def main():
    graph = read_graph(f"{TOP}/crates.txt")
    if sys.argv[1:] == ["--check"]:
        return check(graph)
    if sys.argv[1:] == ["--write"]:
        write(graph)
    elif sys.argv[1:]:
        sys.exit(__doc__)
    else:
        print_graph(graph)
    return 0


if __name__ == "__main__":
    sys.exit(main())
