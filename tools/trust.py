#!/usr/bin/env python3
"""Counts what docs/TRUST.md speaks of, and says where that page no longer fits the files.

usage: python3 tools/trust.py, at the top. It prints the definitions to be read, in reading order, with their lines, and how many
edits each crate has. It proves nothing: that is the gate's affair. The status is 1 where the page is wrong.
"""
import collections
import glob
import re
import sys

LAW, PAGE = "docs/LAW.md", "docs/TRUST.md"
# the page's tables of files, by the first cell of their head: whether they are to be read
TABLES = {"definitions": True, "proofs": False, "inner words": False}
USED = re.compile(r"^use Rattle\.(\w+)\.specs\.(\w+)(?: as |\.\{)", re.M)
wrong = []


def text(path):
    with open(path, encoding="utf-8") as file:
        return file.read()


def lines(path):
    return text(path).count("\n")


def words(crate, module):
    return f"crates/{crate}/specs/{module}.antt"


def rows(page, head):
    """The rows of the tables whose first head cell is this."""
    found, wanted = [], False
    for line in page.splitlines():
        cells = [cell.strip() for cell in line.strip().strip("|").split("|")]
        if not line.startswith("|"):
            wanted = False
        elif cells[0] == head:
            wanted = True
        elif wanted and not cells[0].startswith("---"):
            found.append(cells)
    return found


def listed(cell):
    """Each file of a cell such as: leb/specs: Numbers 50, Places 20; line/specs: Operations 82."""
    for part in cell.split(";"):
        crate, names = part.split("/specs: ")
        for name, count in re.findall(r"(\w+) (\d+)", names):
            yield (crate.strip(), name), int(count)


def files_of(page, head, column):
    found = {}
    for cells in rows(page, head):
        for file, count in listed(cells[column]):
            if file in found:
                wrong.append(f"{words(*file)} stands twice")
            found[file] = count
    return found


def check_files(groups):
    """Each file of specs/ stands in one group, with its lines, and what is to be read names nothing but what is to be read, or proofs: of a fact
    that a definition carries with it."""
    here = {tuple(re.findall(r"crates/(\w+)/specs/(\w+)\.antt", path)[0]) for path in glob.glob("crates/*/specs/*.antt")}
    here = {file for file in here if file[1] != "Lib"}
    place = {}
    for name, files in groups.items():
        for file, count in files.items():
            if file not in here:
                wrong.append(f"{words(*file)}, under {name}, is not there")
                continue
            if file in place:
                wrong.append(f"{words(*file)} stands under {name} and {place[file]}")
            place[file] = name
            if count != lines(words(*file)):
                wrong.append(f"{words(*file)} has {lines(words(*file))} lines, not {count}")
    wrong.extend(f"{words(*file)} stands nowhere in the page" for file in sorted(here - place.keys()))
    for file in sorted(place.keys() & here):
        for used in USED.findall(text(words(*file))):
            if used not in here:
                continue
            if place[file] == "law" and place.get(used) != "law":
                wrong.append(f"the law's {words(*file)} names {words(*used)}")
            if TABLES.get(place[file], True) and not TABLES.get(place.get(used), True) and place.get(used) != "proofs":
                wrong.append(f"{words(*file)} is to be read, and names {words(*used)}")


def clauses(crate):
    """By function, the clauses of a crate's contracts: their names ('' for none) and their text."""
    found, function = collections.defaultdict(dict), None
    for path in glob.glob(f"crates/{crate}/src/**/*.rt", recursive=True):
        for line in text(path).splitlines():
            start = re.search(r"\bfn (\w+)", line)
            function = start.group(1) if start else function
            clause = re.search(r"\bensures\s*(\w*)\s*\{(.*)\}", line) or re.search(r"\bghost (\w+)(?::| =) \{(.*)\}", line)
            if clause and clause.group(0).startswith("ghost"):
                found["ghost"].setdefault(clause.group(1), "")
                found["ghost"][clause.group(1)] += clause.group(2)
            elif clause and function:
                found[function].setdefault(clause.group(1), "")
                found[function][clause.group(1)] += clause.group(2)
    return found


def check_contracts(page):
    for crate, functions, names, said in rows(page, "crate"):
        there = clauses(crate)
        quoted = re.findall(r"`(\w+)`", functions) or ["ghost"]
        wanted = re.findall(r"`(\w+)`", names) or [""]
        for function, name in ((function, name) for function in quoted for name in wanted):
            if name not in there.get(function, {}):
                wrong.append(f"{crate}: {function} has no clause {name or 'without a name'}")
        spoken = " ".join(clause for function in quoted for clause in there.get(function, {}).values())
        for module, cited in re.findall(r"(\w+/\w+): ((?:`[^`]+`(?:, )?)+)", said):
            for name in re.findall(r"`([^`]+)`", cited):
                if not re.search(rf"(?<!\w){re.escape(name)}(?!\w)", spoken):
                    wrong.append(f"{crate}: no clause of {functions} names {name}")
                if not re.search(rf"\b(pub|data|record) (record )?{re.escape(name)}(?!\w)", text(words(*module.split("/")))):
                    wrong.append(f"{module} does not define {name}")


def main():
    law, page = text(LAW), text(PAGE)
    groups = {"law": files_of(law, "subject", 1)}
    groups.update({name: files_of(page, name, 1) for name in TABLES})
    check_files(groups)
    check_contracts(page)
    total = 0
    for name, files in groups.items():
        if TABLES.get(name, True):
            for file, count in files.items():
                print(f"{count:5} {words(*file)}")
            total += sum(files.values())
    edits = collections.Counter(path.split("/")[1] for path in glob.glob("crates/*/must-fail/*.edit"))
    print("edits:", ", ".join(f"{crate} {count}" for crate, count in sorted(edits.items())))
    read = sum(len(files) for name, files in groups.items() if TABLES.get(name, True))
    told = [f"{len(groups[name])} files, {sum(groups[name].values()):,} lines" for name in TABLES]
    told += [f"{read} files, {total:,} lines", f"{sum(edits.values())} edits in {len(edits)} crates"]
    wrong.extend(f"{PAGE} does not say: {words}" for words in told if words not in page)
    law_says = f"{len(groups['law'])} files of definitions, {sum(groups['law'].values()):,} lines"
    if law_says not in law:
        wrong.append(f"{LAW} does not say: {law_says}")
    print("\n".join(told))
    for line in wrong:
        print("wrong:", line, file=sys.stderr)
    sys.exit(1 if wrong else 0)


main()
