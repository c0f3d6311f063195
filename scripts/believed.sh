#!/bin/bash
# Lists the definitions that must be read to know what `report_cli::run` promises. It starts from the
# names in the clauses of `run`, and goes through `use` lines and bodies of specs/, module by module.
# It reads text alone, proves nothing, and needs python3.
#
# usage: scripts/believed.sh            the definitions: what reaches them, crate, file, name
#        scripts/believed.sh --types    the types and constants of src/ that these name
#        scripts/believed.sh --check    whether docs/DEFINITIONS.md lists each definition of the specs,
#                                       by the comment above it, and marks these; ends with 1 where it
#                                       does not
#        scripts/believed.sh --write    writes the comments and the marks into that page, and adds a row
#                                       for each definition that it does not list
#
# What reaches a definition is `run` where a clause of `run` does, and `objects` where only the clauses
# of the traits do that its objects have to meet: these are what it is promised under.
set -eu
cd "$(dirname "$0")/.."
command -v python3 >/dev/null || { echo 'believed.sh: python3 is not here' >&2; exit 2; }
exec python3 - "$@" <<'PYTHON'
import glob, os, re, sys

USE = re.compile(r"^\s*(?:ghost |(?:unfoldable )?pub )?use Rattle\.([A-Za-z0-9_.]+?)(?:\.\{([^}]*)\}| as (\w+))?;?\s*$")
OWN = {os.path.basename(path) for path in glob.glob("crates/*")}


class Module:
    """The imports of a text, and, of a file of specs, its definitions."""

    def __init__(self, crate, lines):
        self.crate, self.imports, self.aliases = crate, {}, {}
        self.bodies, self.home, self.comments, self.private = {}, {}, {}, set()
        for line in lines:
            found = USE.match(line)
            if not found:
                continue
            path, names, alias = found.groups()
            if alias:
                self.aliases[alias] = path
            for item in (names or "").split(","):
                name, _, local = item.strip().partition(" as ")
                if name:
                    self.imports[local or name] = (path, name)


def without_comments(line):
    return re.sub(r'"[^"]*"', '""', re.sub(r"\s*--.*", "", line))


def read_specs(path):
    crate = path.split("/")[1]
    given = [line.rstrip("\n") for line in open(path, encoding="utf-8")]
    if any(line.startswith("module ") for line in given):     # what stands in a module of parameters
        given = [line[2:] if line.startswith("  ") else line for line in given]
    lines = [without_comments(line) for line in given]
    module = Module(crate, lines)
    name = kind = None
    comment = []
    for before, line in zip(given, lines):
        if before.startswith("-- "):
            comment.append(before[3:])
        elif not before.strip():
            comment = []
        if not line.strip() or re.match(r"use |module |(unfoldable )?pub (mod|use) |infix", line):
            continue
        head = re.match(r"(?:(?:abbrev|unfoldable|pub) )*(?:(record|data) )?(\S+)(.*)$", line)
        begins = re.match(r"(abbrev|unfoldable|pub|record|data) ", line)
        alone = re.match(r"(\S+) : ", line)
        if begins or alone:
            kind, name = (head.group(1), head.group(2)) if begins else (None, alone.group(1))
            if "pub " not in line:
                module.private.add(name)
            module.bodies[name] = []
            module.comments[name] = " ".join(comment)
            module.home[name] = name
        elif kind == "data" and re.match(r"  \w+ :", line):
            module.home[line.split()[0]] = name     # a case of the data
        module.bodies[name].append(line)
    return module


specs = {}
for path in sorted(glob.glob("crates/*/specs/*.antt")):
    parts = path.split("/")
    file = parts[3][:-len(".antt")]
    if file != "Lib":
        specs[parts[1] + ".specs." + file] = read_specs(path)


def names_in(module, text):
    """Where each name of a text is defined: (module, name)."""
    for match in re.finditer(r"((?:[A-Za-z_][\w'\-]*\.)*)([A-Za-z_][\w'\-]*)|([^\w\s(){}\[\].,;]+)", text):
        lead, word, sign = match.groups()
        if sign:
            for local, target in module.imports.items():
                if local == "◌" + sign + "◌":
                    yield target
            continue
        parts = (lead + word).split(".")
        first = parts[0]
        if first in module.aliases and len(parts) > 1:
            yield module.aliases[first], parts[1]
        elif first in module.imports:
            yield module.imports[first]
        elif first in module.home:
            yield None, first
        elif word == "do" and "◌>>=◌" in module.imports:
            yield module.imports["◌>>=◌"]


def defined(path, name):
    """Where a name is defined that a file of specs may pass on."""
    while path in specs and name not in specs[path].home and name in specs[path].imports:
        path, name = specs[path].imports[name]
    return path, name


def reach(module, text, own, seen, types):
    """Adds what the text reaches."""
    todo = [(module, own, text)]
    while todo:
        module, own, text = todo.pop()
        for path, name in names_in(module, text):
            path, name = defined(path or own, name)
            if path in specs:
                target = specs[path]
                name = target.home.get(name)
                if name and (path, name) not in seen:
                    seen.add((path, name))
                    todo.append((target, path, "\n".join(target.bodies[name])))
            elif path.split(".")[0] in OWN and ".declared." in path:
                crate, file = path.split(".")[0], path.split(".")[3]
                kind = path.split(".")[4]
                types.add((crate, file, name if kind == "TheConstants" else kind))


def clauses(text):
    """The texts of the clauses `requires` and `ensures`, and of ghost members."""
    for match in re.finditer(r"\b(?:requires|ensures|ghost \w+:)[^{]*\{", text):
        depth, at = 1, match.end()
        while depth:
            depth += {"{": 1, "}": -1}.get(text[at], 0)
            at += 1
        yield text[match.end():at - 1]


def read_code(path):
    lines = [re.sub(r"\s*//.*", "", line.rstrip("\n")) for line in open(path, encoding="utf-8")]
    return Module(path.split("/")[1], lines), "\n".join(lines)


by_run, by_objects, types = set(), set(), set()
module, text = read_code("crates/report_cli/src/running.rt")
run = re.search(r"^pub fn run<(.*?)>\(.*?^\{", text, re.S | re.M)
for clause in clauses(run.group(0)):
    reach(module, clause, None, by_run, types)
traits = re.findall(r": (\w+)", run.group(1))
for path in sorted(glob.glob("crates/*/src/*.rt")):
    module, text = read_code(path)
    for name, body in re.findall(r"^pub trait (\w+)[^\n]*\{(.*?)^\}", text, re.S | re.M):
        if name in traits:
            for clause in clauses(body):
                reach(module, clause, None, by_objects, types)

ORDER = ["report_cli", "library_http", "catalogue_core", "catalogue_rows", "http_model", "library_model",
         "sound_model", "file_model", "keeper_store", "lib_base"]
rank = lambda crate: (ORDER.index(crate) if crate in ORDER else len(ORDER), crate)
rows = {}
for path, name in by_run | by_objects:
    crate, file = path.split(".")[0], path.split(".")[2]
    rows[crate, file, name] = "run" if (path, name) in by_run else "objects"

PAGE = "docs/DEFINITIONS.md"
ROW = re.compile(r"\| (\w+) \| (`.*?`) \| (.*?)(?: \| (run|objects))? \|$")
there = [(path.split(".")[0], path.split(".")[2], name)
         for path, module in specs.items() for name in module.bodies if name not in module.private]


def page_rows(lines):
    """Of each row of the page: its place, crate, file, names, text and mark."""
    crate = None
    for at, line in enumerate(lines):
        if line.startswith("## "):
            crate = line[3:]
        row = ROW.match(line)
        if row and row.group(1) != "file":
            yield at, crate, row.group(1), re.findall(r"`(.*?)`", row.group(2)), row.group(3), row.group(4) or ""


def comment_of(crate, file, names, text):
    """The text of a row: the comment above its definition, or what it has where it is of several."""
    module = specs.get(crate + ".specs." + file)
    comment = module.comments.get(names[0]) if module and len(names) == 1 else None
    return comment.replace("|", "\\|") if comment else text


def check(lines):
    """What the page says otherwise than the specs."""
    listed = {}
    for at, crate, file, names, text, mark in page_rows(lines):
        for name in names:
            listed[crate, file, name] = mark
        if text != comment_of(crate, file, names, text):
            yield "another text than the specs': " + " ".join((crate, file, names[0]))
    for row in there:
        if row not in listed:
            yield "not in the page: " + " ".join(row)
        elif listed[row] != rows.get(row, ""):
            yield "marked '%s' in place of '%s': %s" % (listed[row], rows.get(row, ""), " ".join(row))
    for row in listed:
        if row not in there:
            yield "not in the specs: " + " ".join(row)


def write(lines):
    """The page with these marks, and a row for each definition that it lacks."""
    listed = {(crate, file, name) for _, crate, file, names, _, _ in page_rows(lines) for name in names}
    for crate, file, name in there:
        if (crate, file, name) in listed:
            continue
        places = [(row[0], row[2]) for row in page_rows(lines) if row[1] == crate]
        before = [at for at, other in places if other <= file]
        if not places:
            if "## " + crate not in lines:
                continue
            before = [lines.index("|---|---|---|---|", lines.index("## " + crate))]
        text = comment_of(crate, file, [name], "")
        lines.insert(before[-1] + 1 if before else places[0][0], "| %s | `%s` | %s |" % (file, name, text))
    for at, crate, file, names, text, _ in list(page_rows(lines)):
        shown = ", ".join("`%s`" % name for name in names)
        text, mark = comment_of(crate, file, names, text), rows.get((crate, file, names[0]), "")
        lines[at] = "| %s | %s | %s |" % (file, shown, text) + (" %s |" % mark if mark else "")
    return lines


if sys.argv[1:] == ["--types"]:
    for crate, file, name in sorted(types, key=lambda row: (rank(row[0]), row)):
        print(crate, file, name)
elif sys.argv[1:] in (["--check"], ["--write"]):
    lines = open(PAGE, encoding="utf-8").read().split("\n")
    if sys.argv[1] == "--write":
        lines = write(lines)
        open(PAGE, "w", encoding="utf-8").write("\n".join(lines))
    wrong = list(check(lines))
    for line in wrong:
        print(line)
    if wrong:
        sys.exit(1)
    print(len(there), "definitions,", len(by_run), "reached by run,",
          len(by_objects - by_run), "by its objects alone, in", len({row[0] for row in rows}), "crates")
elif not sys.argv[1:]:
    for row in sorted(rows, key=lambda row: (rank(row[0]), row)):
        print(rows[row], *row)
else:
    sys.exit("usage: scripts/believed.sh [--types | --check | --write]")
PYTHON
