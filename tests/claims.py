#!/usr/bin/env python3
"""Holds docs/CLAIMS.md to the repository.

- Every promise of tests/promises.txt has one row, and every row its promise.
- Every edit, path and name that a row cites exists: a name stands in a file that the row cites before it, or in the code of a crate that it does.
- What "More" says of a row goes on where the row ends, and is held in the same way. Each of its entries has a row, and a row has at most one.
- No cell but a quotation, and no line of "More", is longer than BOUND; a row cites at most MOST_EDITS edits, and "More" the others.
- Every edit of crates/*/must-fail is cited.
- The table of the functions without `requires` is the one that the code gives. A function is exported where its crate's root has it, or hands it on by
  `pub use` or `pub mod`, or where C can call it, and a method with a type of its `impl` block. A `pub` function or method that has a `requires` says "Inner" in its comment, or its file's first comment says
  that all of them are.
- The functions of the C header are those that the code exports to C.
- The refusal and every enum that a function without `requires` answers, in a `Result` or an `Option` too, is named in a definition that the row on enums cites.

Usage: tests/claims.py, from anywhere; --table prints the table of functions as the code gives it, --write puts it into the page; --seeded makes a mistake of
each kind, in memory, and looks whether it is found.
"""
import os
import re
import sys

ROOT = os.path.normpath(os.path.join(os.path.dirname(os.path.abspath(__file__)), ".."))
PAGE = "docs/CLAIMS.md"
PROMISES = "tests/promises.txt"
HEADER = "include/sleep_register.h"
TABLE = "## Functions without `requires`"
MORE = "## More"
FURTHER = "Refused too: "  # begins what "More" says of edits
BOUND = 200  # characters
MOST_EDITS = 3
QUOTED = {"Sentence", "Shortcut"}  # columns in the words of the papers, which are as long as these are
ENUMS = "F10"  # "Where an answer is an enum, a definition states this paper's number and values for each of its cases."
PLAIN = {"requires", "const", "NULL", "stdout", "&", "&[u8]", "Inner"}  # words of the languages, which cite nothing

changed = {}  # what a seeded mistake puts in place of a file


def read(path):
    if path in changed:
        return changed[path]
    with open(os.path.join(ROOT, path), encoding="utf-8") as f:
        return f.read()


def is_file(path):
    return path in changed or os.path.isfile(os.path.join(ROOT, path))


def files_below(path, ending):
    found = {p for p in changed if p.startswith(path + "/") and p.endswith(ending)}
    for folder, _, names in os.walk(os.path.join(ROOT, path)):
        found |= {os.path.relpath(os.path.join(folder, n), ROOT) for n in names if n.endswith(ending)}
    return sorted(found)


# ---- the code


class Function:
    """A function that a file hands on, or may: `shown` is its name on the page, and `of` the types that its `impl` block speaks of, if it stands in one."""

    def __init__(self, crate, path, name, head, comment, shown, of):
        self.crate, self.path, self.name, self.shown, self.of = crate, path, name, shown, of
        self.module = os.path.splitext(os.path.basename(path))[0]
        signature = re.split(r"^\s*(?:requires|ensures)\b", head, flags=re.M)[0]
        answer = re.search(r"\) -> ([^\n{]+)", signature)
        self.answers = re.findall(r"\w+", answer.group(1)) if answer else []
        self.requires = re.search(r"^\s*requires\b", head, re.M) is not None
        self.writes = "&mut " in signature
        self.from_c = 'extern "C"' in signature
        self.inner = comment


def functions_in(crate, path):
    lines = read(path).split("\n")
    first = []
    while len(first) < len(lines) and lines[len(first)].startswith("//"):
        first.append(lines[len(first)][2:])
    all_inner = re.search(r"\b(all|every)\b[^.]*\binner\b|\bInner:", " ".join(first), re.I) is not None
    found, block = [], None
    for at, line in enumerate(lines):
        # an `impl` block: its trait, if it is of one, and its type
        block = re.match(r"impl(?:<.*?>)? (?:([\w<>]+) for )?(.+?) \{$", line) or (None if line == "}" else block)
        match = re.match(r'pub (?:extern "C" )?fn (\w+)', line) or (block and re.match(r"    %sfn (\w+)" % ("" if block.group(1) else "pub "), line))
        if not match:
            continue
        end = at
        while lines[end].strip() != "{" and not re.search(r"\)(?: -> [^{]*)? \{$", lines[end]):
            end += 1
        above = at
        while above > 0 and lines[above - 1].lstrip().startswith(("//", "#[")):
            above -= 1
        inner = all_inner or re.search(r"\binner\b", " ".join(lines[above:at]), re.I) is not None
        shown, of = match.group(1), set()
        if block and line.startswith(" "):
            shown = f"{block.group(1)} for {block.group(2)}" if block.group(1) else f"{block.group(2)}::{shown}"
            of = set(re.findall(r"\w+", block.group(0)))
        found.append(Function(crate, path, match.group(1), "\n".join(lines[at : end + 1]), inner, shown, of))
    return found


def libraries():
    names = [word for line in read("crates.txt").split("\n") for word in line.split("#")[0].split(":")[0].split()[:1]]
    found = {}
    for name in names:
        if is_file(f"crates/{name}/src/lib.rt"):
            found[name] = [f for path in files_below(f"crates/{name}/src", ".rt") for f in functions_in(name, path)]
    return found


def used_in(text, public=False):
    """What the `use` lines of a file name: the path, the name at its end, and the name that it is given."""
    found = []
    for path, group, one in re.findall(r"^%suse ([\w:]+?)::(?:\{([^}]*)\}|(\w+(?: as \w+)?));" % ("pub " if public else "(?:pub )?"), text, re.M):
        for name in (group or one).split(","):
            if name.strip():
                name, _, renamed = name.strip().partition(" as ")
                found.append((path, name, renamed or name))
    return found


def exported(crate, functions):
    """What a library hands on, each with the name that it has outside."""
    root = read(f"crates/{crate}/src/lib.rt")
    modules = re.findall(r"^pub mod (\w+);", root, re.M)
    used = {(path.split("::")[-1], name): renamed for path, name, renamed in used_in(root, public=True)}
    shown = []
    for f in functions:
        if f.of:
            # a method is handed on with a type of its block
            if f.module in modules + ["lib"] or any((f.module, name) in used for name in f.of):
                shown.append((f.shown, f))
        elif f.from_c or f.module == "lib":
            shown.append((f.name, f))
        elif (f.module, f.name) in used:
            shown.append((used[(f.module, f.name)], f))
        elif f.module in modules:
            shown.append((f"{f.module}::{f.name}", f))
    return shown


def free(crates):
    """The exported functions that have no `requires`, by crate."""
    return {c: [(name, f) for name, f in exported(c, fs) if not f.requires] for c, fs in crates.items()}


def table_of(crates):
    rows = ["| Crate | Lent nothing that it could write | Lent something to write |", "|---|---|---|"]
    for crate, functions in free(crates).items():
        if functions:
            cells = [", ".join(f"`{name}`" for name, f in functions if f.writes == writes) for writes in (False, True)]
            rows.append("| `%s` | %s | %s |" % (crate, cells[0], cells[1]))
    return rows


# ---- the page


def rows_of(page):
    """Each row of a table whose first column is `Name`: its cells by the names of the columns."""
    rows, columns = [], None
    for line in page.split("\n"):
        if not line.startswith("|"):
            columns = None
            continue
        cells = [cell.strip() for cell in line.strip().strip("|").split(" | ")]
        cells = [cell.strip("| ").strip() for cell in cells]
        if columns is None:
            columns = cells
        elif columns[0] == "Name" and not re.fullmatch(r"-+(\|-+)*", cells[0].replace(" ", "")):
            rows.append(dict(zip(columns, cells + [""] * len(columns))))
    return rows


def more_of(page, say):
    """What "More" says: the name of each entry, and its items, whose further lines are put behind their first."""
    lines = page.split(MORE + "\n")[1].split("\n## ")[0].split("\n") if MORE + "\n" in page else []
    entries = []
    for line in lines:
        if len(line) > BOUND:
            say("More", f"has a line of {len(line)} characters, above {BOUND}: {line[:40]}")
        entry, item = re.match(r"- \*\*(\S+)\*\* (.*)", line), re.match(r"  - (.*)", line)
        if entry:
            entries.append((entry.group(1), [entry.group(2)]))
        elif entries and item:
            entries[-1][1].append(item.group(1))
        elif entries and line.startswith("    "):
            entries[-1][1][-1] += " " + line.strip()
        elif entries and line:
            say("More", f"has a line that belongs to no row: {line[:40]}")
    return entries


def word_in(name, text):
    return re.search(r"(?<![\w·'-])%s(?![\w'-])" % re.escape(name), text) is not None


class Cited:
    """Resolves what a cell cites, in the order of its words."""

    def __init__(self, crates, say):
        self.crates, self.say = crates, say
        self.code = {}

    def code_of(self, crate):
        if crate not in self.code:
            self.code[crate] = "\n".join(read(p) for p in files_below(f"crates/{crate}/src", ".rt"))
        return self.code[crate]

    def is_crate(self, name):
        return os.path.isdir(os.path.join(ROOT, "crates", name))

    def cell(self, row, text):
        """Goes through what stands in backquotes: `texts` are the files cited so far, `crate` and `folder` those of the last one."""
        texts, crate, folder = [], None, None
        for token in re.findall(r"`([^`]+)`", text):
            if token in PLAIN:
                continue
            if crate and re.match(r"(specs|proofs|src)/", token):
                token = f"{crate}/{token}"
            named = re.fullmatch(r"[\w'-]+(\.[\w'-]+)*", token)
            if named and folder and self.file(f"{folder}/{token}") is not None:
                texts.append(self.file(f"{folder}/{token}"))
            elif named and any(all(word_in(name, t) for name in token.split(".")) for t in texts):
                continue
            elif re.fullmatch(r"\w+/(specs|proofs|src)(/[\w./]+)?", token):
                crate, folder = token.split("/")[0], "crates/" + "/".join(token.split("/")[:2])
                texts.append(self.file(f"crates/{token}"))
                if texts[-1] is None:
                    self.say(row, f"cites `{texts.pop() or token}`, and there is no such file")
            elif "/" in token:
                path = token.split(" ")[0]
                if os.path.exists(os.path.join(ROOT, path)):
                    texts.append(read(path) if is_file(path) else "")
                else:
                    self.say(row, f"cites `{token}`, and there is no such file")
            elif self.is_crate(token.split("::")[0]):
                crate, folder = token.split("::")[0], None
                texts.append(self.code_of(crate))
                if "::" in token and not re.search(r"\b(fn|enum|struct|mod|as) %s\b" % token.split("::")[-1], texts[-1]):
                    self.say(row, f"cites `{token}`, which the crate does not have")
            elif re.fullmatch(r"(sleep_|SLEEP_)\w+", token):
                if not word_in(token, read(HEADER)):
                    self.say(row, f"cites `{token}`, which the C header does not have")
            elif named:
                self.say(row, f"cites `{token}`, which no file that it cites before has")
            else:
                self.say(row, f"cites `{token}`, which is no edit, path or name")

    def file(self, path):
        """The text of a file, its ending left out or not, or of all definitions and proofs of a folder."""
        for ending in ("", ".antt"):
            if is_file(path + ending):
                return read(path + ending)
        inside = [read(p) for p in files_below(path, ".antt")]
        return "\n".join(inside) if inside else None


def promised():
    found = {}
    for line in read(PROMISES).split("\n"):
        if line and not line.startswith("#"):
            name, words = line.split(" ", 1)
            found[name] = words
    return found


# ---- the checks


def kept_by(row, items):
    """What a row says that keeps its promise, and what "More" says of it."""
    return " ".join([row.get("Kept by", "")] + [item for item in items if not item.startswith(FURTHER)])


def check():
    wrong = []

    def say(place, what):
        wrong.append(f"{place}: {what}")

    page, crates = read(PAGE), libraries()
    rows = rows_of(page)
    names = [row["Name"] for row in rows]
    promises = promised()
    for name in promises:
        if names.count(name) != 1:
            say(name, f"has {names.count(name)} rows")
    for name in names:
        if name not in promises:
            say(name, f"is a row, and no promise of {PROMISES}")

    more = {}
    for name, items in more_of(page, say):
        if name not in names:
            say(name, 'is an entry of "More", and no row')
        if name in more:
            say(name, 'has two entries in "More"')
        more.setdefault(name, []).extend(items)

    edits = {f"{p.split('/')[1]}/{os.path.basename(p)[:-5]}" for p in files_below("crates", ".edit")}
    cited = set()
    resolve = Cited(crates, say)
    for row in rows:
        for column, cell in row.items():
            if column not in QUOTED and len(cell) > BOUND:
                say(row["Name"], f'has a cell "{column}" of {len(cell)} characters, above {BOUND}')
        items = more.get(row["Name"], [])
        shown = re.findall(r"`([^`]+)`", row.get("Refused edit", ""))
        if len(shown) > MOST_EDITS:
            say(row["Name"], f"cites {len(shown)} edits, above {MOST_EDITS}")
        for label in shown + [label for item in items if item.startswith(FURTHER) for label in re.findall(r"`([^`]+)`", item)]:
            cited.add(label)
            if label not in edits:
                say(row["Name"], f"cites the edit `{label}`, and there is none")
        resolve.cell(row["Name"], kept_by(row, items))
    for label in sorted(edits - cited):
        say(label, "is an edit that no row cites")

    for crate, functions in crates.items():
        for f in functions:
            if f.requires and not f.inner:
                say(f.path, f'`{f.name}` has a `requires`, and no comment says "Inner"')
    given = page.split(TABLE)[1] if TABLE in page else ""
    given = [line for line in given.split("\n## ")[0].split("\n") if line.startswith("|")]
    made = table_of(crates)
    for line in made:
        if line not in given:
            say("functions", f"the code gives this line, and the page does not have it: {line}")
    for line in given:
        if line not in made:
            say("functions", f"the page has this line, and the code does not give it: {line}")

    to_c = {name for c, fs in free(crates).items() for name, f in fs if f.from_c}
    bare = re.sub(r"/\*.*?\*/|//[^\n]*", "", read(HEADER), flags=re.S)
    header = set(re.findall(r"^(?!static )\w[\w ]*[ *](sleep_\w+)\(", bare, re.M))
    for name in sorted(to_c ^ header):
        say("C", f"`{name}` is " + ("exported, and the header does not have it" if name in to_c else "in the header, and no function without `requires`"))

    enums_of = {}
    for c in crates:
        for path in files_below(f"crates/{c}/src", ".rt"):
            for name in re.findall(r"^pub (?:enum |struct (?=Refusal\b))(\w+)", read(path), re.M):
                enums_of.setdefault(name, {})[c] = path
    on_enums = next((kept_by(row, more.get(ENUMS, [])) for row in rows if row["Name"] == ENUMS), "")
    definitions = [p for p in re.findall(r"`(\w+/specs/\w+)`", on_enums) if is_file(f"crates/{p}.antt")]
    for c, functions in free(crates).items():
        for name, f in functions:
            for answer in f.answers:
                if answer not in enums_of:
                    continue
                brought = [path.split("::")[0] for path, _, name in used_in(read(f.path)) if name == answer]
                owner = c if c in enums_of[answer] else (brought or [None])[0]
                if not any(p.startswith(f"{owner}/") and word_in(answer, read(f"crates/{p}.antt")) for p in definitions):
                    say(ENUMS, f"cites no definition for `{answer}` of {owner}, which `{c}::{name}` answers")
    return sorted(set(wrong))


# ---- a mistake of each kind


def seeded():
    """Makes a mistake of each kind in memory; gives those that were not found."""
    page, missed = read(PAGE), []

    def found(kind, path, text, expected):
        changed[path] = text
        told = check()
        changed.clear()
        hit = [line for line in told if expected in line]
        print(f"seeded: {kind}: " + (hit[0] if hit else "NOT FOUND"), file=sys.stdout if hit else sys.stderr)
        if not hit:
            missed.append(kind)

    edit = files_below("crates", ".edit")[0]
    label = f"{edit.split('/')[1]}/{os.path.basename(edit)[:-5]}"
    path = re.search(r"`(\w+/specs/\w+)` `(\w+)`", page)
    call = re.search(r"`(\w+)::(\w+)`", page)
    row = re.search(r"^\| (H1) \|.*\n", page, re.M)
    found("an edit that is not there", PAGE, page.replace(f"`{label}`", f"`{label}_gone`", 1), "_gone`, and there is none")
    found("an edit that no row cites", edit[:-5] + "_new.edit", "", "is an edit that no row cites")
    found("a path that is not there", PAGE, page.replace(path.group(1), path.group(1) + "Gone", 1), "Gone`, and there is no such file")
    found("a name that its file does not have", PAGE, page.replace(path.group(0), path.group(0)[:-1] + "Gone`", 1), "Gone`, which no file")
    found("a function that its crate does not have", PAGE, page.replace(call.group(0), call.group(0)[:-1] + "_gone`", 1), "_gone`, which the crate does not have")
    found("a promise without a row", PAGE, page.replace(row.group(0), "", 1), f"{row.group(1)}: has 0 rows")
    found("a promise with two rows", PAGE, page.replace(row.group(0), 2 * row.group(0), 1), f"{row.group(1)}: has 2 rows")
    found("a cell above the bound", PAGE, page.replace(row.group(0), row.group(0)[:-3] + "word " * BOUND + "|\n", 1), f'{row.group(1)}: has a cell "Refused edit" of ')
    kept = row.group(0).split(" | ")[2]
    found("a cell one above the bound", PAGE, page.replace(kept, kept.ljust(BOUND + 1, "."), 1), f'{row.group(1)}: has a cell "Kept by" of {BOUND + 1} ')
    found("more edits than a row may cite", PAGE, page.replace(row.group(0), row.group(0)[:-3] + f", `{label}` |\n", 1), f"{row.group(1)}: cites {MOST_EDITS + 1} edits")
    found("a row without a promise", PROMISES, re.sub(r"^%s .*\n" % row.group(1), "", read(PROMISES), flags=re.M), f"{row.group(1)}: is a row")

    crates = libraries()
    f = next(f for fs in free(crates).values() for _, f in fs if not f.from_c and f.module == "lib")
    new = "\n// A new one.\npub fn new_one(n: u64) -> u64\n    ensures { result ≡ n }\n{\n    n\n}\n"
    found("a function that the table lacks", f.path, read(f.path) + new, "the code gives this line")
    line = next(line for line in table_of(crates)[2:] if "`, " in line)
    found("a function that the code lacks", PAGE, page.replace(line, line.replace("`, ", "`, `gone`, ", 1), 1), "the page has this line")
    asks = new.replace("    ensures", "    requires { n < 5 }\n    ensures")
    method = "\nimpl Refusal {\n    // A new one.\n    pub fn new_one(&self) -> u64\n        ensures { result ≡ self.now.number }\n    {\n        self.number\n    }\n}\n"
    types = next(path for path in files_below("crates/answer_types/src", ".rt") if "pub struct Refusal" in read(path))
    found("a method that the table lacks", types, read(types) + method, "`Refusal::new_one`")
    asked = method.replace("        ensures", "        requires { self.now.number < 5 }\n        ensures")
    found("a method's requires that is not called inner", types, read(types) + asked, '`new_one` has a `requires`, and no comment says "Inner"')
    found("a requires that is not called inner", f.path, read(f.path) + asks, '`new_one` has a `requires`, and no comment says "Inner"')
    found("a function that C lacks", HEADER, read(HEADER) + "\nint sleep_gone(int n);\n", "`sleep_gone` is in the header")
    cut = next(line for line in page.split("\n") if line.startswith(f"| {ENUMS} |"))
    given = re.search(r"`\w+/specs/\w+`,? ?", cut.split(" | ")[2]).group(0)
    found("an enum without a definition", PAGE, page.replace(cut, cut.replace(given, "", 1), 1), f"{ENUMS}: cites no definition")
    seeded_in_more(page, found)
    return missed


def seeded_in_more(page, found):
    """The same in what "More" says of a row, and the mistakes that can be made there alone."""
    rows, more = page.split(MORE + "\n")

    def put(kind, old, new, expected):
        found(f'{kind}, in "More"', PAGE, rows + MORE + "\n" + more.replace(old, new, 1), expected)

    label = next(label for label in re.findall(FURTHER + r"`([^`]+)`", more) if label not in rows)
    path = re.search(r"`(\w+/specs/\w+)` `(\w+)`", more)
    call = re.search(r"`(\w+)::(\w+)`", more)
    entry = re.search(r"^- \*\*(\S+)\*\* .*\n", more, re.M)
    on_enums = more[more.index(f"- **{ENUMS}** ") :]
    given = "`packet_compare/specs/Meaning`"
    put("an edit that is not there", f"`{label}`", f"`{label}_gone`", "_gone`, and there is none")
    put("an edit that no row cites", f"`{label}`", "", f"{label}: is an edit that no row cites")
    put("a path that is not there", path.group(1), path.group(1) + "Gone", "Gone`, and there is no such file")
    put("a name that its file does not have", path.group(0), path.group(0)[:-1] + "Gone`", "Gone`, which no file")
    put("a function that its crate does not have", call.group(0), call.group(0)[:-1] + "_gone`", "_gone`, which the crate does not have")
    put("an enum without a definition", on_enums, on_enums.replace(given, "", 1), f"{ENUMS}: cites no definition")
    put("a name that has no row", entry.group(0), entry.group(0).replace(entry.group(1), "Z9.9", 1), 'Z9.9: is an entry of "More", and no row')
    put("a row with two entries", entry.group(0), 2 * entry.group(0), f"{entry.group(1)}: has two entries")
    put("a line above the bound", entry.group(0), entry.group(0)[:-1].ljust(BOUND + 1, ".") + "\n", f"More: has a line of {BOUND + 1} ")
    put("a line of no row", entry.group(0), entry.group(0) + "A line.\n", "More: has a line that belongs to no row")


def main():
    if sys.argv[1:] == ["--table"]:
        print("\n".join(table_of(libraries())))
        return
    if sys.argv[1:] == ["--write"]:
        page = read(PAGE)
        before, behind = page.split(TABLE)
        lines = behind.split("\n")
        first = next(i for i, line in enumerate(lines) if line.startswith("|"))
        last = next((i for i in range(first, len(lines)) if not lines[i].startswith("|")), len(lines))
        with open(os.path.join(ROOT, PAGE), "w", encoding="utf-8") as f:
            f.write(before + TABLE + "\n".join(lines[:first] + table_of(libraries()) + lines[last:]))
        return
    told = check()
    for line in told:
        print(f"claims: {line}")
    missed = seeded() if sys.argv[1:] == ["--seeded"] else []
    if told or missed:
        sys.exit(1)
    rows = rows_of(read(PAGE))
    print(f"claims: {len(rows)} rows, {len(files_below('crates', '.edit'))} edits, {sum(len(fs) for fs in free(libraries()).values())} functions without requires")


if __name__ == "__main__":
    main()
