# Writes docs/TABLES.md from the tree: by crate the functions, their promises as the contracts state them, the definitions that these
# cite, and the must-fail edits with their reasons. `tools/conditions --write` calls it; a function's line is read from crates/*/src.
import re
from glob import glob
from os.path import exists

FN = re.compile(r'^( *)(pub(?:\(crate\))? )?(?:extern "C" )?fn (\w+)')
CLAUSE = r"^ *{}(?: (\w+))? \{{"
ITEM = re.compile(r"^(?:pub(?:\(crate\))? )?(?:const|static|struct|enum) (\w+)")
USE = re.compile(r"use Rattle\.(\w+)\.specs\.((?!declared)[\w.]+)\.\{([^}]*)\}")
DEFINED = re.compile(r"^( *)((?:(?:unfoldable|abbrev|pub|record|data) )*)([^\s:().]+)(?= [:(])")


class Item:  # a function, constant or type of crates/NAME/src, or a definition of crates/NAME/specs
    def __init__(self, crate, path, name, public, start):
        self.crate, self.path, self.name, self.public, self.start, self.text = crate, path, name, public, start, ""
        self.block, self.source = "", ""  # of a trait's function: its impl, and of a conversion the type that it is from

    # the clauses of this word, which stand before the body, as pairs of name and text; a single one may have no name
    def clauses(self, word):
        head, found = re.split(r"^ *\{$", self.text, maxsplit=1, flags=re.M)[0], []
        for clause in re.finditer(CLAUSE.format(word), head, re.M):
            depth, at = 1, clause.end()
            while depth and at < len(head):
                depth += {"{": 1, "}": -1}.get(head[at], 0)
                at += 1
            found.append((clause[1], head[clause.end() : at - 1].strip()))
        return found

    def contract(self, word):
        return "; ".join(f"{name}: {text}" if name else text for name, text in self.clauses(word))


def source_items(crate):
    items = []
    for path in sorted(glob(f"crates/{crate}/src/**/*.rt", recursive=True)):
        owner, block, text = "", "", open(path).read().split("\n")
        for number, line in enumerate(text):
            if found := re.match(r"^impl(?:<[^>]*>)? ([\w<>]+ for )?(\w+)", line):
                owner, block = found[2], "\n".join(text[number : text.index("}", number)]) if found[1] else ""
            owner, block = ("", "") if line == "}" else (owner, block)
            if found := FN.match(line):
                items.append(Item(crate, path, f"{owner}::{found[3]}" if owner else found[3], found[2] == "pub ", number))
                items[-1].function, items[-1].block = True, block
                items[-1].source = next(iter(re.findall(r"^impl(?:<[^>]*>)? From<(\w+)>", block)), "")
            elif found := ITEM.match(line):
                items.append(Item(crate, path, found[1], False, number))
                items[-1].function = False
        here = [item for item in items if item.path == path]
        for item, after in zip(here, here[1:] + [None]):
            item.text = "\n".join(text[item.start : after.start if after else None])
    return items


# the definition that a line of a file of specs/ stands in: the nearest signature above it that is not local to another one
def specs_item(path, line_number):
    lines = open(path).read().split("\n")
    for number in range(line_number, -1, -1):
        found = DEFINED.match(lines[number])
        if found and " : " in lines[number] and (not found[1] or "pub " in found[2]) and found[3] not in ("use", "--"):
            above = next((line for line in reversed(lines[:number]) if line and line[0] not in " -"), "")
            whole = found[1] and re.match(r"pub (?:record|data) (\S+)", above)
            return whole[1] if whole else found[3]
    return ""


# the names that a file brings in from definitions: name -> (crate, file)
def brought(path):
    names = {}
    for crate, file, group in USE.findall(open(path).read()):
        for name in re.split(r",\s*", group.strip()):
            # either, both, pick are left out: they say what they are
            if file != "Choice" and exists(specs_file(crate, file)):
                names[name.strip()] = (crate, file)
    return names


def words(text):
    return re.findall(r"[^\s(){};,\[\]]+", text)


def plain(promise):
    text = re.sub(r"\s+", " ", promise).strip()
    text = re.sub(r"\.(?:now|old|entry)\b", "", text)
    text = re.sub(r"(\w+)\.new\b", r"\1′", text)
    while (shorter := re.sub(r"\(([\w.′]+)\)", r"\1", text)) != text:
        text = shorter
    return text


def cite(found, home):
    groups = {}
    for name, (crate, file) in found:
        groups.setdefault((crate, file), []).append(name)
    cells = []
    for (crate, file), names in groups.items():
        file = file.split(".")[-1]
        prefix = "" if crate == home else f"{crate} "
        cells.append(prefix + ", ".join(f"`{file}.{n}`" if i == 0 else f"`{n}`" for i, n in enumerate(dict.fromkeys(names))))
    return "; ".join(cells)


def specs_file(crate, file):
    return f"crates/{crate}/specs/{file.replace('.', '/')}.antt"


# a type of values, such as Expr, and no fact
def is_value_type(name, crate, file):
    path = specs_file(crate, file)
    return bool(re.search(rf"^pub (?:record|data) {re.escape(name)} :|^pub (?:record|data) {re.escape(name)} \(A : Type", open(path).read(), re.M))


# what the record, data type or abbreviation of this name is made of, through others of the same sort
def made_of(name, crate, file, seen):
    path = specs_file(crate, file)
    text, inner = open(path).read(), brought(path)
    block = re.search(rf"^(?:pub (?:record|data)|abbrev pub) {re.escape(name)}\b.*?(?=\n\n|\Z)", text, re.M | re.S)
    own = set(re.findall(r"^(?:(?:unfoldable|abbrev) pub|pub (?:record|data)) (\S+)", text, re.M))
    for word in words(re.sub(r"--.*", "", block[0])) if block else []:
        at = inner.get(word) or ((crate, file) if word in own else None)
        if at and (word, at) not in seen and not is_value_type(word, *at):
            seen.append((word, at))
            if word[0].isupper():
                made_of(word, *at, seen)
    return seen


# what a promise cites, and what a record that it cites is made of
def cited(item):
    names = brought(item.path)
    direct = [(w, names[w]) for w in dict.fromkeys(words(item.contract("ensures") or "")) if w in names]
    deeper = []
    for name, at in direct:
        if name[0].isupper():
            made_of(name, *at, deeper)
    return cite(direct, item.crate), cite([d for d in deeper if d not in direct], item.crate)


# the items of a crate that an item reaches by calls, itself first; of an iterator that it names `next` too, which the library's methods call;
# of the conversions to a type those from types that it names
def reached(item, items):
    found, todo = [item], [item]
    while todo:
        text = re.sub(r"//.*", "", todo.pop().text)
        for other in items:
            if other in found:
                continue
            name = other.name.split("::")
            # a call of a function of its own has no dot before it, and may name its parameters: `name::<..>(`
            call = rf"(?<!\.)\b{name[-1]}(?:::<[^()]*>)?\(" if other.function else rf"\b{name[-1]}\b"
            if len(name) == 2:
                call = rf"(?:\b{name[0]}::|Self::|\.){name[1]}\("
            if name[-1] == "next" and other.block:
                call = rf"\b{name[0]}\b"
            body = text.split("{", 1)[-1] if other.function else text
            if re.search(call, body) and re.search(rf"\b{other.source}\b", text):
                found.append(other)
                todo.append(other)
    return found


# an edit's name, its reason, and the texts that it replaces with their files
def edit(path):
    lines, file, pairs = open(path).read().split("\n"), "", []
    for line in lines:
        key, _, value = line.partition(": ")
        file = value if key == "file" else file
        pairs += [(file, value)] if key == "old" else []
    return {"name": path.split("/")[-1][:-5], "why": lines[0].lstrip("# "), "pairs": pairs}


# the item that a text of a file stands in, and its name; a text among the imports stands in none
def place_of(crate, file, old, items):
    path = f"crates/{crate}/{file}"
    text = open(path).read() if exists(path) else ""
    number = text[: max(text.find(old), 0)].count("\n")
    if not file.startswith("src/"):
        return None, specs_item(path, number) if text else ""
    holders = [i for i in items if i.path == path and i.start <= number]
    return (holders[-1], holders[-1].name) if holders else (None, "")


def edits_of(crate, items):
    for path in sorted(glob(f"crates/{crate}/must-fail/*.edit")):
        e = edit(path)
        places = [(file, *place_of(crate, file, old, items)) for file, old in e["pairs"]]
        e["file"], e["in"], e["where"] = next((p for p in places if p[2]), places[0] if places else ("", None, ""))
        yield e


def cell(text):
    return text.replace("|", "\\|")


def crate_tables(crate, uses, kind):
    items = source_items(crate)
    edits = list(edits_of(crate, items))
    functions = [i for i in items if i.function]
    public = [i for i in functions if i.public]
    out = [f"## `crates/{crate}`", ""]
    counts = f"{len(functions)} functions, {len(public)} public" if functions else "Definitions and types, no function"
    said = {"program": "A program", "static library": f"A static library for C: {counts}"}.get(kind, counts)
    out += [f"{said}. Uses: {', '.join(uses) or 'none'}.", ""]
    if shown := [i for i in functions if i.contract("ensures") and (i.public or kind == "program")]:
        out += ["| Function | Promise | Definitions | Over | Edits of its code |", "|---|---|---|---|---|"]
        for item in shown:
            code = reached(item, items)
            guards = ", ".join(f"`{e['name']}`" for e in edits if e["in"] in code)
            direct, deeper = cited(item)
            out.append(f"| `{item.name}` | `{cell(plain(item.contract('ensures')))}` | {direct} | {deeper} | {guards} |")
        out.append("")
    if silent := [f"`{i.name}`" for i in functions if not i.contract("ensures")]:
        out += [f"With no promise, so that it is proved only that they do nothing undefined and return: {', '.join(silent)}.", ""]
    if edits:
        out += ["| Edit | File | In | Why it must be refused |", "|---|---|---|---|"]
        out += [f"| `{e['name']}` | {e['file']} | `{cell(e['where'])}` | {cell(e['why'])} |" for e in edits]
        out.append("")
    return out, len(functions), len(public), len(edits)


def crates():
    for line in open("crates.txt"):
        if ":" in line.split("#")[0]:
            head, uses = line.split("#")[0].split(":")
            name, *words = head.split()
            program = glob(f"crates/{name}/src/main.rt")
            yield name, uses.split(), "program" if program else "static library" if "staticlib" in words else "library"


HEAD = """# Functions, promises, definitions, edits

Written by `tools/conditions --write` from the tree, by crate in the order of `crates.txt`; the gate fails where it differs from the tree.

- A **promise** is the contract's `ensures`, shortened: `result` is the result, `x` what stood in the lent `x` before the call, `x′` what stands there afterwards; where there are several clauses, each has its name before it. No public function has a `requires`, so a promise holds for every input.
- **Definitions** are what the promise cites, **over** what a record that it cites is made of: `File.name` is in `specs/File.antt` of this crate or of the one named before it. What comes from the kit's own library is left out.
- **Edits of its code** are the must-fail edits made in the function or in one that it calls in its crate; the edits of definitions stand in the second table, with all others.
- **Definition, lines**: what must be believed: the files that `specs/Lib.antt` lists as the definition, without imports, comments and blank lines.

"""


# the lines of the files that specs/Lib.antt lists as the definition, without imports, comments and blank lines
def believed(crate):
    count, group = 0, ""
    for line in open(f"crates/{crate}/specs/Lib.antt").read().split("\n") if exists(f"crates/{crate}/specs/Lib.antt") else []:
        group = line if line.startswith("--") else group
        if line.startswith("pub mod ") and group.startswith("-- the definition"):
            base = f"crates/{crate}/specs/{line[8:]}"
            for path in [f"{base}.antt"] + glob(f"{base}/*.antt"):
                count += sum(1 for text in open(path) if text.strip() and not re.match(r"\s*(--|(unfoldable )?(pub )?(use|mod) )", text))
    return count


def page():
    body, rows = [], []
    for name, uses, kind in crates():
        lines, functions, public, edits = crate_tables(name, uses, kind)
        body += lines
        promised = sum(1 for i in source_items(name) if i.function and i.contract("ensures"))
        rows.append((f"`{name}`" + (f", a {kind}" if kind != "library" else ""), believed(name), functions, public, promised, edits))
    total = ["all"] + [sum(row[i] for row in rows) for i in range(1, 6)]
    table = ["| Crate | Definition, lines | Functions | Public | With a promise | Edits |", "|---|---|---|---|---|---|"]
    table += [f"| {' | '.join(map(str, row))} |" for row in rows + [total]]
    return HEAD + "\n".join(table) + "\n\n" + "\n".join(body).rstrip() + "\n"


# what every function owes: a library's a promise, a public one nothing asked
def owed():
    for name, _, kind in crates():
        for item in source_items(name):
            if item.function and kind != "program":
                if not item.contract("ensures"):
                    yield f"no promise: {name} {item.name}"
                if item.public and item.contract("requires"):
                    yield f"a public function that asks: {name} {item.name}"
