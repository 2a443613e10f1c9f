"""Lists every definition that the contract of the top call rests on: what a reader has to believe of it.

    python3 bench/believed.py           prints the list and how many they are
    python3 bench/believed.py --write   puts it into docs/believed.md

It begins with the names in the clauses of `run`, and follows the names that a definition's text has, through the
imports of its file; a type of the code is followed to the struct, the enum or the trait in its .rt file. Definitions of
the toolchain's libraries (std, json, clap) end the walk. Local names of a definition that are called like an import are
taken for it, so the list may have a few too many.
"""
import os
import re
import sys

TOP = os.path.dirname(os.path.dirname(os.path.abspath(__file__)))
PAGE = "docs/believed.md"
NAME = re.compile(r"[A-Za-z_][\w']*")
HEAD = re.compile(r"^(?:unfoldable |unfold |opaque |infix[lr]? \d+ )?(?:abbrev |data |record |class )?(?:pub )(?:unfold )?(?:abbrev |data |record |class )?(?:pub )?([^\s:({]+)")
IMPORT = re.compile(r"^use (Rattle\.[\w.+]+?)(?:\.\{(.*)\}| as (\w+))?;?$")
GHOST = re.compile(r"^\s*ghost use (Rattle\.[\w.+]+?)(?:\.\{(.*)\}| as (\w+))?;$")


class Definition:
    def __init__(self, path, name, first, last, text):
        self.path, self.name, self.first, self.last, self.text = path, name, first, last, text


def read(path):
    with open(os.path.join(TOP, path), encoding="utf-8") as file:
        return file.read().splitlines()


def imports_of(lines, form):
    """Names that a file imports: name -> (module, name there); and short names of whole modules."""
    found, modules = {}, {}
    for line in lines:
        it = form.match(line)
        if not it:
            continue
        module, names, short = it.groups()
        if names is None:
            modules[short or module.rsplit(".", 1)[1]] = module
            continue
        for name in names.split(","):
            own, _, other = name.strip().partition(" as ")
            found[(other or own).strip()] = (module, own.strip())
    return found, modules


def definitions_in(path):
    """The public definitions of a file of specs, by name. A definition ends before the next comment or definition."""
    lines = read(path)
    starts = []
    for number, line in enumerate(lines):
        if line and not line[0].isspace() and not line.startswith(("use ", "--", "pub mod", "mod ")):
            it = HEAD.match(line)
            if it and " = " not in line.split(":")[0]:
                starts.append((number, it.group(1)))
    found = {}
    for place, (number, name) in enumerate(starts):
        end = starts[place + 1][0] if place + 1 < len(starts) else len(lines)
        while end > number and (not lines[end - 1].strip() or lines[end - 1].startswith("--")):
            end -= 1
        found[name] = Definition(path, name, number + 1, end, "\n".join(it for it in lines[number:end] if not it.strip().startswith("--")))
    return found


ITEM = r"^(?:pub(?:\([a-z]+\))? )?(?:struct|enum|trait|type) %s\b"


def item_in(path, name):
    """A struct, an enum or a trait of the code, up to the line that closes it, with what contracts see of it."""
    lines = read(path)
    for number, line in enumerate(lines):
        if re.match(ITEM % re.escape(name), line):
            end = number
            while not line.rstrip().endswith(";") and end + 1 < len(lines) and lines[end].rstrip() != "}":
                end += 1
            text = lines[number:end + 1]
            for place, other in enumerate(lines):
                if re.match(r"^impl.* Model for %s\b" % re.escape(name), other):
                    last = next(i for i in range(place, len(lines)) if lines[i].rstrip() == "}")
                    text += lines[place:last + 1]
            kept = [it for it in text if not it.strip().startswith("//")]
            return Definition(path, name, number + 1, end + 1, "\n".join(kept))
    return None


class Walk:
    def __init__(self):
        self.files = {}
        self.found = {}
        self.waiting = []

    def specs(self, path):
        if path not in self.files:
            lines = read(path)
            self.files[path] = (definitions_in(path), *imports_of(lines, IMPORT))
        return self.files[path]

    def meet(self, module, name):
        """Follows a name of a module."""
        parts = module.split(".")
        if len(parts) < 3 or parts[2] != "specs" or not os.path.isdir(os.path.join(TOP, "crates", parts[1])):
            return
        crate, rest = parts[1], parts[3:]
        if rest[:1] == ["declared"]:
            places = [it for it in rest[1:] if it != "TheVariants"]
            self.meet_item(crate, places, name, rest[-1] == "TheVariants")
            return
        path = f"crates/{crate}/specs/{'/'.join(rest)}.antt"
        if not os.path.exists(os.path.join(TOP, path)):
            return
        made, imported, _ = self.specs(path)
        if name in made:
            self.add(made[name])
        elif name in imported:
            self.meet(*imported[name])
        else:
            for one in made.values():
                if re.search(r"(?<![\w'])%s(?![\w'])" % re.escape(name), one.text) and one.text.lstrip().startswith(("pub data", "data", "pub record", "record")):
                    self.add(one)

    def meet_item(self, crate, places, name, variant):
        item = places[-1] if places else name
        for length in range(len(places), -1, -1):
            for path in (f"crates/{crate}/src/{'/'.join(places[:length])}.rt", f"crates/{crate}/src/{'/'.join(places[:length])}/mod.rt") if length else (f"crates/{crate}/src/lib.rt",):
                if os.path.exists(os.path.join(TOP, path)):
                    one = item_in(path, item) or item_in(path, name)
                    if one:
                        self.add(one)
                        return

    def add(self, one):
        key = (one.path, one.name)
        if key not in self.found:
            self.found[key] = one
            self.waiting.append(one)

    def names(self, text, imported, modules, own):
        """Follows the names of a text by the imports of its file, and those of the file itself."""
        for word in set(NAME.findall(text)):
            if word in imported:
                self.meet(*imported[word])
            elif word in own:
                self.add(own[word])
        for symbol, target in imported.items():
            if not NAME.fullmatch(symbol) and symbol.strip("◌") and all(it in text for it in symbol.split("◌") if it):
                self.meet(*target)
        for short, name in re.findall(r"\b([A-Za-z_]\w*)\.([A-Za-z_][\w']*)", text):
            if short in modules:
                self.meet(modules[short], name)

    def run(self):
        while self.waiting:
            one = self.waiting.pop()
            if one.path.endswith(".antt"):
                made, imported, modules = self.specs(one.path)
                self.names(one.text, imported, modules, made)
            else:
                lines = read(one.path)
                imported, modules = imports_of(lines, GHOST)
                self.names(one.text, imported, modules, {})
                self.code_types(one)

    def code_types(self, one):
        """The types of its fields that stand in the same crate or are imported."""
        crate = one.path.split("/")[1]
        uses = {}
        for line in read(one.path):
            it = re.match(r"^(?:pub )?use ([\w:]+?)(?:::\{(.*)\})?;", line)
            if it:
                base, names = it.groups()
                if names is None:
                    base, _, names = base.rpartition("::")
                for name in names.split(","):
                    uses[name.strip()] = base
        for word in set(re.findall(r"\b[A-Z]\w+", one.text)):
            base = uses.get(word, "").split("::")[0]
            where = crate if base in ("crate", "self", "super", "") else base
            for path in code_files(where):
                found = item_in(path, word)
                if found:
                    self.add(found)
                    break


def code_files(crate):
    folder = os.path.join(TOP, "crates", crate, "src")
    for path, _, names in sorted(os.walk(folder)):
        for name in sorted(names):
            if name.endswith(".rt"):
                yield os.path.relpath(os.path.join(path, name), TOP)


def believed():
    """The definitions below the clauses of `run`, by file and line."""
    walk = Walk()
    path = "crates/designer_command/src/top_call.rt"
    lines = read(path)
    imported, modules = imports_of(lines, GHOST)
    first = next(i for i, line in enumerate(lines) if line.startswith("pub fn run<"))
    clauses = []
    for line in lines[first:]:
        if line.startswith("{"):
            break
        clauses.append(line)
    walk.names("\n".join(clauses), imported, modules, {})
    for name, where in (("Shelf", "cost_base"), ("Sink", "cost_base"), ("Advisor", "cut_advisors")):
        for one in code_files(where):
            found = item_in(one, name)
            if found:
                walk.add(found)
                break
    walk.run()
    return sorted(walk.found.values(), key=lambda it: (it.path, it.first))


def page(found):
    """The page: files in order, each with its definitions and their lines."""
    crates = {}
    for one in found:
        crates.setdefault(one.path.split("/")[1], {}).setdefault(one.path, []).append(one)
    lines = sum(it.last - it.first + 1 for it in found)
    files = sum(len(it) for it in crates.values())
    text = ["# What the headline rests on", "",
            "Whoever believes the contract of `run` believes these definitions: those that its clauses name, those that these name,",
            "and on. `python3 bench/believed.py --write` makes the list, and `bench/documents.py` compares it with the code; numbers",
            "are lines of the file. What is proved rests on nothing else of this repository: the code and the proofs needn't be read.",
            "", f"They are {len(found)} definitions in {files} files of {len(crates)} crates, {lines} lines in all.", ""]
    for crate in sorted(crates):
        text += [f"## `{crate}`", ""]
        for path in sorted(crates[crate]):
            names = ", ".join(f"`{it.name}` {it.first}" + (f"-{it.last}" if it.last > it.first else "") for it in crates[crate][path])
            text.append(f"- {path.split('/', 2)[2]}: {names}")
        text.append("")
    return "\n".join(text)


def main(words):
    text = page(believed())
    if words == ["--write"]:
        with open(os.path.join(TOP, PAGE), "w", encoding="utf-8") as file:
            file.write(text)
    elif words:
        sys.exit(__doc__)
    else:
        print(text, end="")


if __name__ == "__main__":
    main(sys.argv[1:])
