"""Checks what the documents claim and a machine can tell. It is run by hand, from any folder:

    python3 bench/documents.py          counts, edges of the map, names, paths, definitions, words of commands,
                                        statuses, refusal numbers, texts of help, quoted lines, links, what must be
                                        believed
    python3 bench/documents.py --run    besides, each command of the documents and of the texts of help, with the built
                                        program

A document says in comments that no reader sees what its commands print:

    <!-- prints FILE -->                the command above prints what FILE has
    <!-- prints below -->               it prints the next indented block
    <!-- begins below -->               it prints that block, and more behind it
    <!-- makes MADE as FILE -->         it makes the file MADE, which is what FILE has; it lies there for later commands
    <!-- status N -->                   it ends with this status (0 unless said)
    <!-- lines of FILE -->              each line of the next indented block stands in FILE, in this order

A line that begins with `NAME=` in a block, or in backquotes as `NAME=VALUE`, sets a name for the commands behind it.
It prints a line for each claim that fails, counts, and ends with status 1 where one did.
"""
import glob
import os
import re
import subprocess
import sys
import tempfile

import believed

TOP = os.path.dirname(os.path.dirname(os.path.abspath(__file__)))
COMMENT = re.compile(r"<!-- (prints|begins|makes|status) (.*?) -->")
# Words in backquotes that look like names of the code and are of other things: of files, lines, commands, Rust, the
# toolchain.
FOREIGN = set(
    """anyhow clap clippy indexmap memchr gnuplot graphviz neato cbc glpsol vtysh ospfd zebra malloc cargo rustc rt
    rattle antt std core alloc u8 u16 u32 u64 u128 i64 i128 usize bool char str
    ap cc conv omega grind search simp rw refl sym subst hlevel ring ring_by arith common_steps
    hostname shutdown exit router interface network broadcast redistribute Full
    shr_and_one _x broadcast_address SubnetEnds
    """.split()
)


def text_of(path):
    with open(os.path.join(TOP, path), encoding="utf-8") as file:
        return file.read()


def files_below(folder, ending):
    for path, folders, names in os.walk(os.path.join(TOP, folder)):
        folders[:] = sorted(name for name in folders if name not in ("out", ".git"))
        for name in sorted(names):
            if name.endswith(ending):
                yield os.path.relpath(os.path.join(path, name), TOP)


def documents():
    yield "README.md"
    yield from files_below("docs", ".md")
    yield from files_below("bench", ".md")
    yield from files_below("crates/run_cases/data/examples", ".md")


def crates():
    """Gives the libraries that each crate's line names."""
    found = {}
    for line in text_of("crates.txt").splitlines():
        line = line.split("#")[0].strip()
        if line:
            name, _, names = line.partition(":")
            found[name.split()[0]] = names.split()
    return found


def reached(of, name):
    seen, left = set(), list(of.get(name, []))
    while left:
        one = left.pop()
        if one not in seen:
            seen.add(one)
            left += of.get(one, [])
    return seen


class Claims:
    def __init__(self):
        self.made = 0
        self.false = []

    def claim(self, holds, place, text):
        self.made += 1
        if not holds:
            self.false.append(f"{place}: {text}")


def without_blocks(text):
    """The lines of a document with their numbers, without its indented blocks and comments."""
    for number, line in enumerate(text.splitlines(), 1):
        if not line.startswith("    ") or line.lstrip().startswith(("-", "*", "`")):
            yield number, COMMENT.sub("", line)


# Counts, and the edges of the map.

SMALL = """no one two three four five six seven eight nine ten eleven twelve thirteen fourteen fifteen sixteen seventeen
eighteen nineteen""".split()
TENS = "twenty thirty forty fifty sixty seventy eighty ninety".split()
NUMBERS = {
    **{word: number for number, word in enumerate(SMALL)},
    **{word: 10 * number for number, word in enumerate(TENS, 2)},
    **{f"{ten}-{SMALL[one]}": 10 * tens + one for tens, ten in enumerate(TENS, 2) for one in range(1, 10)},
}
NUMBER = r"(?<![\w.,-])(\d+|" + "|".join(sorted(NUMBERS, key=len, reverse=True)) + r")\b"


def groups():
    """The groups of crates.txt, each with the names of its crates."""
    found = {}
    for line in text_of("crates.txt").splitlines():
        if re.fullmatch(r"# [A-Z][a-z]+( [a-z]+)?", line):
            group = found.setdefault(line[2:], [])
        elif line and not line.startswith("#"):
            group.append(line.partition(":")[0])
    return found


def counted():
    """What a document may count, N standing for the number, and how many there are."""
    of, group = crates(), groups()
    return {
        "N crates of the program": 1 + len(reached(of, "ospfcost") & of.keys()),
        "N crates of cases": len(group["Cases"]),
        "N crates of commands": sum(name.endswith("_commands") for name in of),
        "N crates in all": len(of),
        "N groups of crates": len(group) - 1,
        "scripts of N other programs": sum(os.path.exists(os.path.join(TOP, "crates", name, "stdin")) for name in of),
    }


def number_said(word):
    return int(word) if word.isdigit() else NUMBERS[word]


def place_in(text, at):
    """The line of a place in a text, counted from 1."""
    return 1 + text.count("\n", 0, at)


def check_counts(claims, page="docs/architecture.md"):
    """Where a document counts crates, their groups or programs, in digits or words, there are as many. The map does."""
    of, kinds = crates(), counted()
    for path in documents():
        told = set()
        text = "\n".join("" if line.startswith("    ") else line for line in text_of(path).splitlines())
        for kind, count in kinds.items():
            for found in re.finditer(kind.replace(" ", r"\s+").replace("N", NUMBER, 1), text):
                told.add(kind)
                place = f"{path}:{place_in(text, found.start())}"
                claims.claim(number_said(found.group(1)) == count, place, f"`{found.group(0)}`, and there are {count}")
        if path == page:
            for kind in list(kinds)[:2]:
                claims.claim(kind in told, path, f"it doesn't tell '{kind}'")
        for found in re.finditer(r"`([a-z_]+)`,?\s+stands\s+on\s+" + NUMBER + r"\s+others:([^.]*)", text):
            name, number, rest = found.groups()
            below = reached(of, name) & of.keys()
            place = f"{path}:{place_in(text, found.start())}"
            claims.claim(number_said(number) == len(below), place, f"`{name}` stands on {len(below)} others")
            claims.claim(set(re.findall(r"`([a-z_]+)`", rest)) == below, place, f"`{name}` stands on {sorted(below)}")


CRATE = r"(?:\*\*)?`[a-z_0-9]+`(?:\*\*)?"
ENTRY = re.compile(rf"^- ({CRATE}(?:, {CRATE})*)(?: \(on nothing\))?(?: < ([^:]*))?:")


def entries_of_crates(path):
    """The entries of a list of crates: `name` < `a`, `b`: what it promises."""
    lines = text_of(path).splitlines()
    for number, line in enumerate(lines, 1):
        whole = line
        if line.startswith("- ") and "`" in line[:8] and ":" not in line and number < len(lines):
            whole += " " + lines[number].strip()
        found = ENTRY.match(whole)
        if found:
            names = re.findall(r"`([a-z_0-9]+)`", found.group(1))
            below = None if found.group(2) is None else re.findall(r"`([a-z_0-9]+)`", found.group(2))
            yield number, names, below


def check_map(claims, path="docs/proved.md"):
    """Each crate has one entry, and `<` names those that it stands on, but for those on which these stand in turn."""
    of = crates()
    listed = {}
    for number, names, below in entries_of_crates(path):
        for name in names:
            if name in of:
                claims.claim(name not in listed, f"{path}:{number}", f"`{name}` has two entries")
                listed[name] = (number, below)
    for name in of:
        claims.claim(name in listed, path, f"`{name}` has no entry")
    base = "cost_base"
    for name, (number, below) in listed.items():
        if below is None:
            continue
        own = {it for it in reached(of, name) if it in of}
        told = set(below) | {base}
        for one in below:
            told |= reached(of, one)
        told = {it for it in told if it in of}
        claims.claim(own <= told, f"{path}:{number}", f"`{name}` stands on {sorted(own - told)} too")
        claims.claim(told - {base} <= own, f"{path}:{number}", f"`{name}` doesn't stand on {sorted(told - own)}")
        for one in below:
            others = set()
            for other in below:
                if other != one:
                    others |= reached(of, other)
            claims.claim(one not in others, f"{path}:{number}", f"`{name}`: another one stands on `{one}` already")


# Names in backquotes.

WORD = re.compile(r"[A-Za-z_][A-Za-z_0-9']*")
# What ends the names of files, which may be anyone's.
ENDINGS = (".txt", ".conf", ".md", ".sh", ".svg", ".py", ".lsa", ".log")


def known_words():
    """Every word of the sources, with the names of their files, folders, crates and cases."""
    words = set()
    for ending in (".rt", ".antt", ".edit", ".py", "case.txt"):
        for path in files_below("bench" if ending == ".py" else "crates", ending):
            words.update(WORD.findall(text_of(path)))
            words.update(WORD.findall(path))
    for path, _, names in os.walk(os.path.join(TOP, "crates")):
        words.update(WORD.findall(os.path.basename(path)))
        words.update(it for name in names for it in WORD.findall(name))
    return words | FOREIGN


def check_names(claims):
    """A name in backquotes that looks like one of the code (has `_`, `::` or capitals inside) stands in the sources."""
    words = known_words()
    for path in documents():
        for number, line in without_blocks(text_of(path)):
            for quoted in re.findall(r"`([^`]+)`", line):
                quoted = quoted.strip()
                if not re.fullmatch(r"[A-Za-z_][A-Za-z_0-9:'/.{},-]*", quoted) or quoted.endswith(ENDINGS):
                    continue
                if not re.search(r"_|::|[a-z][A-Z]|^[A-Z][a-z]+$", quoted):
                    continue
                for word in WORD.findall(quoted):
                    if len(word) > 1:
                        text = f"`{quoted}`: nothing in the sources is called `{word}`"
                        claims.claim(word in words, f"{path}:{number}", text)


# Names of definitions.

DEFINED = re.compile(r"^(?:abbrev |unfoldable )*pub (?:record |data )?([A-Za-z_][A-Za-z_0-9']*)", re.M)
FIELD = re.compile(r"^  pub ([a-z_]+) :", re.M)
ITEM = re.compile(r"^ *(?:pub(?:\([a-z]+\))? )?(?:enum|struct|trait|type|const|fn) ([A-Za-z_][A-Za-z_0-9]*)", re.M)
ENUM = re.compile(r"^( *)(?:pub(?:\([a-z]+\))? )?enum [A-Z][^{;]*\{\n(.*?)^\1\}", re.M | re.S)
VARIANT = re.compile(r"^ +([A-Z][A-Za-z0-9]*)", re.M)


def names_by_crate():
    """For each crate the files, definitions and fields of its specs with the items and variants of its code; and for
    each its proof files."""
    stated, proved = {name: set() for name in crates()}, {name: set() for name in crates()}
    for path in files_below("crates", ".antt"):
        _, crate, folder, *_ = path.split("/")
        file = os.path.basename(path).removesuffix(".antt")
        if folder == "specs":
            text = text_of(path)
            stated[crate] |= {file, *DEFINED.findall(text), *FIELD.findall(text)}
            for data in re.findall(r"^pub data .*\n((?:  .*\n)*)", text, re.M):
                stated[crate].update(re.findall(r"^  (?:pub )?([A-Z][A-Za-z0-9]*)", data, re.M))
        elif folder == "proofs":
            proved[crate].add(file)
    for path in files_below("crates", ".rt"):
        _, crate, folder, *_ = path.split("/")
        if folder == "src":
            text = text_of(path)
            stated[crate].update(ITEM.findall(text))
            for _, variants in ENUM.findall(text):
                stated[crate].update(VARIANT.findall(variants))
    return stated, proved


def parts_of(path):
    """The headings, bullets and paragraphs of a document, each with the line where it begins and the heading above."""
    heading, begun, lines = "", 0, []
    for number, line in enumerate([*text_of(path).splitlines(), ""], 1):
        is_new = not line.strip() or line.startswith(("- ", "#")) or re.match(r"\d+\. ", line)
        if is_new and lines:
            yield begun, heading, "\n".join(lines)
            lines = []
        if line.startswith("#"):
            heading = line
        elif lines and lines[0].startswith("#"):
            heading += " " + line
        if line.strip():
            begun = begun if lines else number
            lines.append(line)


def crates_named(text, of):
    """The crates that stand in backquotes, alone or before a file."""
    fronts = [quoted.partition("/")[0] for quoted in re.findall(r"`([^`\n]+)`", text)]
    return {it for front in fronts for it in WORD.findall(front) if it in of}


def check_definitions(claims, path="docs/definitions.md"):
    """On the page of definitions a capitalised name in backquotes is a definition, a file of definitions, a type or a
    variant of a crate that its bullet or the heading above names, or a proof file of one where the bullet speaks of
    proofs; so is a name with `_`, but for the crates themselves. `crate/File` is a file of that crate's definitions."""
    stated, proved = names_by_crate()
    for begun, heading, part in parts_of(path):
        named = crates_named(part, stated) | crates_named(heading, stated)
        if "crates of commands" in heading:
            named |= set(groups()["Commands"])
        known = set().union(*(stated[crate] for crate in named))
        if "proofs" in part:
            known = known.union(*(proved[crate] for crate in named))
        for found in re.finditer(r"`([^`\n]+)`", part):
            quoted, place = found.group(1), f"{path}:{begun + part.count(chr(10), 0, found.start())}"
            crate, _, file = quoted.replace("/specs/", "/").partition("/")
            if crate in stated and re.fullmatch(r"[A-Z][A-Za-z]*", file):
                there = os.path.exists(os.path.join(TOP, "crates", crate, "specs", f"{file}.antt"))
                claims.claim(there, place, f"`{crate}` has no file of definitions `{file}`")
            elif re.fullmatch(r"[A-Z][A-Za-z]*|[a-z]+(_[a-z]+)+", quoted) and quoted not in stated:
                others = sorted(crate for crate in stated if quoted in stated[crate])
                where = f"it is of {', '.join(others)}" if others else "no crate has it in `specs` or `src`"
                text = f"`{quoted}` is of no crate that its bullet or heading names: {where}"
                claims.claim(quoted in known, place, text)


# Refusal numbers.

NUMBERED = re.compile(r"^[a-z_]*(?:number_of|fault_number)[a-z_]* .*= (\d+)$")
TABLE = re.compile(r"^[a-z_]+ .*= (\d+)$")


def numbers_of_code():
    """The numbers by which faults are written: those of the specs' tables, of crates that the program stands on."""
    found = set()
    below = reached(crates(), "ospfcost")
    for path in files_below("crates", ".antt"):
        name, _, rest = path.removeprefix("crates/").partition("/specs/")
        if name not in below or not rest or "CapNumbers" in rest or "NewNumbers" in rest:
            continue
        form = TABLE if rest.endswith("Numbers.antt") else NUMBERED
        found |= {int(it.group(1)) for it in map(form.match, text_of(path).splitlines()) if it}
    return found - {0}


def check_numbers(claims, path="docs/operators.md"):
    """Each number of the code has a line of the operators' page, and each such line a number of the code."""
    told = {}
    for number, line in enumerate(text_of(path).splitlines(), 1):
        found = re.match(r"^- (\d+): ", line)
        if found:
            told[int(found.group(1))] = number
    code = numbers_of_code()
    for number in sorted(code):
        claims.claim(number in told, path, f"refusal {number} of the code isn't told")
    for number, line in told.items():
        claims.claim(number in code, f"{path}:{line}", f"no refusal of the code has the number {number}")


MEANING = re.compile(r'^ +(\d+) => "', re.M)


def check_meanings(claims, path="crates/refusal_sentences/src/sayings.rt", page="docs/operators.md"):
    """Each number of the code has a sentence, and a faulty line with its mended form, and no other number has one."""
    code = numbers_of_code()
    meant = {int(number) for number in MEANING.findall(text_of(path))}
    table = text_of(page).partition("## Faulty lines, mended")[2].partition("\n## ")[0]
    mended = {int(it) for it in re.findall(r"^\| (\d+) \|", table, re.M)}
    for place, told in ((path, meant), (page, mended)):
        for number in sorted(code ^ told):
            claims.claim(number not in code, place, f"refusal {number} of the code isn't there")
            claims.claim(number not in told, place, f"no refusal of the code has the number {number}")
    claims.claim(code == meant == mended, path, "numbers differ")


# Texts of help.

HELP = "crates/help_texts/src/texts"


def rust_text(path, name):
    """The text of a constant that begins with a backslash behind its quote."""
    return re.search(rf'const {name}: &str = "\\\n(.*?)";', text_of(path), re.S).group(1).replace('\\"', '"')


def usage_lines():
    lines = rust_text("crates/designer_command/src/top_call.rt", "USAGE").splitlines()
    lines = [line.removeprefix("usage:").strip() for line in lines]
    return {line.split()[1]: "usage: " + line for line in lines}


def help_texts():
    for name in os.listdir(os.path.join(TOP, HELP)):
        yield name.removesuffix(".rt"), f"{HELP}/{name}", rust_text(f"{HELP}/{name}", "TEXT")


def ranges_of_code():
    """What the code takes for the number of an option: the least, the greatest, and what stands for it."""
    text = text_of("crates/command_words/src/values.rt") + text_of("crates/command_words/src/reading.rt")
    for name, rest in re.findall(r'm(?:ay|ust)_number\(matches, "([a-z]+)", ([0-9_, ]+)\)', text):
        yield name, [int(it.replace("_", "")) for it in rest.split(",")]


def check_help(claims):
    """The texts of help: the usage line, each word with its range, at most 40 lines; and the version."""
    usage, ranges, readme = usage_lines(), dict(ranges_of_code()), text_of("README.md")
    for name, path, text in help_texts():
        claims.claim(len(text.splitlines()) <= 40, path, "more than 40 lines")
        claims.claim("\nexample\n  ./ospfcost " in text, path, "no example")
        if name == "all":
            for command in usage:
                claims.claim(re.search(rf"^  {command} ", text, re.M), path, f"nothing on {command}")
            continue
        claims.claim(text.splitlines()[0] == usage.get(name), path, "the first line isn't that of the usage text")
        words = text.partition("\nwords\n")[2].partition("\n\n")[0]
        for option in re.findall(r"--([a-z]+)", text.splitlines()[0]):
            about = re.search(rf"^  --{option} (.*?)(?=\n  -|\n  [A-Z]|\Z)", words, re.M | re.S)
            claims.claim(about, path, f"nothing on --{option}")
            if about and option in ranges and not (name == "steps" and option == "bits"):
                low, high, *default = ranges[option]
                claims.claim(f"{low} to {high}" in about.group(1), path, f"--{option} goes from {low} to {high}")
                for usual in default:
                    claims.claim(f"({usual})" in about.group(1), path, f"{usual} stands for --{option}")
                    is_told = f"{usual:,}" in readme or str(usual) in readme
                    claims.claim(is_told, "README.md", f"no word on the default {usual} of --{option}")
        row = re.search(rf"^\| `{name}\b(.*?)`(?: \||,)|`{name}`", readme, re.M)
        claims.claim(row, "README.md", f"no row of {name}")
    version = rust_text("crates/help_texts/src/lib.rt", "VERSION").splitlines()[1].removeprefix("proved with ")
    claims.claim(f"`{version}`" in readme, "README.md", f"the program says that it is proved with {version}")
    try:
        kit = subprocess.run(["rt", "version"], capture_output=True, text=True).stdout.strip()
        same = kit.split()[-2:] == version.split()[-2:]
        claims.claim(same, "crates/help_texts/src/lib.rt", f"`rt version` says {kit}")
    except OSError:
        print("no `rt` here: the checker of `version` isn't looked at")


def run_help(claims, folder):
    """The examples of the texts of help end with a status that the text has."""
    for name, path, text in help_texts():
        command = re.search(r"\nexample\n  (.*)", text).group(1)
        ran = subprocess.run(["sh", "-c", command], cwd=folder, stdin=subprocess.DEVNULL, capture_output=True)
        told = (0, 1) if name == "compare" else (0,)
        claims.claim(ran.returncode in told, path, f"{command} ends with status {ran.returncode}")
        if name in ("help", "all"):
            is_told = ran.stdout.decode() == rust_text(f"{HELP}/design.rt", "TEXT")
            claims.claim(is_told, path, f"{command} prints something else")


# Words of commands, statuses and quoted lines.

OPTION = re.compile(r"--[a-z]+")
# What stands for options in the table of commands.
SHARED = {"N": "--nodes", "B": "--bits"}
# How statuses are told: a number, and a name.
STATUSES = {
    "README.md": r"\b(\d) \*([a-z\s]+)\*",
    "docs/operators.md": r"(?m)^\| (\d) \| ([a-z ]+) \|",
}


def check_commands(claims):
    """README's table of commands has each command of the usage text, in any order, with the options that it takes."""
    usage = text_of("crates/designer_command/src/top_call.rt")
    lines = re.findall(r"(?m)^(?:usage:| {6}) ospfcost (.*)$", usage)
    called = {line.split()[0]: set(OPTION.findall(line)) for line in lines}
    told = {}
    for number, line in enumerate(text_of("README.md").splitlines(), 1):
        found = re.match(r"\| `([a-z]+)( [^`]*)?` \|", line)
        if found and found.group(1) in called:
            words = (found.group(2) or "").replace("\\|", "|")
            options = set(OPTION.findall(words)) | {SHARED[it] for it in words.split() if it in SHARED}
            told.setdefault(found.group(1), (number, options))
    claims.claim(set(told) == set(called), "README.md", f"the usage text has {sorted(set(called) ^ set(told))} besides")
    for name, (number, options) in told.items():
        text = f"`{name}` takes {sorted(called[name])}"
        claims.claim(options == called[name], f"README.md:{number}", text)


def check_statuses(claims):
    """The names and numbers of statuses in README and on the operators' page are those of the code."""
    code = text_of("crates/cost_base/src/lib.rt")
    spoken = {}
    for name, number in re.findall(r"Status::(\w+) => (\d),", code):
        spoken[re.sub(r"(?<=.)(?=[A-Z])", " ", name).lower()] = int(number)
    for path, pattern in STATUSES.items():
        told = {" ".join(name.split()): int(number) for number, name in re.findall(pattern, text_of(path))}
        claims.claim(told == spoken, path, f"the statuses are {spoken}")


def check_quotes(claims):
    """The lines of a block that is said to be of a file stand in it, in their order."""
    for path in documents():
        lines = text_of(path).splitlines()
        for place, line in enumerate(lines):
            for file in re.findall(r"<!-- lines of (.*?) -->", line):
                left = iter(text_of(file).splitlines())
                block = block_behind(lines, place).splitlines()
                is_so = bool(block) and all(it in left for it in block)
                claims.claim(is_so, f"{path}:{place + 1}", f"{file} hasn't these lines")


# Links.

PATH = re.compile(r"\b((?:docs|bench|examples|crates)/(?!NAME)[A-Za-z_0-9/.-]+\.(?:md|py|sh|txt|svg|rt|antt))\b")


def spelled_out(path):
    """The paths that a path with `{A,B}` stands for."""
    group = re.search(r"\{([^{}]*)\}", path)
    if not group:
        return [path]
    return [it for word in group.group(1).split(",")
            for it in spelled_out(path[:group.start()] + word.strip() + path[group.end():])]


def stands_below(crate, path):
    """Whether a path of a crate is a file or a folder there, with or without its ending, or with a definition behind it
    (`proofs/Trials.trial_asked`); `..` stands for any name."""
    place = os.path.join(TOP, "crates", crate, path.replace("/..", "/*"))
    file = re.sub(r"\.[a-z_0-9']+$", ".antt", place)
    return bool(glob.glob(file)) or any(glob.glob(place + ending) for ending in ("", ".rt", ".antt", ".edit"))


def check_paths(claims):
    """A path `CRATE/(src|specs|proofs|must-fail)/..` in backquotes is one of that crate."""
    named = set(crates())
    for path in documents():
        for number, line in enumerate(text_of(path).split("\n"), 1):
            for quoted in re.findall(r"`([^`\s]+)`", line):
                for one in spelled_out(quoted.rstrip(":,;").removeprefix("crates/")):
                    crate, slash, rest = one.partition("/")
                    if crate in named and re.match(r"(src|specs|proofs|must-fail)(/|$)", rest):
                        claims.claim(stands_below(crate, rest.rstrip("/")), f"{path}:{number}", f"`{one}`: no such file")


def check_links(claims):
    for path in documents():
        for number, line in without_blocks(text_of(path)):
            for target in re.findall(r"\]\(([^)#]+)", line):
                if "://" not in target:
                    there = os.path.exists(os.path.join(TOP, os.path.dirname(path), target))
                    claims.claim(there, f"{path}:{number}", f"the link to {target} leads nowhere")
            for target in PATH.findall(line):
                claims.claim(os.path.exists(os.path.join(TOP, target)), f"{path}:{number}", f"there is no {target}")


# What must be believed.

def check_believed(claims):
    """docs/believed.md is what believed.py makes of the code."""
    is_made = text_of(believed.PAGE) == believed.page(believed.believed())
    claims.claim(is_made, believed.PAGE, "the code has another list (python3 bench/believed.py --write)")


# Commands.

class Command:
    def __init__(self, number, text, names):
        self.number = number
        self.text = text
        self.names = dict(names)
        self.wants = []
        self.block = None
        self.status = None


def commands_in(path):
    """The commands of a document that start the program, with what is said of what they print."""
    lines = text_of(path).splitlines()
    found, names, place = [], {}, 0
    while place < len(lines):
        line = lines[place]
        for name, value in re.findall(r"`([a-z]+)=([^`]+)`", line):
            names[name] = value
        if re.match(r" {4,}(\./ospfcost|examples/[a-z-]+\.sh|python3 bench/) ?", line):
            text, first = line.strip(), place + 1
            while text.endswith("\\"):
                place += 1
                text = text[:-1] + lines[place].strip()
            found.append(Command(first, text, names))
        elif found:
            for kind, rest in COMMENT.findall(line):
                if kind == "status":
                    found[-1].status = int(rest)
                else:
                    found[-1].wants.append((kind, rest))
                    if rest == "below":
                        found[-1].block = block_behind(lines, place)
        place += 1
    return found


def block_behind(lines, place):
    """The next indented block behind a line, without its indentation."""
    while place < len(lines) and (not lines[place].strip() or not lines[place].startswith("    ")):
        place += 1
    block = []
    while place < len(lines) and (lines[place].startswith("    ") or not lines[place].strip()):
        block.append(lines[place][4:])
        place += 1
    while block and not block[-1].strip():
        block.pop()
    return "".join(f"{line}\n" for line in block)


def run_commands(claims):
    with tempfile.TemporaryDirectory() as folder:
        for name in ("examples", "ospfcost", "bench"):
            os.symlink(os.path.join(TOP, name), os.path.join(folder, name))
        for path in documents():
            for command in commands_in(path):
                run_one(claims, path, command, folder)
        run_help(claims, folder)


def run_one(claims, path, command, folder):
    place = f"{path}:{command.number}"
    if not command.wants and command.status is None:
        return
    environment = {**os.environ, **command.names}
    words = ["sh", "-c", command.text]
    ran = subprocess.run(words, cwd=folder, env=environment, stdin=subprocess.DEVNULL, capture_output=True)
    status, ended = command.status or 0, ran.returncode
    claims.claim(ended == status, place, f"{command.text} ends with status {ended}, {status} was said")
    for kind, rest in command.wants:
        if rest == "below":
            wanted = command.block.encode()
            same = ran.stdout.startswith(wanted) if kind == "begins" else ran.stdout == wanted
            claims.claim(same, place, f"{command.text} prints something else than the block behind it")
        elif kind == "prints":
            is_so = ran.stdout == bytes_of(os.path.join(folder, rest))
            claims.claim(is_so, place, f"{command.text} doesn't print {rest}")
        else:
            made, _, kept = rest.partition(" as ")
            is_so = bytes_of(os.path.join(folder, made)) == bytes_of(os.path.join(folder, kept))
            claims.claim(is_so, place, f"{made} isn't {kept}")


def bytes_of(path):
    try:
        with open(path, "rb") as file:
            return file.read()
    except OSError:
        return None


def main(words):
    if words not in ([], ["--run"]):
        sys.exit(__doc__)
    claims = Claims()
    check_counts(claims)
    check_map(claims)
    check_names(claims)
    check_definitions(claims)
    check_numbers(claims)
    check_meanings(claims)
    check_commands(claims)
    check_statuses(claims)
    check_help(claims)
    check_quotes(claims)
    check_paths(claims)
    check_links(claims)
    check_believed(claims)
    if words:
        run_commands(claims)
    for text in claims.false:
        print(text)
    print(f"{claims.made} claims, {len(claims.false)} false")
    sys.exit(1 if claims.false else 0)


if __name__ == "__main__":
    main(sys.argv[1:])
