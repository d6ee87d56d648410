#!/usr/bin/env python3
"""Lists what a reader of the program's promise has to believe, and writes it into docs/BELIEVE.md.

    tools/believe.py            writes the generated parts of docs/BELIEVE.md
    tools/believe.py --check    changes nothing, and exits with 1 where the file is not what would be written, or the headline is too long

It begins at the contracts of `run` and `run_with` and at the traits that they speak of, and follows each name by the imports of its
file to the definition, and on from there. In a definition a variable hides what has its name, as far as it goes (`free_words`). In code
it does not: of that the list may have a definition too many.
Of an impl, and of a trait that is known by its ghosts alone, those ghosts count that some definition names. Of a type that contracts
see by a `Model`, that impl counts too. A line counts where it is neither empty nor a comment. What stands beside the headline (`BESIDE`)
is listed apart.
"""
import glob, os, re, sys, textwrap

ROOT = os.path.dirname(os.path.dirname(os.path.abspath(__file__)))
PAGE = os.path.join(ROOT, "docs", "BELIEVE.md")

# how many lines the headline may have
MOST = 1500

# where the reading begins: a file, and an item in it
STARTS = [("blob_device/src/device.rt", "Device"), ("blob_device/src/source.rt", "Source"), ("blob_device/src/sink.rt", "Sink"),
          ("archive_program/src/program.rt", "run"), ("archive_program/src/program.rt", "run_with")]

# what is read beside the headline: why a run ends, and what holds over any image; what the headline needs too is read there
BESIDE = [["archive_service/specs/Families.antt: Family family_of", "archive_service/specs/Causes.antt: IsCause MustRefuse RefusesPut",
           "archive_program/specs/Program.antt: MayBeServed IsGiven IsRefusal"],
          ["archive_service/specs/Serves.antt: OverAnyImage", "archive_service/specs/Causes.antt: Held holding_nothing",
           "archive_service/specs/Causes.antt: IsCauseAnywhere MustRefuseAnywhere RefusesAnywhere",
           "archive_service/specs/PrunableKind.antt: IsFound Learns Clears MayChange IsQuiet"]]

# what may cite these where it is read before: what such a one says of them is read beside
CITING = {"prunable_kind", "RunsJob", "ServesBy"}

# of the headline, the sitting of a crate's files, and of those files that are read in another one
SITTINGS = {"blob_device": 1, "value_codec": 2, "sealed_pages": 2, "section_manager": 3, "segments": 3, "meta_store": 3, "paired": 3,
            "archives": 4, "ordinal_store": 4, "archive_service": 5, "archive_program": 5}
ELSEWHERE = {"archives/specs/IndexRecord.antt": 3, "archives/specs/Filing.antt": 3, "archives/specs/Lawful.antt": 3,
             "blob_device/src/runtime.rt": 4, "section_manager/src/journal.rt": 4, "archive_service/src/replies.rt": 4,
             "archive_service/specs/Serves.antt": 4, "archive_service/specs/Kinds.antt": 4,
             "archive_service/specs/PrunableKind.antt": 4,
             "archives/specs/Limits.antt": 5, "archives/src/prunable/limits.rt": 5, "blob_device/specs/Streams.antt": 5,
             "blob_device/src/io_fault.rt": 5, "blob_device/src/source.rt": 5, "blob_device/src/sink.rt": 5}

WORD = re.compile(r"(?<![\w'.])[^\W\d][\w'-]*(?:\.[\w'-]+)*")
IMPORT = re.compile(r"^\s*(?:pub |ghost )?use ([\w.]+?)(?:\.\{([^}]*)\}| as (\w+))?;?$", re.M)
DEFINITION = re.compile(r"^( *)(?:(?:abbrev|unfoldable|pub|record|data) )+([^\s:({]+)")


# brackets, the sign that begins the variables of a function, and words; of signs those that end or separate variables
TOKEN = re.compile(r"[(){}:.]|" + WORD.pattern)


def free_words(text, bound):
    """the words of a text that no variable hides; variables that it ends with are added to those that are bound"""
    tokens, found = TOKEN.findall(text), []

    # goes through one bracket, or the whole text, and gives the place behind it
    def walk(at, bound):
        while at < len(tokens):
            token, at = tokens[at], at + 1
            if token in ")}": return at
            if token in "({":
                end = at
                while end < len(tokens) and WORD.fullmatch(tokens[end]): end += 1
                # variables of one type, which go as far as what is around the bracket
                if at < end < len(tokens) and tokens[end] == ":":
                    names = tokens[at:end]
                    at = walk(end + 1, set(bound))
                    bound.update(names)
                else: at = walk(at, set(bound))
            elif token == "λ":
                while at < len(tokens) and tokens[at] != ".":
                    bound.add(tokens[at])
                    at += 1
            elif token not in ":." and token.split(".")[0] not in bound: found.append(token)
        return at

    at = 0
    while at < len(tokens): at = walk(at, bound)
    return found


class Item:
    """What is read of a file as one: a definition, the `module` line over some, or a part of the code."""
    def __init__(self, path, name, number, lines, module=None):
        self.path, self.name, self.number, self.size, self.module = path, name, number, len(counted(lines)), module
        self.text = "\n".join(re.sub(r" -- .*", "", it) for it in counted(lines))


def counted(lines): return [it for it in lines if it.strip() and not it.strip().startswith(("--", "//", "#["))]


# the file of definitions from which a name comes, where it comes from one
def spec_of(whence): return "/".join(whence.split(".")[1:]) + ".antt"


class File:
    def __init__(self, path):
        self.path, self.crate = path, path.split("/")[0]
        # definitions and their constructors, and what is imported: names, and names of whole files
        self.items, self.made, self.names, self.aliases = {}, {}, {}, {}
        with open(os.path.join(ROOT, "crates", path), encoding="utf-8") as it: self.lines = it.read().split("\n")
        for whence, names, alias in IMPORT.findall("\n".join(self.lines)):
            if alias: self.aliases[alias] = whence
            self.names.update((name, whence) for name in names.split(", ") if name)
        if path.endswith(".antt"): self.read_definitions()

    def read_definitions(self):
        modules, at = [], 0
        while at < len(self.lines):
            line, begin = self.lines[at], at
            indent = len(line) - len(line.lstrip())
            at += 1
            if not counted([line]) or IMPORT.match(line): continue
            while modules and indent <= modules[-1][0]: modules.pop()
            module = modules[-1][1] if modules else None
            found = DEFINITION.match(line)
            if line.lstrip().startswith("module _"):
                while not self.lines[at - 1].endswith(" where"): at += 1
                modules.append((indent, Item(self.path, None, begin, self.lines[begin:at], module)))
            elif found:
                clause = re.compile(r" *%s[ =]" % re.escape(found[2]))
                def goes_on(line): return not counted([line]) or line.startswith(" " * (indent + 1)) or clause.match(line)
                while at < len(self.lines) and goes_on(self.lines[at]): at += 1
                item = self.items[found[2]] = Item(self.path, found[2], begin, self.lines[begin:at], module)
                if " data " in line: self.made.update((it, item) for it in re.findall(r"^ *([\w']+) :", item.text, re.M))

    def code(self, name, members=None):
        """a type, a trait, a function's contract, or an impl, which is named by its type and its trait; of some the members alone"""
        for number, line in enumerate(self.lines):
            made = re.match(r"impl(?:<[^>]*>)? ((\w+)(?:<[^>]*>)? for (\w+))", line)
            is_impl = made and made[3][0].upper() + made[3][1:] + made[2] == name
            if not is_impl and not re.match(r"pub (struct|enum|trait|fn) %s\b" % name, line): continue
            end = number
            while not line.endswith(";") and self.lines[end] not in ("}", "{"): end += 1
            lines = counted(self.lines[number:end + 1])
            if members is not None and (is_impl or line.startswith("pub trait")):
                lines = lines[:1] + [it for it in lines if re.match(r" *ghost (%s)\b" % "|".join(sorted(members) or "-"), it)]
            return Item(self.path, made[1] if is_impl else name, number, lines)
        kinds = [it for it in re.findall(r"^pub (?:struct|enum) (\w+)", "\n".join(self.lines), re.M) if name.startswith(it)]
        return self.code(kinds[0]) if kinds else sys.exit("no %s in crates/%s" % (name, self.path))  # a derived impl: the type


class Reading:
    """All that is needed, and of the kit the names; what is needed of an impl shows only at the end, so it is read until no more shows."""
    def __init__(self):
        self.files, self.members, self.views, known = {}, set(), {}, None
        for path in glob.glob(os.path.join(ROOT, "crates", "*", "src", "**", "*.rt"), recursive=True):
            file = self.file(os.path.relpath(path, os.path.join(ROOT, "crates")))
            seen = re.findall(r"^impl.* Model for (\w+)", "\n".join(file.lines), re.M)
            self.views.update(((file.crate, name), file.path) for name in seen)
        beside = [[(path, name) for line in lines for path, names in [line.split(": ")] for name in names.split()] for lines in BESIDE]
        while known != len(self.members):
            known, self.needed, self.part, self.kit = len(self.members), {}, {}, {}
            self.later = {it for roots in beside for it in roots}
            self.now, self.citing = 0, []
            for path, name in STARTS: self.take(self.file(path), self.file(path).code(name))
            for self.now, roots in enumerate(beside, 1):
                self.later -= set(roots)
                for path, name in roots:
                    if name not in self.file(path).items: sys.exit("BESIDE names %s, which crates/%s lacks" % (name, path))
                    self.take(self.file(path), self.file(path).items[name])

    def file(self, path):
        if path not in self.files: self.files[path] = File(path)
        return self.files[path]

    def take(self, file, item):
        if (item.path, item.name) in self.later:
            if self.citing[-1] not in CITING: sys.exit("%s needs %s, which BESIDE has read later" % (self.citing[-1], item.name))
            return
        if (item.path, item.number) in self.needed: return
        self.citing.append(item.name)
        self.take_new(file, item)
        self.citing.pop()

    def take_new(self, file, item):
        self.needed[item.path, item.number] = item
        self.part[item.path, item.number] = self.now
        if item.module: self.take(file, item.module)
        for _, _, rest in (it.partition(".") for it in WORD.findall(item.text)):
            if rest.startswith("ghosts.") or rest and ".Ghosts" in item.text: self.members.add(rest.split(".")[-1])
        for word in self.words(file, item):
            first, _, rest = word.partition(".")
            if first in file.aliases and rest: self.follow(file.aliases[first], rest.split(".")[0], is_sure=False)
            elif first in file.items: self.take(file, file.items[first])
            elif first in file.names: self.follow(file.names[first], first)
        for name, whence in file.names.items():
            if not re.match(r"[\w'-]+$", name) and all(piece in item.text for piece in name.split("◌")): self.follow(whence, name)
        for name in re.findall(r"\b[A-Z]\w*", item.text) if re.match(r"pub (struct|enum|trait|fn)", item.text) else ():
            path = self.views.get((file.crate, name))
            if path: self.take(self.file(path), self.file(path).code(name + "Model"))

    def words(self, file, item):
        """the words of an item that no variable hides, in what is not quoted"""
        text = re.sub(r"\"[^\"]*\"", " ", item.text)
        if item.path.endswith(".rt"): return WORD.findall(text)
        modules, at = [], item.module
        while at: modules, at = [at, *modules], at.module
        bound = set()
        for it in modules: free_words(it.text.split("module _", 1)[1], bound)
        if item.name is None: return free_words(text.split("module _", 1)[1], bound)
        return self.words_of_clauses(file, item, text, bound)

    def words_of_clauses(self, file, item, text, bound):
        """of a definition by its parts: the signature, and each clause or field; what a record's head and fields bind goes on"""
        head = re.compile(r" *(?:(?:abbrev|unfoldable|pub|record|data) )+%s\b|^ *%s(?=[ =])" % ((re.escape(item.name),) * 2))
        parts = []
        for line in text.split("\n"):
            begins = not parts or head.match(line) or re.match(r" *pub [\w'-]+ :", line)
            parts = [*parts, line] if begins else [*parts[:-1], parts[-1] + "\n" + line]
        found, is_record = [], re.match(r" *(?:pub )?record ", text)
        for number, part in enumerate(parts):
            within = bound if is_record else set(bound)
            part = part[head.match(part).end():] if head.match(part) else part
            field = re.match(r" *pub ([\w'-]+) :", part)
            if number and not field:
                pattern, part = re.split(r"(?:^|\s)=(?=\s)", part, maxsplit=1)
                for word in WORD.findall(pattern): (found.append if self.is_made(file, word) else within.add)(word)
            # the labels of a record are no words
            found += free_words(re.sub(r"\b\w+ =(?= )", " ", part[field.end():] if field else part), within)
            if field: within.add(field[1])
        return found

    def is_made(self, file, word):
        """a word of a pattern is no variable: it is a constructor, or may be one of the kit"""
        whence = file.names.get(word, "")
        if "." in word or word[0].isupper() or word in file.made: return True
        if not re.match(r"Rattle\.(\w+)\.specs\.(?!declared)", whence): return bool(whence)
        return not os.path.isdir(os.path.join(ROOT, "crates", whence.split(".")[1])) or word in self.file(spec_of(whence)).made

    def follow(self, whence, name, is_sure=True):
        parts = whence.split(".")
        if parts[0] != "Rattle" or not os.path.isdir(os.path.join(ROOT, "crates", parts[1])):
            self.kit.setdefault(whence.replace("Rattle.", ""), set()).add(name)
        elif parts[3] in ("declared", "contracts"):
            inner = parts[4:-1] if parts[-1] in ("TheVariants", "TheImpl") else parts[4:]
            file = self.file("/".join([parts[1], "src", *inner[:-1]]) + ".rt")
            self.take(file, file.code(inner[-1], self.members))
        else:
            file = self.file(spec_of(whence))
            if name in file.items or name in file.made: self.take(file, file.items.get(name) or file.made[name])
            elif name in file.names: self.follow(file.names[name], name)
            elif is_sure: sys.exit("no %s in crates/%s" % (name, file.path))

    def read_in(self, path, number):
        """in which sitting an item of a file is read"""
        part = self.part[path, number]
        return 5 + part if part else ELSEWHERE.get(path, SITTINGS.get(path.split("/")[0], 5))

    def sitting(self, number):
        """the files of a sitting, lower crates first and a file behind those that it imports, each with what is needed of it"""
        with open(os.path.join(ROOT, "crates.txt"), encoding="utf-8") as it: crates = re.findall(r"^(\w+):", it.read(), re.M)
        paths = {it for it, at in self.needed if self.read_in(it, at) == number}
        ordered = []
        def place(path):
            if path in ordered: return
            uses = {spec_of(it) for it in [*self.files[path].names.values(), *self.files[path].aliases.values()]}
            for used in sorted(paths & uses - {path}): place(used)
            ordered.append(path)
        for path in sorted(paths, key=lambda it: (crates.index(it.split("/")[0]), it)): place(path)
        here = [(key[0], it) for key, it in sorted(self.needed.items()) if self.read_in(*key) == number]
        return [(path, [it for where, it in here if where == path]) for path in ordered]


# a tilde stands for a space at which no line ends
def wrapped(text):
    indent = "  " * text.startswith("- ")
    return textwrap.fill(text, 110, subsequent_indent=indent, break_long_words=False, break_on_hyphens=False).replace("~", " ")


def generated():
    """the generated parts of the page, by their names, and how many lines the headline has"""
    reading = Reading()
    sittings = {number: reading.sitting(number) for number in range(1, 8)}
    sizes = {number: sum(it.size for _, items in files for it in items) for number, files in sittings.items()}
    headline = [it for number in range(1, 6) for it in sittings[number]]
    lines = sum(sizes[number] for number in range(1, 6))
    names, paths = sum(1 for _, items in headline for it in items if it.name), len({path for path, _ in headline})
    parts = {"total": wrapped(
        "**%s lines to believe of the headline**: %d definitions, types and contracts in %d files. Beside it %d lines say why "
        "a run ends, and %d what holds over any image. These are %s in all." % (
            format(lines, ","), names, paths, sizes[6], sizes[7], format(sum(sizes.values()), ",")))}
    for number, files in sittings.items():
        rows = ["%d lines:" % sizes[number], ""]
        for path, items in files:
            names = ", ".join("`%s`~%d" % (it.name, it.size) for it in items if it.name)
            rows.append(wrapped("- [`%s`](../crates/%s), %d: %s" % (path, path, sum(it.size for it in items), names)))
        parts["sitting %d" % number if number < 6 else "causes" if number == 6 else "any image"] = "\n".join(rows)
    rows = ["- `%s`: %s" % (whence, " ".join("`%s`" % it for it in sorted(names))) for whence, names in sorted(reading.kit.items())]
    parts["kit"] = "\n".join(map(wrapped, rows))
    return parts, lines


def main():
    with open(PAGE, encoding="utf-8") as it: old = it.read()
    new, (parts, lines) = old, generated()
    for name, text in parts.items():
        begin, end = "<!-- believe: %s -->\n" % name, "<!-- end -->"
        if begin not in new: sys.exit("docs/BELIEVE.md lacks the line " + begin)
        head, tail = new.split(begin, 1)
        new = head + begin + text + "\n" + end + tail.split(end, 1)[1]
    if "--check" in sys.argv[1:] and lines > MOST: sys.exit("the headline has %d lines to believe: at most %d are allowed" % (lines, MOST))
    if new == old: return
    if "--check" in sys.argv[1:]: sys.exit("docs/BELIEVE.md is not what tools/believe.py writes: run it, and read what it adds")
    with open(PAGE, "w", encoding="utf-8") as it: it.write(new)


if __name__ == "__main__":
    main()
