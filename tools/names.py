"""Lists of names that changed, and how such a list is applied to the files of a repository.

A list has a line for each name; # starts a comment. The new names hold all at one time, so that two may be exchanged.

    crate OLD NEW                     a crate: its folder, and whatever names it
    proofs CRATE NEW                  proofs/ of a crate, which become crate NEW above it; NEW's other files, and crates.txt, are left to a person
    module CRATE::OLD CRATE::NEW      a file of a crate: src/OLD.rt with proofs/OLD/, or OLD.antt in specs/ or proofs/
    name [CRATE [MODULE]] OLD NEW     a definition, one of specs/
    law [CRATE [MODULE]] OLD NEW      a law, or whatever else proofs/ has
    fn CRATE [MODULE] OLD NEW         a function or method of src/, with the folder of its proof and what proofs call it

Without CRATE every definition or law of that name is meant; with it one crate's alone, and with MODULE one file's. CRATE and MODULE are those that
the list leaves, and not those before it.

A definition's or law's name is changed only where it is meant: in the file that declares it, and in files that import it from there. Fields of
records (`l.paused`, `paused = 0`), declarations and clauses in which a parameter, λ or let has the name, names that are part of a longer one,
code, and words of comments are left alone; in comments and documents a name is changed between backticks, and a folder wherever it stands. A
function's name is changed in code: in its crate where it is called, and elsewhere behind its module's name.
"""
import re

import source

KINDS = {"crate", "proofs", "module", "name", "law", "fn"}
MODULE = re.compile(r"Rattle\.(\w+)\.(specs|proofs)\.(.+)")
USE = re.compile(r"^[ \t]*(pub |ghost )?use\s+([^\s;{]+?)(?:\.\{([^}]*)\})?(?:\s+as\s+(\S+?))?[ \t]*;?[ \t]*$", re.M)


class Wrong(Exception):
    """A list that cannot be applied."""


class Names:
    """A list of changed names."""

    def __init__(self, text):
        self.crates, self.parted, self.modules, self.names, self.functions = {}, {}, {}, [], {}
        for number, line in enumerate(text.split("\n"), 1):
            words = line.split("#")[0].split()
            if not words:
                continue
            places = {"name": (0, 2), "law": (0, 2), "fn": (1, 2)}.get(words[0], (0, 0))
            if words[0] not in KINDS or not places[0] <= len(words) - 3 <= places[1]:
                raise Wrong(f"line {number}: expected 'crate', 'proofs', 'module', 'name', 'law' or 'fn' and two names: {line.strip()}")
            kind, *where, old, new = words
            if kind == "crate":
                self.crates[old] = new
            elif kind == "proofs":
                self.parted[old] = new
            elif kind == "module":
                crate, _, name = old.partition("::")
                if not name or not new.startswith(crate + "::"):
                    raise Wrong(f"line {number}: expected CRATE::OLD CRATE::NEW with one crate: {line.strip()}")
                self.modules[crate, name] = new.removeprefix(crate + "::")
            elif kind == "fn":
                self.functions[where[0], old] = new
            else:
                self.names.append((kind, where, old, new, number))

    def path(self, path):
        """A file's path with the new names of crates and modules."""
        part = path.split("/")
        if part[0] != "crates" or len(part) < 3:
            return path
        part[1] = self.crates.get(part[1], part[1])
        if part[2] == "proofs":
            part[1] = self.parted.get(part[1], part[1])
        if len(part) > 3:
            folder, (stem, dot, ending) = part[2], part[3].partition(".")
            if (folder, ending) in (("src", "rt"), ("specs", "antt"), ("proofs", "antt"), ("proofs", "")):
                part[3] = self.modules.get((part[1], stem), stem) + dot + ending
            if folder == "proofs" and part[-1] in source.PROOF:
                part[-2] = self.functions.get((part[1], part[-2]), part[-2])
        return "/".join(part)

    def applied(self, files):
        """A repository's files, by path, with the new names; and what a person should look at."""
        moved = {self.path(path): self.with_folders(self.path(path), text) for path, text in files.items()}
        after, look = self.with_names(moved)
        return self.with_functions(after), look

    def in_documents(self, files):
        """The same of documents and tests alone, in a tree whose crates have the new names already."""
        news = {}
        for _, _, old, new, _ in self.names:
            news.setdefault(old, set()).add(new)
        for (_, old), new in self.functions.items():
            news.setdefault(old, set()).add(new)
        declared = {item.name for path, text in files.items() if path.endswith(".antt") for item in source.antt_items(text)}
        declared |= {f.name.split("::")[-1] for path, text in files.items() if path.endswith(".rt") for f in source.functions(text)}
        sure = {old: new for old, (new, *more) in news.items() if not more and old not in declared}
        done, look = {}, []
        for path, text in files.items():
            done[path] = text
            if is_document(path):
                text = self.with_folders(path, text, documents=True)
                done[path] = quoted(text, sure) if path.endswith(".md") else text
                look += [f"{path}: '{old}' may be the one that is now {' or '.join(sorted(new))}" for old, new in sorted(news.items())
                         if (old not in sure or not path.endswith(".md")) and is_quoted(text, old)]
        return done, look

    # crates and modules

    def with_folders(self, path, text, documents=False):
        """A file's text with the new names of crates and modules; `path` is its new path. With `documents` only where a folder or file is named."""
        own = path.split("/")[1] if path.startswith("crates/") else None
        for old, new in self.crates.items():
            text = re.sub(rf"(?<!{source.PART})Rattle\.{old}(?=\.)", f"Rattle.{new}", text)
            text = re.sub(rf"(?<=crates/){old}(?!{source.PART})", new, text)
            text = re.sub(rf"(?<=/lib){old}(?=\.a)", new, text)
            if path.endswith((".rt", ".edit")):
                text = re.sub(rf"(?<![\w:.]){old}(?=::)", new, text)
            if not documents:
                text = re.sub(rf"`{old}(?=`|::)", f"`{new}", text)
        if path == "crates.txt":
            text = "\n".join(line if line.startswith("#") else re.sub(r"\w+", lambda m: self.crates.get(m[0], m[0]), line)
                             for line in text.split("\n"))
        for crate, new in self.parted.items():
            text = text.replace(f"Rattle.{crate}.proofs.", f"Rattle.{new}.proofs.").replace(f"crates/{crate}/proofs", f"crates/{new}/proofs")
        for (crate, old), new in self.modules.items():
            text = re.sub(rf"(?<![\w:]){crate}::{old}(?!\w)", f"{crate}::{new}", text)
            text = re.sub(rf"(Rattle\.{crate}\.(?:specs|proofs)\.(?:(?:declared|contracts)\.)?){old}(?!{source.PART})", rf"\g<1>{new}", text)
            text = re.sub(rf"(crates/{crate}/(?:src|specs|proofs)/){old}(?=[./])", rf"\g<1>{new}", text)
            if own == crate:
                text = re.sub(rf"(\bcrate::|\bmod |\bsuper::){old}(?!{source.PART})", rf"\g<1>{new}", text)
                if path.endswith(".edit"):
                    text = re.sub(rf"(?m)^(file: (?:src|specs|proofs)/){old}(?=[./])", rf"\g<1>{new}", text)
        return text

    # functions

    def with_functions(self, files):
        """The files with the new names of functions."""
        declared = {(path.split("/")[1], f.name.split("::")[-1])
                    for path, text in files.items() if path.endswith(".rt") for f in source.functions(text)}
        missing = [f"no function {crate}::{old}" for crate, old in self.functions if (crate, old) not in declared]
        if missing:
            raise Wrong("\n".join(missing))
        done = dict(files)
        for (crate, old), new in self.functions.items():
            callers = {crate}
            modules = {path.split("/")[3].removesuffix(".rt") for path, text in files.items() if path.startswith(f"crates/{crate}/src/")
                       and any(f.name.split("::")[-1] == old for f in source.functions(text))}
            for path in files:
                part = path.split("/")
                if not path.startswith("crates/") or not path.endswith((".rt", ".edit")):
                    continue
                text = done[path]
                if part[1] == crate:
                    done[path] = called(text, rf"(?<![\w'-]){old}(?=\()", new)
                else:
                    for module in modules:
                        here = re.findall(rf"(?m)^use {crate}::{module}(?: as (\w+))?;", text)
                        for alias in here + ([f"{crate}::{module}"] if f"{crate}::{module}::" in text else []):
                            done[path] = called(done[path], rf"(?<![\w:]){alias or module}::{old}(?=\()", f"{alias or module}::{new}")
                    if done[path] != text:
                        callers.add(part[1])
            for path in files:
                if path.endswith(source.PROOF) and path.split("/")[1] in callers:
                    done[path] = proof_names(done[path], old, new)
                for pattern in (rf"(Rattle\.{crate}\.proofs\.(?:\w+\.)*){old}(?=\.(?:Statement|Tie|Reads|Lts|Given|Goals|Invariants|Answers)\b)",
                                rf"(`{crate}::(?:\w+::)+){old}(?=`)", rf"(crates/{crate}/proofs/(?:\w+/)*){old}(?=/)"):
                    done[path] = re.sub(pattern, rf"\g<1>{new}", done[path])
        return done

    # definitions and laws

    def sites(self, files):
        """Where the definitions and laws that change are declared: (crate, part, module) to their old and new names."""
        found = {}
        seen = set()
        for path, text in files.items():
            part = path.split("/")
            if part[0] != "crates" or not path.endswith(".antt") or part[2] not in ("specs", "proofs"):
                continue
            place = part[1], part[2], ".".join(part[3:]).removesuffix(".antt")
            declared = {item.name for item in source.antt_items(text)}
            for kind, where, old, new, number in self.names:
                if part[2] == ("specs" if kind == "name" else "proofs") and old in declared and list(where) == [place[0], place[2]][:len(where)]:
                    if found.setdefault(place, {}).setdefault(old, new) != new:
                        raise Wrong(f"line {number}: {old} of {path} has two new names")
                    seen.add(number)
        missing = [f"line {number}: no {'definition' if kind == 'name' else 'law'} {' '.join([*where, old])}"
                   for kind, where, old, new, number in self.names if number not in seen]
        if missing:
            raise Wrong("\n".join(missing))
        # a file that imports one publicly has it too
        while True:
            more = [(place, old, new) for path, text in files.items() if path.endswith(".antt") for place in [self.place(path)] if place
                    for use in uses(text) if use.public for old, new in found.get(use.module, {}).items()
                    if old in use.names and old not in found.get(place, {})]
            if not more:
                return found
            for place, old, new in more:
                found.setdefault(place, {})[old] = new

    def place(self, path):
        """The module that an .antt file is: crate, part, name."""
        part = path.split("/")
        if part[0] == "crates" and len(part) > 3 and part[2] in ("specs", "proofs"):
            return part[1], part[2], ".".join(part[3:]).removesuffix(".antt")
        return None

    def with_names(self, files):
        """The files with the new names of definitions and laws, and what to look at."""
        look = []
        if not self.names:
            return files, look
        sites = self.sites(files)
        everywhere = {}
        for place, names in sites.items():
            for old, new in names.items():
                everywhere.setdefault(old, set()).add(new)
        single = {old: new for old, (new, *more) in everywhere.items() if not more}
        # such a name also stands where it is not changed: between backticks it may mean either
        kept = {item.name for path, text in files.items() if path.endswith(".antt") and self.place(path)
                for item in source.antt_items(text) if item.name in single and item.name not in sites.get(self.place(path), {})}
        in_words = {old: new for old, new in single.items() if old not in kept}
        done = {}
        for path, text in files.items():
            if path.endswith((".antt", ".rt")) and path.startswith("crates/"):
                done[path] = self.renamed(path, text, sites, in_words, look)
            elif path.endswith(".edit"):
                done[path] = self.edited(path, text, files, sites, in_words)
            else:
                done[path] = quoted(text, in_words) if path.endswith(".md") else text
                look += [f"{path}: '{old}' may be the one that is now {single[old]}" for old in (kept if path.endswith(".md") else single)
                         if is_document(path) and is_quoted(text, old)]
        return done, look

    def scope(self, path, text, sites):
        """What the names of a file mean: those that it may use alone, and those behind a module's name."""
        alone = dict(sites.get(self.place(path), {})) if path.endswith(".antt") else {}
        behind = {}
        for use in uses(text):
            names = sites.get(use.module, {})
            alone.update({old: new for old, new in names.items() if use.names.get(old, old) == old and old in use.names})
            if use.alias:
                behind.setdefault(use.alias, {}).update(names)
        return alone, behind

    def renamed(self, path, text, sites, in_words, look):
        """An .antt or .rt file with the new names."""
        alone, behind = self.scope(path, text, sites)
        for old, new in alone.items():
            if new not in alone and re.search(rf"(?<!\.){source.whole(new)}", code_of(path, text)):
                look.append(f"{path}: has {new} already, and now for {old} too")
        imports = [(m.start(3), m.end(3), resolve(m[2])) for m in USE.finditer(text) if m[3] is not None]
        left = set()
        done = self.replaced(path, text, lambda at: imported(imports, at, sites), alone, behind, in_words, sites, left=left)
        look += [f"{path}: {name} is also bound there, and left where it is" for name in sorted(left)]
        return done

    def replaced(self, path, text, at_import, alone, behind, in_words, sites, logic=None, left=None):
        """Text with the new names, where `at_import` says what an import list at a place is of; `left` gets those that are bound somewhere."""
        left = left if left is not None else set()
        spans = comments(text) if path.endswith(".antt") else rt_comments(text)
        logic = logic if logic is not None else (None if path.endswith(".antt") else rt_logic(text))

        def put(found):
            if found[1] and at_import(found.start()) is None and found[1][:-1] not in behind and not resolve(found[1][:-1]):
                # no module: a name, and fields of what it means
                name, dot, rest = found[0].partition(".")
                return one(found.start(), name, None, name) + dot + rest
            return one(found.start(2), found[2], found[1], found[0])

        def one(at, name, module, whole):
            names = at_import(at)
            if names is not None:
                return (module or "") + names.get(name, name)
            comment = next((s for s in spans if s[0] <= at < s[1]), None)
            if comment:
                ticks = text.count("`", comment[0], at)
                return (module or "") + (in_words.get(name, name) if ticks % 2 and not module else name)
            if logic is not None and not any(s <= at < e for s, e in logic):
                return whole
            if module:
                known = behind.get(module[:-1], sites.get(resolve(module[:-1]), {}))
                return module + known.get(name, name)
            if name not in alone or is_field(text, at, name, own):
                return whole
            if any(start <= at < end and name in names for start, end, names in bound):
                left.add(name)
                return whole
            return alone[name]
        own = sites.get(self.place(path), {})
        bound = bound_antt(text) if path.endswith(".antt") else bound_rt(text)
        return re.sub(rf"(?<!{source.PART})((?:{source.NAME}\.)+)?({source.NAME})(?!{source.PART})", put, text)

    def edited(self, path, text, files, sites, in_words):
        """A must-fail edit with the new names: each piece as the file that it is of would have it."""
        folder = path.split("/must-fail/")[0]
        done, target = [], None
        for line in text.split("\n"):
            word, colon, piece = line.partition(": ")
            if word == "file":
                target = f"{folder}/{piece.strip()}"
            elif word in ("old", "new") and colon and target in files:
                whole_text = files[target]
                alone, behind = self.scope(target, whole_text, sites)
                logic = None
                if target.endswith(".rt"):
                    logic = rt_logic(piece)
                    at = whole_text.find(piece)
                    if at >= 0 and any(s <= at and at + len(piece) <= e for s, e in rt_logic(whole_text)):
                        logic = [(0, len(piece))]
                imports = [(m.start(3), m.end(3), resolve(m[2])) for m in USE.finditer(piece) if m[3] is not None]
                piece = self.replaced(target, piece, lambda at: imported(imports, at, sites), alone, behind, in_words, sites, logic)
                line = word + colon + piece
            done.append(line)
        return "\n".join(done)


def is_document(path):
    """A document or a test; a test's backticks and quotes may be of names in its own language, and are left to a person."""
    return path.endswith(".md") or path.startswith("tests/") and not path.startswith("tests/data/")


# functions


def called(text, pattern, new):
    """Code with another name of a function: not in contracts, and not in comments but between backticks."""
    spans = rt_logic(text) + rt_comments(text)
    return re.sub(pattern, lambda m: m[0] if any(start <= m.start() < end for start, end in spans) else new, text)


def proof_names(text, old, new):
    """A function's proof with another name of a function that it calls, or its own: `c.old.ensures`, `c.old-x.result`, `old-requires`, `goal.sub-old`."""
    kept = {name for use in uses(text) for name in use.names.values()}
    needed = re.compile(rf"((?:Need-)?(?:(?:add|sub|mul|div|rem)-)?){re.escape(old)}(\d*(?:-(?:requires|arg|spec)[\w-]*)?)")

    def put(found):
        name = needed.fullmatch(found[0])
        return name[1] + new + name[2] if name and found[0] not in kept else found[0]
    text = re.sub(rf"(?<={source.PART}\.){re.escape(old)}(?=\d*(?:-[\w-]+)?\.(?:ensures|result|new)\b)", new, text)
    return re.sub(rf"(?<!{source.PART})(?:(?<!\.)|(?<=\btie\.)|(?<=\bgoal\.)){source.NAME}", put, text)


# imports


class Use:
    """An import: the module, the names that it brings by what they are called here, and what the module is called here."""

    def __init__(self, found):
        self.public = bool(found[1]) and found[1].strip() == "pub"
        self.module = resolve(found[2])
        self.names = {}
        for piece in (found[3] or "").split(","):
            words = piece.split()
            if words:
                self.names[words[0]] = words[-1]
        self.alias = found[4] or (found[2].split(".")[-1] if found[3] is None else None)


def uses(text):
    return [Use(found) for found in USE.finditer(text)]


def resolve(path):
    """The module that a path names: crate, part, name; or None."""
    found = MODULE.fullmatch(path)
    return found.groups() if found else None


def imported(imports, at, sites):
    """What changes in the import list that a place is in; None where it is in none."""
    for start, end, module in imports:
        if start <= at < end:
            return sites.get(module, {})
    return None


# places in a text


def comments(text):
    """Where the comments of an .antt file are."""
    bare = source.bare_antt(text).split("\n")
    spans, at = [], 0
    for line, kept in zip(text.split("\n"), bare):
        if line != kept:
            spans.append((at + len(kept), at + len(line)))
        at += len(line) + 1
    return spans


def rt_comments(text):
    return [m.span() for m in re.finditer(r"//[^\n]*", text)]


def rt_logic(text):
    """Where the contracts of an .rt file are: what stands in clauses, and in `ghost use`."""
    return source.clauses(text) + [m.span() for m in re.finditer(r"(?:^|(?<=\n))[ \t]*ghost use[^;]*;", text)]


def bound_antt(text):
    """Where names are bound in an .antt file: start, end and names of each declaration and clause, those of the modules around it too."""
    pieces, depths, at = [], [0], 0   # a piece: where it starts, how far in, its text
    for whole, line in zip(text.split("\n"), source.bare_antt(text).split("\n")):
        depth = len(line) - len(line.lstrip())
        starts = bool(line.strip()) and line.lstrip()[0] not in ")]}"
        while starts and depth < depths[-1]:
            depths.pop()
        if starts and depth == depths[-1]:
            pieces.append((at, depth, line.lstrip()))
            if line.lstrip().startswith("module "):
                depths.append(depth + 2)
        elif pieces:
            pieces[-1] = pieces[-1][:2] + (pieces[-1][2] + "\n" + line,)
        at += len(whole) + 1
    found, modules = [], []
    for (start, depth, piece), end in zip(pieces, [start for start, _, _ in pieces[1:]] + [len(text)]):
        while modules and depth < modules[-1][0]:
            modules.pop()
        names = binders(piece).union(*(names for _, names in modules))
        found.append((start, end, names))
        if piece.startswith("module "):
            modules.append((depth + 2, names))
    return found


def binders(piece):
    """The names that a declaration or clause binds."""
    names = set()
    for group in re.findall(r"[({]([^(){}:=]+) :", piece):
        names.update(group.split())
    for group in re.findall(r"λ ([^.]*)\.", piece):
        names.update(re.findall(source.NAME, re.sub(r":[^()]*(?:\([^()]*\)[^()]*)*\)", ")", group)))
    names.update(re.findall(rf"\blet ({source.NAME}) [:=]", piece))
    names.update(re.findall(rf"(?m)^\s+({source.NAME}) : ", piece.partition("\n")[2]))
    left = re.match(rf"{source.NAME} ([^=\n]*) =(?=\s)", piece)
    if left and " : " not in left[1]:
        names.update(re.findall(source.NAME, left[1]))
    return names


def bound_rt(text):
    """The same of the functions of an .rt file: their parameters."""
    return [(f.start, f.end, set(re.findall(r"(\w+)\s*:", f.parameters))) for f in source.functions(text)]


def code_of(path, text):
    """The part of a file in which names of definitions stand."""
    if path.endswith(".antt"):
        return source.bare_antt(text)
    return " ".join(text[start:end] for start, end in rt_logic(text))


def is_field(text, at, name, own):
    """A field that is read (`l.name`), set (`{ name = ..; }`) or declared (`pub name : ..` further in, and none of the file's `own` names)."""
    before = text[max(0, at - 200):at]
    if before.endswith("."):
        return True
    after = text[at + len(name):at + len(name) + 3]
    if re.search(r"[{;]\s*(--[^\n]*\n\s*)*$", before) and re.match(r"\s=\s", after):
        return True
    return name not in own and bool(re.search(r"\n[ \t]+pub $", before)) and after.startswith(" :")


QUOTED = re.compile(r"^```.*?^```|`[^`\n]*`", re.M | re.S)


def is_quoted(text, name):
    """A name stands between backticks, or is a text by itself."""
    return f'"{name}"' in text or any(re.search(source.whole(name), piece) for piece in QUOTED.findall(text))


def quoted(text, names):
    """Text with the new names between backticks: in a line, or between fences, where comments and fields are left alone."""
    def put(found):
        piece = found[0]
        spans = comments(piece) + rt_comments(piece) if piece.startswith("```") else []

        def one(name):
            said = any(start <= name.start() < end for start, end in spans)
            return name[0] if said or is_field(piece, name.start(), name[0], ()) else names.get(name[0], name[0])
        return re.sub(rf"(?<!{source.PART}){source.NAME}(?!{source.PART})", one, piece)
    return QUOTED.sub(put, text)
