"""What the tools and tests read off .rt and .antt files: functions with their contracts, types, definitions, laws, imports.

It goes by the layout that `rt fmt` gives, and not by a grammar.
"""
import re
import typing

# A whole identifier: antt's have letters, digits, _, -, ' and ?. A dot before one is of a field or of a module.
PART = r"[\w'?-]"
NAME = rf"(?!\d){PART}+"


class Item(typing.NamedTuple):
    """A thing that a file declares."""
    name: str        # of a method or a constant: Type::name
    statement: str   # what it says: a contract, a law's type, a definition whole
    body: str        # code or proof; '' where the statement is the whole


def whole(name):
    """A pattern for a name that is no part of a longer one."""
    return rf"(?<!{PART}){re.escape(name)}(?!{PART})"


def spaced(text):
    """Text with each run of spaces and line ends as one space."""
    return " ".join(text.split())


# .antt


def bare_antt(text):
    """Text without comments; the lines stay."""
    return re.sub(r"(?m)^([^\"\n]*?(?:\"[^\"\n]*\"[^\"\n]*?)*?)(?:(?<=\s)|^)--(?=\s|$).*$", r"\1", text)


DECLARES = re.compile(rf"((?:(?:abbrev|unfoldable|opaque|pub|record|data|ruleset) )*)({NAME})(.*)", re.S)
WHOLES = {"abbrev", "unfoldable", "record", "data", "ruleset"}


def antt_items(text, laws=False):
    """The items of an .antt file. With `laws` the statement of one that is neither definition nor type is its type alone.

    What stands in a `module _ (..) where` has the parameters of that module as a part of its statement.
    """
    found = []
    modules = []     # the modules around a line: where their items are set in, and their parameters
    words, name, head, rest = set(), None, [], []

    def end():
        nonlocal name
        if name is not None:
            around = [parameters for _, parameters in modules]
            apart = laws and not words & WHOLES
            found.append(Item(name, spaced(" ".join([*around, *head, *([] if apart else rest)])), spaced(" ".join(rest)) if apart else ""))
        name = None

    lines = bare_antt(text).split("\n")
    at = 0
    while at < len(lines):
        line = lines[at].rstrip()
        at += 1
        if not line.strip():
            continue
        depth = len(line) - len(line.lstrip())
        if modules and depth < modules[-1][0] and line.lstrip()[0] not in ")]}":
            end()
            while modules and depth < modules[-1][0]:
                modules.pop()
        base = modules[-1][0] if modules else 0
        line = line.lstrip()
        if depth == base and re.match(r"(pub )?module ", line):
            end()
            while not line.endswith("where"):
                line += " " + lines[at].strip()
                at += 1
            modules.append((base + 2, line))
            continue
        if depth == base and re.match(r"(pub )?(use|mod) ", line):
            end()
            while line.count("{") > line.count("}"):
                line += lines[at]
                at += 1
            continue
        declared = DECLARES.fullmatch(line) if depth == base else None
        if declared and (declared[1] or re.match(r"\s*:(\s|$)", declared[3])) and not line.startswith("unfolding "):
            end()
            words, name = set(declared[1].split()), declared[2]
            head, rest = [line], []
        elif name is not None:
            (rest if rest or depth == base else head).append(line)
    end()
    return found


# .rt


# A comment, or a literal of bytes, text or a character, in which // is no comment and a brace closes nothing. An antt name may end in ', and a
# lifetime begins with one.
APART = re.compile(r"//[^\n]*|(?<!\w)b?\"(?:[^\"\\]|\\.)*\"|(?<![\w'])b?'(?:[^'\\\n]|\\.[^'\n]*)'")


def uncommented_rt(text):
    """Text with blanks in place of comments; the places stay."""
    return APART.sub(lambda found: " " * len(found[0]) if found[0].startswith("//") else found[0], text)


def bare_rt(text):
    """Text without comments, and with a blank in place of each character of a literal; the places stay."""
    def blank(found):
        head = 2 if found[0].startswith("b") else 1
        return found[0][:head] + re.sub(r"[^\n]", "_", found[0][head:-1]) + found[0][-1]
    return APART.sub(blank, uncommented_rt(text))


def past(text, at, left, right):
    """The place just after the `right` that closes the first `left` from `at` on."""
    at = text.index(left, at)
    level = 0
    while True:
        level += (text[at] == left) - (text[at] == right)
        at += 1
        if level == 0:
            return at


class Function(typing.NamedTuple):
    """A function of an .rt file."""
    public: bool       # pub, or pub in a part of the program
    name: str          # of a method: Type::name
    parameters: str
    result: str        # '' where there is none
    requires: list
    ensures: list
    promise: str       # from its first word to its body
    body: str
    start: int
    end: int


FUNCTION = re.compile(r"(\bpub(?:\([^)]*\))?\s+)?(?:const\s+)?(?:unsafe\s+)?(extern\s+\"[^\"]*\"\s+)?\bfn\s+(\w+)")
# The head of an impl: of a type, or of a trait for one. Its own parameters, and the type's, may have parameters in turn.
ANGLES = r"<(?:[^<>]|->|<(?:[^<>]|->|<(?:[^<>]|->)*>)*>)*>"
IMPL = re.compile(rf"\bimpl(?:\s*{ANGLES})?\s+(?:[\w:]+(?:\s*{ANGLES})?\s+for\s+)?&?(\w+)(?:\s*{ANGLES})?\s*(?:where\b[^{{]*)?\{{")
# The files of a function's proof, in its folder below proofs/.
PROOF = ("Invariants.antt", "Answers.antt", "Proof.antt")
# What stands in front of a clause's brace: the kind, with * where it speaks of memory, and a name, where there are several; or a ghost parameter.
CLAUSE = re.compile(r"\b(requires|ensures)\*?(?:\s+\w+)?\s*$")
GHOST = re.compile(r"\bghost\s+\w+\s*:\s*$")


def functions(text):
    """The functions of an .rt file, in order. Literals are blank in parameters and clauses, and as they are written in promise and body."""
    written = uncommented_rt(text)
    text = bare_rt(text)
    holders = [(m.start(), past(text, m.end() - 1, "{", "}"), m[1]) for m in IMPL.finditer(text)]
    found = []
    for start in FUNCTION.finditer(text):
        if found and start.start() < found[-1].end:
            continue
        own = re.compile(rf"\s*{ANGLES}").match(text, start.end())
        open_ = text.index("(", own.end() if own else start.end())
        at = past(text, open_, "(", ")")
        parameters = text[open_ + 1:at - 1]
        clauses = {"requires": [], "ensures": []}
        result = None
        while True:
            brace = text.index("{", at)
            before = text[at:brace]
            clause = CLAUSE.search(before) or GHOST.search(before)
            if result is None:
                result = spaced(re.split(r"\bwhere\b", before[:clause.start() if clause else None])[0]).removeprefix("->").strip()
            if not clause:
                break
            at = past(text, brace, "{", "}")
            if clause.re is CLAUSE:
                clauses[clause[1]].append(text[brace:at])
        end = past(text, brace, "{", "}")
        holder = [name + "::" for first, last, name in holders if first < start.start() < last]
        found.append(Function(bool(start[1]), "".join(holder) + start[3], parameters, result, clauses["requires"], clauses["ensures"],
                              written[start.start():brace], written[brace:end], start.start(), end))
    return found


def clauses(text):
    """Where the clauses of an .rt file, or of a piece of one, are: start and end of each, between its braces. One that is cut off goes to the end."""
    bare = bare_rt(text)
    found = []
    for start in re.finditer(r"\b(?:(?:requires|ensures)\*?(?:\s+\w+)?|ghost\s+(?:invariant\s*)?\w*\s*(?::|=|(?<=invariant)))\s*\{", bare):
        try:
            found.append((start.end(), past(bare, start.end() - 1, "{", "}") - 1))
        except IndexError:
            found.append((start.end(), len(bare)))
    return found


def rt_items(text):
    """The types and constants of an .rt file."""
    written, bare = uncommented_rt(text), bare_rt(text)
    holders = [(m.start(), past(bare, m.end() - 1, "{", "}"), m[1]) for m in IMPL.finditer(bare)]
    inside = [(f.start, f.end) for f in functions(text)]
    found = []
    for m in re.finditer(r"(?:\bpub(?:\([^)]*\))?\s+)?\b(struct|enum|const)\s+(\w+)", bare):
        if any(first <= m.start() < last for first, last in inside):
            continue
        ends = [n for n in (bare.find("{", m.end()), bare.find(";", m.end())) if n >= 0]
        end = min(ends) + 1
        if bare[end - 1] == "{" and m[1] != "const":
            end = past(bare, end - 1, "{", "}")
        else:
            end = bare.index(";", m.end())
            # a const's array type has a ; of its own
            while bare[m.end():end].count("[") > bare[m.end():end].count("]"):
                end = bare.index(";", end + 1)
        holder = [name + "::" for first, last, name in holders if first < m.start() < last]
        found.append(Item("".join(holder) + m[2], spaced(written[m.start():end]), ""))
    return found
