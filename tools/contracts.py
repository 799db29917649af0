"""Reads the public calls of every crate, with their contracts, from the sources.

A module for the scripts beside it. It reads the layout that `rt fmt` gives and no more of the language: a call begins at
`fn`, its clauses stand in lines of their own that begin with `requires` or `ensures`, and its body begins at the next line that is
`{` or `{}`, or at the end of a line that ends with ` {`.
"""

import os
import re

HOME = os.path.dirname(os.path.dirname(os.path.abspath(__file__)))

FN = re.compile(r"^( *)(pub(?:\([a-z]+\))? )?(?:const )?fn (\w+)")
CLAUSE = re.compile(r"^ *(requires|ensures)\*? *(\w+)? *\{(.*)$")
USE = re.compile(r"^pub use ([\w:]+?)::(\{[^}]*\}|\w+);", re.M | re.S)


class Call:
    """One call: where it stands, how it looks and what its contract says."""

    def __init__(self, crate, file, line, owner, trait, name, public):
        self.crate, self.file, self.line = crate, file, line
        self.owner, self.trait, self.name, self.public = owner, trait, name, public
        # body is `{}` where it is empty, `;` where there is none, and else `{`; code is its text
        self.signature, self.body, self.doc, self.code = "", "", "", ""
        self.requires, self.ensures = [], []

    @property
    def title(self):
        return self.owner + "::" + self.name if self.owner else self.name

    @property
    def is_law(self):
        """A function that takes nothing and answers nothing: its contract is a law about definitions."""
        return not self.owner and re.search(r"\(\)$", self.signature) is not None

    def clauses(self):
        return [name for name, text in self.ensures]


def crates(home=HOME):
    """The names of the crates, lowest first, with the crates that each stands on."""
    found = []
    with open(os.path.join(home, "crates.txt"), encoding="utf-8") as lines:
        for line in lines:
            line = line.split("#")[0].strip()
            if line:
                name, _, below = line.partition(":")
                found.append((name.split()[0], below.split()))
    return found


def exports(root):
    """The names that a root file exports: those of its own modules, those of other crates, and whole modules."""
    with open(root, encoding="utf-8") as f:
        text = f.read()
    whole = set(re.findall(r"^pub mod (\w+);", text, re.M))
    modules = set(re.findall(r"^mod (\w+);", text, re.M)) | {"self", "crate"}
    own, others = {}, {}
    for path, names in USE.findall(text):
        listed = [it.strip() for it in names.strip("{}").replace("\n", " ").split(",") if it.strip()]
        for name in listed:
            name = name.split(" as ")[-1].strip()
            (own if path.split("::")[0] in modules else others)[name] = path
    return own, others, whole


def sources(folder):
    """The files of a crate's code, tests left out."""
    for at, folders, names in os.walk(os.path.join(folder, "src")):
        folders[:] = sorted(it for it in folders if it != "tests")
        for name in sorted(names):
            if name.endswith(".rt") and name != "tests.rt":
                yield os.path.join(at, name)


def owner_of(line):
    """Of a line that begins an impl or a trait: the type or trait, and the trait that is implemented."""
    head = re.sub(r"^(pub )?(impl|trait)\b", "", line).strip()
    if head.startswith("<"):
        depth = 0
        for at, letter in enumerate(head):
            depth += {"<": 1, ">": -1}.get(letter, 0)
            if not depth:
                head = head[at + 1:].strip()
                break
    names = re.split(r" for ", head, maxsplit=1)
    plain = lambda it: re.match(r"&?(\w+(?:::\w+)*)", it.strip()).group(1).split("::")[-1]
    if len(names) == 2:
        return plain(names[1]), plain(names[0])
    return plain(head), None


def clause_end(lines, at, text):
    """A clause's text from its opening brace on, which may go over several lines, and the line behind it."""
    depth = 1 + text.count("{") - text.count("}")
    parts = [text]
    while depth > 0 and at < len(lines):
        parts.append(lines[at].strip())
        depth += lines[at].count("{") - lines[at].count("}")
        at += 1
    return re.sub(r"\};?$", "", " ".join(parts).strip()).strip(), at


def calls_of_file(crate, path, home=HOME):
    with open(path, encoding="utf-8") as f:
        lines = f.read().split("\n")
    file = os.path.relpath(path, home)
    owner, trait, kind, doc, at = None, None, None, [], 0
    while at < len(lines):
        line = lines[at]
        if re.match(r"^(pub )?(impl|trait)\b", line) and not line.rstrip().endswith("}"):
            head = line
            while not head.rstrip().endswith("{") and at + 1 < len(lines):
                at += 1
                head += " " + lines[at].strip()
            owner, trait = owner_of(head)
            kind = "trait" if re.match(r"^(pub )?trait\b", head) else "impl"
        elif line == "}":
            owner, trait, kind = None, None, None
        found = FN.match(line)
        if not found or len(found.group(1)) not in (0, 4):
            stripped = line.strip()
            if stripped.startswith("///"):
                doc.append(stripped[3:].strip())
            elif not stripped.startswith("#["):
                doc = []
            at += 1
            continue
        indent = found.group(1)
        call = Call(crate, file, at + 1, owner if indent else None, trait, found.group(3),
                    (found.group(2) or "").strip() == "pub" or (kind == "trait" or trait is not None) and bool(indent))
        call.doc, doc = " ".join(doc), []
        signature, body = [], None
        while at < len(lines):
            line = lines[at]
            clause = CLAUSE.match(line)
            if clause:
                text, at = clause_end(lines, at + 1, clause.group(3))
                (call.requires if clause.group(1) == "requires" else call.ensures).append((clause.group(2) or "", text))
                if lines[at - 1].endswith("};"):
                    body = ";"
                    break
                continue
            plain = line.strip()
            if line == indent + "{}" or line == indent + "{":
                body, at = plain, at + 1
                break
            at += 1
            if plain.startswith("//") or not plain:
                continue
            if plain.endswith("{}"):
                signature.append(plain[:-2].strip())
                body = "{}"
                break
            if plain.endswith("{") and not call.ensures and not call.requires:
                signature.append(plain[:-1].strip())
                body = "{"
                break
            if not call.ensures and not call.requires:
                signature.append(plain.rstrip(";"))
            if plain.endswith(";") and body is None:
                body = ";"
                break
        call.signature = re.sub(r",\s*\)", ")", re.sub(r"\(\s+", "(", " ".join(signature)))
        call.body = body or ";"
        if body == "{":
            begin = at
            while at < len(lines) and lines[at] != indent + "}":
                at += 1
            call.code = "\n".join(lines[begin:at])
            at += 1
        yield call


def calls(home=HOME):
    """Every call of every crate, public or not."""
    for crate, _ in crates(home):
        folder = os.path.join(home, "crates", crate)
        for path in sources(folder):
            yield from calls_of_file(crate, path, home)


def public_calls(home=HOME):
    """What another crate can call: exported functions and laws, and the methods of exported types and traits. Of the program's own
    crate, which exports nothing, the methods of its public types."""
    roots = {}
    for crate, _ in crates(home):
        root = os.path.join(home, "crates", crate, "src", "lib.rt")
        roots[crate] = exports(root) if os.path.exists(root) else None
    for call in calls(home):
        root = roots[call.crate]
        if not call.public:
            continue
        if root is None:
            if call.owner:
                yield call
            continue
        module = os.path.splitext(os.path.basename(call.file))[0]
        if (call.owner or call.name) in root[0] or module in root[2]:
            yield call


# ---- definitions

HEAD = re.compile(r"^(?:(?:abbrev|unfoldable|irreducible|opaque|reducible|instance) )*(pub )?(?:(?:data|record|codata|class) )?([^\s(:{.,;=]+)")
IMPORT = re.compile(r"^(?:ghost )?use Rattle\.([\w.]+?)(?:\.\{([^}]*)\}| as [^;\s]+);?\s*$")
WORD = re.compile(r"[^\s(){}\[\],;.λ→×]+")


def imports(text):
    """Which names a file takes from a crate's specs: each name to its crate and the file of its definition."""
    found = {}
    for line in text.split("\n"):
        match = IMPORT.match(line.strip())
        if not match or ".specs." not in match.group(1):
            continue
        crate, _, inner = match.group(1).partition(".specs.")
        file = "crates/%s/specs/%s.antt" % (crate, inner.replace(".", "/"))
        for name in (match.group(2) or "").split(","):
            parts = name.strip().split(" as ")
            if parts[0]:
                found[parts[-1]] = (file, parts[0])
    return found


class Definitions:
    """The definitions of all specs: which file each stands in, and which others its own text names."""

    def __init__(self, home=HOME):
        self.home, self.names, self.cites = home, {}, {}
        for crate, _ in crates(home):
            for at, folders, names in os.walk(os.path.join(home, "crates", crate, "specs")):
                folders.sort()
                for name in sorted(names):
                    if name.endswith(".antt"):
                        self.read(os.path.relpath(os.path.join(at, name), home))

    def read(self, file):
        with open(os.path.join(self.home, file), encoding="utf-8") as f:
            text = f.read()
        taken, blocks, now = imports(text), {}, None
        for line in text.split("\n"):
            # what a file hands on of another one
            if line.startswith("pub use "):
                for name, there in imports(line[4:]).items():
                    self.cites[(file, name)] = {there}
        for line in text.split("\n"):
            mutual = line.startswith("  pub data ")
            if mutual or line[:1] not in ("", " ", "-") and not line.startswith("use ") and not line.startswith("ghost "):
                head = HEAD.match(line.strip())
                if head and (head.group(1) or now is None or head.group(2) != now):
                    if head.group(1):
                        now = head.group(2)
                        self.names.setdefault(now, []).append(file)
                    elif head.group(2) in blocks:
                        now = head.group(2)
            if now:
                blocks.setdefault(now, set()).update(WORD.findall(line.split("--")[0]))
        for name, words in blocks.items():
            to = {taken[word] for word in words if word in taken} | {(file, word) for word in words if word in blocks and word != name}
            self.cites[(file, name)] = to

    def stands_in(self, name, file):
        return file in self.names.get(name, [])

    def reached(self, starts):
        """All definitions that these, and what they name, are made of; each as its file and its name."""
        seen, todo = set(starts), list(starts)
        while todo:
            for one in self.cites.get(todo.pop(), ()):
                if one not in seen:
                    seen.add(one)
                    todo.append(one)
        return seen

    def cited_by(self, call):
        """The definitions that a call's clauses and conditions name."""
        with open(os.path.join(self.home, call.file), encoding="utf-8") as f:
            taken = imports(f.read())
        text = " ".join(text for _, text in call.ensures + call.requires)
        return {taken[word] for word in WORD.findall(text) if word in taken}


# ---- what the program is made of

def below(name, home=HOME):
    """The crates that this one stands on, itself among them."""
    stands, found, todo = dict(crates(home)), set(), [name]
    while todo:
        one = todo.pop()
        if one in stands and one not in found:
            found.add(one)
            todo.extend(stands[one])
    return found


STD_TRAITS = {"PartialEq", "Eq", "PartialOrd", "Ord", "Hash", "From", "Drop", "Display", "BuildHasher"}


def made_calls(home=HOME):
    """The calls that the program makes, as far as names tell: from `main` on, whatever is named in the code of one that is made. A
    type that no other file names isn't used, and what is called by an operator or by std counts where its type is used."""
    inside = below("diag_cli", home)
    named, texts = {}, {}
    for call in calls(home):
        if call.crate in inside:
            named.setdefault(call.name, []).append(call)
            texts.setdefault(call.file, None)
    for file in texts:
        with open(os.path.join(home, file), encoding="utf-8") as f:
            texts[file] = set(re.findall(r"\w+", f.read()))

    def used(owner, file):
        return any(owner in words for other, words in texts.items() if other != file)

    seen, todo = set(), ["main"]
    while todo:
        name = todo.pop()
        if name in seen:
            continue
        seen.add(name)
        for call in named.get(name, []):
            if call.owner and not used(call.owner, call.file):
                continue
            # a call, also of a path, and a function that is handed over by its name
            words = set(re.findall(r"\b(\w+)(?:::<[^()]*>)?\(", call.code)) | set(re.findall(r"::(\w+)\b", call.code))
            todo.extend(word for word in words if word in named)
    made = set()
    for name, found in named.items():
        for call in found:
            if (name in seen or call.trait in STD_TRAITS) and (not call.owner or used(call.owner, call.file)):
                made.add((call.file, call.title))
    return made


def place_of(call, made, inside, reached, definitions):
    """What a call is to the program: `made`, `law` where it has no code and speaks of what the top call's contract is made of, or `no`."""
    if call.is_law:
        own = definitions.reached(definitions.cited_by(call))
        return "law" if call.crate in inside and own & reached else "no"
    return "made" if (call.file, call.title) in made else "no"
