"""contracts: reads the public functions of the library crates, and the equations that their contracts are.

For .ci/statements. It reads text that `rt fmt` has laid out, and what it can't read, it refuses (Unread)."""
import re

# the operators that a contract may bring in (a name with ◌ is one), and names that have to be the library's
PRELUDE = "Rattle.std.specs.Prelude"
LIBRARY = {"length", "min"} | {f"◌{o}◌" for o in "≡+-*/%^≤<"}
# what a clause has without bringing it: the result, and what a reference lends, now, before and after
SPOKEN = ("result", "now", "old", "new")
NAME = r"[\w'⁺]+"
WORD = rf"{NAME}(?:\.{NAME})*"


class Unread(Exception):
    """Something in a source that this reading can't tell."""


class Function:
    def __init__(self, name, head, requires, ensures, uses, named):
        self.name = name  # crate::module::name
        self.named = named  # the types that the source names: name -> the crate that declares it
        self.requires = requires
        self.ensures = ensures  # the text of each clause, without its name
        self.uses = uses  # what `ghost use` brings: name -> (module, name there)
        parameters, self.answers, self.bounds = head  # .. what it answers, or nothing, and its parameters of type, if any
        self.types = re.findall(r"(\w+): ", self.bounds or "")
        parameters = re.sub(r"&\s+", "&", parameters)
        if re.search(r"(?<!: )&(?!self\b|mut self\b)", parameters):
            raise Unread(f"{name} has a loan inside a parameter's type")
        self.parameters = re.findall(r"(\w+): ", parameters) + ["self"] * bool(re.match(r"(mut )?self\b", parameters))
        self.references = re.findall(r"(\w+): &", parameters)
        self.lent = re.findall(r"(\w+): &(?:'\w+\s+)?mut\b", parameters)  # those lent to be written


# ---- text


def without_comments(text):
    """The text without its lines of comment. A // behind code may be a part of a clause."""
    if "/*" in text or re.search(r"^.*\S.*//", re.sub(r"^\s*//.*$", "", text, flags=re.M), re.M):
        raise Unread("a comment that is no line of its own")
    return re.sub(r"^[ \t]*//.*$", "", text, flags=re.M)


def closing(text, start):
    """The place behind the bracket that closes the one at start."""
    opened, closed, depth = text[start], {"(": ")", "{": "}"}[text[start]], 0
    for place in range(start, len(text)):
        depth += {opened: 1, closed: -1}.get(text[place], 0)
        if depth == 0:
            return place + 1
    raise Unread("a bracket that is not closed")


def brought(text):
    """What the `ghost use` items of a source bring, or the `use` lines of a file of antt. A module's key ends in a dot."""
    names = {}
    for item in re.findall(r"^(?:pub )?(?:ghost )?use ([^;{\n]+(?:\{[^}]*\})?)", text, re.M):
        listed = re.fullmatch(r"(\S+)\.\{([^}]*)\}", item)
        alias = re.fullmatch(r"(\S+) as (\S+)", item)
        if listed:
            for part in filter(None, map(str.strip, listed[2].split(","))):
                name, _, known = part.partition(" as ")
                names[known or name] = (listed[1], name)
        elif alias:
            names[alias[2] + "."] = (alias[1], "")
        elif "::" not in item:
            names[item.rpartition(".")[2] + "."] = (item, "")
    return names


def plain_names(text):
    """No `use .. as` and no `mod` may take a name under which a library's or a crate's path would be read otherwise."""
    item = r"^(?:pub )?(?:ghost )?use "
    paths = re.findall(item + r"([^\s.;{]+)\.", text, re.M)
    named = re.findall(item + r"[^\s{]+ as ([^\s;]+)", text, re.M) + re.findall(r"^(?:pub )?mod ([^\s;]+)$", text, re.M)
    for name in named:
        if name in paths or not re.fullmatch(r"[a-z][\w-]*", name):
            raise Unread(f"'{name}' is given to something of its own, and a library's path could be read by it")


def place_of(uses, name):
    """(file or library module, name there) of what a name stands for; None where nothing brings it."""
    alias, dot, last = name.rpartition(".")
    if (alias + dot if dot else name) not in uses:
        return None
    module, there = uses[alias + dot if dot else name]
    own = re.fullmatch(r"Rattle\.(?!std\.)(\w+)\.(specs|proofs)\.([\w.]+)", module)
    file = f"crates/{own[1]}/{own[2]}/{own[3].replace('.', '/')}.antt" if own else module
    return file, there or last


# ---- functions


def clauses(text, place):
    """The clauses from place on, up to the body: (requires, ensures)."""
    found = {"requires": [], "ensures": []}
    while clause := re.compile(r"\s*(requires|ensures)(?: \w+)? (?=\{)").match(text, place):
        place = closing(text, clause.end())
        found[clause[1]].append(" ".join(text[clause.end() + 1:place - 1].split()))
    if not re.compile(r"\s*\{").match(text, place):
        raise Unread(f"a clause of another kind, '{text[place:].strip().splitlines()[0]}'")
    return found["requires"], found["ensures"]


def function_at(text, start, prefix, uses):
    head = re.compile(r'pub (?:extern "C" )?fn (\w+)(<[^()]*>)?').match(text, start)
    if not head or text[head.end()] != "(":
        raise Unread("a public function whose head is another")
    end = closing(text, head.end())
    result = re.compile(r"\s*->\s*([^{\n]+)").match(text, end)
    parts = (text[head.end() + 1:end - 1].strip(), result[1].strip() if result else "", head[2])
    return Function(f"{prefix}::{head[1]}", parts, *clauses(text, result.end() if result else end), uses, declared_in(text, prefix))


def declared_in(text, prefix):
    """The types that a source names: its own, and those that a `use` brings, each with its crate."""
    crate = prefix.split("::")[0]
    found = {name: crate for name in re.findall(r"^(?:pub )?(?:struct|enum|type) (\w+)", text, re.M)}
    for path, several, one in re.findall(r"^use (\w+)::(?:\{([^}]*)\}|(\w+));", text, re.M):
        for name in filter(None, map(str.strip, (several or one).split(","))):
            if re.fullmatch(r"[A-Z]\w*", name):
                found[name] = crate if path == "crate" else path
    return found


ALIAS = r"^(?:pub(?:\(\w+\))? )?type .*"


def alias_at(text, start, line):
    """A type's other name may stand for no loan: what is lent behind a name, no clause would be asked for."""
    if re.search(r"[&']|\bdyn\b", text[start:text.find(";", start)]):
        raise Unread(f"a loan behind the name of '{line.strip()}'")


def functions_in(file, prefix, folder, public):
    """The public functions of a module and of the public modules in it. rt fmt begins a line with each."""
    if not file.is_file():
        raise Unread("a public module whose file is not there")
    public.add(file)
    text = without_comments(file.read_text("utf-8"))
    uses = brought(text)
    plain_names(text)
    kind = ""
    place = 0
    for line in text.splitlines(keepends=True):
        start, place = place, place + len(line)
        if re.match(r"\S", line):
            kind = (re.match(r"impl (\w+) \{", line) or [""] * 2)[1]
        if re.match(r"\s*(pub(\(\w+\))? )?mod .*\{", line):
            raise Unread(f"a module in braces, '{line.strip()}': give it a file")
        item = re.match(r"( *)pub (.*)", line)
        if re.match(ALIAS, line):
            alias_at(text, start, line)
        if not item or re.match(r"(struct|enum|trait|type) |const \w+: |\w+: ", item[2]):
            continue
        module = re.fullmatch(r"mod (\w+);", item[2])
        if module and not item[1]:
            yield from functions_in(folder / f"{module[1]}.rt", f"{prefix}::{module[1]}", folder / module[1], public)
        elif re.match(r'(extern "C" )?fn ', item[2]) and len(item[1]) == (4 if kind else 0):
            yield function_at(text, start + len(item[1]), f"{prefix}::{kind}" if kind else prefix, uses)
        else:
            raise Unread(f"what is public in '{line.strip()}', this check can't read")


def functions_of(folder, crate):
    """The public functions of a crate. In a private module none may be public: an `impl` there could be reached."""
    public = set()
    yield from functions_in(folder / "lib.rt", crate, folder, public)
    for file in sorted(folder.rglob("*.rt")):
        if re.search(r"^\s*impl\b[^{]*\bModel\b", file.read_text("utf-8"), re.M):
            raise Unread(f"an `impl Model` in {file.name}: a clause would read a value as something else")
    for file in sorted(set(folder.rglob("*.rt")) - public):
        private = without_comments(file.read_text("utf-8"))
        for alias in re.finditer(ALIAS, private, re.M):
            alias_at(private, alias.start(), alias[0])
        if re.search(r"^\s*pub .*\bfn |^\s*(pub(\(\w+\))? )?mod .*\{", file.read_text("utf-8"), re.M):
            raise Unread(f"a public function, or a module in braces, in the private module {file.name}: pub(crate) is meant")


def public_functions(tree):
    for folder in sorted(file.parent for file in tree.glob("crates/*/src/lib.rt")):
        crate = folder.parts[-2]
        try:
            yield from functions_of(folder, crate)
        except Unread as why:
            raise Unread(f"crates/{crate}/src: {why}") from None


# ---- types

# what the language's own numbers are in a definition
NUMBERS = {"f64": ("lib.Ieee", "Float")} | {f"u{bits}": ("Prim.Native.Nat", "ℕ") for bits in (8, 16, 32, 64, "size")}


def apart(text):
    """The parts of a text between its outermost commas."""
    parts, depth = [""], 0
    for letter in text:
        depth += (letter in "(<[") - (letter in ")>]")
        if letter == "," and not depth:
            parts.append("")
        else:
            parts[-1] += letter
    return [part.strip() for part in parts]


def held(function):
    """Where the types stand that a function's Option or Result holds, in order; None where this check can't tell."""
    outer = re.fullmatch(r"(?:Option|Result)<(.*)>", function.answers)
    first = apart(outer[1])[0] if outer else ""
    inner = re.fullmatch(r"\((.+)\)", first)
    places = [type_place(function, name) for name in (apart(inner[1]) if inner else [first])]
    return None if None in places else tuple(places)


def type_place(function, name):
    if name in NUMBERS:
        return NUMBERS[name]
    path = re.fullmatch(r"(?:(\w+)::)?([A-Z]\w*)", name)
    crate = path and (path[1] or function.named.get(path[2]))
    return (f"crates/{crate}/specs/declared/{path[2]}.antt", path[2]) if crate else None


# ---- equations


class Equation:
    def __init__(self, text, of, through):
        self.text = text  # as the source has it
        self.of = of  # "" for the result, else the name of what is lent
        self.through = through  # the map that says what a result is, as the source names it, and what it is applied to; or nothing


def sides(text):
    """The words on both sides of the one ≡."""
    if re.sub(rf"{WORD}|\.{NAME}|[()≡\s]", "", text):
        raise Unread("it has more in it than names, brackets and one ≡")
    words = re.findall(rf"{WORD}|\.{NAME}|[()≡]", text)
    if words.count("≡") != 1:
        raise Unread("it is no equation")
    left, right = words[:words.index("≡")], words[words.index("≡") + 1:]
    for side in (left, right):
        if not side or side.count("(") != side.count(")"):
            raise Unread("its ≡ does not stand between two sides")
    return left, right


def defined(function, words):
    """The right side is made of what was given and of what `ghost use` brings, and of nothing else."""
    plain = set(function.parameters) - set(function.references)
    given = {f"{name}.{'old' if name in function.lent else 'now'}" for name in function.references}
    for word in words:
        if word in ("(", ")") or word.isdecimal() or word in plain | given or word.partition(".")[0] in function.types:
            continue
        if word in function.references or word.partition(".")[0] in function.references or not place_of(function.uses, word):
            raise Unread(f"'{word}' on its right side is nothing that was given or brought")


def equation(function, clause):
    """The equation that an `ensures` is, if it has one of the three forms."""
    left, right = sides(clause)
    if "result" in right or any(re.search(r"\.new$", word) for word in right):
        raise Unread("the right side names the result, or something at exit")
    defined(function, right)
    if left[-1] == "result" and len(left) <= 3 and not {"(", ")"} & set(left):
        return Equation(clause, "", tuple(left[:-1]))
    if len(left) == 1 and left[0].endswith(".new"):
        return Equation(clause, left[0][:-len(".new")], ())
    raise Unread("the left side is neither result, nor S result, nor S X result, nor p.new")


def equations_of(function, fault):
    """The equations of a contract, which together fix the result and all that is lent."""
    found = []
    for clause in function.ensures:
        try:
            found.append(equation(function, clause))
        except Unread as why:
            fault(f"of '{clause}': {why}")
    about = [e.of for e in found]
    for of in ([""] if function.answers else []) + function.lent:
        if about.count(of) != 1:
            what = f"what is lent as {of}" if of else "its result"
            fault(f"{about.count(of)} equations fix {what}, and not one")
    if not function.answers and not function.lent:
        fault("it has no result and is lent nothing, so no equation can be about it")
    for of in sorted(set(about) - set(function.lent) - {""}):
        fault(f"nothing is lent as {of}")
    return found


def same_meaning(uses, parameters, fault):
    """What a contract is written with is the library's."""
    if "◌≡◌" not in uses:
        fault("no `ghost use` brings its ≡")
    for name, (module, there) in uses.items():
        own = name in SPOKEN or not re.fullmatch(rf"{NAME}\.?", name)
        if (name in LIBRARY or own) and (module, there) != (PRELUDE, name):
            what = f"its {name} is the {there} of {module}, and not that of {PRELUDE}"
            fault(what if name in LIBRARY else f"`ghost use` brings a {name} of its own")
    for name in parameters:
        if name in SPOKEN or name in uses:
            fault(f"the parameter {name} hides another meaning")
