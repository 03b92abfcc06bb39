"""Finds the functions of a crate's source files, by the layout that `rt fmt` gives them."""
import glob
import os
import re
from dataclasses import dataclass

FUNCTION = re.compile(r"^( *)(?:pub(?:\([a-z]+\))? )?(const )?(?:unsafe )?fn (\w+)")
OWNER = re.compile(r"^(?:pub(?:\([a-z]+\))? )?(?:unsafe )?(impl|trait)\b")
TYPE = re.compile(r"(?m)^(?:pub(?:\([a-z]+\))? )?(?:struct|enum|union) (\w+)")
CYCLE = re.compile(r"#\[cycle\((\w+)\)\]")


@dataclass(frozen=True)
class Owner:
    """What an `impl` is of: a type with its arguments, and a trait or "". `name` is how a check has the two, if there is a trait.

    `general` is how many arguments the type has, where these are parameters of the `impl`, each another one, or else False. The name is
    not `certain` where the trait has a parameter that the type doesn't name.
    """

    type: str = ""
    trait: str = ""
    name: str = ""
    arguments: tuple = ()
    general: int = 0
    certain: bool = True


@dataclass(frozen=True)
class Function:
    """A function: its lines in a file, its name, and the owner of the `impl` or the trait that it stands in."""

    path: str
    first: int
    last: int
    name: str
    owner: Owner
    module: str
    cycle: str
    is_const: bool
    is_default: bool

    @property
    def key(self):
        """What stays the same of a function when lines above it change."""
        return self.path, self.owner.type, "".join(self.owner.arguments), self.owner.trait, self.name

    @property
    def group(self):
        """What one edit of a round may touch: the function, or the cycle of calls that it is in."""
        return ("cycle", self.cycle) if self.cycle else self.key


def module_of(path):
    """The module of a source file: `a::b` of src/a/b.rt and of src/a/b/mod.rt, and "" of the root."""
    inside = re.sub(r"^src/|\.rt$", "", path)
    return "" if inside in ("lib", "main") else inside.removesuffix("/mod").replace("/", "::")


def split_at_top(text, mark):
    """The parts of a text between these marks, where no bracket is open."""
    parts, depth = [""], 0
    for at, letter in enumerate(text):
        depth += letter in "<([" or -(letter in ")]" or letter == ">" and text[at - 1] != "-")
        if depth == 0 and text.startswith(mark, at):
            parts.append("")
        else:
            parts[-1] += letter
    return [parts[0], *(part[len(mark) - 1:] for part in parts[1:])]


def generics(text):
    """A type without its generics, and these, without lifetimes."""
    name, bracket, inside = text.strip().partition("<")
    parts = split_at_top(inside.strip().removesuffix(">"), ",") if bracket else []
    return name, [part.strip() for part in parts if part.strip() and not part.strip().startswith("'")]


def words_in(parts):
    """The names in generic arguments, as a check writes them."""
    return re.findall(r"\w+", re.sub(r"'\w+", "", " ".join(parts).replace("()", "unit")))


def capital(word):
    return word[0].upper() + word[1:]


def joined_name(type_name, arguments, trait, of_trait, parameters):
    """How a check has the `impl` of a trait: the words of both that are no parameters, and `Any` for a type that is one."""
    of_type = ["Any" if type_name in parameters else type_name, *(it for it in arguments if it not in parameters)]
    others = [it for it in of_trait if it not in parameters]
    return "".join(map(capital, [*of_type, *([] if trait == "Drop" else [trait, *others])]))


def owner_of(head):
    """The owner of the functions in an `impl` or a trait, by its head."""
    head = re.sub(r"^(pub(\([a-z]+\))? )?(unsafe )?", "", head).split("{")[0].split(" where ")[0].strip()
    if head.startswith("trait"):
        return Owner(re.match(r"trait (\w+)", head)[1])
    parameters, rest = [], head.removeprefix("impl").strip()
    if rest.startswith("<"):
        first = split_at_top(rest, " ")[0]
        parameters, rest = [re.match(r"(?:const )?(\w+)", it)[1] for it in generics(first)[1]], rest[len(first):].strip()
    *traits, type_text = split_at_top(rest, " for ")
    type_path, arguments = generics(re.sub(r"^&('\w+ )?(mut )?", "", type_text.strip()))
    type_name, words = (words_in([type_path]) or ["unit"])[-1], words_in(arguments)
    is_plain = all(it in parameters for it in arguments) and len(set(arguments)) == len(arguments)
    trait_path, of_trait = generics(traits[0]) if traits else ("", [])
    trait = (words_in([trait_path]) or [""])[-1]
    name = joined_name(type_name, words, trait, words_in(of_trait), parameters) if trait else ""
    is_certain = all(it in [type_name, *words] for it in words_in(of_trait) if it in parameters)
    return Owner(type_name, trait, name, tuple(words), is_plain and len(arguments), is_certain)


def head_from(lines, at):
    """The text of the head that begins at this line, up to its brace."""
    end = next((row for row in range(at, min(at + 12, len(lines))) if "{" in lines[row]), at)
    return " ".join(line.strip() for line in lines[at:end + 1])


def end_of(lines, at, closing):
    """The line that ends the item which begins at this one."""
    if lines[at].endswith("}"):
        return at
    empty = closing.replace("}", "{}")
    return next((row for row in range(at, len(lines)) if lines[row] in (closing, empty)), at)


def functions(text, path):
    """The functions of a file. Those that a macro writes are left out."""
    lines, found, owner, is_trait, cycle, macro = text.split("\n"), [], Owner(), False, "", -1
    for at, line in enumerate(lines):
        if OWNER.match(line):
            owner, is_trait = owner_of(head_from(lines, at)), OWNER.match(line)[1] == "trait"
        if line.startswith("macro_rules!"):
            macro = end_of(lines, at, "}")
        cycle = CYCLE.search(line)[1] if CYCLE.search(line) else cycle
        head = FUNCTION.match(line)
        if head and at > macro:
            indent, is_const, name = head.groups()
            inside, end = owner if indent else Owner(), end_of(lines, at, indent + "}")
            found.append(Function(path, at, end, name, inside, module_of(path), cycle, bool(is_const), bool(indent) and is_trait))
        cycle = "" if head else cycle
    return found


def innermost(text, path, row):
    """The function that this line of a file stands in, or None."""
    return next((it for it in reversed(functions(text, path)) if it.first <= row <= it.last), None)


def body_of(lines, function):
    """The line after which a function's body begins, or None where it has none of its own lines."""
    indent = re.match(" *", lines[function.first])[0]
    opens = (row for row in range(function.first, function.last) if re.match(rf"{indent}\S", lines[row]) and lines[row].endswith("{"))
    return next(opens, None)


def sources(folder):
    """The paths of a crate's source files, from its folder."""
    return sorted(os.path.relpath(it, folder) for it in glob.glob(f"{folder}/src/**/*.rt", recursive=True))


def homes(folder):
    """The module of each type that a crate declares, and how many parameters it has that are no lifetimes."""
    found = {}
    for path in sources(folder):
        with open(f"{folder}/{path}", encoding="utf-8") as it:
            text = it.read()
        for at in TYPE.finditer(text):
            head = split_at_top(re.split(r"[{;]|\bwhere\b", text[at.end():], maxsplit=1)[0].strip(), " ") if text[at.end()] == "<" else [""]
            found[at[1]] = module_of(path), len(generics(" ".join(head).rpartition(">")[0] + ">")[1]) if text[at.end()] == "<" else 0
    return found


def symbol_of(function, types):
    """The name by which a check has a function, without its crate's, where `types` are the homes of the crate's types.

    A method of a type in general has the module of the type. One of some instance of it has the module of its `impl`, and the arguments.
    """
    owner, module = function.owner, function.module
    parts = [owner.type] if owner.type else []
    home, count = types.get(owner.type, (module, len(owner.arguments)))
    if owner.trait:
        parts = [owner.name]
    elif owner.type and not function.is_default and owner.general is not False and owner.general == count:
        module = home
    elif owner.type and not function.is_default:
        parts = ["+".join([owner.type, *owner.arguments])]
    return "::".join([*filter(None, [module]), *parts, function.name])
