"""The functions of a crate's sources: their names as a check prints them, their heads and where their bodies stand."""
import collections
import os
import re

# what may hold brackets that are none: comments, texts and characters
ASIDE = re.compile(r'//[^\n]*|/\*.*?\*/|b?r(#*)".*?"\1|b?"(?:\\.|[^"\\])*"|b?\'(?:\\.[^\']*|[^\'\\\n])\'', re.S)
# a clause stands before the body and has braces of its own
CLAUSE = re.compile(r"\b(?:requires|ensures|ghost)\*?(?:\s+\w+)?(?:\s*:)?\s*\Z")

# name: as a check prints it; cycle: the argument of its attribute `cycle`, if it has one; cycles: the names that a check may
# print for the cycle of calls that it is in; label: as a reader knows it; head: from its attributes to its clauses;
# start: of the head; begin, end: of the body, equal where there is none; in_trait: whether it stands in a trait or in
# the impl of one
Function = collections.namedtuple("Function", "name cycle cycles label head start begin end in_trait")
# what a brace opened: kind is module, trait, impl, function, clause or block
Opened = collections.namedtuple("Opened", "kind name label head start begin")


def blanked(text):
    """The text with spaces for comments, texts and characters."""
    return ASIDE.sub(lambda it: re.sub(r"[^\n]", " ", it[0]), text)


def texts(folder, ending):
    """The files below a folder, sorted, by their path and text."""
    for place, folders, names in os.walk(folder):
        folders.sort()
        for name in sorted(names):
            if name.endswith(ending):
                path = os.path.join(place, name)
                with open(path, encoding="utf-8") as file:
                    yield path, file.read()


class Source:
    """The source of a crate."""

    def __init__(self, folder):
        self.folder, self.homes, self.public = folder, {}, set()
        for path, text in texts(os.path.join(folder, "src"), ".rt"):
            for visibility, kind in re.findall(r"(?m)^\s*(pub(?:\([^)]*\))? )?(?:struct|enum|trait) (\w+)", text):
                self.homes.setdefault(kind, module_of(os.path.relpath(path, folder)))
                if visibility == "pub ":
                    self.public.add(kind)

    def functions(self, path, text):
        """Each function in a text, those within another one aside."""
        code, start, found = blanked(text), 0, []
        within = [Opened("module", module_of(path), "", "", 0, 0)]
        for at in (it.start() for it in re.finditer(r"[{};]", code)):
            char, head, outer = code[at], code[start:at], within[-1]
            is_outside = outer.kind in ("module", "trait", "impl")
            if char == ";":
                if head.count("(") > head.count(")") or head.count("[") > head.count("]"):
                    # of the type of an array
                    continue
                if is_outside and re.search(r"\bfn\s+\w", head):
                    found.append(function_of(self.opened(outer, head, start, at), at, outer, within[0].name))
            elif char == "{":
                is_clause = is_outside and CLAUSE.search(head)
                within.append(
                    Opened("clause", "", "", "", start, at) if is_clause
                    else self.opened(outer, head, start, at) if is_outside else Opened("block", "", "", "", at, at))
                if is_clause:
                    continue
            elif len(within) > 1:
                inner = within.pop()
                if inner.kind == "clause":
                    start = inner.start
                    continue
                if inner.kind == "function":
                    found.append(function_of(inner, at, within[-1], within[0].name))
            start = at + 1
        return found

    def opened(self, outer, head, start, at):
        """The block that a brace opens after this head."""
        function = re.search(r"\bfn\s+(\w+)", head)
        inner = re.search(r"\bmod\s+(\w+)\s*\Z", head)
        trait = re.search(r"\btrait\s+(\w+)", head)
        impl = re.search(r"\bimpl\b(.*)\Z", head, re.S)
        if function:
            label = outer.label + "::" + function[1] if outer.label else function[1]
            return Opened("function", joined(outer.name, function[1]), label, head, start, at)
        if inner:
            return Opened("module", joined(outer.name, inner[1]), "", head, start, at)
        if impl:
            name, label = self.impl_names(outer.name, impl[1])
            return Opened("impl", name, label, head, start, at)
        if trait:
            return Opened("trait", joined(outer.name, trait[1]), trait[1], head, start, at)
        return Opened("block", "", "", head, start, at)

    def impl_names(self, module, head):
        """The names of an impl: as a check has it, and the type alone."""
        head = re.sub(r"\A\s*<(?:[^<>]|<[^<>]*>)*>", "", re.sub(r"\bwhere\b.*", "", head, flags=re.S))
        trait, _, kind = head.partition(" for ")
        own = named(kind or head)[0]
        if kind:
            return joined(module, own + "".join(named(trait))), own
        return joined(self.homes.get(own, module), own), own


def function_of(opened, end, outer, file_module):
    cycle = re.search(r"#\[cycle\((\w+)\)\]", opened.head)
    scope, _, name = opened.name.rpartition("::")
    module = "::".join(it for it in scope.split("::") if not it[:1].isupper())
    # a function that calls itself is a cycle of its own name; a cycle of methods stands with their type or its module
    cycles = {joined(place, "+" + cycle[1]) for place in (scope, module, file_module)} if cycle else set()
    return Function(
        opened.name, cycle and cycle[1], cycles | {joined(scope, "+" + name)}, opened.label, opened.head, opened.start,
        opened.begin, end,
        outer.kind == "trait" or outer.kind == "impl" and " for " in outer.head)


def named(path):
    """A type or a trait as the name of an impl has it, and what its parameters add: `From<&io::Error>`, From, RefIoError."""
    head, _, rest = path.strip().partition("<")
    inner = re.sub(r"<.*>", "", rest[:-1]) if rest.endswith(">") else ""
    parts = re.findall(r"&|\w+", re.sub(r"'\w+", "", inner))
    name = re.sub(r"\W", "", head.split("::")[-1])
    return name, "".join("Ref" if it == "&" else it[:1].upper() + it[1:] for it in parts) if name == "From" else ""


def module_of(path):
    parts = re.sub(r"\.rt\Z", "", os.path.relpath(path, "src")).split("/")
    parts = parts[:-1] if parts[-1] in ("lib", "main", "mod") else parts
    return "::".join(parts)


def joined(module, name):
    return module + "::" + name if module else name
