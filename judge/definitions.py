#!/usr/bin/env python3
"""definitions.py [--list] [CRATE FUNCTION..]: what whoever wants to believe a contract has to read: counts the
definitions of specs/ and the types that these functions' contracts cite, those that these cite, and so on, and their
lines without comments. Without words, those of the headline: flow_headline's run_and_open, totals_after_a_stop,
run_on_disk and open_what_is_left, and flow_archive's open. What the standard library defines isn't counted. `--list`
prints each, with its file and its lines. Names that several of these definitions have are printed at the end: one word
for one thing."""
import collections
import glob
import os
import re
import sys

HEADLINE = (
    ("flow_headline", "run_and_open"),
    ("flow_headline", "totals_after_a_stop"),
    ("flow_headline", "run_on_disk"),
    ("flow_headline", "open_what_is_left"),
    ("flow_archive", "open"),
)

TOP = os.path.join(os.path.dirname(os.path.abspath(__file__)), "..", "crates")

USE = re.compile(r"use (?:Rattle\.)?([\w.+]+)\.\{([^}]*)\}", re.DOTALL)
AS_MODULE = re.compile(r"use (?:Rattle\.)?([\w.+]+) as (\w+)")

# What separates names.
WORD = re.compile(r"[^\s(){},;λ]+")


class Definition:
    """A definition: where it is, its name, its text and the names that its file imports."""

    def __init__(self, crate, module, name, lines, imports):
        self.crate, self.module, self.name, self.imports = crate, module, name, imports
        self.lines = [line for line in lines if line.strip() and not line.lstrip().startswith(("--", "//"))]

    def words(self):
        return {word for line in self.lines for word in WORD.findall(line.split(" -- ")[0])}


def imports_of(text):
    """The names that a file imports: each with the module and the name there; modules by their other names."""
    names, modules = {}, {}
    for module, listed in USE.findall(text):
        for item in re.split(r"\s*,\s*", listed.strip()):
            old, _, new = item.partition(" as ")
            names[new.strip() or old.strip()] = (module, old.strip())
    for module, name in AS_MODULE.findall(text):
        modules[name] = module
    return names, modules


def definitions_of(crate, path):
    """The definitions of a file of specs/."""
    with open(path) as file:
        text = file.read()
    module = "%s.specs.%s" % (crate, os.path.relpath(path, os.path.join(TOP, crate, "specs"))[: -len(".antt")])
    module, imports = module.replace("/", "."), imports_of(text)
    lines, begins, name = text.split("\n"), [], None
    for number, line in enumerate(lines):
        if not line or line[0] in " -\t" or line.startswith(("use ", "pub mod", "pub use")):
            continue
        words = line.split()
        words = [word for word in words if word not in ("abbrev", "unfoldable", "opaque", "pub", "record", "data")]
        if words and words[0] != name and line.split()[0] in ("abbrev", "unfoldable", "opaque", "pub", "record", "data"):
            name = words[0].rstrip(":")
            begins.append((number, name))
    ends = [number for number, _ in begins[1:]] + [len(lines)]
    return [Definition(crate, module, name, lines[begin:end], imports) for (begin, name), end in zip(begins, ends)]


def types_of(crate):
    """The types of a crate's sources, by module and name."""
    found = {}
    for path in glob.glob(os.path.join(TOP, crate, "src", "*.rt")):
        with open(path) as file:
            text = file.read()
        for match in re.finditer(r"^(?:#\[.*\]\n)*(?:pub |pub\(crate\) )?(?:struct|enum|trait) (\w+)", text, re.MULTILINE):
            end = text.find("\n}", match.start())
            line_end = text.find(";\n", match.start())
            if 0 <= line_end < text.find("\n", match.end()) + 1:
                end = line_end
            lines = text[match.start() : end + 2].split("\n")
            module = os.path.basename(path)[: -len(".rt")]
            found[match[1]] = Definition(crate, "%s.src.%s" % (crate, module), match[1], lines, ({}, {}))
    return found


class Library:
    """All definitions and types of the repository."""

    def __init__(self):
        self.by_module, self.types = collections.defaultdict(dict), {}
        for folder in sorted(glob.glob(os.path.join(TOP, "*", "src"))):
            crate = os.path.basename(os.path.dirname(folder))
            self.types[crate] = types_of(crate)
            for path in glob.glob(os.path.join(TOP, crate, "specs", "**", "*.antt"), recursive=True):
                for each in definitions_of(crate, path):
                    self.by_module[each.module][each.name] = each

    def named(self, module, name):
        """The definition of this name in a module; a type, where the module is one of declared types."""
        crate = module.split(".")[0]
        if ".declared." in module + ".":
            parts = module.split(".")
            types = self.types.get(crate, {})
            return next((types[part] for part in [name, *reversed(parts)] if part in types), None)
        return self.by_module.get(module, {}).get(name)

    def cited(self, each):
        """The definitions that one cites."""
        names, modules = each.imports
        for word in each.words():
            first, _, rest = word.partition(".")
            candidates = [word, first]
            for candidate in candidates:
                found = self.by_module.get(each.module, {}).get(candidate)
                if found is None and candidate in names:
                    found = self.named(*names[candidate])
                if found is not None and found is not each:
                    yield found
            if first in modules and rest:
                found = self.named(modules[first], rest)
                if found is not None:
                    yield found


def contract_of(crate, function):
    """A function's clauses, as a definition."""
    for path in glob.glob(os.path.join(TOP, crate, "src", "*.rt")):
        with open(path) as file:
            text = file.read()
        match = re.search(r"^ *pub fn %s\b.*?^ *\{\}?\n" % function, text, re.M | re.S)
        if match:
            return Definition(crate, "%s.src" % crate, function, match[0].split("\n"), imports_of(text))
    sys.exit("definitions.py: there is no function %s in %s" % (function, crate))


def closure(library, begin):
    """All definitions that are reached from these."""
    seen, waiting = {}, list(begin)
    while waiting:
        for found in library.cited(waiting.pop()):
            key = (found.module, found.name)
            if key not in seen:
                seen[key] = found
                waiting.append(found)
    return list(seen.values())


def main():
    words = [word for word in sys.argv[1:] if word != "--list"]
    asked = [(words[0], function) for function in words[1:]] or HEADLINE
    reached = closure(Library(), [contract_of(crate, function) for crate, function in asked])
    if "--list" in sys.argv:
        for each in sorted(reached, key=lambda it: (it.module, it.name)):
            print("%-60s %4d" % ("%s.%s" % (each.module, each.name), len(each.lines)))
    names = collections.Counter(each.name for each in reached)
    twice = sorted(name for name, count in names.items() if count > 1)
    print("%d definitions, %d lines, of %d crates" % (
        len(reached), sum(len(each.lines) for each in reached), len({each.crate for each in reached})))
    if twice:
        print("names of several: " + " ".join(twice))
    return 0


if __name__ == "__main__":
    sys.exit(main())
