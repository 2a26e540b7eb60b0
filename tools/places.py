#!/usr/bin/env python3
"""Lists the places in crates/*/src that docs/DESIGN-PASS.md counts, by the kind of place.

    tools/places.py            the number of places of each kind
    tools/places.py KIND       the places of that kind (1 to 8), one a line
    tools/places.py KIND DIR   the same in another checkout

A place that is listed is a candidate: the page says of each what was done."""
import collections
import pathlib
import re
import sys


def files(root):
    return sorted(root.glob("crates/*/src/**/*.rt"))


def lines(root, pattern, flags=0):
    found = []
    for path in files(root):
        for number, line in enumerate(path.read_text().split("\n"), 1):
            if line.lstrip().startswith(("//", "ghost ", "ensures", "requires")):
                continue
            if re.search(pattern, line, flags):
                found.append(f"{path.relative_to(root)}:{number}: {line.strip()}")
    return found


SIGNATURE = re.compile(r"(?:pub(?:\(crate\))? )?fn (\w+)(?:<[^(]*>)?\(([^{;]*?)\)(?: -> ([^{;]*?))?(?=\n\s+(?:requires|ensures|where)|\s*\{|;)", re.S)


def signatures(root):
    for path in files(root):
        for found in SIGNATURE.finditer(path.read_text()):
            result = (found.group(3) or "()").strip()
            yield path.relative_to(root), found.group(1), found.group(2), result


def parameters(text):
    names = []
    for part in re.split(r",(?![^<(\[]*[>)\]])", text):
        part = " ".join(part.split())
        if ":" in part:
            names.append(part)
    return names


def option_like(root):
    """A case that says that nothing is there, a change that answers a flag, a number for a kind, a reason or a missing place."""
    found = lines(root, r"^\s+(Absent|Lost|Silent|Missing|Nothing)(,| =)")
    found += lines(root, r"Result<Option<")
    found += lines(root, r"fn number\(|^\s+(pub )?(kind|layer): u8,|\((.*, )?(kind|layer): u8[,)]")
    found += lines(root, r"return (512|end);|[<>]=? (512|end|1_048_576)\b.*\{$")
    for path, name, given, result in signatures(root):
        if "&mut" in given and result == "bool":
            found.append(f"{path}: fn {name} changes its argument and answers a flag")
    return found


def twins(root):
    """Functions of one crate whose bodies are alike but for names, and tables that differ in their row."""
    shapes = collections.defaultdict(list)
    for path in files(root):
        text = path.read_text()
        for found in re.finditer(r"^( *)(?:pub(?:\(crate\))? )?fn (\w+)[^{}]*(?:\{[^{}\n]*\}\n[^{}]*)*?\n?\1\{\n(.*?)\n\1\}$", text, re.S | re.M):
            body = found.group(3)
            if body.count("\n") < 1:
                continue
            shape = re.sub(r"\b\w+\b|\"[^\"]*\"", "x", body)
            shapes[(path.parts[-3] if "tests" not in path.parts else "tests", re.sub(r"\s+", " ", shape))].append(f"{path.relative_to(root)}: fn {found.group(2)}")
    found = []
    for (crate, _), places in sorted(shapes.items()):
        if len(places) > 1 and "tests" not in crate:
            found += [f"{place} (of {len(places)} alike)" for place in places]
    found += [f"{line} (a table with its count)" for line in lines(root, r"^\s+pub\(crate\) (rows|bytes): \[")]
    return found


def counted_loops(root):
    return lines(root, r"for \w+ in \(?[^ ]*\.\.|\bwhile |^\s*('\w+: )?loop \{")


def conversions(root):
    """Equality, order, copying, conversion and printing written out."""
    found = lines(root, r"fn (number|tag|from_numbers|to_\w+|kind_of|tag_of|value_of|children_of|text_of|answer_made|answer_quietly|placeless|fault_numbers|switch_of|boolean_of|same_word|turn|read_digit|hex_digit)\b")
    found += lines(root, r"fn (write|push)_(decimal|integer|boolean|byte|number\w*|sized|word)\(")
    found += lines(root, r"^\s+fn (eq|cmp|partial_cmp|clone|fmt)[<(]")
    found += lines(root, r"Fault \{$")
    return found


def repeated(root):
    """Clauses that three or more functions of a crate have, and groups of three or more parameters that three or more functions take."""
    clauses = collections.defaultdict(list)
    for path in files(root):
        for found in re.finditer(r"^\s+(requires|ensures)(?: \w+)? \{ (.*) \}$", path.read_text(), re.M):
            clauses[(path.parts[path.parts.index("crates") + 1], found.group(1), found.group(2))].append(path.name)
    found = [f"crates/{crate}: {word} {{ {clause} }} in {len(places)} contracts" for (crate, word, clause), places in sorted(clauses.items()) if len(places) >= 3 and word == "requires"]
    groups = collections.defaultdict(set)
    for path, name, given, _ in signatures(root):
        names = frozenset(parameters(given))
        if len(names) >= 3:
            groups[(path.parts[1], names)].add(name)
    seen = collections.defaultdict(set)
    for (crate, names), functions in groups.items():
        for (other, more), others in groups.items():
            shared = names & more
            if crate == other and len(shared) >= 3:
                seen[(crate, shared)] |= functions | others
    for (crate, names), functions in sorted(seen.items(), key=str):
        if len(functions) >= 3:
            found.append(f"crates/{crate}: ({', '.join(sorted(names))}) in {', '.join(sorted(functions))}")
    return found


def buffers(root):
    return lines(root, r"\[\w+; \d+\]|^\s+(pub(\(crate\))? )?count: u32,|^\s+room: usize,")


def switches(root):
    return lines(root, r"else if same_word|if same_word|enum Accepted|: fn\(|dyn Fn")


def proofs(root):
    found = []
    for crate in sorted(root.glob("crates/*")):
        count = sum(len(path.read_text().split("\n")) - 1 for path in crate.glob("proofs/**/*.antt") if "+" != path.name)
        if count:
            found.append(f"crates/{crate.name}/proofs: {count} lines")
    return found


KINDS = [option_like, twins, counted_loops, conversions, repeated, buffers, switches, proofs]


def main():
    words = sys.argv[1:]
    root = pathlib.Path(words[1] if len(words) > 1 else pathlib.Path(__file__).resolve().parent.parent)
    if words:
        print("\n".join(KINDS[int(words[0]) - 1](root)))
        return
    for number, kind in enumerate(KINDS, 1):
        print(number, kind.__name__, len(kind(root)))


if __name__ == "__main__":
    main()
