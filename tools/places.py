#!/usr/bin/env python3
"""Counts, in crates/*/src, the places where the code still has a form of the older language.

usage: python3 tools/places.py          at the top of the repository: the counts, point by point
       python3 tools/places.py -v       and each place, as file:line and what stands there

The points are those of docs/DESIGN-PASS.md. The counts are of text: whether a place is to change, a reader decides.
"""
import collections
import glob
import re
import sys

FN = re.compile(r"^(?P<indent> *)(?:pub )?(?:extern \"C\" )?fn (?P<name>\w+)")
FLAGS = ("ok", "busy", "ended", "present", "flag", "answer")
KEYWORDS = set("fn let mut if else while for in match return pub self Self true false as impl struct enum const use loop break continue requires ensures".split())


def sources():
    for path in sorted(glob.glob("crates/*/src/**/*.rt", recursive=True)):
        yield path, open(path, encoding="utf-8").read().split("\n")


def functions(lines):
    """(line, name, its text up to the brace that closes it)"""
    at = 0
    while at < len(lines):
        found = FN.match(lines[at])
        if not found:
            at += 1
            continue
        end = at
        while lines[end] != found["indent"] + "}" and not (end == at and lines[end].rstrip().endswith("}")):
            end += 1
            if end >= len(lines):
                break
        yield at + 1, found["name"], lines[at:end + 1]
        at = end + 1


def blocks(lines, word):
    at = 0
    while at < len(lines):
        found = re.match(r"^(?:pub )?%s (\w+)" % word, lines[at])
        if found and lines[at].rstrip().endswith("{"):
            end = lines.index("}", at)
            yield at + 1, found[1], lines[at + 1:end]
            at = end
        at += 1


def code_of(text):
    """A function's text without comments and clauses."""
    kept = [re.sub(r"//.*", "", line) for line in text if not re.match(r"^\s*(requires|ensures|ghost)\b", line)]
    return "\n".join(kept)


def parameters(text):
    head = code_of(text).split("{")[0]
    inner = head[head.find("(") + 1:head.rfind(")")] if ")" in head else ""
    return [(name, " ".join(kind.split())) for name, kind in re.findall(r"(\w+)\s*:\s*([^,]*(?:\[[^\]]*\])?[^,]*)", inner)]


def skeleton(text):
    """The shape of a function: its names and numbers left out."""
    words = re.findall(r"\w+|[^\w\s]", code_of(text))
    return tuple(word if word in KEYWORDS or not re.match(r"\w", word) else "_" for word in words)


def own_results(places):
    for path, lines in sources():
        for line, name, body in blocks(lines, "enum"):
            variants = [one for one in body if re.match(r"^    \w", one)]
            if len(variants) == 2 and any(re.search(r"[({]", one) for one in variants):
                places["1a own enum like Option or Result"].append((path, line, name))
        for line, name, body in blocks(lines, "struct"):
            fields = re.findall(r"^    (?:pub )?(\w+): ([\w\[]+)", "\n".join(body), re.M)
            if len(fields) > 1 and any(one in FLAGS or kind == "bool" for one, kind in fields):
                places["1b struct of a flag or an answer with values beside it"].append((path, line, name))
        for number, line in enumerate(lines, 1):
            if re.match(r"^\s*//.*\b(0|128|n|64 or more) (if|where|when) ", line):
                places["1c a number that stands for none (comment)"].append((path, number, line.strip()[:90]))
            if re.match(r"^\s*return 0;", line):
                places["1d return 0 for none"].append((path, number, line.strip()))
            if "reply::number(" in line:
                places["1e the number of a reply where the reply would do"].append((path, number, line.strip()))
            if re.search(r"\bkind (==|<=) \d|match head\b", line):
                places["1f a number for a kind"].append((path, number, line.strip()))


def twins(places):
    shapes = collections.defaultdict(list)
    for path, lines in sources():
        if path.split("/")[1] in ("cases", "vectors"):
            continue
        for line, name, text in functions(lines):
            shapes[skeleton(text)].append((path, line, name))
    for shape, found in shapes.items():
        if len(found) > 1 and len(shape) > 24:
            for path, line, name in found:
                places["2 function of the same shape as another"].append((path, line, name))


def loops(places):
    for path, lines in sources():
        for number, line in enumerate(lines, 1):
            test = re.match(r"^( *)(?:'\w+: )?while (.*) \{$", line)
            if not test:
                continue
            end = next(k for k in range(number, len(lines)) if lines[k] == test[1] + "}")
            body = "\n".join(lines[number:end])
            names = re.findall(r"\b([a-z_]+)\b", test[2])
            counted = any(re.search(r"\b%s [+-]= 1;" % name, body) for name in names)
            places["3a loop that counts by hand" if counted else "3b other while"].append((path, number, line.strip()))


def by_hand(places):
    for path, lines in sources():
        for number, line in enumerate(lines, 1):
            if re.search(r" as u64\b", line):
                places["4a conversion to u64 by `as`"].append((path, number, line.strip()))
            if re.search(r"std::num::wrapping_|u64::(count_ones|trailing_zeros)\(", line):
                places["4b a method called as a function"].append((path, number, line.strip()))
        for line, name, text in functions(lines):
            if name in ("number", "wide", "later", "sooner", "lesser", "copy", "both", "three", "is_zero", "is_from", "is_below", "good", "clear", "load_values", "store_values"):
                places["4c comparison, copy or conversion as a function of its own"].append((path, line, name))


def together(places):
    sets = collections.Counter()
    owners = collections.defaultdict(list)
    for path, lines in sources():
        if path.split("/")[1] in ("shown", "cases", "vectors", "fppn"):
            continue
        for line, name, text in functions(lines):
            names = frozenset(name for name, kind in parameters(text))
            owners[names].append((path, line, name))
    flat = [(names, one) for names, found in owners.items() for one in found]
    for names, one in flat:
        most = max((len([1 for other, _ in flat if len(names & other) >= 4]) if len(names) >= 4 else 0), 0)
        if most >= 3:
            places["5 four or more parameters that travel through three functions or more"].append(one)


def parallel(places):
    for path, lines in sources():
        for line, name, text in functions(lines):
            kinds = parameters(text)
            arrays = [one for one, kind in kinds if re.match(r"&?(?:mut )?\[", kind)]
            counts = [one for one, kind in kinds if kind in ("usize", "u32") and re.match(r"(count|n|jobs|\w+_count)$", one)]
            if arrays and counts:
                places["6a function of arrays with a length beside them"].append((path, line, name))
            if len([1 for one, kind in kinds if re.match(r"&(?:mut )?\[u(32|64); 128\]", kind)]) > 1:
                places["6b function of parallel arrays"].append((path, line, name))
        for line, name, body in blocks(lines, "struct"):
            fields = re.findall(r"^    (?:pub )?(\w+): ([\w\[]+)", "\n".join(body), re.M)
            if any(kind.startswith("[") for one, kind in fields) and any(re.search(r"count|length|number", one) for one, kind in fields):
                places["6c struct of an array and its length"].append((path, line, name))


def answers(places):
    for path in sorted(glob.glob("crates/*/proofs/**/Answers.antt", recursive=True)):
        text = open(path, encoding="utf-8").read()
        for name in re.findall(r"^pub ([\w'-]+) : goal\.", text, re.M):
            places["8 answer written in a proof"].append((path, 0, name))


def main():
    places = collections.defaultdict(list)
    for count in (own_results, twins, loops, by_hand, together, parallel, answers):
        count(places)
    for point in sorted(places):
        print(f"{len(places[point]):5}  {point}")
        if "-v" in sys.argv:
            for path, line, what in places[point]:
                print(f"         {path}:{line}: {what}")


if __name__ == "__main__":
    main()
