#!/usr/bin/env python3
"""Brings the repository's own definitions and lemmas to the spelling of today's Rattle: words in snake case, types and modules in camel case.

usage: python3 tools/respell.py        at the top of the repository, once, right after the kit's port.py

It goes over crates/*/specs, crates/*/proofs and the clauses of crates/*/src. A name that a file takes from a library of the kit keeps its spelling, and so do
functions, types and fields of src/, strings, and what Rattle makes.
It refuses to write where two names would fall together.
"""
import collections
import os
import re
import sys

TOKEN = re.compile(r"[A-Za-zμα-ω_][\w'-]*")
DECLARED = re.compile(r"^\s*(?:(?:pub|abbrev|unfoldable|opaque)\s+)*([A-Za-z_μα-ω][\w'-]*)(?=\s*:\s)")
USE = re.compile(r"^(?:ghost |pub )*use ([\w.'-]+?)\.\{([^}]*)\}", re.M)
# A lemma that would have its definition's name gets `_lem`; and one definition that would have another's name gets a name of its own.
APART = {
    "any-column": "any_column_lem", "check-work": "check_work_lem", "plan-work": "plan_work_lem", "is-placed": "is_placed_lem", "is-skip": "is_skip_lem",
    "is-timed": "is_timed_lem", "jobs-of": "jobs_of_lem", "next-state": "next_state_lem", "no-network": "no_network_lem", "numbers-bytes": "numbers_bytes_lem",
    "one-process": "one_process_lem", "process-at": "process_at_lem", "start-by": "start_by_lem", "start-state": "start_state_lem",
    "written-to": "written_to_lem", "bit-and": "bit_and_lem", "bit-or": "bit_or_lem", "zero-delay": "zero_delay_state",
    "at-end": "at_end_lem", "channel-at": "channel_at_lem", "end-at": "end_at_lem", "four-at": "four_at_lem", "good-ends": "good_ends_lem",
    "idle-at": "idle_at_lem", "idle-four": "idle_four_lem", "one-channel": "one_channel_lem", "one-pair": "one_pair_lem", "pair-at": "pair_at_lem",
    "program-bytes": "program_bytes_lem", "program-length": "program_length_lem", "released-now": "released_now_lem", "at-start": "at_start_lem",
}
# In one file alone: a lemma that already has the name that a definition gets.
THERE = {
    "promises/specs/Running.antt": {"goes_on": "goes_on_lem"}, "turns/proofs/Stepping.antt": {"goes_on": "goes_on_lem"},
    "timed/specs/CallLaws.antt": {"in_order": "in_order_lem"}, "turns/proofs/OneTurn.antt": {"turn_on": "turn_on_lem"},
    "plan/specs/StartLaws.antt": {"ready_by": "ready_by_lem"}, "plan/specs/PlanSteps.antt": {"ready_by": "ready_by_lem"},
    "timed/specs/TimedSteps.antt": {"ready_by": "ready_by_lem", "ready_at": "ready_told", "start_is": "start_is_lem"},
}
# Fields of records, names of other places and names of functions of src/, which may be spelled like a definition.
ALIKE = {"go_on", "goes_on", "in_order", "is_read", "ready_by", "start_is", "taken_at", "told_of", "turn_on", "job_count"}


def files(ending):
    for folder, dirs, names in os.walk("crates"):
        dirs[:] = sorted(d for d in dirs if d != "out")
        for n in sorted(names):
            if n.endswith(ending):
                yield os.path.join(folder, n)


def snake(word):
    word = word.replace("getD", "get_or")
    word = re.sub(r"([a-z0-9])([A-Z])", lambda m: m[1] + "_" + m[2], word)
    return word.lower()


def part(word):
    """One part between dashes: a type keeps its capital, a camel case word becomes snake case."""
    return word if word[:1].isupper() else snake(word)


def code(line):
    at = line.find("--")
    return line if at < 0 else line[:at]


def main():
    own = set()
    for path in files(".antt"):
        made = os.path.basename(path) == "Proof.antt"
        text = open(path, encoding="utf-8").read()
        for line in text.split("\n"):
            m = DECLARED.match(code(line))
            if m and not made:
                own.add(m[1])
    new = {}
    for name in own:
        if "-" not in name and not re.search(r"[a-z0-9][A-Z]", name):
            continue
        if name[:1].isupper() and "-" not in name:
            continue
        if name in APART:
            new[name] = APART[name]
            continue
        to = "_".join(part(p) for p in name.split("-"))
        if to != name:
            new[name] = to
    back = collections.defaultdict(set)
    for name in own:
        back[new.get(name, name)].add(name)
    wrong = [f"{sorted(v)} fall together as {k}" for k, v in sorted(back.items()) if len(v) > 1 and k not in ALIKE]
    turned = {}
    for path in list(files(".antt")) + list(files(".rt")):
        text = open(path, encoding="utf-8").read()
        foreign = set()
        for m in USE.finditer(text):
            head = m[1].split(".")
            mine = head[0] == "Rattle" and os.path.isdir(os.path.join("crates", head[1])) if len(head) > 1 else False
            if not mine:
                foreign |= set(TOKEN.findall(m[2]))
        for old, to in THERE.get(path[len("crates/"):], {}).items():
            text = re.sub(rf"(?<![\w.'-])(?<!\. )(?<!Setup\.){old}(?![\w'-])", to, text)
        used = set(re.findall(r"(?<!\.)(?<![\w'-])" + TOKEN.pattern + r"(?!\.)(?![\w'-])", "\n".join(code(l) for l in text.split("\n")))) if path.endswith(".antt") else set()
        for t in sorted(used & set(new)):
            if t not in foreign and new[t] in used:
                wrong.append(f"{path}: {t} becomes {new[t]}, which stands there already")
        ghost = path.endswith(".antt")

        def one(m):
            return new[m[0]] if m[0] in new and m[0] not in foreign else m[0]

        lines, clause = [], False
        before = open(path, encoding="utf-8").read()
        for line in text.split("\n"):
            if ghost or line.lstrip().startswith(("ghost use", "requires", "ensures", "//")) or clause:
                clause = not ghost and (clause or line.lstrip().startswith(("requires", "ensures"))) and line.count("{") > line.count("}")
                line = TOKEN.sub(one, line)
            lines.append(line)
        if "\n".join(lines) != before:
            turned[path] = "\n".join(lines)
    print(f"{len(new)} names, {len(turned)} files")
    if wrong and "--anyway" not in sys.argv:
        print("\n".join(wrong))
        return 1
    if "--names" in sys.argv:
        for k in sorted(new):
            print(k, new[k])
    if "--dry" not in sys.argv:
        for path, text in turned.items():
            with open(path, "w", encoding="utf-8") as f:
                f.write(text)
    return 0


if __name__ == "__main__":
    sys.exit(main())
