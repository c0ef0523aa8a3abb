#!/usr/bin/env python3
"""Brings the names of this repository's definitions, lemmas, fields and constructors to snake case, and its types to camel case.

usage: python3 tools/respell.py [--list]      at the top of the repository, once, after the kit's own port.py

It goes by text: a name that specs/ or proofs/ declare, or give a module as, is turned where it stands as a whole word in .antt and .rt
files below crates/. Names of goals, of the library and of Rust code stay. --list only prints the names, old and new.
"""
import os
import re
import sys

TOP = "crates"
WORD = r"[\w'+*-]"
DECLARED = re.compile(r"^(\s*)(?:(?:abbrev|unfoldable|pub|data|record)\s+)*([^\s:(){}\[\],.;|=↦λ→]+)(?:\s*(?:\{[^}]*\}|\([^)]*\)))*\s*:\s")
ALIAS = re.compile(r"^\s*(?:pub )?(?:ghost )?use \S+ as ([^\s;]+?);?$", re.M)
GOAL = re.compile(r"^(?:(?:abbrev|pub)\s+)*(\S+) : goal\.", re.M)
# Names that would fall together with another, or say too little on their own.
OWN = {
    "First-meeting": "MeetingIsFirst",
    "Laid_out": "LaidOut",
    "messageAt": "message_in",
    "routeAt": "route_in",
    "taskAt": "task_in",
    "message-of": "message_held",
    "task-of": "task_held",
    "route-of": "route_known",
}
FOREIGN = re.compile(r"^\s*(?:pub )?(?:ghost )?use ([\w.'-]+)\.\{([^}]*)\}", re.M)


def files(ending):
    for folder, dirs, names in os.walk(TOP):
        dirs[:] = sorted(d for d in dirs if d != "out")
        for name in sorted(names):
            if name.endswith(ending):
                yield os.path.join(folder, name)


def read(path):
    with open(path, encoding="utf-8") as f:
        return f.read()


def new_name(old):
    if old in OWN:
        return OWN[old]
    if old[0].isupper():
        head, *rest = old.split("-")
        return head + "".join(w[:1].upper() + w[1:] for w in rest)
    flat = old.replace("-", "_").replace("′", "'")
    return re.sub(r"(?<=[a-z0-9])[A-Z]", lambda m: "_" + m.group(0).lower(), flat)


def declared():
    """Every name that is declared, but for those of goals."""
    found = set()
    for path in files(".antt"):
        text = read(path)
        goals = set(GOAL.findall(text))
        for line in text.split("\n"):
            m = DECLARED.match(line)
            if m and not line.lstrip().startswith(("--", "use ", "let ")) and m.group(2) not in goals:
                found.add(m.group(2))
        found |= set(ALIAS.findall(text))
    for path in files(".rt"):
        found |= set(ALIAS.findall(read(path)))
    return found


def turned():
    names = declared()
    return {old: new_name(old) for old in names if re.fullmatch(r"[A-Za-z][\w'′-]*", old) and new_name(old) != old}, names


def kept_in(text, crates):
    """The names that a file takes from a library of the kit."""
    kept = set()
    for path, names in FOREIGN.findall(text):
        parts = path.split(".")
        if len(parts) > 1 and parts[0] == "Rattle" and parts[1] in crates:
            continue
        for name in names.split(","):
            kept.add(name.split(" as ")[0].strip())
    return kept


def turn_line(line, pattern, names):
    return pattern.sub(lambda m: names[m.group(0)], line)


def turn_comment(line, names):
    """In a list of definitions at a file's head, the names before the blanks."""
    m = re.match(r"^(--   )(\S+(?:, \S+)*)(\s\s+)(.*)$", line)
    if not m:
        return line
    told = ", ".join(names.get(w, w) for w in m.group(2).split(", "))
    pad = max(2, len(m.group(2)) + len(m.group(3)) - len(told))
    return m.group(1) + told + " " * pad + m.group(4)


def main():
    names, all_names = turned()
    crates = set(os.listdir(TOP))
    for old, new in sorted(names.items()):
        if "--list" in sys.argv:
            print(old, new)
        if new in all_names:
            print("falls together:", old, new, file=sys.stderr)
    olds = {}
    for old, new in names.items():
        olds.setdefault(new, []).append(old)
    for new, old in olds.items():
        if len(old) > 1:
            print("falls together:", *old, new, file=sys.stderr)
    if "--list" in sys.argv:
        return
    for ending in (".antt", ".rt"):
        for path in files(ending):
            text = read(path)
            kept = kept_in(text, crates)
            here = {o: n for o, n in names.items() if o not in kept and o in text}
            if not here:
                continue
            clash = kept & set(here.values())
            if clash:
                print("imported too:", path, *sorted(clash), file=sys.stderr)
            pattern = re.compile(r"(?<!" + WORD + r")(?:" + "|".join(sorted(map(re.escape, here), key=len, reverse=True)) + r")(?!" + WORD + r")")
            comment = "--" if ending == ".antt" else "//"
            lines = []
            for line in text.split("\n"):
                if line.lstrip().startswith(comment):
                    lines.append(turn_comment(line, here))
                else:
                    lines.append(turn_line(line, pattern, here))
            with open(path, "w", encoding="utf-8") as f:
                f.write("\n".join(lines))


main()
