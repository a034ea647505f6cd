#!/usr/bin/env python3
"""Respells the names that this repository's specs/ and proofs/ declare: words in snake case, types in camel case.

Run once, at the top of a checkout, after the kit's own port script. It reads which names are declared with a
hyphen in .antt files, makes the new spelling of each, stops where a new spelling is already another
declared name, and writes it into .antt, .rt and .edit files. Strings, comments, and the names that the check makes (which keep
their hyphens) stay. In pages it respells only what stands between backticks.
"""
import collections
import glob
import os
import re
import sys

TOKEN = re.compile(r"[^\s(){}.;:,λ→∀⟨⟩\[\]@«»\"|`]+")
HYPHEN = re.compile(r"[A-Za-z0-9_'>]-[A-Za-z0-9_]")
HEAD = re.compile(
    r"^[ ]*((?:unfoldable |abbrev |pub |law |opaque |private |@\w+ )*)(record |data |let )?"
    r"([^\s(){}:.;,\"]+)((?: \([^)]*\)| \{[^}]*\})*) ?: ([^\n]*(?:\n[ ]{4,}[^\n]*)*)", re.M)
# goals, loops and measures, which the check names itself
MADE = re.compile(r"^(returns|invariant|loop|decreases|bounds|overflow|slice-bounds|offset-bounds)-|-requires(-|$)")
# names declared in brackets: (name : type), {name : type}
BOUND = re.compile(r"[({]((?:[^\s(){}:.;,\"]+ )+): ")
# names bound by λ or let
LAMBDA = re.compile(r"λ ((?:[^\s(){}:.;,\"→↦]+ )+)[.→]")
LET = re.compile(r"\blet ([^\s(){}:.;,\"]+) ")


def antt_files():
    return sorted(glob.glob("crates/*/specs/**/*.antt", recursive=True)
                  + glob.glob("crates/*/proofs/**/*.antt", recursive=True))


def is_goals(path):
    """Files whose lines name goals and loops, which the check made."""
    return os.path.basename(path) in ("Answers.antt", "Invariants.antt", "Proof.antt", "Choices.antt")


def without_comment(line):
    if line.lstrip().startswith("--"):
        return ""
    at = line.find(" -- ")
    return line if at < 0 else line[:at]


def camel(name):
    return "".join(p[:1].upper() + p[1:] for p in name.split("-"))


def snake(name):
    """`All-get_or` to `all_get_or`; a capital alone, as a variant's name, goes to lower case too."""
    return name.replace("-", "_").lower() if re.search(r"[a-z]", name) else name.replace("-", "_")


def declared():
    """Each hyphened name with whether it is a type."""
    names = {}
    for path in antt_files():
        text = "\n".join(without_comment(l) for l in open(path).read().split("\n"))
        goals = is_goals(path)
        for m in HEAD.finditer(text):
            _, kind, name, _, typ = m.groups()
            if not HYPHEN.search(name) or goals and MADE.search(name):
                continue
            if kind == "let ":
                kind = None
            typ = " ".join(typ.split())
            is_type = bool(kind) or bool(re.search(r"(^|→ )Type [0-9]( where| =|$)", typ))
            names[name] = names.get(name, False) or is_type
        for pattern in (BOUND, LAMBDA, LET):
            for m in pattern.finditer(text):
                for name in m.group(1).split():
                    if HYPHEN.search(name) and not goals:
                        names.setdefault(name, False)
    return names


def spelling(names):
    table = {}
    for name, is_type in names.items():
        table[name] = camel(name) if is_type and name[:1].isupper() else snake(name)
    return table


def existing():
    """Names without a hyphen that .antt files declare or import."""
    found = set()
    for path in antt_files():
        text = "\n".join(without_comment(l) for l in open(path).read().split("\n"))
        for names in re.findall(r"^(?:pub )?use [^\n{]*\{([^\n}]*)\}", text, re.M):
            found.update(t for t in TOKEN.findall(names) if not HYPHEN.search(t))
        if is_goals(path):
            continue
        for m in HEAD.finditer(text):
            if not HYPHEN.search(m.group(3)):
                found.add(m.group(3))
    return found


def collisions(table):
    by_new = collections.defaultdict(list)
    for old, new in table.items():
        by_new[new].append(old)
    there = existing()
    for new, olds in sorted(by_new.items()):
        if len(olds) > 1 or new in there:
            yield new, olds


def respell_code(code, table):
    return TOKEN.sub(lambda m: table.get(m.group(0), m.group(0)), code)


def respell_antt(line, table):
    if line.lstrip().startswith("--"):
        return respell_ticks(line, table)
    at = line.find(" -- ")
    if at < 0:
        return respell_code(line, table)
    return respell_code(line[:at], table) + respell_ticks(line[at:], table)


def respell_ticks(line, table):
    return re.sub(r"`([^`]*)`", lambda m: "`" + respell_code(m.group(1), table) + "`", line)


def respell_rt(line, table):
    """Outside comments and strings."""
    out, rest = "", line
    while rest:
        m = re.search(r'//|"', rest)
        if not m:
            return out + respell_code(rest, table)
        out += respell_code(rest[:m.start()], table)
        if m.group(0) == "//":
            return out + respell_ticks(rest[m.start():], table)
        end = re.match(r'"(?:[^"\\]|\\.)*"?', rest[m.start():]).end()
        out += rest[m.start():m.start() + end]
        rest = rest[m.start() + end:]
    return out


def respell_edit(line, table):
    m = re.match(r"(old: |new: )(.*)$", line, re.S)
    return m.group(1) + respell_rt(m.group(2), table) if m else line


def rewrite(path, how, table):
    text = open(path).read()
    new = "".join(how(l, table) for l in text.splitlines(keepends=True))
    if new != text:
        open(path, "w").write(new)
        return 1
    return 0


def main():
    table = spelling(declared())
    bad = list(collisions(table))
    for new, olds in bad:
        print(f"falls together: {', '.join(olds)} -> {new}")
    if "--list" in sys.argv:
        for old, new in sorted(table.items()):
            print(f"{old}\t{new}")
        return
    if bad and "--anyway" not in sys.argv:
        sys.exit(1)
    changed = 0
    for path in antt_files():
        changed += rewrite(path, respell_antt, table)
    for path in glob.glob("crates/*/src/**/*.rt", recursive=True):
        changed += rewrite(path, respell_rt, table)
    for path in glob.glob("crates/*/must-fail/*.edit"):
        changed += rewrite(path, respell_edit, table)
    for path in ["README.md"] + glob.glob("docs/*.md"):
        changed += rewrite(path, respell_ticks, table)
    print(f"{len(table)} names, {changed} files")


main()
