#!/usr/bin/env python3
"""Lists the places of older forms in crates/*/src, as docs/DESIGN-PASS.md counts them: tools/places.py [REV] [--list].

Without --list only the counts. REV is a commit, HEAD if it is not given. By text alone: a reader judges each place.
"""

import collections
import re
import subprocess
import sys


def git(*words):
    return subprocess.run(["git", *words], capture_output=True, text=True, check=True).stdout


def sources(rev):
    for name in git("ls-tree", "-r", "--name-only", rev, "crates").split("\n"):
        if re.match(r"crates/\w+/src/.*\.rt$", name):
            yield name, git("show", f"{rev}:{name}")


def functions(text):
    """Each function's name, parameters, clauses and body."""
    pattern = r'^ *(?:pub )?(?:extern "C" )?fn (\w+)(?:<[^>]*>)?\(([^{]*?)\)(?: -> [^\n{]+)?\n?((?:\s+(?:requires|ensures)[\s\S]*?)?)\s*\{\n([\s\S]*?)\n *\}\n'
    return re.findall(pattern, text, flags=re.M)


def shape(body):
    """A body without its numbers, widths and names."""
    body = re.sub(r"//.*", "", body)
    body = re.sub(r"\b([a-z_]+?)_?(8|16|32|64)\b", r"\1", body)
    body = re.sub(r"\b[ui](8|16|32|64|size)\b", "T", body)
    body = re.sub(r"\s+", " ", re.sub(r"\d+", "N", body))
    names = {}
    kept = {"if", "else", "return", "let", "mut", "while", "for", "in", "match", "as", "true", "false", "T", "N"}
    return re.sub(r"[A-Za-z_][\w:]*", lambda m: m[0] if m[0] in kept else names.setdefault(m[0], f"v{len(names)}"), body)


# What is told by a line alone.
LINES = {
    "1 enums": r"^(pub )?enum ",
    "1 flags and numbers beside values": r"^    (pub )?(number: u8|(ended|failed|on|lost|leads|fresh|led): bool),$",
    "1 numbers for kinds": r"^(pub )?const [A-Z_]+: u8",
    "1 numbers given back": r"fn \w*(number|fault|refus\w*|head|value|end|start|unless|power|current|weather|kind\w*|stage|curve)\(.*\) -> u8$",
    "3 while": r"^ *while ",
    "3 for": r"^ *for ",
    "6 packed rows": "u64; 24",
    "6 buffers cut to a length": r"&mut [a-z]+\[0\.\.",
    "7 switches": r"match (kind|stage|tag|mode|v\.number)\b|if (kind|tag) ==",
    "4 smaller, size and flag by hand": r"if (\w+) <=? (\w+) \{ (\1|\2) \} else \{ (\1|\2) \}|\b(least|size)(32|64)\(|if \w+(\.\w+)? \{ 1 \} else \{ 0 \}",
}


def literals(text):
    """Struct literals: type and the lines of their fields."""
    for m in re.finditer(r"\b([A-Z]\w+) \{\n((?:[ ]+\w+(?:: [^\n{]+)?,\n)+)[ ]*\}", text):
        yield m[1], m[2].strip().split("\n"), text[: m.start()].count("\n") + 1


def places(rev):
    found = collections.defaultdict(list)
    bodies, facts, lists = (collections.defaultdict(list) for _ in range(3))
    for name, text in sources(rev):
        short = name.removeprefix("crates/").replace("/src/", "/")
        for number, line in enumerate(text.split("\n"), 1):
            at = f"{short}:{number}: {line.strip()}"
            for title, pattern in LINES.items():
                if re.search(pattern, line):
                    found[title].append(at)
        for kind, fields, number in literals(text):
            taken = [re.match(r"\s*(\w+): (\w+)\.(\w+),$", f) for f in fields]
            same = collections.Counter(m[2] for m in taken if m and m[1] == m[3])
            if same and max(same.values()) >= 3:
                found["4 copies field by field"].append(f"{short}:{number}: {kind}")
            if len(fields) > 1 and all(re.match(r"\s*\w+: (0|false|None|\w+::(Unsaid|Missing)),$", f) for f in fields):
                found["4 empty values field by field"].append(f"{short}:{number}: {kind}")
        for fn, parameters, clauses, body in functions(text):
            if len(body) > 40:
                bodies[shape(body)].append(f"{short}::{fn}")
            for fact in re.findall(r"requires\s*\w*\s*\{ ([^}]*) \}", clauses):
                facts[re.sub(r"\.(now|old|new)", "", fact.strip())].append(f"{short}::{fn}")
            names = [p.strip() for p in parameters.replace("\n", " ").split(",") if p.strip()]
            for i in range(len(names) - 3):
                lists[", ".join(names[i : i + 4])].append(f"{short}::{fn}")
    for group in bodies.values():
        if len(group) > 1:
            found["2 twins"].append(" ".join(group))
    for fact, where in facts.items():
        if len(where) > 2:
            found["5 facts in three or more functions"].append(f"{len(where)} {fact}")
    for names, where in lists.items():
        if len(where) > 2:
            found["5 four parameters together in three or more functions"].append(f"{len(where)} {names}")
    return found


if __name__ == "__main__":
    words = [w for w in sys.argv[1:] if w != "--list"]
    found = places(words[0] if words else "HEAD")
    for title in sorted(found):
        print(f"{title}: {len(found[title])}")
        if "--list" in sys.argv:
            for place in sorted(found[title]):
                print("   ", place)
