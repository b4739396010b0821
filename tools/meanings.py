#!/usr/bin/env python3
"""The trees and the tests behind tools/meanings.sh, which says what they are for."""

import hashlib
import os
import re
import shutil
import subprocess
import sys
import time

ROOT = os.path.dirname(os.path.dirname(os.path.abspath(__file__)))
LISTS = os.path.join(ROOT, "tools", "meanings")
ROOM = os.path.join(ROOT, "build", "meanings")

# The theorems of docs/PROMISES.md that say something of the rules, not only of how the code goes about them.
NAMED = {
    "chunks": ["cut_law"],
    "controller": ["one_sign_lem", "one_need", "bounds_law"],
    "curve": ["curve_law"],
    "energy": ["as_before"],
    "fed": ["fed_law", "call_law"],
    "guided": ["led_law", "lit_law"],
    "layouts": ["laid_law", "read_law"],
    "lead": ["lead_law"],
    "mirror": ["mirrored"],
    "partner": ["verdict_law"],
    "peaks": ["peaks_law"],
    "reading": ["nearest_proved"],
    "rescued": ["rescue_law"],
    "season": ["run_law"],
    "settling": ["settling", "closing_law", "study_law", "stopped_law"],
    "solar": ["relied"],
    "stick": ["accepted_law"],
    "storage": ["relied"],
}

# Lemma files that speak of the functions themselves, of which there are none, and crates that have no definitions.
OF_FUNCTIONS = []
WITHOUT = ["screen"]


class Fault(Exception):
    """Something that is needed is missing, or a meaning of the list cannot be tried."""


# ---- the list


class Meaning:
    def __init__(self, label, rule, words):
        self.label = label
        self.rule = rule
        self.words = words
        self.edits = []  # (file, old, new)

    def specs(self):
        return [e for e in self.edits if "/specs/" in e[0]]

    def code(self):
        return [e for e in self.edits if "/src/" in e[0]]


def meanings():
    """All meanings of the list, in its order."""
    found = []
    for name in sorted(os.listdir(LISTS)):
        if not name.endswith(".edit"):
            continue
        place = old = None
        for line in read(os.path.join(LISTS, name)).split("\n"):
            head = re.match(r"# ([a-z_0-9]+) \[([A-Z][0-9A-Z, ]*)\]: (.*)$", line)
            if head:
                found.append(Meaning(*head.groups()))
                place = old = None
            elif line.startswith("file: "):
                place = line[6:]
            elif line.startswith("old: "):
                old = line[5:].replace("\\n", "\n")
            elif line.startswith("new:"):
                new = line[5:].replace("\\n", "\n")
                if not found or place is None or not old:
                    raise Fault(f"tools/meanings/{name}: a 'new:' line without a label, a 'file:' or an 'old:' line before it")
                if not re.match(r"crates/\w+/(specs|src)/\w+\.(antt|rt)$", place):
                    raise Fault(f"tools/meanings/{name}: {place} is no file of a crate's specs/ or src/")
                found[-1].edits.append((place, old, new))
                old = None
    labels = [m.label for m in found]
    for label in labels:
        if labels.count(label) > 1:
            raise Fault(f"{label} stands in the list twice")
    return found


def tried(meaning):
    """Each 'old:' text of a meaning stands in its file once, when those before it have been replaced."""
    if not meaning.specs():
        raise Fault(f"{meaning.label}: no definition is changed")
    texts = {}
    for name, old, new in meaning.edits:
        if name not in texts:
            texts[name] = read(os.path.join(ROOT, name))
        if texts[name].count(old) != 1:
            raise Fault(f"{meaning.label}: {name} has an 'old:' text {texts[name].count(old)} times, not once: {old}")
        texts[name] = texts[name].replace(old, new)
    return texts


# ---- files and crates


def read(path):
    try:
        with open(path, encoding="utf-8") as f:
            return f.read()
    except OSError as why:
        raise Fault(why) from None


def write(path, text):
    os.makedirs(os.path.dirname(path), exist_ok=True)
    with open(path, "w", encoding="utf-8") as f:
        f.write(text)


def fresh(name):
    tree = os.path.join(ROOM, name)
    shutil.rmtree(tree, ignore_errors=True)
    return tree


def digest(place, parts):
    total = hashlib.sha256()
    for folder, _, names in sorted(os.walk(place)):
        for name in sorted(names):
            path = os.path.join(folder, name)
            if re.search(parts, path[len(place) :]):
                with open(path, "rb") as f:
                    total.update(path.encode() + b"\0" + hashlib.sha256(f.read()).digest())
    return total.hexdigest()


def leaning():
    """Each crate of crates.txt with those that it leans on."""
    deps = {}
    for line in read(os.path.join(ROOT, "crates.txt")).split("\n"):
        line = line.split("#")[0]
        if ":" in line:
            name, rest = line.split(":", 1)
            deps[name.strip()] = rest.split()
    return deps


def kit():
    """The kit's folder, and what in it is for this machine."""
    path = shutil.which("rt")
    if not path:
        raise Fault("rt is not on the path")
    home = os.environ.get("RATTLE_HOME") or os.path.dirname(os.path.dirname(os.path.realpath(path)))
    return home, os.path.join(home, "on", os.uname().machine)


# ---- the stored cases


def by_cases(meaning):
    """Where the program's output begins to differ from the stored answers, or None. The program is compiled without proof."""
    home, own = kit()
    tool = os.path.join(own, "bin", "rattle-cases")
    if not os.path.isfile(tool):
        raise Fault(f"the kit has no {tool}")
    libraries = leaning()["cases"]
    crates = [n for n in libraries if os.path.isdir(os.path.join(ROOT, "crates", n))] + ["cases"]
    texts = {name: text for name, text in tried(meaning).items() if "/src/" in name and name.split("/")[1] in crates}
    if not texts:
        return None
    tree = fresh("cases")
    for name in crates:
        shutil.copytree(os.path.join(ROOT, "crates", name, "src"), os.path.join(tree, "crates", name, "src"))
    for name, text in texts.items():
        write(os.path.join(tree, name), text)
    # The crates `records` and `guided` have a module of the name of the crate `roofs`, which is ambiguous where all are
    # given as sources: there it is called `inverters`.
    for name in ("records", "guided"):
        src = os.path.join(tree, "crates", name, "src")
        os.rename(os.path.join(src, "roofs.rt"), os.path.join(src, "inverters.rt"))
        lib = os.path.join(src, "lib.rt")
        write(lib, read(lib).replace("mod roofs;", "mod inverters;").replace("use roofs::", "use inverters::"))
    crate = os.path.join(ROOT, "crates", "cases")
    words = [tool, "--toolchain", os.path.join(own, "toolchain")]
    words += ["--stdin", os.path.join(crate, "stdin"), "--stdout", os.path.join(crate, "stdout")]
    words += [os.path.join(tree, "crates", "cases", "src", "main.rt"), "--crate-name", "cases"]
    words += ["--lib", "std=" + os.path.join(home, "libs", "std", "src", "lib.rt")]
    for name in libraries:
        folder = os.path.join(tree, "crates") if name in crates else os.path.join(home, "libs")
        words += ["--lib", f"{name}={os.path.join(folder, name, 'src', 'lib.rt')}"]
    done = subprocess.run(words, stdout=subprocess.PIPE, stderr=subprocess.STDOUT, check=False)
    said = done.stdout.decode("utf-8", "replace")
    write(os.path.join(ROOM, "log", meaning.label + ".cases"), said)
    # The cases are too many for the interpreter, and in its time for the build with checks: what counts is the build at -O3.
    found = re.search(r"^(ok|FAIL): the native program at -O3 .*\n(?:on standard output, at byte (\d+),)?", said, re.M)
    if found and found.group(1) == "ok":
        return None
    if not found or not found.group(2):
        raise Fault(f"{meaning.label}: the program did not run; build/meanings/log/{meaning.label}.cases has why")
    return "from byte " + found.group(2)


# ---- the laws and the table


def types_of(text):
    """The types of a source file, without its functions: what the definitions call `declared`."""
    kept = re.findall(r"^(?:pub )?(?:struct|enum) [^\n]*\{\n.*?^\}\n", text, re.M | re.S)
    uses = re.findall(r"^use ([a-z_]+::[A-Z]\w*);", text, re.M)
    return "".join(f"use super::{u};\n" for u in uses) + "\n" + "\n".join(kept) if kept else ""


def joined(text):
    """A file of antt with the names that it has where all crates are one: of the crate x the file Y is x_Y there."""
    text = re.sub(r"Rattle·(\w+?)(?:·specs\.specs|\.specs)\.declared\.", r"Rattle·meanings·specs.specs.declared.\1.", text)
    text = re.sub(r"Rattle·(\w+?)(?:·specs\.specs|\.specs)\.(?!declared\.)(\w+)", r"Rattle·meanings·specs.specs.\1_\2", text)
    return re.sub(r"Rattle·(\w+?)(?:·proofs\.proofs|\.proofs)\.(\w+)", r"Rattle·meanings·proofs.proofs.\1_\2", text)


def rows():
    """The rows of the table: the list that a row stands in, its number there from 1, and the remark above it."""
    found = []
    specs = os.path.join(ROOT, "crates", "figures", "specs")
    for name in sorted(os.listdir(specs)):
        text = read(os.path.join(specs, name))
        for listed, body in re.findall(r"^unfoldable pub (\w+) : List Row\n(?:unfolding .*\n)?\1 =\n((?: .*\n)+)", text, re.M):
            remark, count = "", 0
            for line in body.split("\n"):
                if line.strip().startswith("--"):
                    remark = line.strip()[2:].strip()
                elif re.match(r"\s*(∷ )?row \(", line):
                    count += 1
                    found.append((name[:-5], listed, count, remark))
    return found


def claims(name):
    """The claims of crates/figures/proofs/Hold.antt about the lists of a file, row by row, so that a row that fails has a name."""
    text = f"""-- Each row is as it is stated, and these are all rows.
use mathlib.Core.List.{{[]}}
use mathlib.Core.Path.{{_≡_, refl}}
use lib.Ieee.{{ofBits, toBits, div, ofInt}}
use lib.ListN.{{length, getD}}
use Rattle·reading.specs.Conversion.{{wattsOf}}
use Rattle·reading.specs.Choice.{{choiceOf}}
use Rattle·figures.specs.Rows.{{row}}
"""
    lists = {}
    for file, listed, count, _ in rows():
        if file == name:
            lists[listed] = count
    text += f"use Rattle·figures.specs.{name}.{{{', '.join(lists)}}}\n"
    for listed, count in lists.items():
        text += f"\nall-{listed} : length {listed} ≡ {count}\nunfolding {listed}\nall-{listed} = refl\n"
        more = "ofBits " if name in ("Partners", "Calls", "Seasons") else ""
        for i in range(count):
            law = f"row-{listed}-{i + 1}"
            text += f"\n{law} : getD {listed} {i} (row [] []) .given ≡ getD {listed} {i} (row [] []) .stated\n"
            text += f"unfolding {listed} {more}toBits div ofInt wattsOf choiceOf\n{law} = refl\n"
    return text


def one_crate(tree):
    """A tree with one crate of all crates' types, definitions and laws, and of the table: all but functions and their proofs."""
    room = os.path.join(tree, "crates", "meanings")
    lists = {"src": [], "specs": [], "proofs": []}
    for name in leaning():
        crate = os.path.join(ROOT, "crates", name)
        lib = os.path.join(crate, "src", "lib.rt")
        if name in WITHOUT or not os.path.isfile(lib):
            continue
        types = types_of(read(lib))
        if types:
            write(os.path.join(room, "src", name + ".rt"), types)
            lists["src"].append(f"mod {name};")
        for part in ("specs", "proofs"):
            for file in sorted(os.listdir(os.path.join(crate, part))):
                if file.endswith(".antt") and file[:-5] not in ["Lib", *OF_FUNCTIONS] and (name, file) != ("figures", "Hold.antt"):
                    write(os.path.join(room, part, f"{name}_{file}"), joined(read(os.path.join(crate, part, file))))
                    lists[part].append(f"pub mod {name}_{file[:-5]}")
    for name in dict.fromkeys(file for file, *_ in rows()):
        write(os.path.join(room, "proofs", f"figures_{name}.antt"), joined(claims(name)))
        lists["proofs"].append(f"pub mod figures_{name}")
    write(os.path.join(room, "src", "lib.rt"), "\n".join(lists["src"]) + "\n")
    write(os.path.join(room, "specs", "Lib.antt"), "\n".join(lists["specs"]) + "\n")
    write(os.path.join(room, "proofs", "Lib.antt"), "\n".join(lists["proofs"]) + "\n")
    write(os.path.join(tree, "crates.txt"), "meanings:\n")


def rt(tree):
    done = subprocess.run(
        ["rt", "dev", "meanings"], cwd=tree, stdout=subprocess.PIPE, stderr=subprocess.STDOUT, check=False, env=dict(os.environ, RT_JOBS="1", RT_CUT="0")
    )
    return done.returncode, done.stdout.decode("utf-8", "replace")


def unedited():
    """The tree before any edit, with what rt has made of it."""
    kit()
    tree = os.path.join(ROOM, "unedited")
    mark = os.path.join(tree, "made-of")
    made = digest(os.path.join(ROOT, "crates"), r"/(specs|proofs)/\w+\.antt$|/src/lib\.rt$")
    made += hashlib.sha256(read(os.path.abspath(__file__)).encode()).hexdigest()
    if not os.path.isfile(mark) or read(mark) != made:
        shutil.rmtree(tree, ignore_errors=True)
        one_crate(tree)
        status, said = rt(tree)
        write(os.path.join(tree, "log"), said)
        if status != 0:
            raise Fault("not all holds before any edit; build/meanings/unedited/log has why")
        write(mark, made)
    return tree


def by_definitions(meaning):
    """Which laws and which rows of the table fail: two answers, None where none does."""
    tree = fresh("edited")
    shutil.copytree(unedited(), tree)
    for name, text in tried(meaning).items():
        _, crate, part, file = name.split("/")
        if part == "specs":
            write(os.path.join(tree, "crates", "meanings", part, f"{crate}_{file}"), joined(text))
    # The rows of the file Calls take long to work out: they are asked where no other row fails.
    lib = os.path.join(tree, "crates", "meanings", "proofs", "Lib.antt")
    write(lib, read(lib).replace("pub mod figures_Calls\n", ""))
    status, said = rt(tree)
    if not re.search(r"/proofs/figures_\w+\.antt:\d+:\d+: error", said):
        write(lib, read(lib) + "pub mod figures_Calls\n")
        status, said = rt(tree)
    write(os.path.join(ROOM, "log", meaning.label + ".definitions"), said)
    if status == 0:
        return None, None
    why = f"{meaning.label}: the definitions do not stand; build/meanings/log/{meaning.label}.definitions has why"
    errors = re.findall(r"/crates/meanings/(\w+)/([a-z]+)_(\w+)\.antt:\d+:\d+: error: (?:`([^`]+)`: )?(.*)", said)
    if not errors or any(part != "proofs" for part, *_ in errors):
        raise Fault(why)
    laws, named, failed = [], [], []
    for _, crate, _, law, text in errors:
        row = re.match(r"row-(\w+)-(\d+)$", law) if crate == "figures" else None
        if row:
            failed.append((row.group(1), int(row.group(2))))
        elif "was not admitted" not in text:
            laws.append(f"{law} ({crate})")
        if law in NAMED.get(crate, []) and (crate, law) not in named:
            named.append((crate, law))
    by_laws = by_table = None
    if laws:
        by_laws = f"{laws[0]}; " + (", ".join(f"{law} ({crate})" for crate, law in named) or "no named theorem")
    if failed:
        remarks = {(listed, number): remark for _, listed, number, remark in rows()}
        listed, number = failed[0]
        more = len(set(failed)) - 1
        by_table = f"{listed} {number} ({remarks[failed[0]]})" + (f" and {more} more" if more else "")
    if not laws and not failed:
        raise Fault(why)
    return by_laws, by_table


# ---- the command


def seen(meaning, test, again=True):
    """What a test says of a meaning: as it was seen of these very files, or as it is seen now; or None where it is not to be seen now."""
    parts = r"/src/|/cases/std" if test == "cases" else r"/(specs|proofs)/\w+\.antt$|/src/lib\.rt$"
    key = hashlib.sha256(repr((digest(os.path.join(ROOT, "crates"), parts), meaning.edits)).encode()).hexdigest()
    path = os.path.join(ROOM, "seen", f"{meaning.label}.{test}")
    if os.path.isfile(path):
        was, *said = read(path).rstrip("\n").split("\n")
        if was == key:
            return said
    if not again:
        return None
    began = time.time()
    said = [by_cases(meaning)] if test == "cases" else list(by_definitions(meaning))
    said = [word or "-" for word in said]
    print(f"    {meaning.label}: {test}, {time.time() - began:.0f} s", file=sys.stderr, flush=True)
    write(path, "\n".join([key, *said]) + "\n")
    return said


def page(wanted):
    """The table of docs/MEANINGS.md."""
    crates = leaning()["cases"] + ["cases"]
    print("| Meaning | Rule | What is wrong | Theorems | Table | Cases |\n|---|---|---|---|---|---|")
    for m in wanted:
        laws, row = seen(m, "definitions", False) or ["not seen", "not seen"]
        (case,) = seen(m, "cases", False) or ["not seen"]
        first, _, named = laws.partition("; ")
        if named == "no named theorem":
            laws = first
        elif named:
            laws = "**" + named + "**"
        row = re.sub(r" \(.*\)( and \d+ more)?$", lambda more: (more.group(1) or ""), row)
        if case == "-" and not any(e[0].split("/")[1] in crates for e in m.code()):
            case = "not in them"
        print(f"| `{m.label}` | {m.rule} | {m.words} | {laws} | {row} | {case} |")


def main(words):
    tests = ["definitions", "cases"]
    paged = bool(words) and words[0] == "--page"
    if paged:
        words.pop(0)
    if words and words[0] in ("--cases", "--definitions"):
        tests = [words.pop(0)[2:]]
    known = meanings()
    for label in words:
        if label not in [m.label for m in known]:
            raise Fault(f"{label}: the list has no such meaning")
    wanted = [m for m in known if not words or m.label in words]
    for m in wanted:
        tried(m)
    if paged:
        page(wanted)
        return 0
    count = {"cases": 0, "theorems": 0, "table": 0, "nothing": 0}
    faults = 0
    for m in wanted:
        said = {}
        try:
            for test in tests:
                if test == "cases":
                    (said["cases"],) = seen(m, test)
                else:
                    said["theorems"], said["table"] = seen(m, test)
        except Fault as fault:
            print(f"{m.label} [{m.rule}]: CANNOT BE TRIED: {fault}", flush=True)
            faults += 1
            continue
        said = {test: word for test, word in said.items() if word != "-"}
        for test in said or ["nothing"]:
            count[test] += 1
        shown = " | ".join(f"{test}: {word}" for test, word in said.items())
        print(f"{m.label} [{m.rule}]: {shown or 'REFUSED BY NOTHING'}", flush=True)
    print(f"{len(wanted)} meanings; refused by " + ", ".join(f"{test}: {n}" for test, n in count.items()) + (f"; cannot be tried: {faults}" if faults else ""))
    if faults:
        return 2
    return 1 if count["nothing"] else 0


if __name__ == "__main__":
    try:
        sys.exit(main(sys.argv[1:]))
    except Fault as fault:
        print(f"meanings: {fault}", file=sys.stderr)
        sys.exit(2)
