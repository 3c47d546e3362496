#!/usr/bin/env python3
"""Plants bugs in the code, one at a time, and tells which of them the prover lets through.

    tools/plant_bugs.py [--list] [--most N] [--jobs N] [--copy FOLDER] [--table FILE] [CRATE ..]

Every planted bug is an edit of one place in crates/CRATE/src. Most are made by the rules below from the lines of function
bodies; tools/plants.txt lists more. The edits go into the must-fail/ folders of a copy of the repository, never of the
repository itself. There `rt must-fail` tries them, crate by crate. Of each edit that is refused in a function whose proof
has files of its own, the whole check is read once more: if these files only lack a name that the edit took away, the
edit is `unfit`, and shows nothing. At the end a table of all edits and their results is printed.

    CRATE         only these crates (else every crate with a folder must-fail/)
    --list        only list the edits
    --most N      at most N edits by the rules in a file (3 if left out; a file gets one for each 14 lines of its functions)
    --jobs N      provers side by side (2 if left out)
    --copy FOLDER where the copy stands (/tmp/planted-bugs if left out); a second run there is quicker
    --table FILE  writes the table there too
"""

import argparse
import os
import re
import shutil
import subprocess
import sys
import tempfile
import time
import zlib
from collections import Counter, namedtuple
from concurrent.futures import ThreadPoolExecutor

ROOT = os.path.dirname(os.path.dirname(os.path.abspath(__file__)))

# What is planted: a crate, a file below it, a line, the function, whether it is private, a rule's name, and what to write for what.
Plant = namedtuple("Plant", "crate file line function private rule old new")
Line = namedtuple("Line", "number function private text names")

# Names of one type that stand for each other.
PARTNERS = """width height, lanes depth, depth capacity, source target, target demand, start end, from to, x y, level upright, first count,
value next, place next, tiles links, links lanes, low high, low middle, middle high, at place, from place, up down, last previous,
streams hops, fragment row, band row, value place, p q, v w, number place, number count, place so_far, link tile, row k, k place"""
PARTNERS = [it.split() for it in PARTNERS.replace("\n", " ").split(", ")]

# Enums, with cases that stand for each other.
CASES = {
    "Refusal": "GridSize MeshSize BadEndpoints ZeroAmount HopCount TooFewSlots NoSuchStream NotOpen AlreadyOpen OffGrid NoRoute LaneFull LaneEmpty Held BadHead TrailingBytes NumberCut NumberForm BufferTooShort ItemsOnGrid WrongStart WrongEnd NoTurn LaneTooLow RepeatedLink OverCapacity",
    "Mistake": "UnknownCommand MissingWord ExtraWord UnknownRule NotANumber NumberTooLarge NotAHop UnknownMeasure NotBytes NoMesh NoGrid OutOfMemory",
    "Turn": "Never Free Climb",
    "TurnRule": "Xy WestFirst NorthLast NegativeFirst",
    "Direction": "East West North South",
    "Kind": "Blank Hash Letter",
    "MeasureName": "Total Peak",
}


def after(name, enum):
    """The case behind this one, round the list."""
    names = CASES[enum].split()
    return names[(names.index(name) + 1) % len(names)] if name in names else None


def whole(pattern, change):
    """A rule that changes each place where the pattern stands, one at a time."""

    def edits(text):
        for found in re.finditer(pattern, text):
            new = change(found)
            if new is not None and new != found.group(0):
                yield text[: found.start()] + new + text[found.end() :]

    return edits


def variables(text, names, fields):
    """Puts another name of the same type in the place of one, where the function has a variable or the file a field of that name."""
    left = re.match(r"(let (mut )?[^=]+ = )?", text).group(0)
    for found in re.finditer(r'(?<![\w:"])((?<!\.)\.|)(\w+)\b(?![(:\w"])', text[len(left) :]):
        dot, name = found.groups()
        for pair in PARTNERS:
            other = pair[1 - pair.index(name)] if name in pair else None
            if other in (fields if dot else names):
                at = len(left) + found.start(2)
                yield text[:at] + other + text[at + len(name) :]


def pairs(text):
    """Changes two arguments over that stand beside each other."""
    for found in re.finditer(r"(?<=[(, ])\b(?<!\{ )(\w+), (\w+)(?=[,)])", text):
        if sorted(found.groups()) in [sorted(it) for it in PARTNERS]:
            yield text[: found.start()] + f"{found.group(2)}, {found.group(1)}" + text[found.end() :]


def arm(rule):
    """A rule for what stands behind the `=>` of a match, or for the whole line where there is none."""

    def edits(text):
        left, arrow, right = text.rpartition("=> ")
        return (left + arrow + new for new in rule(right))

    return edits


VARIABLE = "another variable or field"
FLIPPED = {" < ": " <= ", " <= ": " < ", " > ": " >= ", " >= ": " > ", " == ": " != ", " != ": " == ", " && ": " || ", " || ": " && "}
OTHERS = {" + ": " - ", " - ": " + ", " * ": " + ", " / ": " % ", " % ": " / "}
WORDS = {"min": "max", "max": "min", "is_some": "is_none", "is_none": "is_some", "true": "false", "false": "true", "start": "end", "end": "start"}

RULES = [
    ("another comparison", whole(r" (<|<=|>|>=) ", lambda m: FLIPPED[m.group(0)])),
    ("equal for unequal", whole(r" (==|!=) ", lambda m: FLIPPED[m.group(0)])),
    ("and for or", whole(r" (&&|\|\|) ", lambda m: FLIPPED[m.group(0)])),
    ("if inverted", whole(r"\bif !", lambda m: "if ")),
    ("if inverted", whole(r"^if (?!let|!)(.+) \{$", lambda m: f"if !({m.group(1)}) {{")),
    ("one more or less left out", whole(r" [+-] 1\b", lambda m: "")),
    ("another operator", whole(r" [+*/%-] ", lambda m: OTHERS[m.group(0)])),
    ("another constant", whole(r"(?<![\w.])(?<!; )(?!(?<=: )0)\d+\b", lambda m: str(int(m.group(0)) + 1))),
    ("another word", whole(r"\b(min|max|is_some|is_none|true|false)\b", lambda m: WORDS[m.group(0)])),
    ("another call", arm(whole(r"\.(start|end)\((?=[a-z])", lambda m: f".{WORDS[m.group(1)]}("))),
    ("another case", arm(whole(rf"\b({'|'.join(CASES)})::(\w+)", lambda m: (lambda it: it and f"{m.group(1)}::{it}")(after(m.group(2), m.group(1)))))),
    ("arguments changed over", arm(pairs)),
    ("a sum forgets what was", whole(r" \+= (?=.+;)", lambda m: " = ")),
    ("a write left out", whole(r"^(?!let )([\w.\[\]():* +]+) = (?!\1;)(.+);$", lambda m: f"{m.group(1)} = {m.group(1)};")),
    ("another index", whole(r"\[k\]", lambda m: "[0]")),
    ("negation left out", whole(r"(?<=[(\s|])!(?=[\w(])", lambda m: "")),
    ("the last left out", whole(r"\.\.count\b(?!\.)", lambda m: "..count - 1")),
    ("the first left out", whole(r"\b0\.\.", lambda m: "1..")),
]


def body_lines(text):
    """The lines of function bodies: no comments, contracts, ghost items, imports or declarations of types. With each the names above it."""
    function, indent, inside = "", "", False
    for at, line in enumerate(text.split("\n")):
        head = re.match(r"( *)(pub(?:\(crate\))? )?fn (\w+)", line)
        if head and not inside:
            indent, private, function = head.group(1), head.group(2) != "pub ", head.group(3)
            inside = line.endswith(" {")
            names = set()
        elif function and not inside and line == indent + "{":
            inside = True
        elif inside and line == indent + "}":
            inside, function = False, ""
        elif inside and not re.match(r"\s*(//|#\[|use |ghost |requires |ensures |prove!|$)", line):
            yield Line(at + 1, function, private, line.strip(), names)
        if function and not re.match(r"\s*(//|ghost |requires |ensures )", line):
            names = names | set(re.findall(r"(?<![.\w:])[a-z_]\w*\b(?!::|\()" + ("(?!:)" if inside and not head else ""), line))


def read(path):
    with open(path, encoding="utf-8") as it:
        return it.read()


def write(path, text):
    with open(path, "w", encoding="utf-8") as it:
        it.write(text)


def parsed(text):
    """The pairs of an edit, as (file, old, new)."""
    file = old = ""
    for line in text.split("\n"):
        key, _, rest = line.partition(": ")
        if line.startswith("file: "):
            file = rest.strip()
        elif line.startswith("old: "):
            old = rest
        elif line.startswith("new:"):
            yield file, old, line[len("new:") :].removeprefix(" ")


def known_edits(folder):
    """What the edits of must-fail/ make of each file, and the lines that they touch."""
    made, touched = set(), set()
    for name in sorted(os.listdir(f"{folder}/must-fail")):
        texts = {}
        for file, old, new in parsed(read(f"{folder}/must-fail/{name}")) if name.endswith(".edit") else ():
            was = texts.get(file) or read(f"{folder}/{file}")
            touched.add((file, was.count("\n", 0, was.find(old)) + 1))
            texts[file] = was.replace(old, new)
        made |= set(texts.items())
    return made, touched


def by_rules(crate, folder, most, made, touched, taken):
    """A spread of edits by the rules: of each file some, first in functions that no edit of must-fail/ touches, and by many rules."""
    used = Counter()
    rules = [*RULES, (VARIABLE, None)]
    for name in sorted(os.listdir(f"{folder}/src")):
        file = f"src/{name}"
        text = read(f"{folder}/{file}")
        lines = [] if name == "tests.rt" else list(body_lines(text))
        seen = {line.function for line in lines if (file, line.number) in touched}
        fields = set(re.findall(r"\.([a-z]\w*)\b(?!\()", " ".join(it.text for it in lines)))
        groups = {}
        for line in lines:
            # (where a condition changes, so do the names that the function's proof files cite)
            named = line.text.startswith(("if ", "while ", "} else if ")) and has_proof_files(folder, line.function)
            for rule, edits in rules if text.count(line.text) == 1 and not named and not re.fullmatch(r"\w+,", line.text) else ():
                for new in edits(line.text) if rule != VARIABLE else arm(lambda it: variables(it, line.names, fields))(line.text):
                    plant = Plant(crate, file, line.number, line.function, line.private, rule, line.text, new)
                    if (file, text.replace(line.text, new)) not in made and (file, line.text, new) not in taken:
                        taken.add((file, line.text, new))
                        groups.setdefault(line.function, []).append(plant)
        order = sorted(groups, key=lambda it: (it in seen, not groups[it][0].private, groups[it][0].line))
        left = min(most, -(-len(lines) // 14))
        hit = Counter()
        while left and any(groups.values()):
            for function in order:
                if left and groups[function]:
                    # of the lines and rules the least used, and else by a sum that is the same in every run
                    best = min(groups[function], key=lambda it: (hit[it.line], used[it.rule], zlib.crc32(it.new.encode())))
                    groups[function] = [it for it in groups[function] if it.line != best.line or it.rule != best.rule]
                    used[best.rule] += 1
                    hit[best.line] += 1
                    left -= 1
                    yield best


def listed(root, crate, made):
    """A crate's edits of tools/plants.txt, but those of must-fail/: lines `CRATE src/FILE`, then pairs `old: ` and `new: `."""
    of = file = old = ""
    for line in read(f"{root}/tools/plants.txt").split("\n"):
        if line.startswith("old: "):
            old = line[len("old: ") :]
        elif line.startswith("new:") and of == crate:
            new = line[len("new:") :].removeprefix(" ")
            text = read(f"{root}/crates/{crate}/{file}")
            if text.count(old) != 1:
                sys.exit(f"tools/plants.txt: in {crate}/{file} this stands {text.count(old)} times: {old}")
            number = text.count("\n", 0, text.find(old)) + 1
            told = next((it for it in body_lines(text) if it.number == number), None)
            if (file, text.replace(old, new)) not in made:
                yield Plant(crate, file, number, told.function if told else "", bool(told and told.private), "listed", old, new)
        elif line and not line.startswith(("#", "new:")):
            of, file = line.split()


def label(plant):
    sum = zlib.crc32(plant.new.encode()) & 0xFFFF
    return f"{plant.file[4:-3]}_{plant.line}_{plant.rule.replace(' ', '_')}_{sum:04x}"


def copy_of(root, to, plants):
    """Brings the copy up to date, but what was proved there, with the plants in the place of its own edits."""
    os.makedirs(f"{to}/crates", exist_ok=True)
    for name in ("crates.txt", "HANDLES"):
        if os.path.isfile(f"{root}/{name}"):
            shutil.copy(f"{root}/{name}", to)
    for crate in sorted(os.listdir(f"{root}/crates")):
        for part in ("src", "specs", "proofs"):
            if os.path.isdir(f"{root}/crates/{crate}/{part}"):
                shutil.rmtree(f"{to}/crates/{crate}/{part}", ignore_errors=True)
                shutil.copytree(f"{root}/crates/{crate}/{part}", f"{to}/crates/{crate}/{part}")
        shutil.rmtree(f"{to}/crates/{crate}/must-fail", ignore_errors=True)
    for plant in plants:
        folder = f"{to}/crates/{plant.crate}/must-fail"
        os.makedirs(folder, exist_ok=True)
        write(f"{folder}/{label(plant)}.edit", f"file: {plant.file}\nold: {plant.old}\nnew: {plant.new}\n")


def run(words, folder, jobs):
    ran = subprocess.run(words, cwd=folder, stdout=subprocess.PIPE, stderr=subprocess.STDOUT, errors="replace", env={**os.environ, "RT_JOBS": str(jobs)})
    return ran.returncode, ran.stdout


def result_of(said):
    """From what `rt must-fail` says of an edit: the result, and the goal that failed or the reason."""
    if "BAD EDIT" in said:
        return "did not compile", next((it for it in re.findall(r"error.*", said)), said)[:120]
    if "NOT REFUSED" in said:
        return "still proved", ""
    if "only because a proof file names" in said:
        return "unfit", "a proof file names what is gone"
    if "refused, as it must be" in said:
        goal = re.search(r"\(`([^`]+)`\)", said)
        where = re.search(r"(?:\./)?(proofs/\S+?\.antt):(\d+):\d+: error: `([^`]*)`", said)
        told = f"`{goal.group(1)}`" if goal else f"`{where.group(3)}` ({where.group(1)})" if where else re.sub(r"^.*?as it must be:? ?", "", said)[:100]
        return ("refused at a limit" if "only by a limit" in said else "refused"), told
    return "not tried", said[:120]


def has_proof_files(folder, function):
    return any(os.path.basename(at) == function and files for at, _, files in os.walk(f"{folder}/proofs"))


def is_doubtful(said):
    """Whether an edit may be refused for a name alone: no values were found at which a fact fails, and what is told first is no answer of a proof file."""
    return "refused, as it must be: note: src/" in said and "; the facts known" not in said


def sum_of(folder):
    """A sum of all that a crate's check reads of the crate."""
    files = sorted(f"{at}/{name}" for part in ("src", "specs", "proofs") for at, _, names in os.walk(f"{folder}/{part}") for name in names)
    return zlib.crc32("".join(it + read(it) for it in files).encode())


def second_look(to, plant, lane, sum):
    """Checks the crate with the edit, and tells the name that a proof file lacks since the edit took it away, if there is one."""
    folder, kept = f"{to}/look-{lane}/crates/{plant.crate}", f"{to}/looks/{plant.crate}-{label(plant)}-{sum:08x}.log"
    if not os.path.isfile(kept):
        text = read(f"{folder}/{plant.file}")
        write(f"{folder}/{plant.file}", text.replace(plant.old, plant.new))
        _, said = run(["rt", "check"], folder, 1)
        write(f"{folder}/{plant.file}", text)
        write(kept, said)
    said = read(kept)
    gone = re.search(r"^(?:\./)?proofs/.*?: error.*?(has no field `?[^`\n]*`?|is not in scope|has no `[^`]+`)", said, re.M)
    # (values at which a fact fails show that it is false, whatever the proof files say)
    return gone.group(0)[-80:] if gone and "the facts known there allow values" not in said else None


def main():
    asks = argparse.ArgumentParser(usage="tools/plant_bugs.py [options] [CRATE ..]", description=__doc__, formatter_class=argparse.RawDescriptionHelpFormatter)
    asks.add_argument("crates", nargs="*")
    asks.add_argument("--list", action="store_true")
    asks.add_argument("--most", type=int, default=3)
    asks.add_argument("--jobs", type=int, default=2)
    asks.add_argument("--copy", default=os.path.join(tempfile.gettempdir(), "planted-bugs"))
    asks.add_argument("--table")
    asked = asks.parse_args()
    order = [line.split(":")[0].split()[0] for line in read(f"{ROOT}/crates.txt").split("\n") if line and line[0] != "#"]
    crates = [it for it in order if os.path.isdir(f"{ROOT}/crates/{it}/must-fail") and (not asked.crates or it in asked.crates)]
    plants = []
    for crate in crates:
        folder = f"{ROOT}/crates/{crate}"
        made, touched = known_edits(folder)
        own = list(listed(ROOT, crate, made))
        plants += own + list(by_rules(crate, folder, asked.most, made, touched, {(it.file, it.old, it.new) for it in own}))
    plants.sort(key=lambda it: (order.index(it.crate), it.file, it.line, it.rule, it.new))
    if asked.list:
        for it in plants:
            print(f"{it.crate}/{it.file}:{it.line} {it.function} [{it.rule}]\n    {it.old}\n    {it.new}")
        print(f"{len(plants)} edits: {dict(Counter(it.crate for it in plants))}")
        return 0
    begun, results, done = time.time(), {}, []
    copies(ROOT, asked.copy, asked.jobs, plants)
    for crate in [it for it in crates if any(plant.crate == it for plant in plants)]:
        since = time.time()
        own = tried(crate, [it for it in plants if it.crate == crate], asked.copy, asked.jobs)
        counts = Counter(it for it, _ in own.values())
        print(f"{crate}: {', '.join(f'{n} {it}' for it, n in counts.most_common())}; in {time.time() - since:.0f} s, {time.time() - begun:.0f} s so far", file=sys.stderr, flush=True)
        results.update(own)
        done.append(crate)
        table = table_of(done, results)
        if asked.table:
            write(asked.table, table + "\n")
    print(table)
    return 0


def copies(root, to, jobs, plants):
    """A copy of the repository with all plants, and one without for each second look that goes on at a time."""
    copy_of(root, f"{to}/tries", plants)
    for lane in range(jobs):
        copy_of(root, f"{to}/look-{lane}", [])
    os.makedirs(f"{to}/looks", exist_ok=True)


def tried(crate, plants, to, jobs):
    """The results of a crate's edits, with what was not proved."""
    status, said = run(["rt", "check"], f"{to}/tries/crates/{crate}", jobs)
    if status:
        sys.exit(f"{crate} is not proved as it stands:\n{said[-2000:]}")
    _, said = run(["rt", "must-fail", crate], f"{to}/tries", jobs)
    told = {it.split(".edit: ")[0]: it for it in re.split(rf"^rt: must-fail {crate}/", said, flags=re.M)[1:]}
    results = {it: result_of(told.get(label(it), "nothing was said")) for it in plants}
    folder = f"{ROOT}/crates/{crate}"
    doubtful = [it for it in plants if is_doubtful(told.get(label(it), "")) and has_proof_files(folder, it.function)]
    look = lambda lane: [(it, second_look(to, it, lane, sum_of(folder))) for it in doubtful[lane::jobs]]
    with ThreadPoolExecutor(jobs) as pool:
        looks = sum(pool.map(look, range(jobs)), [])
    return {**results, **{it: ("unfit", gone) for it, gone in looks if gone}}


def cell(text):
    return text.replace("|", "\\|")


def code(text):
    return f"`` {cell(text)} ``" if "`" in text else f"`{cell(text)}`"


def table_of(crates, results):
    lines = ["| where | edit | result | what was not proved |", "|---|---|---|---|"]
    for it, (result, goal) in results.items():
        lines.append(f"| {it.crate}/{it.file[4:]}:{it.line} {it.function} | {code(it.old)} → {code(it.new) if it.new else 'nothing'} | {result} | {cell(goal)} |")
    kinds = ["refused", "refused at a limit", "still proved", "unfit", "did not compile", "not tried"]
    lines += ["", f"| crate | planted | {' | '.join(kinds)} |", "|---" * (len(kinds) + 2) + "|"]
    for name, own in [*((crate, [it for it in results if it.crate == crate]) for crate in crates), ("all", list(results))]:
        counts = Counter(results[it][0] for it in own)
        lines.append(f"| {name} | {len(own)} | {' | '.join(str(counts[it]) for it in kinds)} |")
    return "\n".join(lines)


if __name__ == "__main__":
    sys.exit(main())
