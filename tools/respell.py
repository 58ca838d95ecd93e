#!/usr/bin/env python3
"""Words in snake case: brings this repository's own definitions and lemmas to that spelling, after port.py. Run once, at the top.

It takes each name that a file of specs/ or a file of lemmas defines, and that has a dash or a capital inside, and respells it wherever it stands:
in .antt and .rt files and in must-fail edits, and in the pages between backticks. Types, modules and functions of src/ keep their names.
"""
import collections, glob, re, sys

# names that would fall together with another one
BY_HAND = {
    "is-sound": "is_sound_lem",
    "is-legal": "is_legal_lem",
    "is-record": "is_record_lem",
    "last_out": "last_out_lem",
    "last-out": "last_out_lem",
    "set-getD-at": "set_get_or_at",
    "cutW": "cut_W",
    "lenA": "len_A", "lenK": "len_K", "lenW": "len_W", "lenL": "len_L", "lenR": "len_R",
    "outK": "out_K", "outL": "out_L", "ownK": "own_K", "lastK": "last_K", "isN": "is_N",
    "known-commandOf": "known_command_of",
}
# respelled by port.py already, in .antt and .rt files: for edits and pages
PORTED = """
after-call after-first after-is after-none again-spec agrees-after apart-by asks-of at-b back-below below-all below-more
bool-cases call-same callOf count-at decimal-digit digits-more either-way end-below end-same endOf first-below firstOf
fits-in front-out ids-set idsIn idsOf in-bytes in-is in-small in-within is-ok is-read isA
isLast kept-full kept-out keyOf laid-next laid-none laid-out last-out last-taken lastK lastOf left-out
leftAt lend-spec lineOf lines-more linesOf listed-at load-is load-spec main-spec more-parts moved-new movesOf
nextOf no-false noWord none-out not-sound noted-more number-append number-same numberOf of-calls one-found one-key
one-lent one-less one-line one-number one-table one-word one-written open-done out-below out-first out-within own-at
part-filled part-length partCount pick-spec pickOf place-end place-here placeOf put-byte put-front put-next put-spec
put-then put-written rank-below rank-most rank-same read-back readOf rest-goes results-fine run-spec same-A same-id
same-kept second-spec set-back sets-last sets-more sizeOf stands-at start-back starts-apart store-spec tableAt tableOf
take-all-spec taken-out turn-spec valueOf walk-end walkOf width-spec wordsOf yes-true one-told
""".split()
HEAD = re.compile(r"^(\s*)((?:(?:pub|abbrev|unfoldable|data|record)\s+)*)([^\s:(){}]+)((?:\s*[({].*)?)\s*:(?![=:])")
TOKEN = re.compile(r"[^\s(){}\[\].,;:\"«»`]+")


def snake(name):
    name = name.replace("-", "_")
    return re.sub(r"(?<=[a-z0-9])([A-Z])", lambda m: "_" + m.group(1).lower(), name)


def odd(name):
    return "-" in name or re.search(r"[a-z][A-Z]", name)


lemma_files = glob.glob("crates/*/specs/*.antt") + glob.glob("crates/*/proofs/*.antt")
proof_files = [f for f in glob.glob("crates/*/proofs/**/*.antt", recursive=True) if f not in lemma_files]
names = {}
for f in lemma_files:
    for line in open(f):
        m = HEAD.match(line)
        if m and not m.group(3).startswith("--") and odd(m.group(3)) and not re.match(r"[A-Z][a-z]", m.group(3)):
            names[m.group(3)] = snake(m.group(3))
for f in glob.glob("crates/*/src/*.rt"):
    for name in re.findall(r"\bfn (\w+)", open(f).read()):
        dashed = name.replace("_", "-")
        names[dashed + "-spec"] = name + "_spec"
        names["+" + dashed + "-spec"] = "+" + name + "_spec"
names.update(BY_HAND)


texts = {name: snake(name) for name in PORTED} | names


def respell(text, names=names):
    return TOKEN.sub(lambda m: names.get(m.group(0), m.group(0)), text)


def page(text):
    return re.sub(r"`[^`\n]+`", lambda m: respell(m.group(0), texts), text)


changed = 0
for f in lemma_files + proof_files + glob.glob("crates/*/src/*.rt") + glob.glob("crates/*/must-fail/*.edit") + glob.glob("*.md") + glob.glob("docs/**/*.md", recursive=True):
    old = open(f).read()
    new = page(old) if f.endswith(".md") else respell(old, texts if f.endswith(".edit") else names)
    if new != old:
        changed += 1
        open(f, "w").write(new)
print(f"respell: {len(names)} names, {changed} files")
if "-v" in sys.argv:
    for a, b in sorted(names.items()):
        print(a, "->", b)
