#!/usr/bin/env python3
"""Spells the repository's own definitions and lemmas in snake case, once, right after the kit's port.py.

usage: python3 tools/respell.py [--dry] [FOLDER]     at the top of the repository, or of the copy in FOLDER

What port.py leaves: names such as countOf and area-below that specs/ and proofs/ declare. They become count_of and area_below, in the files of
antt, in the clauses and `ghost use` items of .rt files, in the edits that must be refused and in code spans of the pages. A lemma that would get the name
of a definition ends in _lem. Crate `log` becomes `session_log`, since the kit has a library `log`. Functions and fields of src/ keep their names,
and so do the answers of proof files, which are named after their goals.
"""

import collections
import os
import re
import sys

PLAIN = [w for w in sys.argv[1:] if not w.startswith("--")]
ROOT = PLAIN[0] if PLAIN else "."
DRY = "--dry" in sys.argv
WORD = re.compile(r'[^\s(){}.;,@"«»`|\[\]]+')
TOKEN = re.compile(r'[^\s(){};,@"«»`|\[\]]+')
DECLARED = re.compile(
    r'^( *)((?:(?:abbrev|unfoldable|pub|data|record|ruleset)\s+)*)([^\s(){}.;,@"«»:]+(?: [^\s(){}.;,@"«»:]+)*)((?: \{[^{}\n]*\}| \([^()\n]*\))*) :(?: |$)(.*)'
)
RULESET = re.compile(r"^(?:pub )?ruleset (?:pub )?(\S+)")
USE = re.compile(r"^(?:ghost )?use ([^\s;{]+?)(?:\.\{([^}]*)\})?(?: as ([^\s;]+))?;?$", re.M)
# Names that port.py respells itself, as the kit's library has them; in the edits and pages they are turned here.
PORTED = """
add-at add-start addresses-apart agree-at alike-same all-fit all-left all-read all-there allBytes and-left and-right answer-at answer-back answerIn
answerOf at-flag at-front at-own at-set at-set-other at-tail bits-most bits-none both-hold bytes-whole bytesOf call-known call-long call-same callAt
callOf calls-same cell-below cells-are cons-take copy-spec count-next count-same countOf counted-is counted-same data-is dataOf each-row either-way
end-is end-same endOf entries-fit entry-known entry-length entry-place entry-ready entryAt entryOf equal-words fetch-spec fewer-digits fieldsOf
fill-spec filled-next finish-spec first-entry flag-is flag-same found-back found-within frame-refused frame-same from-is front-bytes front-kept
front-length full-size given-out going-done going-next going-start handed-out hands-out headOf held-stays hidden-before in-head is-read kept-at
kind-at kindOf laid-both laid-kept laid-none laid-out lastOf left-is left-over length-none lengthAt lessOne like-one list-put list-same listed-next
listed-start main-spec mayRead mayWrite new-meets new-spec new-walks nextOf no-answer no-kind no-room none-before none-first none-left none-read
not-hidden not-written nothing-run number-append number-fits number-same number-small numberAt numberOf offsetOf on-read on-room one-bit one-fewer
one-input one-more one-right ones-small or-left orElse other-entries out-of-range part-bytes part-length part-none part-same partAt partsOf passes-at
place-is place-same placeOf places-row put-all put-in put-spec put-then put-whole read-back read-count read-first read-none read-same reads-same
record-is refusal-is row-at row-keeps row-next row-written rowOf run-small run-spec same-answer same-body same-count same-length same-line same-log
sameList side-by-side size-is size-same stage-is start-first start-is start-none start-small startOf stateOf step-same store-spec stores-at sub-at
to-part too-long too-short trying-start under-whole valuesOf walking-start whole-of written-none written-same writtenOfenum-told
""".split()
# A lemma that port.py gave the name that a definition gets here.
BY_HAND = {"entry_place": "entry_place_lem"}


def texts(endings):
    for folder, dirs, files in os.walk(os.path.join(ROOT, "crates")):
        dirs[:] = sorted(d for d in dirs if d != "out")
        for f in sorted(files):
            if f.endswith(endings):
                yield os.path.join(folder, f)


def read(path):
    with open(path, encoding="utf-8") as f:
        return f.read()


def write(path, text):
    if not DRY and text != read(path):
        with open(path, "w", encoding="utf-8") as f:
            f.write(text)


def snake(name):
    return re.sub(r"(?<=[A-Za-z0-9])[A-Z]", lambda m: "_" + m[0].lower(), name).replace("-", "_")


def own_crates():
    return set(os.listdir(os.path.join(ROOT, "crates")))


def is_own(path, crates):
    steps = path.split(".")
    return steps[0] == "Rattle" and len(steps) > 1 and steps[1] in crates


def spelled_alike(name):
    return "-" in name.strip("-") or re.search(r"[a-z0-9][A-Z]", name)


def collect():
    declared = set()
    for path in texts(".antt"):
        for line in read(path).split("\n"):
            m = DECLARED.match(line)
            r = RULESET.match(line)
            if not r and (not m or re.match(r"(tie|goal)\.", m[5])):
                continue
            for name in [r[1]] if r else m[3].split():
                if name[0].islower() and spelled_alike(name):
                    declared.add(name)
    return declared


def table(declared, taken):
    rows = {}
    by_new = collections.defaultdict(list)
    for old in sorted(declared):
        by_new[snake(old)].append(old)
    for new, olds in by_new.items():
        olds.sort(key=lambda o: ("-" in o, o))
        for i, old in enumerate(olds):
            clash = i > 0 or new in taken and "-" in old
            rows[old] = new + "_lem" if clash else new
            if new in taken or i > 0:
                print(f"together: {old} -> {rows[old]}")
    return rows


class Turner:
    def __init__(self, rows, crates):
        self.rows, self.crates = rows, crates

    def of_file(self, text):
        """The names that this file brings in from a library, which stay, and the names of its own modules."""
        stays, modules = set(), set()
        for path, items, alias in USE.findall(text):
            if is_own(path, self.crates):
                if not items:
                    modules.add(alias or path.split(".")[-1])
                continue
            for item in items.split(","):
                stays.add(item.strip().split(" as ")[-1].strip())
        return stays, modules

    def token(self, m, stays, modules):
        parts = m[0].split(".")
        out = []
        for i, part in enumerate(parts):
            bare = part.rstrip("'")
            new = self.rows.get(part) or (self.rows[bare] + part[len(bare) :] if bare in self.rows else None)
            if new is None or i == 0 and part in stays:
                out.append(part)
            elif (i or m.start() and m.string[m.start() - 1] == ")") and "-" in part and not self.is_ours(parts, part, modules):
                out.append(part)
            else:
                out.append(new)
        return ".".join(out)

    def is_ours(self, parts, part, modules):
        """Whether a name behind a dot is of our own modules or records; of a page, any is."""
        return modules is None or parts[0] == "Rattle" and parts[1] in self.crates or parts[0] in modules or part in self.fields

    def code(self, text, stays, modules):
        return TOKEN.sub(lambda m: self.token(m, stays, modules), text)

    def spans(self, text, stays=frozenset(), modules=None):
        return re.sub(r"`[^`\n]+`", lambda m: "`" + self.code(m[0][1:-1], stays, modules) + "`", text)

    def antt(self, text):
        stays, modules = self.of_file(text)
        lines = []
        for line in text.split("\n"):
            m = re.search(r"(?:^|(?<=\s))--(?:\s|$)", line)
            code, comment = (line[: m.start()], line[m.start() :]) if m else (line, "")
            lines.append(self.code(code, stays, modules) + self.spans(comment, stays, modules))
        return "\n".join(lines)

    def rt(self, text):
        stays, modules = self.of_file(text)
        lines = []
        for line in text.split("\n"):
            comment = line.lstrip().startswith("//")
            if comment:
                lines.append(self.spans(line, stays, modules))
            else:
                lines.append(self.code(line, stays, modules))
        return "\n".join(lines)


def without_imports(text):
    return "\n".join(re.split(r"(?:^|(?<=\s))--(?:\s|$)", line)[0] for line in text.split("\n") if not line.startswith("use "))


def fields():
    """The names that records declare as fields."""
    found = set()
    for path in texts(".antt"):
        depth = None
        for line in read(path).split("\n"):
            indent = len(line) - len(line.lstrip())
            if m := re.match(r"( *)(?:(?:abbrev|unfoldable|pub)\s+)*record\s", line):
                depth = len(m[1])
            elif line.strip() and depth is not None and indent <= depth:
                depth = None
            elif depth is not None and (m := re.match(r'\s+(?:pub\s+)?([^\s(){}.;,@"«»:]+) :', line)):
                found.add(m[1])
    return found


def rename_log():
    """Crate `log` is `session_log`: the kit has a library of that name."""
    old, new = os.path.join(ROOT, "crates", "log"), os.path.join(ROOT, "crates", "session_log")
    if os.path.isdir(old) and not DRY:
        os.rename(old, new)
    for path in texts((".antt", ".rt", ".edit")):
        text = read(path)
        text = re.sub(r"\bRattle\.log\.", "Rattle.session_log.", text)
        text = re.sub(r"(?<![\w:])log::(?=[a-z])", "session_log::", text)
        write(path, text)
    path = os.path.join(ROOT, "crates.txt")
    lines = []
    for line in read(path).split("\n"):
        if not line.startswith("#"):
            line = re.sub(r"(?<![\w])log(?![\w])", "session_log", line)
        lines.append(line)
    write(path, "\n".join(lines))


def main():
    rename_log()
    crates = own_crates()
    declared = collect()
    taken = {token.split(".")[0] for path in texts(".antt") for token in TOKEN.findall(without_imports(read(path)))}
    rows = table(declared, taken)
    rows.update(BY_HAND)
    turner = Turner(rows, crates)
    turner.fields = {f for f in fields() if f in rows}
    for path in texts(".antt"):
        write(path, turner.antt(read(path)))
    for path in texts(".rt"):
        write(path, turner.rt(read(path)))
    turner.rows |= {name: snake(name) for name in PORTED if name not in turner.rows}
    for path in texts(".edit"):
        write(path, turner.code(read(path), set(), None))
    for folder in ("tests/models",):
        for f in sorted(os.listdir(os.path.join(ROOT, folder))):
            path = os.path.join(ROOT, folder, f)
            write(path, turner.code(read(path), set(), None))
    for page in ["README.md"] + ["docs/" + f for f in sorted(os.listdir(os.path.join(ROOT, "docs")))] + ["examples/README.md"]:
        path = os.path.join(ROOT, page)
        if page.endswith(".md") and not page.startswith("docs/PORT") and os.path.exists(path):
            write(path, turner.spans(read(path)))
    print(f"respell: {len(rows)} names")


main()
