#!/usr/bin/env python3
"""Prints the places of the eight points of docs/DESIGN-PASS.md, one a line, and how many each point has.

usage: python3 tools/places.py [COMMIT]     at the top of the repository; without COMMIT, of the files as they stand

A line is `point crate/file:line [what] text`; a line of code can be a place of more than one kind. The crate entry_c is left out: it says the entries of the crate entry again, for C.
Loops that walk, whose step is read from the bytes, are printed under `-` and not counted.
"""
import collections
import glob
import io
import re
import subprocess
import sys
import tarfile

REFUSING = r"(?:Refused|Fault|Bad|Missing|Outgrown)"
# What stands behind the arrow where a refusal is handed on as it came.
HANDS_ON = rf"::{REFUSING}\b|\b(?:refused|fault|bad|not_read|refused_end|fault_at)\(|return r;"
# Functions that say by 0 (`passed`: by BINDERS) that there is nothing, where no clause `0 < result → ..` tells it.
SAY_NOTHING = "code_of first_fault passed".split()
# Small numbers that are sizes, limits or masks, and number no kinds.
NO_KINDS = "ROW SIZE FIRST_PARTS FIELDS LONGEST_NAME LONGEST_ATOM TAG NAME PART DIGIT ABS_BODY PAIR_BODY LEFT RIGHT BRANCHES".split()
# Parameters and fields that hold the number of a kind or of a refusal.
KINDS = r"\b(?:number: u8|(?:kind|act|call|tag): (?:u8|usize))"
BY_NUMBER = (r"\b(?:tag|kind|act|call|carries|mark) (?:==|<=?) (?:\d+|[A-Z]\w+)|\d+ < (?:tag|kind|call)\b|== INL\b"
             r"|\bnumber (?:<|==) (?:8|9|15) |match (?:tag|call|s\[at\])(?: % 16)? \{|put_row\(rows, used, \d")
# Twins by name, where the bodies differ in more than names and numbers: a step more, another type of what is told.
# Each is looked for in the files: what isn't there isn't printed.
TWINS = """
rules Answer, step Normality, straight Verdict, extract Extraction
reader Skip, reader Read, proof Reading, proof Conclusion
reader fault, reader bad
reader check_term, reader check_formula, proof check_proof
free come_to, substitution come_to, proof come_to, words places
entry tell_verdict, entry tell_normal
words long_name, words few, words name
words number, words word
reader go_ahead, redex go_calmly
reader skip_name, reader plain_end
term skip, term span
words put_decimal, draft put_digits
buffer clear, reader mark, proof_draft clear_rows, vectors fill
buffer copy, reader put_tags, draft put_lower
"""
# By hand what the library has, where no pattern tells it.
BY_HAND = {
    "equality": "free same_at, vectors entry_is",
    "order": "free Stands, free order_at",
    "conversion": "rules lower_byte, vectors wide, vectors number, reader longest_name, draft tag_of, proof carried_by, proof read_tag, proof told"
                  ", proof read_formulas, contraction of_put, extract end_of, step step_read, step is_normal, straight is_straight, term child_fault",
    "printing": "program put_field, program put_refusal, program put_three, program put_normal, program put_counts",
}
# Sorted or listed names, searched by hand.
SEARCHED = "free slot_for, free passed, free find_or_put, free open_at, reader is_among, reader is_listed"
LOOP = r"(while (.*)|loop)"
# What a switch asks for.
CODE = r"(?:tag|kind|call|k)"


class Function:
    def __init__(self, path, line, head, body_line, body):
        self.path, self.line, self.body_line, self.body = path, line, body_line, body
        self.crate = path.split("/")[0]
        self.head = head
        self.name = re.search(r"\bfn (\w+)", head).group(1)
        signature = re.split(r"\n\s*(?:requires|ensures)\b", head)[0]
        self.params = re.findall(r"[(,]\s*(?:mut )?(\w+): ([^,()]+)(?=[,)])", signature)
        self.clauses = [" ".join(c.split()) for c in
                        re.findall(r"\n\s*(?:requires|ensures)(?: \w+)? \{(.*?)\}(?=\n\s*(?:requires|ensures)\b|\s*\Z)", head, re.S)]

    def lines(self):
        return enumerate(self.body.split("\n"), self.body_line)


def read_files(commit):
    if commit:
        with tarfile.open(fileobj=io.BytesIO(subprocess.check_output(["git", "archive", commit, "crates"]))) as tar:
            found = {m.name: tar.extractfile(m).read().decode() for m in tar if m.name.endswith((".rt", ".antt"))}
    else:
        found = {name: open(name).read() for name in glob.glob("crates/**/*.*t", recursive=True) if name.endswith((".rt", ".antt"))}
    return {name[len("crates/"):]: text for name, text in sorted(found.items()) if not name.startswith("crates/entry_c/")}


def functions_of(path, text):
    """Each function: its head, and its body. The files are as `rt fmt` leaves them: a body ends with a brace as far in as its head."""
    for m in re.finditer(r"^( *)((?:pub )?fn \w+.*?)(?: |\n\1)\{\n(.*?)\n\1\}$", text, re.S | re.M):
        yield Function(path, text.count("\n", 0, m.start()) + 1, m.group(2), text.count("\n", 0, m.start(3)) + 1, m.group(3))


def blocks(text, opening):
    """Each block that begins with a line like that: its line, the match, what stands in it."""
    for m in re.finditer(rf"^( *){opening} \{{\n((?:.|\n)*?)\n\1\}}", text, re.M):
        yield text.count("\n", 0, m.start()) + 1, m, m.groups()[-1]


def numbers_for_kinds(sources, functions):
    """Point 1."""
    for path, text in sources.items():
        for line, m, inner in blocks(text, r"(?:pub )?enum (\w+)"):
            inner = " ".join(re.sub(r"//.*", "", inner).split())
            variants = re.findall(r"(\w+)(?: \{[^}]*\}|\([^)]*\))?(?:,|$)", inner)
            if len({bool(re.fullmatch(REFUSING, v)) for v in variants}) == 2:
                yield path, line, "enum", f"{m.group(2)}: {inner}"
        for line, m, inner in blocks(text, r"(?:pub )?struct (\w+)"):
            flag = re.search(r"(\w+): bool", inner)
            if flag and inner.count(":") > 1:
                yield path, line, "flag", f"{m.group(2)}: {flag.group(1)} beside its other fields"
        for line, row in enumerate(text.split("\n"), 1):
            const = re.match(r"(?:pub )?const (\w+): (?:u8|u16|u64|usize) = (\d+);", row)
            if const and const.group(1) not in NO_KINDS and (int(const.group(2)) < 20 or const.group(1) == "SECOND"):
                yield path, line, "number of a kind", row
            clause = re.match(r"\s*(?:requires|ensures)\b", row)
            if re.search(KINDS, row) and not clause:
                yield path, line, "holds a number of a kind", row
            if re.search(r"\b(?:of_no_input|refused|fault|bad|not_read)\(\d+[,)]|\bnumber: [1-9]\d*,|return 1[123];", row):
                yield path, line, "refusal by number", row
            if re.search(BY_NUMBER, row) and not clause:
                yield path, line, "kind by number", row
        for m in re.finditer(rf"^.*::{REFUSING}\b[^=\n]*(?:\{{[^}}=]*\}})? =>(?= (.*(?:\n.*){{0,2}}))", text, re.M):
            right = m.group(1) if m.group(1).startswith("{") else m.group(1).split("\n")[0]
            if re.search(HANDS_ON, right):
                yield path, text.count("\n", 0, m.start()) + 1, "handed on", f"{m.group()} {right.split(chr(10))[0]}"
    nothing = {f.name for f in functions if any(re.search(r"0 < result(?:\.next)? →", c) for c in f.clauses)} | set(SAY_NOTHING)
    for f in functions:
        if f.name in nothing:
            yield f.path, f.line, "a number for nothing", f"fn {f.name}"
        if any(re.search(r"\btold(?:_by)? (?:result|r)\b", c) for c in f.clauses):
            yield f.path, f.line, "an enum in a number", f"fn {f.name}"
        told = set(re.findall(rf"(\w+) = (?:\w+::)*(?:{'|'.join(nothing)})\(", f.body))
        for line, row in f.lines():
            if told and re.search(rf"if (?:0 < )?(?:{'|'.join(told)})(?:\.next)? (?:== 0|!= 0|< BINDERS|\{{)", row):
                yield f.path, line, "asks for nothing", row
            if f.path.startswith("draft/") and re.search(r"if (?:stem|number|part) == [01] ", row):
                yield f.path, line, "asks for nothing", row


def shape(body):
    """A body with its names and its numbers made one."""
    names = {}
    for word in re.findall(r'b?"[^"]*"|\w+|[^\w\s]', re.sub(r"//.*", "", body)):
        if word in "let mut if else return match while loop as continue break self".split() or not re.match(r'\w|"', word):
            yield word
        elif re.match(r'b?"|\d|[A-Z_0-9]+$', word):
            yield "#"
        else:
            yield names.setdefault(word, f"v{len(names)}")


def twins(sources, functions):
    """Point 2: bodies of the same shape, and those named above."""
    where = {(f.crate, f.name): (f.path, f.line) for f in functions}
    for path, text in sources.items():
        where.update({(path.split("/")[0], m.group(2)): (path, line) for line, m, _ in blocks(text, r"(?:pub )?enum (\w+)")})
    alike = collections.defaultdict(list)
    for f in functions:
        if f.path != "entry/src/lib.rt":  # each of these tells another call
            alike[tuple(shape(f.body))].append(f"{f.crate} {f.name}")
    groups = [g for s, g in alike.items() if len(g) > 1 and len(s) > 9] + [g.split(", ") for g in TWINS.strip().split("\n")]
    for group in groups:
        there = [name for name in group if tuple(name.split()) in where]
        for name in there:
            if len(there) > 1:
                yield *where[tuple(name.split())], "twin", f"{name}; with {', '.join(o for o in there if o != name)}"


def counted(m, inner):
    """What a loop counts by a step that stays the same, up to or down to what stays the same; nothing for a walk."""
    words = re.findall(r"[a-z]\w*", m.group(3) or "")
    for name, a, b in re.findall(r"\b(\w+) (?:[+-]= (\d+|n)|= \1 \+ (1));", inner):
        if name in words and not any(w != name and re.search(rf"\b{w} [+-]?= ", inner) for w in words):
            return f"counts {name} by {a or b}"
    return ""


def loops(functions):
    """Point 3."""
    for f in functions:
        for line, m, inner in blocks(f.body, LOOP):
            yield f.path, f.body_line + line - 1, counted(m, inner) or "walk", f"{f.name}: {m.group(2)}"


def by_hand(functions, sources):
    """Point 4."""
    named = {(c, n): k for k, names in BY_HAND.items() for c, n in (x.split() for x in names.split(", "))}
    for path, text in sources.items():
        for line, m, _ in blocks(text, r"(?:pub )?enum (\w+)"):
            if (path.split("/")[0], m.group(2)) in named:
                yield path, line, named[path.split("/")[0], m.group(2)], f"enum {m.group(2)}"
    for f in functions:
        rows = "".join(inner for _, m, inner in blocks(f.body, LOOP) if counted(m, inner))
        whats = {
            "equality": re.search(r"\w\[[^\]]+\] != \w", rows),
            "order": re.search(r"\w\[[^\]]+\] < \w+\[", rows),
            "copying": re.search(r"^\s*\w+\[\w+\] = ", rows, re.M) or re.search(r"\w\[\w+ \+ 7\]", f.body),
            "bool to number": re.search(r"if \w+ \{ 1 \} else \{ 0 \}|^ *if [^=<]*\{\n *return (?:1|ABS_BODY);\n *\}\n *0$", f.body, re.M),
            "conversion": len(re.findall(r"\w+::\w+ => \d+,", f.body)) > 1 or re.search(r"% 256\) as u8|/ 256\) as u8|\b256 \* \w+\[", f.body),
            "told as numbers": "*told = [" in f.body and f.crate == "entry",
            "printing": re.search(r"\b48 \+ |\d => print\(", f.body),
        }
        whats[named.get((f.crate, f.name))] = (f.crate, f.name) in named
        for what in [w for w, found in whats.items() if found]:
            yield f.path, f.line, what, f"fn {f.name}"


def facts(clause):
    """The parts of a clause that are joined by ×, without brackets around them and without binders."""
    depth, parts = 0, [""]
    for c in clause.strip():
        depth += (c in "([{") - (c in ")]}")
        if c == "×" and depth == 0:
            parts.append("")
        else:
            parts[-1] += c
    for p in map(str.strip, parts):
        if in_one_bracket(p):
            yield from facts(p[1:-1])
        elif len(parts) > 1:
            yield from facts(p)
        elif not re.match(r"^[\w ]+ : ", p):
            yield p


def in_one_bracket(p):
    """Whether the bracket that begins the text ends with it."""
    depth = 0
    for i, c in enumerate(p if p.startswith("(") else ""):
        depth += (c == "(") - (c == ")")
        if depth == 0:
            return i == len(p) - 1
    return False


def together(functions):
    """Point 5: facts of three or more contracts, and parameters of three or more signatures."""
    stands, runs = collections.defaultdict(dict), collections.defaultdict(dict)
    for i, f in enumerate(functions):
        for c in f.clauses:
            for fact in facts(c):
                if not fact.startswith("result"):
                    stands[fact][i] = f
        for a in range(len(f.params)):
            for b in range(a + 3, len(f.params) + 1):
                runs[tuple(f.params[a:b])][i] = f
    for fact, fs in stands.items():
        if len(fs) > 2:
            yield first(fs) + ("fact", f"{fact}; in {names(fs)}")
    for run, fs in runs.items():
        longer = any(len(g) > 2 and run in (r[:-1], r[1:]) for r, g in runs.items())
        if len(fs) > 2 and not longer:
            yield first(fs) + ("parameters", f"{', '.join(f'{n}: {t}' for n, t in run)}; of {names(fs)}")


def first(fs):
    f = next(iter(fs.values()))
    return f.path, f.line


def names(fs):
    return f"{len(fs)}: " + ", ".join(f"{f.crate} {f.name}" for f in fs.values())


def buffers(functions):
    """Point 6."""
    searched = [tuple(x.split()) for x in SEARCHED.split(", ")]
    for f in functions:
        params = [a for a, _ in f.params]
        for (a, t), (b, u) in zip(f.params, f.params[1:]):
            in_slice = re.match(r"&+(mut )?\[", t) and u == "usize"
            if in_slice and re.match(r"(?:n|count|used|depth|under|size|low)$", b) and a != "body" or (a, b) == ("row", "k"):
                yield f.path, f.line, "length beside", f"fn {f.name}: {a}, {b}"
            if in_slice and "mut" in t and a == "out":
                yield f.path, f.line, "output and how far it is filled", f"fn {f.name}: {a}, {b}"
            by_places = t == u == "usize" and f.params[0][1][0] == "&" and re.match(r"(?:from|at) (?:end|to)$|from n$", f"{a} {b}")
            if by_places or (a, b) == ("at", "n") and "form: Form, at" in f.head:
                yield f.path, f.line, "slice by its places", f"fn {f.name}: {params[0]}, {a}, {b}"
        if "places" in params and "body" in params and "count" in params[:3]:
            yield f.path, f.line, "length beside", f"fn {f.name}: places, count"
        for a, t in f.params:
            if re.search(r"\[usize\]", t):
                yield f.path, f.line, "flat records", f"fn {f.name}: {a}: {t}"
        if (f.crate, f.name) in searched:
            yield f.path, f.line, "searched by hand", f"fn {f.name}"
        if sum(t == "&mut [u64; 32]" or t == "&[u64; 32]" for _, t in f.params) > 1:
            yield f.path, f.line, "parallel arrays", f"fn {f.name}"
        for line, row in f.lines():
            if re.search(r"\[0usize; ", row):
                yield f.path, line, "flat records", row
            if re.search(r">> |\b(?:mask|hides|others) [%/] 2|\bcode / \d|/ (?:128|32) % 2|return (?:ABS_BODY|PAIR_BODY|LEFT|RIGHT|BRANCHES);", row):
                yield f.path, line, "mask in a number", row
            if re.search(r"[%/*] (?:65536|131072|4294967296)\b|\br % 2 |\br / 2;|FAULT \+|\* 2(?: \+ 1)?$", row) and "% 256)" not in row:
                yield f.path, line, "two in a number", row


def switches(functions):
    """Point 7: functions that choose by a number which of several functions to call."""
    for f in functions:
        ways = re.findall(rf"if {CODE} (?:==|<=?) \w+ \{{\n\s*(?:return )?([\w:]+\(.*)", f.body)
        ways += re.findall(r"if \w+ < rules \{\n\s*return (\w+\(.*)", f.body)
        ways += re.findall(r"^\s*(?:\d[\d |]*|_) => (?:\{\n)?(.*\(.*)", f.body, re.M)
        if len(ways) > 1 and len(set(re.findall(r"[\w:]+(?=\()", " ".join(ways)))) > 1 or "if plan.act " in f.body:
            yield f.path, f.line, "switch", f"fn {f.name}"


def proofs(files):
    """Point 8: answers, and lines that stand in three or more files."""
    where = collections.defaultdict(dict)
    for path, text in files.items():
        if not path.split("/")[1] == "proofs":
            continue
        if path.endswith("/Answers.antt"):
            for line, row in enumerate(text.split("\n"), 1):
                if re.match(r"pub \S+ : goal\.", row):
                    yield path, line, "answer", row
        for line, row in enumerate(map(str.strip, text.split("\n")), 1):
            if len(row) > 24 and not re.match(r"(?:use|pub|abbrev|module|unfolding|unfoldable|--)\b|--|.* =$|.* let a = c\.args in$", row):
                where[row].setdefault(path, line)
    for row, paths in where.items():
        if len(paths) > 2:
            yield *next(iter(paths.items())), f"same line in {len(paths)} files", row


def main():
    files = read_files(sys.argv[1] if len(sys.argv) > 1 else None)
    sources = {path: text for path, text in files.items() if path.split("/")[1] == "src"}
    functions = [f for path, text in sources.items() for f in functions_of(path, text)]
    points = [numbers_for_kinds(sources, functions), twins(sources, functions), loops(functions), by_hand(functions, sources),
              together(functions), buffers(functions), switches(functions), proofs(files)]
    counts = []
    for point, found in enumerate(points, 1):
        places = sorted(set(found))
        for path, line, what, text in places:
            print("-" if what == "walk" else point, f"{path}:{line}", f"[{what}]", " ".join(text.split()))
        counts.append(f"{point}: {sum(what != 'walk' for _, _, what, _ in places)}")
    print("places", ", ".join(counts))


main()
