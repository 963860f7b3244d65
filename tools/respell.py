#!/usr/bin/env python3
"""respell.py [--say]: brings the repository's own definitions and lemmas to the spelling of today's Rattle: words in snake case, a prime as an
apostrophe, no middle dot in a name. It was run once, behind port.py, when the repository was brought to that Rattle (docs/PORT.md).

Which names: those declared in specs/ and proofs/ (definitions, lemmas, fields, sections' parameters, names bound by `let`), not those of the
libraries, not those that Rattle makes, not those of src/. Where: .antt files, clauses and `ghost use` lines of .rt files, must-fail edits, and
texts in back-ticks of comments and pages. Two names of one file that would fall together are kept apart by APART, or the run stops.
With --say it only prints the table of names."""
import glob, os, re, sys

os.chdir(os.path.join(os.path.dirname(os.path.abspath(__file__)), ".."))
OWN = {os.path.basename(p) for p in glob.glob("crates/*")}
# Old name: new name, where the plain rule would let two names of a file fall together.
LEMMAS = """advance-number answer-pieces book-own date-digits date-of day-found end-shown enrolled-by failure-answer fields-of first-line
happened-seen holder-number named-seen next-seen on-day ones-of ones-to own-number own-shown period-number period-pieces rows-at story-desk
total-pieces volumes-pieces year-length""".split()
APART = {n: n.replace("-", "_") + "_lem" for n in LEMMAS}
APART |= {"last-day": "the_last_day", "seven-in-ten": "by_seven_in_ten", "outOfRange": "outside_the_range", "isSame": "are_same"}
# The same for names that port.py brought to snake case: as whole words, not as parts of a path.
PLAIN = {n: n + "_lem" for n in "answer_at held_number is_digit is_real own_on".split()}
TOKEN = re.compile(r"[^\s(){}\[\],;.:=`\"⟦⟧⌜⌝|]+")
USE = re.compile(r"^\s*(?:ghost |pub )*use ([\w'.·-]+)\.\{([^}]*)\}", re.M)


def snake(name):
    prefix = re.match(r"^([A-Z]\w*)·(.+)$", name)
    if prefix: name = prefix[1].lower() + "_" + prefix[2]
    name = name.replace("′", "'").replace("-", "_")
    return re.sub(r"(?<=[a-z0-9'₂])([A-Z])", lambda m: "_" + m[1].lower(), name)


def is_odd(t):
    return bool(re.match(r"^[a-z][^\s]*$", t) and (re.search(r"[a-z0-9][A-Z]", t) or re.search(r"\w-\w|'-\w", t) or "′" in t)) or "·" in t and bool(re.match(r"[A-Z]\w*·[\w-]+$", t))


def antt_files(): return sorted(glob.glob("crates/*/specs/**/*.antt", recursive=True) + glob.glob("crates/*/proofs/**/*.antt", recursive=True))
def rt_files(): return sorted(glob.glob("crates/*/src/**/*.rt", recursive=True))
def functions(path):
    """A file of a function's own proof."""
    return os.path.basename(path) in ("Proof.antt", "Answers.antt", "Invariants.antt") and path.split("/")[2] == "proofs" and os.path.dirname(path) != "/".join(path.split("/")[:3])


# Names of the libraries, and of what Rattle makes.
kit = set()
for f in antt_files() + rt_files():
    for m in USE.finditer(open(f).read()):
        top = m[1].split(".")
        if not (top[0] == "Rattle" and top[1] in OWN) or ".declared" in m[1] or ".contracts" in m[1]:
            for n in m[2].split(","):
                n = n.strip()
                if " as " in n: n = n.split(" as ")[0].strip()
                kit.add(n)

# Declared names.
own = set()
for f in antt_files():
    text = re.sub(r"--.*", "", open(f).read())
    made = functions(f)
    for line in text.split("\n"):
        m = re.match(r"\s*(?:(?:abbrev|pub|unfoldable|open|record|data|constructor|where)\s+)*([^\s(){}:,;.=]+)\s*:(?!:)", line)
        names = [m[1]] if m and not (made and re.search(r"\b(tie|goal)\.", line)) else []
        names += re.findall(r"\blet\s+([^\s(){}:=,]+)\s*[:=]", line)
        if made:
            own.update(n for n in names if is_odd(n))
            continue
        for g in re.findall(r"[({]((?:[^\s(){}:,=.]+ )+):", line): names += g.split()
        for g in re.findall(r"\blet\s+\(([^()]*)\)\s*=", line) + re.findall(r"λ ([^.]*)\.", line): names += re.findall(r"[^\s(),:]+", g)
        for g in re.findall(r"[;{]\s*([^\s(){}:,;.=]+) =", line): names.append(g)
        m = re.match(r"\s*((?:[^\s(){}:,=.]+ )+): ", line)
        if m: names += [n for n in m[1].split() if n not in ("pub", "abbrev", "unfoldable")]
        m = re.match(r"\s+([^\s(){}:,;.=]+) =", line)
        if m: names.append(m[1])
        own.update(n for n in names if is_odd(n))
    for m in USE.finditer(text):
        for n in m[2].split(","):
            if " as " in n and is_odd(n.split(" as ")[1].strip()): own.add(n.split(" as ")[1].strip())
for f in rt_files():
    for m in USE.finditer(open(f).read()):
        for n in m[2].split(","):
            if " as " in n and is_odd(n.split(" as ")[1].strip()): own.add(n.split(" as ")[1].strip())
own -= kit
table = {n: APART.get(n, snake(n)) for n in sorted(own)}


def clauses(text):
    """The spans of an .rt file that are antt: `ghost use` lines, and the braces of requires and ensures."""
    spans = [m.span() for m in re.finditer(r"^\s*ghost use [^;]*;", text, re.M)]
    for m in re.finditer(r"^\s*(?:requires|ensures|ghost|invariant|decreases)\*?(?: [\w]+:?)? \{", text, re.M):
        depth, i = 1, m.end()
        while depth: depth += {"{": 1, "}": -1}.get(text[i], 0); i += 1
        spans.append((m.start(), i))
    return sorted(spans)


def turn(text, made=False):
    def one(m):
        t = m[0]
        if made and text[max(0, m.start() - 4):m.start()] == "tie.": return t
        alone = text[max(0, m.start() - 1):m.start()] != "." and text[m.end():m.end() + 1] != "."
        return PLAIN[t] if t in PLAIN and alone else table.get(t, t)
    return TOKEN.sub(one, text)


def turn_ticked(text): return re.sub(r"`[^`\n]*`", lambda m: turn(m[0]), text)
def turn_lines(text, mark, made):
    """Code as it is turned, comments in their back-ticks alone."""
    out = []
    for line in text.split("\n"):
        i = line.find(mark) if mark != "--" else (re.search(r"(^|\s)--(\s|$)", line).start() if re.search(r"(^|\s)--(\s|$)", line) else -1)
        out.append(turn(line, made) if i < 0 else turn(line[:i], made) + turn_ticked(line[i:]))
    return "\n".join(out)


def turned(f):
    text = open(f).read()
    if f.endswith(".antt"): return turn_lines(text, "--", functions(f))
    if f.endswith(".rt"):
        out, at = "", 0
        for a, b in clauses(text):
            out += "\n".join(l if "//" not in l else l[:l.index("//")] + turn_ticked(l[l.index("//"):]) for l in text[at:a].split("\n")) + turn_lines(text[a:b], "//", False); at = b
        return out + "\n".join(l if "//" not in l else l[:l.index("//")] + turn_ticked(l[l.index("//"):]) for l in text[at:].split("\n"))
    if f.endswith(".edit"):
        return "\n".join(turn(l) if re.match(r"(old|new): ", l) and '"' not in l else l for l in text.split("\n"))
    return turn_ticked(text)


if __name__ == "__main__":
    if "--say" in sys.argv:
        for n in table: print(n, table[n])
        raise SystemExit
    bad = 0
    for f in antt_files() + rt_files():
        text = open(f).read()
        body = re.sub(r"--.*", "", text) if f.endswith(".antt") else "\n".join(text[a:b] for a, b in clauses(text))
        seen = {}
        for m in TOKEN.finditer(body):
            t = m[0]
            if t in table or body[m.start() - 1:m.start()] != "." and body[m.end():m.end() + 1] != ".":
                seen.setdefault(PLAIN.get(t, table.get(t, t)), set()).add(t)
        for n, old in seen.items():
            if len(old) > 1: print(f"{f}: {' and '.join(sorted(old))} fall together as {n}"); bad += 1
    if bad: raise SystemExit(1)
    changed = 0
    pages = ["README.md", "crates.txt"] + sorted(glob.glob("docs/*.md") + glob.glob("docs/changes/*.md") + glob.glob("compare/*.md") + glob.glob("bench/*.md"))
    for f in antt_files() + rt_files() + sorted(glob.glob("crates/*/must-fail/*.edit")) + pages:
        new = turned(f)
        if new != open(f).read(): open(f, "w").write(new); changed += 1
    print(f"{len(table)} names, {changed} files")
