#!/usr/bin/env python3
"""Counts, in the sources of a commit or of the working tree, the places that docs/DESIGN-PASS.md speaks of.

`tools/places.py` counts in the working tree, `tools/places.py COMMIT` at a commit; with a point's number behind it, it lists that point's places. What it finds is
what a pattern finds: whether a place is one that today's forms serve better is read, and docs/DESIGN-PASS.md says of each."""
import collections, os, re, subprocess, sys

os.chdir(os.path.dirname(os.path.dirname(os.path.abspath(__file__))))
commit = next((a for a in sys.argv[1:] if not re.fullmatch(r"\d[a-z]?", a)), None)
wanted = next((a for a in sys.argv[1:] if re.fullmatch(r"\d[a-z]?", a)), None)


def sources(folder, ending):
    if commit:
        names = subprocess.run(["git", "ls-tree", "-r", "--name-only", commit, "crates"], capture_output=True, text=True, check=True).stdout.split()
        read = lambda name: subprocess.run(["git", "show", f"{commit}:{name}"], capture_output=True, text=True, check=True).stdout
    else:
        names = subprocess.run(["git", "ls-files", "-co", "--exclude-standard", "crates"], capture_output=True, text=True, check=True).stdout.split()
        names = [n for n in names if os.path.exists(n)]
        read = lambda name: open(name, encoding="utf8").read()
    return [(n.split("/")[1], read(n)) for n in names if f"/{folder}/" in n and n.endswith(ending)]


# A function: its crate, name, parameters, result and clauses.
def functions():
    for crate, text in code:
        for m in re.finditer(r'(?m)^( *)(?:pub )?(?:extern "C" )?fn (\w+)(<[^(]*>)?\(', text):
            i, depth = m.end(), 1
            while depth:
                depth += (text[i] == "(") - (text[i] == ")")
                i += 1
            rest = text[i:]
            result = re.match(r"\s*-> ([^\n{]+)", rest)
            body = re.search(r"(?m)^" + m.group(1) + r"\{", rest)
            yield crate, m.group(2), text[m.end() : i - 1], result.group(1).strip() if result else "", rest[: body.start()] if body else ""


def lines(pattern, what=None):
    for crate, text in what or code:
        for line in text.split("\n"):
            if re.search(pattern, line) and not line.lstrip().startswith(("//", "--")):
                yield crate, line.strip()


code = sources("src", ".rt")
every = list(functions())
with_all = lambda *names: [(c, n) for c, n, a, r, k in every if all(re.search(rf"\b{x}:", a) for x in names)]
clause = lambda pattern: [(c, n) for c, n, a, r, k in every if re.search(pattern, k)]
answers = sources("proofs", "Answers.antt")
points = {
    "1a": ("own enums", list(lines(r"^ *(pub )?enum "))),
    "1b": ("functions that give a u8", [(c, n) for c, n, a, r, k in every if r == "u8"]),
    "1c": ("constants that number reasons and kinds", list(lines(r"const (GO_ON|CALL|UNKNOWN_WORD|MISSING|SURPLUS|NOT_A_NUMBER|TOO_LARGE|MORE|END|UNREAD|LOST|UNKNOWN): "))),
    "1d": ("tests of a number that tells", list(lines(r"\b(no|number|n|e|f|v|reason|told|left|step|phase|part|op|first|size)\b (==|!=|<|>=|<=) (\d|GO_ON|line::|text::UNKNOWN|END|UNREAD|MORE)"))),
    "2a": ("lesser, later, least, bit, seen, sized and their like", [(c, n) for c, n, a, r, k in every if n in ("lesser", "later", "least", "less", "bit", "seen", "seen_reals", "sized", "sized_reals", "sized_figures", "same")]),
    "2b": ("setters with_X of one field", [(c, n) for c, n, a, r, k in every if re.match(r"with_", n)]),
    "2c": ("functions of one name in several crates", sorted((c, n) for c, n, a, r, k in every if len({d for d, m, *_ in every if m == n and not d.endswith("_c")}) > 1 and not c.endswith("_c") and n != "main" and n != "new")),
    "3": ("while and loop", list(lines(r"\bwhile\b.*\{|\bloop \{"))),
    "4a": ("if .. { 1 } else { 0 } and the like", list(lines(r"\{ 1 \} else \{ 0 \}|\{ true \} else \{ false \}"))),
    "4b": ("an if that returns true or false", [(c, l) for c, l in lines(r"return (true|false);")]),
    "4c": ("low words by hand: % 4294967296 as u32", list(lines(r"% 4294967296\) as u32"))),
    "5a": ("functions with words and reals", with_all("words", "reals")),
    "5b": ("functions with the four slices of a book", with_all("pins", "levels", "cycles", "sources")),
    "5c": ("functions with more than six parameters", [(c, n) for c, n, a, r, k in every if len(re.findall(r"\w+:", a)) > 6]),
    "5d": ("contracts with Fit or Ready", clause(r"\bFit (self|t|timer)\b|\bReady ")),
    "5e": ("contracts with a timer's index below 8", clause(r"\b(i|owner) < 8\b")),
    "5f": ("contracts with a channel below 4", clause(r"\bch < 4\b")),
    "5g": ("contracts with a pin below 128", clause(r"\b(p|i|pin) < 128\b")),
    "5h": ("contracts with a bound of the cycle", clause(r"9223372036854775808|4611686018427387904")),
    "5i": ("contracts with a signal below 256", clause(r"\b(s|signal) < 256\b")),
    "5j": ("contracts with a level of at most 1", clause(r"\blevel ≤ 1\b")),
    "5k": ("contracts with a divider of at most 8192", clause(r"\bdiv ≤ 8192\b")),
    "5l": ("contracts with a size of at most 4", clause(r"\bsize ≤ 4\b")),
    "6a": ("functions with a state array", [(c, n) for c, n, a, r, k in every if re.search(r"\bstate: &", a)]),
    "6b": ("functions with a buffer and its length", [(c, n) for c, n, a, r, k in every if re.search(r"\bout: &", a) and re.search(r"\bn: usize", a)]),
    "7": ("matches and chains on a call's number", list(lines(r"match (op|off|kind|apb|self\.step)\b"))),
    "8": ("answers", list(lines(r"^pub .* : goal\.", answers))),
}
for point, (name, found) in points.items():
    if wanted and wanted != point:
        continue
    crates = collections.Counter(c for c, _ in found)
    print(f"{point:<3} {len(found):>5}  {name}: " + ", ".join(f"{c} {k}" for c, k in sorted(crates.items())))
    if wanted:
        for place in found:
            print("    " + ": ".join(place))
