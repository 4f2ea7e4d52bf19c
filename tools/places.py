#!/usr/bin/env python3
"""Counts, in crates/*/src, the places of the design pass's points: tools/places.py [-v] [TOP]. With -v each place is listed.

What is counted, by point:
1  own enums; `let Some/Ok .. else` and arms that only hand a None or an Err on; functions that answer a bare number for a kind; errors that are
   bare numbers; fields of type bool; functions that return 0 for nothing
2  pairs of functions of one shape (all names, numbers and strings made alike, four lines of body or more, or equal but for constants), and
   pairs of types with fields of the same names
3  `for` over a range and `while`
4  functions named like a conversion, a comparison or a text (number, vector, grey, letter, is, eq, cmp, of, told, refused)
   that hold no more than one expression or one match, and `self as`
5  groups of two or more parameters of the same names and types that stand in three functions or more, and `requires`/`ensures` premises that
   stand in three functions or more
6  structs or parameter lists with a list and a place or a length beside it
7  matches on a number or a text that choose what to do, function pointers and `dyn`
8  answers in proofs (files, answers, lines) and lemma files (lines)
"""
import collections, glob, os, re, sys

verbose = "-v" in sys.argv
args = [a for a in sys.argv[1:] if a != "-v"]
top = args[0] if args else "."
files = sorted(glob.glob(os.path.join(top, "crates/*/src/**/*.rt"), recursive=True))


def closing(text, start, pair):
    """The place behind the bracket that closes the one before `start`."""
    depth, end = 1, start
    while depth and end < len(text):
        depth += {pair[0]: 1, pair[1]: -1}.get(text[end], 0)
        end += 1
    return end


def functions(text):
    """(name, parameters, answer, clauses, body, line) of each fn with a body or a semicolon."""
    for m in re.finditer(r"\bfn (\w+)", text):
        start = text.index("(", m.end()) + 1
        end = closing(text, start, "()")
        head = text[start : end - 1]
        at = end
        clauses = []
        while at < len(text):
            clause = re.match(r"\s*(requires|ensures)\b[^{]*\{", text[at:])
            before = re.match(r"[^{;]*?(?=\s*(requires|ensures)\b)", text[at:])
            if clause:
                begin = at + clause.end()
                at = closing(text, begin, "{}")
                clauses.append((clause.group(1), text[begin : at - 1].strip()))
            elif before and before.group(0):
                at += before.end()
            else:
                break
        rest = re.match(r"([^{;]*)([{;])", text[at:])
        body = ""
        if rest and rest.group(2) == "{":
            begin = at + rest.end()
            body = text[begin : closing(text, begin, "{}") - 1]
        answer = re.match(r"\s*->\s*(.+?)\s*(?=\n\s*(?:requires|ensures)|\{|;|\n)", text[end:], re.S)
        yield m.group(1), head, (answer.group(1).strip() if answer else ""), clauses, body, text.count("\n", 0, m.start()) + 1


# what a line shows: the point, the kind of place, its form
LINES = [
    (1, "own enums", r"^\s*(pub(\(crate\))? )?enum "),
    (1, "let .. else", r"let (Some|Ok)\(.*\belse\b"),
    (1, "arms that hand on", r"None => None\b|None => return None|Err\((\w+)\) => Err\(\1\)|Err\((\w+)\) => return Err\(\2\)"),
    (1, "errors that are numbers", r"Result<[^<>]*(<[^<>]*>)?[^<>]*, (usize|u8|u16|u32)>"),
    (1, "fields of type bool", r"^\s*(pub(\(crate\))? )?\w+: bool,"),
    (3, "for over a range, while", r"\bfor \w+ in .*\.\.|\bwhile\b"),
    (4, "self as a number", r"\bself as "),
    (7, "dyn, function pointers", r"\bdyn\b|\bfn\("),
    (7, "arms on a text or a number that do something", r"^\s*(b?\"[^\"]*\"|\d+) => (?!Some\(|Ok\(|\")"),
]

found = collections.OrderedDict((p, collections.OrderedDict()) for p in range(1, 8))


def place(point, kind, where):
    found[point].setdefault(kind, []).append(where)


shapes = collections.defaultdict(list)
groups = collections.defaultdict(set)
facts = collections.defaultdict(set)
structs = []
for f in files:
    text = re.sub(r"//[^\n]*", "", open(f).read())
    short = os.path.relpath(f, os.path.join(top, "crates")).replace("/src/", "/")
    for n, line in enumerate(text.split("\n"), 1):
        at = f"{short}:{n}: {line.strip()}"
        for point, kind, form in LINES:
            if re.search(form, line):
                place(point, kind, at)
    for m in re.finditer(r"struct (\w+)(<[^>]*>)? \{(.*?)\n\}", text, re.S):
        fields = re.findall(r"^\s*(?:pub(?:\(crate\))? )?(\w+): ([^,\n]+),", m.group(3), re.M)
        structs.append((short, m.group(1), fields))
        if any("[" in t or "Vec" in t or "str" in t for _, t in fields) and any(t in ("usize", "u16", "u32") for _, t in fields):
            place(6, "a list and a number beside it", f"{short}: {m.group(1)}")
        if sum("[" in t or "Vec" in t for _, t in fields) > 1:
            place(6, "several lists side by side", f"{short}: {m.group(1)}")
    for name, head, answer, clauses, body, line in functions(text):
        at = f"{short}:{line}: {name}"
        params = [p.strip() for p in re.split(r",(?![^<(\[]*[>)\]])", head) if p.strip()]
        typed = [p for p in params if ":" in p]
        if re.fullmatch(r"\s*0\s*", body):
            place(1, "functions that return 0 for nothing", at)
        elif answer in ("u8", "u16") and not re.search(r"fn main", name):
            place(1, "functions that answer a small number", at)
        if re.fullmatch(r"number|vector|grey|letter|is|eq|cmp|of|told|refused|misfit|listed|height_of|tell", name) and body:
            place(4, "functions that convert, compare or print", at)
        sig = [re.sub(r"\bmut ", "", p) for p in typed]
        for size in range(2, len(sig) + 1):
            for i in range(len(sig) - size + 1):
                groups[tuple(sig[i : i + size])].add(at)
        lists = [p for p in typed if re.search(r"&mut \[|&\[|&'a \[", p)]
        places_ = [p for p in typed if re.search(r"^(at|place|from|length|partners|count): usize$", p)]
        if lists and places_:
            place(6, "a list and a place or a length as parameters", f"{at}({head})")
        for kind, clause in clauses:
            for fact in re.split(r" → | × ", clause) if kind == "ensures" else re.split(r" × ", clause):
                fact = fact.strip("() ")
                if kind == "ensures" and (" → " not in clause or fact == re.split(r" → | × ", clause)[-1].strip("() ")):
                    continue
                fact = re.sub(r"\b(face|self|solid|plane|survey|[a-cpuvn])\b", "_", fact)
                facts[fact].add(at)
        lines = [l for l in body.split("\n") if l.strip()]
        if lines:
            shape = re.sub(r"\"[^\"]*\"|'[^']*'|b'[^']*'|\b\d[\d_]*\b", "#", body)
            same = re.sub(r"\s+", " ", shape)
            alike = re.sub(r"\b[a-zA-Z_]\w*\b", "x", same)
            if len(alike) > 25:
                shapes[alike].append(at)
for alike, where in shapes.items():
    if len(where) > 1 and len(alike) > 30:
        for w in where[1:]:
            place(2, "functions of one shape", f"{where[0]}  ~  {w}")
for i, (s, n, fs) in enumerate(structs):
    for t, m, gs in structs[i + 1 :]:
        if len(fs) > 1 and [a for a, _ in fs] == [a for a, _ in gs]:
            place(2, "types with fields of the same names", f"{s}: {n}  ~  {t}: {m}")
big = {g: w for g, w in groups.items() if len(w) >= 3 and len({re.sub(r':\d+', '', x) for x in w}) >= 3}
for g, w in sorted(big.items(), key=lambda x: -len(x[1])):
    if any(set(g) < set(h) and big[h] == w for h in big):
        continue
    place(5, "parameters that travel together", f"({', '.join(g)}) in {len(w)}: " + "; ".join(sorted(w)))
for fact, w in facts.items():
    if len(w) >= 3:
        place(5, "facts in three contracts or more", f"{fact} in {len(w)}: " + "; ".join(sorted(w)))

for point, kinds in found.items():
    print(f"point {point}: {sum(len(w) for w in kinds.values())}")
    for kind, where in kinds.items():
        print(f"  {len(where):4} {kind}")
        if verbose:
            for w in where:
                print(f"         {w}")
answers = glob.glob(os.path.join(top, "crates/*/proofs/**/Answers.antt"), recursive=True)
count = lines = 0
for a in answers:
    t = open(a).read()
    count += len(re.findall(r"^pub [a-z]", t, re.M))
    lines += t.count("\n")
lemmas = [p for p in glob.glob(os.path.join(top, "crates/*/proofs/*.antt")) if not p.endswith("Lib.antt")]
print(f"point 8: {len(answers)} files of answers, {count} answers, {lines} lines; {len(lemmas)} files of lemmas, {sum(open(p).read().count(chr(10)) for p in lemmas)} lines")
