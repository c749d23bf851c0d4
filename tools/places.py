"""Counts the places of docs/DESIGN-PASS.md in the sources below a folder: places.py [FOLDER] [--list POINT]."""
import collections, glob, os, re, sys

FOLDER = next((a for a in sys.argv[1:] if not a.startswith("-") and not a.isdigit()), ".")
LIST = int(sys.argv[sys.argv.index("--list") + 1]) if "--list" in sys.argv else 0
SOURCES = {os.path.relpath(p, FOLDER): open(p).read()
           for p in sorted(glob.glob(FOLDER + "/crates/*/src/**/*.rt", recursive=True))}
FUNCTION = re.compile(r"(?m)^ *(?:pub )?fn (\w+)(?:<[^(]*>)?\(([^{]*?)\)(?: ->[^\n{]*)?(.*?)\n? *\{\n(.*?)\n *\}\n", re.S)


def lines(pattern):
    """The source lines that a pattern finds."""
    found = []
    for path, text in SOURCES.items():
        for number, line in enumerate(text.splitlines(), 1):
            if re.search(pattern, line):
                found.append(f"{path}:{number}: {line.strip()}")
    return found


def functions():
    for path, text in SOURCES.items():
        for m in FUNCTION.finditer(text):
            yield path, m.group(1), m.group(2), m.group(3), m.group(4)


def shape(body):
    """A body with its names and numbers taken out."""
    body = re.sub(r"//[^\n]*", "", body)
    return re.sub(r"\s+", " ", re.sub(r"\b(?!let|mut|if|else|while|for|in|return|match|fn|as|true|false)\w+\b", "x", body)).strip()


def twins():
    """Functions whose parameters and bodies are alike but for names and numbers; a body of a line too."""
    shapes = collections.defaultdict(list)
    for path, name, params, _, body in functions():
        if len(shape(body)) >= 14:
            shapes[shape(params) + shape(body)].append(f"{path}: {name}")
    return [" ~ ".join(v) for v in shapes.values() if len(v) > 1]


def together():
    """Pairs of parameters that ten functions or more have, and facts that the clauses of three or more ask for."""
    pairs, facts = collections.Counter(), collections.Counter()
    for _, _, params, clauses, _ in functions():
        names = [re.sub(r"\s+", " ", p.strip()) for p in params.split(",") if ":" in p]
        pairs.update((a, b) for i, a in enumerate(names) for b in names[i + 1:])
        for part in re.findall(r"requires (?:\w+ )?\{(.*?)\}(?=\n|$)", clauses, re.S):
            for fact in part.split("×"):
                fact = re.sub(r"\s+", " ", fact).strip().strip("()")
                facts[fact.split(" ")[0] if re.match(r"[A-Z]", fact) else fact] += 1
    return [f"{n} functions: {a}, {b}" for (a, b), n in pairs.most_common() if n >= 10] + \
        [f"{n} clauses: {f}" for f, n in facts.most_common() if n >= 3]


def answers():
    """Answers of proofs, those of them that only run omega, and the lines of proofs."""
    texts = [open(p).read() for p in glob.glob(FOLDER + "/crates/*/proofs/**/*.antt", recursive=True)]
    every = sum(len(re.findall(r"(?m)^pub \S+ : goal\.", t)) for t in texts)
    bare = sum(len(re.findall(r"(?m)^\S+(?: \w+)* c = omega arith$", t)) for t in texts)
    return [f"{every} answers", f"{bare} of them omega arith alone", f"{sum(t.count(chr(10)) for t in texts)} lines"]


POINTS = {
    1: [("own enums", lambda: lines(r"^(pub )?enum ")),
        ("numbers for kinds, refusals, classes, fates, sections", lambda: lines(
            r"^(pub )?const [A-Z_0-9]+: (u8|u32) = |^pub const [A-Z_]+_(KIND|DOMAIN): |^pub const (TIMES|PLUS|MINUS|DIVIDED|NAMES|NODES|DEPS|UNKNOWNS|STMTS|MODELS): ")),
        ("numbers plus 1, or 0", lambda: lines(r"^\s*// .*([Pp]lus 1|or 0[,. :])")),
        ("a flag with a value", lambda: lines(r"^\s*(pub )?(more|found|changed|done): bool"))],
    2: [("bodies alike but for names", twins),
        ("const parameters, bounds", lambda: lines(r"fn \w+<[^>']"))],
    3: [("while", lambda: lines(r"^\s*while ")), ("for", lambda: lines(r"^\s*for ")),
        ("chains", lambda: lines(r"\.(iter|iter_mut|into_iter|all|any|position|map|fold|rev|zip)\("))],
    4: [("a flag as a number by hand", lambda: lines(r"\{ 1 \} else \{ 0 \}")),
        ("copies, fills, comparisons, counts by hand", lambda: lines(
            r"fn (same_bytes|copy|clear|all_zeros|begins|clear_from|clear_row|join|read_word|put_word|is_nan|either|one_kept|mark|flag_of|none_flag|rule_number|numbered_rule|plus|errors_length|listed)\b")),
        ("derives", lambda: lines(r"^\s*#\[derive"))],
    5: [("parameters and facts together", together)],
    6: [("arrays with a count, tables side by side", lambda: lines(
        r"^const (PLACES|NAMES|TEXTS): |^\s*(pub )?states: |lines: &(mut )?\[u64\], *columns|^\s*columns: &(mut )?\[u64\]"))],
    7: [("tests of a parameter that picks the step", lambda: lines(r"if (refusal|section) == "))],
    8: [("proofs", answers)],
}

for point, counts in POINTS.items():
    for title, count in counts:
        found = count()
        shown = ", ".join(found) if point == 8 else len(found)
        print(f"{point} {title}: {shown}")
        if LIST == point:
            print("\n".join("    " + f for f in found))
