"""Where src/ may still have an older form: places that docs/DESIGN-PASS.md counts, point by point.

    python3 tools/places.py [POINT] [FOLDER]

A place is a line of src/ (or of proofs/, for point 8) that has the shape named below; whether it is an older form is for a
reader to say, and docs/DESIGN-PASS.md says it. A place that stays has a line beside it that begins `// Kept: `.
"""

import collections
import difflib
import pathlib
import re
import sys

NUMBER = r"(?:u8|u16|u32|u64|usize|i32|i64)"


def files(root, folder="src", ending=".rt"):
    for path in sorted(root.glob(f"crates/*/{folder}/**/*{ending}")):
        if "out" not in path.parts:
            yield path


def functions(path):
    """Each function of a file: its name, line, signature with contract, and body."""
    text = path.read_text()
    for found in re.finditer(r"^( *)(?:pub )?(?:extern \"C\" )?fn (\w+)", text, re.M):
        indent = found.group(1)
        body = re.search(rf"^(?:{indent})}}$", text[found.start():], re.M)
        whole = text[found.start(): found.start() + body.end()] if body else text[found.start():]
        # The body begins at the first brace that ends a line and is no clause's.
        cut = re.search(r"\{\n|^ *\{$", whole, re.M)
        at = cut.start() if cut else len(whole)
        yield found.group(2), text.count("\n", 0, found.start()) + 1, whole[:at], whole[at:]


def enums(path):
    text = path.read_text()
    for found in re.finditer(r"^(?:pub )?enum (\w+)[^{]*\{\n(.*?)^\}", text, re.M | re.S):
        cases = re.findall(r"^    (\w+)( *[({=,])", found.group(2), re.M)
        yield found.group(1), text.count("\n", 0, found.start()) + 1, [(n, t.strip() in ("(", "{")) for n, t in cases]


def structs(path):
    text = path.read_text()
    for found in re.finditer(r"^(?:pub )?struct (\w+)[^{;]*\{\n(.*?)^\}", text, re.M | re.S):
        fields = re.findall(r"^    (?:pub )?(\w+): ([^\n]+?),?$", found.group(2), re.M)
        yield found.group(1), text.count("\n", 0, found.start()) + 1, fields


def lines(path, pattern):
    for number, line in enumerate(path.read_text().splitlines(), 1):
        code = line.split("//")[0]
        if "ghost use" not in code and re.search(pattern, code):
            yield number, line.strip()


def point_1(root):
    """Enums with one case that carries a value, or with a case that says what failed; bools that are fields; numbers for kinds, refusals or none."""
    for path in files(root):
        for name, line, cases in enums(path):
            carrying = [n for n, carries in cases if carries]
            failing = [n for n, _ in cases if re.search("Refused|Short|Unknown|OutOf|Bad|Incomplete", n)]
            if not name.endswith("Error") and (len(carrying) == 1 or carrying and failing):
                yield path, line, f"enum {name}: {', '.join(n for n, _ in cases)}"
        for name, line, fields in structs(path):
            for field, kind in fields:
                if kind == "bool":
                    yield path, line, f"struct {name} has a flag {field}"
                if re.fullmatch(NUMBER, kind) and re.fullmatch(r"event|stage|format|kind|form|refusal|number|family|place|used|start", field):
                    yield path, line, f"struct {name} has a number {field}: {kind}"
        for name, line, head, body in functions(path):
            if re.search(rf"-> {NUMBER}\b", head) and re.search(r"refus|stage|event|kind|family|form|version|code|find|free|at_once|take_byte|value$", name):
                yield path, line, f"fn {name} answers a number"
        for line, text in lines(path, r"\b(?:refuse|refused)\((?:\w+, )?\d+\)|\bfrom_number\(|Refused\(\d+\)"):
            yield path, line, text


def skeleton(body):
    """The tokens of a body, with names and literals each as one."""
    words = re.findall(r"b?\"[^\"]*\"|b'.'|\w+|[^\s\w]", re.sub(r"//[^\n]*", "", body))
    keep = {"if", "else", "while", "for", "match", "return", "let", "mut", "as", "in", "true", "false"}
    return tuple(w if w in keep or not re.match(r"\w|b?[\"']", w) else ("1" if w[0].isdigit() else "x") for w in words)


# Of one name, or of one shape, by what they are: a trait's method is written for each type.
NOT_TWINS = ("main", "new", "fmt")


def alike(a, b):
    return difflib.SequenceMatcher(None, a, b, False).ratio() >= 0.8


def point_2(root):
    """Functions whose bodies have one skeleton of 15 tokens and more, and functions of one name in two crates whose skeletons are alike."""
    shapes, names = collections.defaultdict(list), collections.defaultdict(list)
    for path in files(root):
        crate = path.relative_to(root).parts[1]
        for name, line, _, body in functions(path):
            shape = skeleton(body)
            names[name].append((crate, path, line, shape))
            if len(shape) >= 15:
                shapes[shape].append((path, line, name))
    told = set()
    for group in shapes.values():
        group = [member for member in group if member[2] not in NOT_TWINS]
        for path, line, name in group if len(group) > 1 else []:
            told.add((path, line))
            yield path, line, f"fn {name}: of one shape with {', '.join(sorted({n for _, _, n in group} - {name})) or 'another of its name'}"
    for name, group in names.items():
        for crate, path, line, shape in group if name not in NOT_TWINS else []:
            others = sorted({c for c, _, _, s in group if c != crate and alike(s, shape)})
            if others and (path, line) not in told:
                yield path, line, f"fn {name}: also in {', '.join(others)}"


def point_3(root):
    """Loops by while."""
    for path in files(root):
        for line, text in lines(path, r"^\s*while "):
            yield path, line, text


def point_4(root):
    """Functions that are one match from cases to literals or other cases, and functions that print piece by piece."""
    for path in files(root):
        for name, line, _, body in functions(path):
            arms = re.findall(r"^ *[^\n]*? => ([^\n]*?),?$", body, re.M)
            if "match " in body and len(arms) >= 3 and all(re.fullmatch(r"-?\d+|true|false|[A-Z]\w*::\w+(?:\(\w*\))?|Some\(.*\)|\w+|b?\".*\"", a) for a in arms):
                yield path, line, f"fn {name}: a match from cases to cases or literals"
            elif name.startswith("print_") or name.startswith("put_") and "script_said" in str(path):
                yield path, line, f"fn {name} prints"
        for line, text in lines(path, r"std::num::wrapping_"):
            yield path, line, text


def parameters(head):
    inside = re.search(r"\((.*?)\)\s*(?:->|requires|ensures|$)", head, re.S)
    if not inside:
        return []
    return re.findall(r"(\w+): ([^,()\n]+(?:\([^)]*\))?)", inside.group(1))


def point_5(root):
    """Conjuncts of requires in three or more functions of a crate; two or more parameters together in four or more functions."""
    facts, groups = collections.defaultdict(list), collections.defaultdict(list)
    for path in files(root):
        crate = path.relative_to(root).parts[1]
        for name, line, head, _ in functions(path):
            for clause in re.findall(r"requires \w* ?\{ (.*) \}", head):
                for fact in clause.split(" × "):
                    fact = fact.strip()
                    while fact.startswith("(") and fact.count("(") > fact.count(")"):
                        fact = fact[1:]
                    while fact.endswith(")") and fact.count(")") > fact.count("("):
                        fact = fact[:-1]
                    if fact.startswith("(") and fact.endswith(")"):
                        fact = fact[1:-1]
                    facts[crate, fact].append((path, line, name))
            mine = [(n, t.strip()) for n, t in parameters(head) if n not in ("rt",)]
            for i, a in enumerate(mine):
                for b in mine[i + 1:]:
                    groups[crate, a, b].append((path, line, name))
    for (crate, fact), where in facts.items():
        if len(where) >= 3:
            for path, line, name in where:
                yield path, line, f"fn {name} requires {fact}"
    for (crate, a, b), where in groups.items():
        if len(where) >= 4:
            yield where[0][0], where[0][1], f"{a[0]}: {a[1]} and {b[0]}: {b[1]} together in {len(where)}: {', '.join(n for _, _, n in where)}"


def point_6(root):
    """A slice or array with a number beside it that says how much of it counts; two slices with one place."""
    for path in files(root):
        for name, line, fields in structs(path):
            arrays = [f for f, t in fields if t.startswith("[") or t.startswith("&")]
            counts = [f for f, t in fields if t == "usize" and re.search(r"count|filled|length|letters|size|used|end", f)]
            if arrays and counts:
                yield path, line, f"struct {name}: {', '.join(arrays)} with {', '.join(counts)}"
        for name, line, head, _ in functions(path):
            mine = parameters(head)
            slices = [n for n, t in mine if t.strip().startswith(("&[", "&mut [", "&'a ["))]
            counts = [n for n, t in mine if t.strip() == "usize" and re.fullmatch(r"count|filled|size|end|length", n)]
            if slices and counts:
                yield path, line, f"fn {name}: {', '.join(slices)} with {', '.join(counts)}"
            if {"lengths", "droppable"} <= set(slices) or {"kinds", "times"} <= set(slices):
                yield path, line, f"fn {name}: parallel {', '.join(slices)}"


def point_7(root):
    """A match or a chain of ifs on a number that chooses among three or more calls."""
    for path in files(root):
        for name, line, _, body in functions(path):
            calls = re.findall(r"^ *\d+ => [^\n]*\w+\(", body, re.M)
            chain = re.findall(r"if [\w.]+ (?:==|<) \d+ \{\n *return \w+\(", body)
            if len(calls) >= 3 or len(chain) >= 3:
                yield path, line, f"fn {name}: chooses among {max(len(calls), len(chain))} calls by a number"


def point_8(root):
    """Answers by hand in proofs/, and names with a middle dot in src/."""
    for path in files(root, "proofs", ".antt"):
        if path.name == "Answers.antt":
            for line, text in enumerate(path.read_text().splitlines(), 1):
                if re.match(r"[a-z]\S* (?:g )?c =", text):
                    yield path, line, f"answer {text.split()[0]}"
    for path in files(root):
        for number, line in enumerate(path.read_text().splitlines(), 1):
            if "·" in line:
                yield path, number, line.strip()[:100]


POINTS = [point_1, point_2, point_3, point_4, point_5, point_6, point_7, point_8]


def kept(path, line):
    """Whether a line that begins `// Kept: ` stands beside a place, or above it in the same run of comments and attributes."""
    text = path.read_text().splitlines()
    near = text[max(0, line - 6): line + 2]
    return any("// Kept: " in t for t in near)


def main():
    chosen = [int(a) for a in sys.argv[1:] if a.isdigit()] or list(range(1, 9))
    folders = [a for a in sys.argv[1:] if not a.isdigit()]
    root = pathlib.Path(folders[0]) if folders else pathlib.Path(__file__).resolve().parent.parent
    for number in chosen:
        places = sorted({(p, l, w) for p, l, w in POINTS[number - 1](root)})
        marked = sum(kept(p, l) for p, l, _ in places)
        print(f"point {number}: {len(places)} places, {marked} with a reason. {POINTS[number - 1].__doc__}")
        if len(chosen) == 1:
            for path, line, what in places:
                print(f"  {path.relative_to(root)}:{line}: {'(kept) ' if kept(path, line) else ''}{what}")


main()
