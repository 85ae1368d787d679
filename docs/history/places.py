#!/usr/bin/env python3
"""Lists places in src/ where an older form of the language may stand, by text alone.

    docs/history/places.py [POINT..] [--count]     at the top of the repository

A line is a place to look at, not a fault. docs/history/DESIGN-PASS.md says what each came to.
  1 own enums of the shape of Option or Result, flags in structs, numbers for kinds or refusals
  2 functions that read alike but for names and constants, types that differ in a field, arms that differ in the side alone
  3 loops that count by hand
  4 tests of equality, copies and conversions by hand
  5 clauses and pairs of parameters in three functions or more
  6 lists with a place or a length beside them, parallel lists
  7 a value that picks the step to run, traits of one method
  8 answers that read alike
"""
import collections, glob, re, sys

FILES = sorted(glob.glob("crates/*/src/**/*.rt", recursive=True))
TOKEN = re.compile(r"[A-Za-z_]\w*|\d[\d_]*|\"[^\"]*\"|::|->|=>|[^\s\w]")


def text(file):
    return "".join(line if not line.lstrip().startswith("//") else "\n" for line in open(file))


def line_of(source, at):
    return source.count("\n", 0, at) + 1


def closing(source, at, pair):
    depth = 0
    for i in range(at, len(source)):
        if source[i] == pair[0]:
            depth += 1
        elif source[i] == pair[1]:
            depth -= 1
            if depth == 0:
                return i
    return len(source)


class Fn:
    """A function: its place, name, parameters, result, clauses and body."""

    def __init__(self, file, source, m):
        self.file, self.name = file, m.group(1)
        self.place = f"{file}:{line_of(source, m.start())} {self.name}"
        start = source.index("(", m.end() - 1)
        end = closing(source, start, "()")
        self.params = re.findall(r"(\w+): ([^,]+?)\s*(?:,|$)", " ".join(source[start + 1:end].split()))
        self.clauses, at = [], end + 1
        rest = re.compile(r"\s*(?:->\s*([^{;]*?))?\s*(?=requires|ensures|where|\{|;)")
        found = rest.match(source, at)
        self.result = (found.group(1) or "").strip() if found else ""
        at = found.end() if found else at
        clause = re.compile(r"\s*(requires|ensures)\s*(\w*)\s*\{")
        while True:
            found = clause.match(source, at)
            if not found:
                break
            stop = closing(source, found.end() - 1, "{}")
            self.clauses.append(" ".join(source[found.end():stop].split()))
            at = stop + 1
        found = re.compile(r"\s*\{").match(source, at)
        self.body = source[found.end():closing(source, found.end() - 1, "{}")] if found else None


def functions():
    for file in FILES:
        source = text(file)
        for m in re.finditer(r"\bfn (\w+)\s*(?:<[^(]*>)?\(", source):
            yield Fn(file, source, m)


def shape(code, keep=()):
    """The tokens of a text, with each name by the order in which it comes, and each number as one."""
    names, out = {}, []
    for token in TOKEN.findall(code.replace("\n", " ")):
        if re.match(r"\d|\"", token):
            token = "#"
        elif re.match(r"[A-Za-z_]", token) and token not in keep:
            token = f"${names.setdefault(token, len(names))}"
        out.append(token)
    return " ".join(out)


KEYWORDS = {"match", "if", "else", "for", "in", "while", "let", "mut", "return", "Some", "None", "Ok", "Err", "self", "Self",
            "true", "false", "break", "loop", "as"}


def structs(kind):
    for file in FILES:
        source = text(file)
        for m in re.finditer(rf"\b{kind} (\w+)(?:<[^{{;]*>)?\s*\{{", source):
            body = source[m.end():closing(source, m.end() - 1, "{}")]
            yield f"{file}:{line_of(source, m.start())} {m.group(1)}", m.group(1), body


def point1():
    for place, name, body in structs("enum"):
        if re.search(r"\(Refusal\)", body) and name != "Result":
            yield f"{place}: an enum with a refusal in it"
        variants = re.findall(r"^\s*(\w+)\s*(?:\(([^)]*)\)|\{[^}]*\})?,", body, re.M)
        if variants and any(v in ("Nothing", "NoMemory", "NoPrice", "Neither", "Complete", "Done", "Taken") for v, _ in variants):
            yield f"{place}: an enum with a variant for nothing, want or success"
    for place, name, body in structs("struct"):
        for flag in re.findall(r"(\w+): bool", re.sub(r"ghost .*", "", body)):
            yield f"{place}: the flag {flag}"
    for f in functions():
        if "Option<Refusal>" in f.result:
            yield f"{f.place}: a refusal that may be absent"
        if f.body and "is_ok()" in f.body and f.result == "bool":
            yield f"{f.place}: a result told as a flag"
        if f.body and f.result in ("u8", "u32") and len(re.findall(r"=> \d+,", f.body)) > 1:
            yield f"{f.place}: numbers for variants"
        if f.body is not None and f.body.strip() == "0":
            yield f"{f.place}: a number that says nothing"


def point2():
    bodies = collections.defaultdict(list)
    for f in functions():
        if f.body and len(TOKEN.findall(f.body)) >= 12:
            bodies[shape(f.body, KEYWORDS)].append(f.place)
    for places in bodies.values():
        if len(places) > 1:
            yield f"{len(places)} functions alike: " + "; ".join(places)
    fields = collections.defaultdict(list)
    for place, name, body in structs("struct"):
        names = re.findall(r"(\w+): ", re.sub(r"ghost .*", "", body))
        if len(names) >= 3:
            fields[place] = names
    done = list(fields.items())
    for i, (a, x) in enumerate(done):
        for b, y in done[i + 1:]:
            if len(set(x) & set(y)) >= 3 and len(set(x) ^ set(y)) <= 2:
                yield f"types alike: {a}; {b}"
    for file in FILES:
        source = text(file)
        arms = re.finditer(r"((?:Side|Event)::(?:Buy|Bid)\b[^=\n]*)=>(.*?)((?:Side|Event)::(?:Sell|Offer)\b[^=\n]*)=>(.*?)(?=\n\s*\}|\n\s*(?:Side|Event)::|\n\s*_ =>)", source, re.S)
        for m in arms:
            a, b = m.group(2), m.group(4)
            called = set(re.findall(r"\.(\w+)\(", a + b))
            if len(TOKEN.findall(a)) >= 6 and shape(a, KEYWORDS | called) == shape(b, KEYWORDS | called) and "write!" not in a:
                yield f"{file}:{line_of(source, m.start())} arms that differ in the side"


def point3():
    for file in FILES:
        source = text(file)
        for m in re.finditer(r"\bwhile ([^{]*)\{", source):
            body = source[m.end():closing(source, m.end() - 1, "{}")]
            if "while let" in m.group(0) and not re.search(r"[+-/]= ", body):
                continue
            yield f"{file}:{line_of(source, m.start())} while {m.group(1).strip()}"


def point4():
    for f in functions():
        if not f.body or "/tests" in f.file:
            continue
        if f.result == "bool" and re.match(r"\s*match", f.body) and re.search(r"=> true", f.body) and re.search(r"=> false", f.body):
            yield f"{f.place}: equality of variants by a match"
        for name in re.findall(r"(?<=[{,]) *\n? *(?:\w+: (\w+)\.\w+,\s*){3,}", f.body):
            yield f"{f.place}: fields copied one by one from {name}"
        if re.match(r"\s*match \w+ \{\s*(Some|Ok)\(\w+\) => (Some|Ok)\(", f.body) or re.search(r"match .*\{\s*Some\((\w+)\) => Some\(\1\),\s*None =>", f.body):
            yield f"{f.place}: an Option passed on by a match"
        if re.search(r"match \w+ \{\s*Ok\(.*?\) => \w+::\w+.*\s*Err\((\w+)\) => \w+::\w+\(\1\),\s*\}", f.body):
            yield f"{f.place}: a Result turned into an enum"
    for file in FILES:
        source = text(file)
        if "tests" in file:
            for m in re.finditer(r"\(\w+\.\w+, \w+\.\w+(?:, \w+\.\w+)*\)", source):
                yield f"{file}:{line_of(source, m.start())} fields compared as a tuple: {m.group(0)}"


def point5():
    clauses = collections.defaultdict(set)
    groups = collections.defaultdict(set)
    for f in functions():
        if not f.clauses:
            continue
        for clause in set(f.clauses):
            if len(clause) > 24:
                clauses[clause].add(f.place)
        pairs = [f"{n}: {t}" for n, t in f.params if n not in ("self", "rt", "f")]
        for i, a in enumerate(pairs):
            for b in pairs[i + 1:]:
                groups[f"{a}, {b}"].add(f.place)
    for kind, found in (("clause", clauses), ("parameters", groups)):
        for what, places in sorted(found.items()):
            if len(places) >= 3:
                yield f"{len(places)} functions with the {kind} {{ {what} }}: " + "; ".join(sorted(places))


def point6():
    for f in functions():
        kinds = [t for _, t in f.params]
        lists = [n for n, t in f.params if re.search(r"&(mut )?\[|Vec<|\[\w", t)]
        sizes = [n for n, t in f.params if t == "usize"]
        if lists and sizes:
            yield f"{f.place}: {', '.join(lists)} with {', '.join(sizes)}"
    for place, name, body in structs("struct"):
        body = re.sub(r"ghost .*", "", body)
        lists = re.findall(r"(\w+): (?:&'\w+ )?(?:Vec<[^\n]*|\[[^\n]*)", body)
        sizes = re.findall(r"(\w+): usize", body)
        if lists and sizes or len(lists) > 1 or sizes:
            yield f"{place}: lists {', '.join(lists) or 'elsewhere'}; numbers {', '.join(sizes) or 'none'}"
    for file in FILES:
        source = text(file)
        for m in re.finditer(r"\[(?:[^\]\n]*\* ?2|2 \*)[^\]\n]*\]", source):
            yield f"{file}:{line_of(source, m.start())} a place reckoned from a place: {m.group(0)}"


def point7():
    enums = {name for _, name, body in structs("enum")}
    for f in functions():
        for n, t in f.params:
            if t == "bool":
                yield f"{f.place}: the flag {n} picks the step"
            elif t in enums and f.body and re.search(rf"match {n} \{{", f.body) and re.search(r"By|At|Off", "".join(re.findall(rf"{t}::(\w+)", f.body))):
                yield f"{f.place}: {n}: {t} picks the step"
    for file in FILES:
        source = text(file)
        for m in re.finditer(r"\btrait (\w+)[^{]*\{", source):
            body = source[m.end():closing(source, m.end() - 1, "{}")]
            if len(re.findall(r"\bfn ", body)) == 1:
                users = sum(len(re.findall(rf"\bimpl(?:<[^>]*>)? {m.group(1)} for", text(g))) for g in FILES)
                yield f"{file}:{line_of(source, m.start())} {m.group(1)}: a trait of one method, {users} impls"


def point8():
    for file in sorted(glob.glob("crates/*/proofs/**/Answers.antt", recursive=True)):
        blocks = re.split(r"\n\s*\n", "\n".join(l for l in open(file).read().split("\n") if not l.startswith(("use ", "--"))))
        alike = collections.defaultdict(list)
        for block in blocks:
            if len(block.strip().split("\n")) >= 4:
                alike[re.sub(r"[\w◌]+(?:-[\w]+)*", "$", " ".join(block.split()))].append(block.strip().split(" ")[1] if " " in block.strip() else block)
        for names in alike.values():
            if len(names) > 1:
                yield f"{file}: {len(names)} answers alike: {', '.join(names)}"


def main():
    words = [a for a in sys.argv[1:] if a != "--count"]
    for n in words or "12345678":
        places = list(globals()[f"point{n}"]())
        print(f"point {n}: {len(places)}")
        if "--count" not in sys.argv:
            for place in places:
                print("  " + place)


main()
