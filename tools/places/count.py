#!/usr/bin/env python3
"""Lists the places in crates/*/src that docs/DESIGN-PASS.md counts, a line for each: point, file:line, what stands there.
   tools/places/count.py [POINT ..] [--sum]   the tree as it is; --sum prints the numbers alone
It reads text and knows no types: what it lists is a candidate, and the page says of each kind how many are changed and why the others stay."""
import collections, glob, os, re, sys

os.chdir(os.path.join(os.path.dirname(os.path.abspath(__file__)), "..", ".."))
FILES = sorted(glob.glob("crates/*/src/**/*.rt", recursive=True))
TEXT = {f: open(f, encoding="utf-8").read() for f in FILES}


def line(f, at):
    return f"{f}:{TEXT[f].count(chr(10), 0, at) + 1}"


def block(text, at):
    """The text between the brace at `at` and its own end."""
    depth = 0
    for i in range(at, len(text)):
        depth += {"{": 1, "}": -1}.get(text[i], 0)
        if depth == 0:
            return text[at + 1 : i]
    return ""


def functions(f):
    """Name, place, parameters, clauses and body of each function of a file."""
    t = TEXT[f]
    for m in re.finditer(r"^( *)(?:pub )?fn (\w+)(<[^(]*>)?\(", t, re.M):
        depth, i = 1, m.end()
        while depth:
            depth += {"(": 1, ")": -1}.get(t[i], 0)
            i += 1
        head = re.compile(rf"^{m[1]}\{{$|(?<= )\{{$", re.M).search(t, i)
        if head:
            yield m[2], m.start(), t[m.end() : i - 1], t[i : head.start()], block(t, head.end() - 1)


def parameters(text):
    depth, parts = 0, [""]
    for c in text:
        depth += c in "(<[{"
        depth -= c in ")>]}"
        if c == "," and depth == 0:
            parts.append("")
        else:
            parts[-1] += c
    return [p.strip() for p in parts if p.strip()]


def point1():
    for f in FILES:
        for m in re.finditer(r"^(?:pub )?enum (\w+)[^{]*\{", TEXT[f], re.M):
            body = re.sub(r"//.*", "", block(TEXT[f], m.end() - 1))
            variants = re.findall(r"^    (\w+)(\(|\s*\{)?", body, re.M)
            data = sum(1 for _, d in variants if d)
            if data and (data < len(variants) or len(variants) == 2) and len(variants) < 5 and re.search(r"Refused|Faulty|Nowhere|NotFinite|Clean|None|Missing|Bad|Wrong|Ended|Done|Good|Nothing|End|Failed", body):
                yield line(f, m.start()), f"enum {m[1]}: {', '.join(v for v, _ in variants)}"
            elif m[1] == "Kept":
                yield line(f, m.start()), "enum Kept: Added, and what stands against it"
        for m in re.finditer(r"^ *(?:pub )?const (\w+): u8 = \d+;", TEXT[f], re.M):
            yield line(f, m.start()), f"a number for a kind, a phase or a refusal: {m[1]}"
        for name, at, params, head, body in functions(f):
            if re.search(r"^ -> u8\b", head) and not re.search(r"byte|digit|letter|\bat\b", name) and "savrunte_c" not in f:
                yield line(f, at), f"fn {name} answers a number"
        for m in re.finditer(r"^ *(?://.*|pub \w+: (?:u8|u64|usize),).*?(?:0 for none|else 1 and)", TEXT[f], re.M):
            yield line(f, m.start()), "0 for none, else 1 and a place"


def shape(body):
    words = re.sub(r"//.*", "", body)
    words = re.sub(r"\b(?!if\b|else\b|for\b|in\b|while\b|match\b|return\b|let\b|mut\b|as\b|true\b|false\b)[A-Za-z_]\w*(::\w+)*", "x", words)
    return re.sub(r"\s+", "", re.sub(r"\b\d[\w.]*", "0", words))


def point2():
    groups = collections.defaultdict(list)
    for f in FILES:
        for name, at, params, head, body in functions(f):
            if len(shape(body)) > 40:
                groups[shape(body)].append((f, at, name))
    for places in groups.values():
        if len(places) > 1:
            for f, at, name in places:
                yield line(f, at), f"fn {name}: as {', '.join(n for g, a, n in places if (g, a) != (f, at))[:90]}"


def point3():
    for f in FILES:
        for name, at, params, head, body in functions(f):
            for m in re.finditer(r"^( *)while [^\n]*\{", body, re.M):
                inner = block(body, m.end() - 1)
                if re.search(r"\b\w+ [+-]= \d", inner):
                    yield line(f, at), f"fn {name}: while, counting by hand"
            for m in re.finditer(r"^ *for (\w+) in [^\n]*\.\.[^\n]*\{", body, re.M):
                inner = block(body, m.end() - 1)
                if re.search(rf"\[[^\]]*\b{m[1]}\b[^\]]*\]|_at\([^)]*\b{m[1]}\b|, {m[1]}\b", inner):
                    yield line(f, at), f"fn {name}: for {m[1]} over an index"


def point4():
    for f in FILES:
        for m in re.finditer(r"#\[derive\(Drop\)\]\s*(?:pub )?(struct|enum) (\w+)", TEXT[f]):
            body = block(TEXT[f], TEXT[f].find("{", m.end()))
            if not re.search(r"&|Vec|Box|String|File|<", body):
                yield line(f, m.start()), f"{m[1]} {m[2]} derives Drop alone"
        for m in re.finditer(r"^impl (?:Clone|Copy|PartialEq|Eq|PartialOrd|Ord|Default) for (\w+)", TEXT[f], re.M):
            yield line(f, m.start()), f"by hand for {m[1]}"
        for name, at, params, head, body in functions(f):
            if re.match(r"\s*match \w+ \{", body) and re.search(r"^ -> (?:u8|u64|usize|&'static|&str|bool)", head) and len(re.findall(r"=>", body)) == len(re.findall(r"\w+::\w+(?:\([^)]*\)|\s*\{[^}]*\})? =>", body)):
                yield line(f, at), f"fn {name}: a match that only converts or prints"


def point5():
    for f in FILES:
        for name, at, params, head, body in functions(f):
            many = parameters(params)
            if len(many) >= 7:
                yield line(f, at), f"fn {name}: {len(many)} parameters"
    facts = collections.defaultdict(list)
    for f in FILES:
        for name, at, params, head, body in functions(f):
            for clause in re.findall(r"requires(?: \w+)? \{(.*?)\}\n", head, re.S):
                for fact in re.split(r" × ", clause):
                    facts[f.split("/")[1], re.sub(r"\s+", " ", fact.strip(" ()\n"))].append((f, at, name))
    for (crate, fact), places in sorted(facts.items()):
        if len(places) >= 3:
            for f, at, name in places:
                yield line(f, at), f"fn {name}: requires {fact[:70]}"


def point6():
    for f in FILES:
        for m in re.finditer(r"^(?:pub )?struct (\w+)[^{;]*\{", TEXT[f], re.M):
            body = block(TEXT[f], m.end() - 1)
            if re.search(r": \[\w", body) and re.search(r"\b(len|count|used|size|end|at|\w+_len|\w+_count): (usize|u64)", body):
                yield line(f, m.start()), f"struct {m[1]}: a buffer and a length"
        for name, at, params, head, body in functions(f):
            if re.search(r"&mut \[u8\]", params) and re.search(r"-> (usize|Option<usize>)", head):
                yield line(f, at), f"fn {name}: a buffer is filled and its length answered"
            if len(re.findall(r"&mut \[u64\]", params)) >= 2 or len(re.findall(r": &\[u64\]", params)) >= 2:
                yield line(f, at), f"fn {name}: lists side by side"
            for m in re.finditer(r"\w+\[\w+\] = [^\n]*;\n\s*\w+ \+= 1;", body):
                yield line(f, at), f"fn {name}: a buffer and a count"


def point7():
    for f in FILES:
        for name, at, params, head, body in functions(f):
            for p in parameters(params):
                m = re.match(r"(\w+): bool$", p)
                if m and re.search(rf"\bif !?{m[1]}\b", body):
                    yield line(f, at), f"fn {name}: {m[1]} says which way"
            if re.search(r"\bfn\(", params):
                yield line(f, at), f"fn {name}: a function pointer"


def point8():
    for c in sorted(glob.glob("crates/*")):
        for kind in ("Answers", "Invariants", "Proof"):
            for f in glob.glob(f"{c}/proofs/**/{kind}.antt", recursive=True):
                yield f, f"{len(open(f, encoding='utf-8').read().splitlines())} lines"


wanted = [int(w) for w in sys.argv[1:] if w.isdigit()] or range(1, 9)
for p in wanted:
    found = sorted(set(globals()[f"point{p}"]()))
    if "--sum" in sys.argv:
        print(f"point {p}: {len(found)} places in {len({a.split(':')[0] for a, _ in found})} files")
    else:
        for place, what in found:
            print(f"{p}  {place}  {what}")
