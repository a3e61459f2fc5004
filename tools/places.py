#!/usr/bin/env python3
"""Lists the places of docs/DESIGN-PASS.md in crates/*/src, a block for each point; with a number, that point alone."""
import collections, glob, re, sys

FILES = {it: open(it).read() for it in sorted(glob.glob("crates/*/src/*.rt"))}
NAMED = r"(?:pub(?:\(crate\))? )?"


def functions():
    """Each function: its file, name, parameters (name, type), result, contract and body."""
    for path, text in FILES.items():
        for m in re.finditer(r"^( *)(?:pub(?:\(crate\))? )?fn (\w+)(<[^(]*>)?\(", text, re.M):
            depth, i = 1, m.end()
            while depth:
                depth += {"(": 1, ")": -1}.get(text[i], 0)
                i += 1
            inside = re.sub(r"//.*", "", text[m.end() : i - 1])
            parts, depth, part = [], 0, ""
            for c in inside:
                depth += c in "(<["
                depth -= c in ")>]"
                if c == "," and depth == 0:
                    parts.append(part)
                    part = ""
                else:
                    part += c
            parts.append(part)
            takes = [tuple(x.strip() for x in it.split(":", 1)) for it in parts if ":" in it]
            end = re.compile(rf"^{m[1]}}}$", re.M).search(text, i)
            rest = text[i : end.end() if end else len(text)]
            head = re.search(rf"^{m[1]}{{$|{{$", rest, re.M)
            yield path, m[2], takes, rest[: head.start()] if head else rest, rest[head.start() :] if head else ""


def enums():
    for path, text in FILES.items():
        for m in re.finditer(rf"^{NAMED}enum (\w+)[^{{]*{{\n(.*?)^}}", text, re.M | re.S):
            cases = re.findall(r"^    (\w+)(\([^)]*\)|\s*{[^}]*})?,", m[2], re.M)
            yield path, m[1], cases


def point_1():
    for path, name, cases in enums():
        holds = [it for it in cases if it[1]]
        if not name.endswith("Error") and any(it[1].endswith("Error)") for it in holds):
            yield path, f"enum {name}: a result"
        elif len(cases) == 2 and len(holds) == 1:
            yield path, f"enum {name}: an option"
        elif len(cases) == 2 and len(holds) == 0 and not name.endswith("Error"):
            yield path, f"enum {name}: a yes or no"
    for path, text in FILES.items():
        for m in re.finditer(rf"^{NAMED}struct (\w+)[^{{;]*{{\n(.*?)^}}", text, re.M | re.S):
            if re.search(r"^    .*: bool,", m[2], re.M) or re.search(r"answer: \w+,", m[2]):
                yield path, f"struct {m[1]}: a flag beside values"
            elif re.search(r"refusal: u8", m[2]):
                yield path, f"struct {m[1]}: a refusal's number beside values"
        for m in re.finditer(rf"^{NAMED}const (\w+): u(?:8|16|32|64) =", text, re.M):
            if not re.search(r"MAX|MIN|_MS|VERSION|SYSEX|DEVICE|STATES|UNIVERSAL|SUB_ID1", m[1]):
                yield path, f"const {m[1]}: a number for a kind"


def shape(text):
    """A text with its names, but the language's, as one letter, and its numbers as one."""
    words = set("fn let mut if else while for in loop match return as u8 u16 u32 u64 usize bool true false self pub crate".split())
    text = re.sub(r"//.*", "", text)
    text = re.sub(r"\b[A-Za-z_]\w*\b", lambda m: m[0] if m[0] in words else "x", text)
    return re.sub(r"\s+", " ", re.sub(r"\b[0-9][0-9A-Fa-f_xu]*\b", "0", text)).replace("x::x", "x")


def point_2():
    groups = collections.defaultdict(list)
    for path, name, takes, head, body in functions():
        if len(body) > 60:
            groups[shape(body)].append((path, name))
    for group in groups.values():
        if len(group) > 1:
            yield group[0][0], "alike: " + ", ".join(f"{n} ({p.split('/')[1]})" for p, n in group)


def point_3():
    for path, text in FILES.items():
        for k, line in enumerate(text.split("\n"), 1):
            if re.match(r"\s*(let \w+ = )?(while|loop)\b", line):
                yield path, f"line {k}: {line.strip()}"


def point_4():
    for path, name, takes, head, body in functions():
        if re.match(r"(same|eq|is_same|to_|into_|from_|number$|value$|kind_(of|number)|pack|unpack|print_|put_decimal|show_|larger|smaller|at_most|held_sum|.*_(shown|answer|out|in)$)", name):
            yield path, f"fn {name}"


def point_5():
    groups = collections.Counter()
    facts = collections.defaultdict(set)
    import itertools
    for path, name, takes, head, body in functions():
        names = sorted({re.sub(r"^mut ", "", it[0]) for it in takes} - {"self"})
        crate = path.split("/")[1]
        for k in range(3, min(len(names), 8) + 1):
            for group in itertools.combinations(names, k):
                groups[crate, group] += 1
        for m in re.finditer(r"requires (?:\w+ )?{(.*?)}$", head, re.M | re.S):
            for fact in re.split(r" × ", m[1]):
                facts[crate, re.sub(r"\s+", " ", fact).strip(" ()")].add((path, name))
    found = [(g, n) for g, n in groups.items() if n >= 3]
    for g, n in found:
        if not any(h[0] == g[0] and set(g[1]) < set(h[1]) and m >= n for h, m in found):
            yield f"crates/{g[0]}", f"parameters {', '.join(g[1])}: {n} functions"
    for (crate, fact), where in facts.items():
        if len(where) >= 3:
            yield f"crates/{crate}", f"fact {fact}: {len(where)} functions"


def point_6():
    for path, name, takes, head, body in functions():
        slices = [it for it in takes if re.match(r"&(mut )?\[", it[1])]
        lengths = [it[0] for it in takes if it[1] == "usize" and re.match(r"(len|count|room|to|n|upto|size)$", it[0])]
        columns = [it for it in takes if it[1] == "&mut [u64]"]
        if slices and lengths:
            yield path, f"fn {name}: a slice and {', '.join(lengths)}"
        elif len(columns) > 1:
            yield path, f"fn {name}: columns {', '.join(it[0] for it in columns)}"


def point_7():
    for path, name, takes, head, body in functions():
        arms = re.findall(r"^\s+[\w:|() ,_]+ => \w+\(.*tape|^\s+[A-Z]\w*(?:::\w+)?(?:\([^)]*\))? => (\w+)\(", body, re.M)
        if len(arms) >= 3:
            yield path, f"fn {name}: {len(arms)} arms that call"


def point_8():
    for path in sorted(glob.glob("crates/*/proofs")):
        texts = [open(it).read() for it in glob.glob(f"{path}/**/*.antt", recursive=True)]
        answers = sum(len(re.findall(r"^pub (?!mod|record|data|use)", open(it).read(), re.M)) for it in glob.glob(f"{path}/**/Answers.antt", recursive=True))
        yield path, f"{sum(it.count(chr(10)) for it in texts)} lines, {answers} answers"


def main():
    asked = sys.argv[1:] or list("12345678")
    for point in asked:
        found = list(globals()[f"point_{point}"]())
        print(f"point {point}: {len(found)}")
        for path, what in found:
            print(f"  {path}: {what}")


main()
