#!/usr/bin/env python3
"""Lists the places of older forms in crates/*/src, point by point, and counts them: tools/places.py [DIR] [POINT]

DIR is a checkout (the current folder, if none is given). What each pattern looks for stands beside it; docs/DESIGN-PASS.md says
what was done with each place."""
import glob, os, re, sys

root = sys.argv[1] if len(sys.argv) > 1 else "."
only = sys.argv[2] if len(sys.argv) > 2 else None
LENT = {"bits", "spans", "records", "entries", "heads", "used", "heaps", "sizes", "most", "lookup"}


def functions(text):
    """(name, parameters, result, body, line) of each function with a body."""
    for m in re.finditer(r"^( *)(?:#\[.*\]\n *)*(?:pub )?(?:extern \"C\" )?fn (\w+)(?:<[^>]*>)?\(([^)]*)\)(?: -> ([^\n{]+))?", text, re.M):
        start = re.compile(r"(^" + m[1] + r"\{$|\{$)", re.M).search(text, m.end())
        if not start:
            continue
        end = re.compile(r"^" + m[1] + r"\}", re.M).search(text, start.end())
        if end:
            yield m[2], m[3], (m[4] or "").strip(), text[start.end():end.start()], text[:m.start()].count("\n") + 1


def shape(body):
    """The body with names and numbers told apart by their order only."""
    seen = {}
    return re.sub(r"[A-Za-z_]\w*|\d\w*", lambda m: seen.setdefault(m[0], f"n{len(seen)}"), re.sub(r"//.*", "", body)).split()


found, shapes = {str(n): [] for n in range(1, 8)}, {}
for path in sorted(glob.glob(os.path.join(root, "crates/*/src/*.rt"))):
    text, short = open(path).read(), os.path.relpath(path, root)
    for m in re.finditer(r"^(?:pub )?enum (\w+) \{\n(.*?)^\}", text, re.M | re.S):
        variants = re.findall(r"^    (\w+)(\(| \{|,)", m[2], re.M)
        if len(variants) == 2 and sorted(v[1] == "," for v in variants) == [False, True]:
            found["1"].append(f"{short}: enum {m[1]}, of the shape of Option")
    for m in re.finditer(r"^(?:pub )?struct (\w+)[^{;]*\{\n(.*?)^\}", text, re.M | re.S):
        if re.search(r"^    (?:pub )?(number|ok|found): ", m[2], re.M):
            found["1"].append(f"{short}: struct {m[1]}, a number with a value beside it")
    for name, params, result, body, line in functions(text):
        at = f"{short}:{line} {name}"
        if result == "u64" and re.search(r"^\s*(return )?\d+;?$|^\s*(return )?\w+ \+ 1;?$|return unsound|return number;|refusals::number_of", body, re.M):
            found["1"].append(f"{at}: a number for a kind, a refusal or none")
        elif re.search(r"refusal\((\d+|number)\)|^\s+number: \d", body, re.M):
            found["1"].append(f"{at}: a refusal's number")
        if re.search(r"\bf: u64", params):
            found["1"].append(f"{at}: a list or a cell by its number f")
        if len(body.split()) > 2:
            shapes.setdefault((tuple(shape(body)), len(params.split(","))), []).append(at)
        for n, _ in enumerate(re.findall(r"^\s*(?:'\w+: )?(?:while|loop)\b", body, re.M)):
            found["3"].append(f"{at}: while {n + 1}")
        by_hand = r"if (\w+) < (\w+) \{ \2 \} else \{ \1 \}|=> (true|false),|_ones\(\w+\) as|_zeros\(\w+\) as|num::wrapping|>> k\) \||io::decimal"
        ladder = r"\{\n\s+[A-Z_]+\n\s+\} else if"
        if re.search(by_hand + "|" + ladder, body) or re.fullmatch(r"\s*\w+ as u64\s*", body):
            found["4"].append(f"{at}: what the library has, by hand")
        names = {re.match(r"\s*(?:mut )?(\w+):", p)[1] for p in params.split(",") if re.match(r"\s*(?:mut )?(\w+):", p)}
        if len(names & LENT) >= 3:
            found["5"].append(f"{at}: {', '.join(sorted(names & LENT))}")
        if "out: &mut [u8]" in params and "at: usize" in params:
            found["6"].append(f"{at}: a buffer with a place beside it")
        if {"sizes", "lookup"} <= names:
            found["6"].append(f"{at}: two lists that belong together")
        if re.search(r"while sizes\[", body):
            found["6"].append(f"{at}: a sorted list searched by hand")
        if len(re.findall(r"\bkind == ", body)) > 1 or re.search(r"\bdyn\b|fn\(", body):
            found["7"].append(f"{at}: a switch on which step to run")
for names in shapes.values():
    if len(names) > 1:
        found["2"].append("one body: " + "; ".join(names))
for point, places in found.items():
    if only in (None, point):
        print(f"point {point}: {len(places)}")
        for place in places:
            print("  ", place)
