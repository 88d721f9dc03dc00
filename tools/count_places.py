"""Lists, for each kind of form that the page docs/DESIGN-PASS.md speaks of, the lines of src/ in which it may stand.

    python3 tools/count_places.py [--list] [FOLDER]

A line is a candidate: the page says which of them are places. FOLDER is the top of a checkout, this one by default."""

import collections
import pathlib
import re
import sys

PATTERNS = [
    ("1", "own enums", r"^(pub(\(crate\))? )?enum \w+"),
    ("1", "a flag in a struct", r"^\s+(pub(\(crate\))? )?\w+: bool,$"),
    ("1", "a number for a kind, a refusal or a place", r"\b(number|tag|last|from|to|above): (u8|usize)\b|: u8 = \d+;"),
    ("1", "an option or a result taken apart by hand", r"(None|Err\(\w+\)|Err\(_\)) => (return )?(Err|None|Some|false|Ok)|Some\(\w+\) => (Ok|Some)\("),
    ("3", "loops", r"^\s+(for|while|loop)\b"),
    ("3", "an index or a place counted by hand", r"\b\w+ \+= |for \w+ in 0\.\."),
    ("4", "equality, conversion, order by hand", r"\bfn (same|is_same\w*|is_in|is_on|state_when|opposite|tenths|code|codes|from_code|from_codes|from_value|value|compare|two_bytes|high|low|\w+_label|\w+_name)\b"),
    ("6", "a length or an index beside a buffer", r"^\s+(pub(\(crate\))? )?(len|count|names_start|names_end|start|end|at|on|off): "),
    ("7", "a match on a step, a call or an action", r"match \*?(step|call|action|self\.0|self|tag|test)\b"),
]


def functions(text):
    """Each function's name, parameters and body."""
    for m in re.finditer(r"\bfn (\w+)[^(]*\(", text):
        depth, i = 1, m.end()
        while depth and i < len(text):
            depth += {"(": 1, ")": -1}.get(text[i], 0)
            i += 1
        ends = re.search(r";\n|\n *\{\n|\{\n|\{\}", text[i:])
        body = "" if ends and ends.group(0) == ";\n" else body_after(text, i)
        yield m.group(1), text[m.end():i - 1], body, text.count("\n", 0, m.start()) + 1


def body_after(text, i):
    """The block in braces behind a signature, past its clauses."""
    for m in re.finditer(r"^( *)\{(\}?)$|\{$", text[i:], re.M):
        start = i + m.start()
        line = text[text.rfind("\n", 0, start) + 1:start + 1]
        if re.match(r"\s*(ghost|requires|ensures)", line):
            continue
        depth, k = 0, text.index("{", start)
        first = k
        while k < len(text):
            depth += {"{": 1, "}": -1}.get(text[k], 0)
            k += 1
            if depth == 0:
                return text[first:k]
    return ""


def shape(body):
    """A body with other names and numbers in place of its own."""
    body = re.sub(r'"[^"]*"', "S", body)
    body = re.sub(r"\b(if|else|match|for|in|return|let|mut|while|self|Some|None|Ok|Err|true|false)\b", lambda m: m.group(0).upper(), body)
    body = re.sub(r"\b[a-z_]\w*\b|\b[A-Z]\w*[a-z]\w*\b", "n", body)
    return re.sub(r"\s+", " ", re.sub(r"\b\d\w*\b", "0", body))


def main():
    arguments = [a for a in sys.argv[1:] if a != "--list"]
    listed = "--list" in sys.argv
    top = pathlib.Path(arguments[0] if arguments else ".")
    files = sorted(p for p in top.glob("crates/*/src/**/*.rt"))
    for point, what, pattern in PATTERNS:
        hits = [(p.relative_to(top), n, line.strip()) for p in files for n, line in enumerate(p.read_text().split("\n"), 1)
                if re.search(pattern, line) and not line.lstrip().startswith(("//", "ghost use", "ensures", "requires"))]
        print(f"point {point}: {what}: {len(hits)}")
        for p, n, line in hits if listed else []:
            print(f"    {p}:{n}: {line}")
    shapes, pairs, facts = collections.defaultdict(list), collections.defaultdict(list), collections.defaultdict(list)
    for p in files:
        text = p.read_text()
        crate = p.relative_to(top).parts[1]
        for name, params, body, line in functions(text):
            where = f"{p.relative_to(top)}:{line} {name}"
            if len(shape(body)) > 30:
                shapes[shape(body)].append(where)
            names = [q.strip() for q in re.split(r",\s*(?![^<(\[]*[>)\]])", params.replace("\n", " ")) if ":" in q]
            for a in range(len(names)):
                for b in range(a + 1, len(names)):
                    pairs[names[a] + ", " + names[b]].append(where)
        for m in re.finditer(r"requires (?:\w+ )?\{(.*)\}", text):
            for fact in m.group(1).split(" × "):
                facts[fact.strip().strip("()")].append(f"{p.relative_to(top)}:{text.count(chr(10), 0, m.start()) + 1}")
    groups = [("2", "functions of one shape", {k: v for k, v in shapes.items() if len(v) > 1}),
              ("5", "two parameters together in three functions or more", {k: v for k, v in pairs.items() if len(v) > 2}),
              ("5", "a fact required in three places or more", {k: v for k, v in facts.items() if len(v) > 2})]
    for point, what, found in groups:
        print(f"point {point}: {what}: {len(found)}")
        for key, where in sorted(found.items()) if listed else []:
            print(f"    {key[:100]}")
            for w in where:
                print(f"        {w}")


main()
