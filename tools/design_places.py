"""Lists the places of src/ that the design pass looks at, by the points of docs/DESIGN-PASS.md.

    python3 tools/design_places.py [FOLDER] [POINT..]

FOLDER is a checkout (this one if it is left out). Each line is: point, file, line, what was found. The last lines count.
Functions that are laws have no body, and are left out.
"""
import collections
import pathlib
import re
import sys

ARM = re.compile(r"^\s*(Some\(|None\b|Ok\(|Err\()")


def code(path):
    """The file's lines, without comments."""
    return [re.sub(r"//.*", "", line) for line in path.read_text().splitlines()]


def block(lines, start):
    """The lines of the braces that open on line `start`, and the last one's place."""
    depth, seen = 0, False
    for end in range(start, len(lines)):
        for c in lines[end]:
            depth += (c == "{") - (c == "}")
            seen = seen or c == "{"
        if seen and depth <= 0:
            return lines[start : end + 1], end
    return lines[start:], len(lines) - 1


def arms(body):
    """The first lines of a match's arms."""
    depth, found = 0, []
    for line in body[1:-1]:
        if depth == 0 and "=>" in line:
            found.append(line)
        depth += line.count("{") + line.count("(") - line.count("}") - line.count(")")
    return found


def wraps(lines):
    """Matches on an Option or a Result, flags of structs, and numbers for kinds."""
    for i, line in enumerate(lines):
        if re.search(r"\bmatch\b.*\{$", line):
            found = arms(block(lines, i)[0])
            if len(found) == 2 and all(ARM.match(a) for a in found):
                yield i, "match on " + ("Result" if "Ok(" in "".join(found) else "Option")
            if len(found) > 2 and all(re.search(r"=> \d+,$", a) for a in found):
                yield i, "numbers for kinds"
        if re.match(r"\s+(pub )?\w+: bool,$", line):
            yield i, "flag"


def loops(lines):
    """Loops that count or index by hand, and loops that are a search."""
    for i, line in enumerate(lines):
        if not re.match(r"\s*(for|while|loop)\b", line):
            continue
        body, _ = block(lines, i)
        text = "\n".join(body)
        if re.search(r"\bin \(?\w+\.\.", line):
            yield i, "range"
        elif re.search(r"\w+ \+= 1;|\w+ = \w+ \+ 1;", text):
            yield i, "count"
        elif re.search(r"return (true|false|None|Some\(|Ok\(Some|\w+;|\w+ \+ 1;)", text):
            yield i, "search"


def written(lines):
    """Equality, order, copying, conversion and printing that are no derive."""
    for i, line in enumerate(lines):
        if re.match(r"\s*impl.*\b(PartialEq|Eq|PartialOrd|Ord|Clone|From<.*|TryFrom<.*|Display)\b.* for ", line):
            yield i, "impl of a trait"
        if re.search(r"\bfn (same\w*|all_same|copy|copy_all)\((?!&(mut )?self)|\bfn (number|to_\w+)\(self|\bfn from_\w+\(|\bfn (push_number|print_refusal|wipe)\b", line):
            yield i, "function"


def together(files):
    """Clauses, and pairs of parameters, that three or more functions of a crate have."""
    clauses, pairs = collections.defaultdict(list), collections.defaultdict(list)
    for path, lines in files:
        text = "\n".join(lines)
        for m in re.finditer(r"\bfn (\w+)(?:<[^(]*>)?\(([^)]*)\)", text):
            line = text[: m.start()].count("\n")
            params = [" ".join(p.split()) for p in m.group(2).split(",") if ":" in p]
            params = [re.sub(r"<'\w+>|'\w+ ", "", p) for p in params if "Global" not in p]
            for k, p in enumerate(params):
                for q in params[k + 1 :]:
                    pairs[re.sub(r"mut ", "", p + ", " + q)].append((path, line))
        for m in re.finditer(r"requires (?:\w+ )?\{ (.*) \}", text):
            said = re.sub(r"\.(old|now)\b", "", m.group(1))
            clauses[said].append((path, text[: m.start()].count("\n")))
    for kind, found in (("clause", clauses), ("pair", pairs)):
        for said, places in sorted(found.items()):
            if len(places) >= 3:
                path, line = places[0]
                yield path, line, f"{kind} in {len(places)} functions: {said}"


def buffers(lines):
    """Arrays or slices with a length or a place beside them, parallel fields, and lists of one's own."""
    for i, line in enumerate(lines):
        if re.match(r"\s*(pub )?(struct|enum) \w+", line):
            body, _ = block(lines, i)
            text = "\n".join(body)
            if re.search(r": (\[\w+; \d+\]|Vec<|&\S* ?(mut )?\[)", text) and re.search(r"\b(count|len|at|top|arity|number): (usize|u8)", text):
                yield i, "buffer with a number beside"
            if len(re.findall(r": Vec<", text)) >= 2 or len(re.findall(r"\b(first|second|third|fourth): u16", text)) >= 2:
                yield i, "parallel"
            if "Nil" in text or "Cons(" in text:
                yield i, "own list"
        if re.match(r"\s*(pub(\(crate\))? )?fn ", line):
            head = " ".join(lines[i : i + 9]).split("{")[0]
            if re.search(r"&mut \[\w+\]", head) and re.search(r"\b(at|filled|top|count|start|place): usize", head):
                yield i, "slice with a number beside"


def switches(lines):
    """Tables of functions, and switches on a step."""
    for i, line in enumerate(lines):
        if re.search(r": fn\(|\bdyn |\[fn\(|match (step|kind|mode|op)\b", line):
            yield i, "switch"


def twins(files):
    """Functions of a crate that are alike but for names, of four lines of code or more."""
    shapes = collections.defaultdict(list)
    for path, lines in files:
        for i, line in enumerate(lines):
            m = re.match(r"\s*(pub(\(crate\))? )?fn (\w+)", line)
            if m:
                start = next((k for k in range(i, len(lines)) if lines[k].strip() == "{" or lines[k].strip().startswith("for ") or lines[k].rstrip().endswith("{") and "ensures" not in lines[k] and "requires" not in lines[k]), None)
                if start is None or any(lines[k].rstrip().endswith(";") for k in range(i, start)):
                    continue
                body, _ = block(lines, start)
                shape = re.sub(r"\b[A-Za-z_]\w*\b|\d+", "x", "".join(body))
                shape = re.sub(r"\s+", "", shape)
                if len([b for b in body if b.strip()]) >= 4:
                    shapes[shape].append((path, i, m.group(3)))
    for places in shapes.values():
        if len(places) > 1:
            path, line, _ = places[0]
            yield path, line, "alike: " + ", ".join(f"{p.parent.name}/{p.stem}::{n}" for p, _, n in places)


def main():
    args = sys.argv[1:]
    top = pathlib.Path(args.pop(0) if args and not args[0].isdigit() else ".")
    crates = sorted(p.parent for p in top.glob("crates/*/src") if p.parent.name != "rewriting")
    counts = collections.Counter()
    per_file = {"1": wraps, "3": loops, "4": written, "6": buffers, "7": switches}
    for point in args or "1234567":
        for crate in crates:
            files = [(p, code(p)) for p in sorted(crate.glob("src/**/*.rt")) if p.name != "laws.rt"]
            if point in per_file:
                found = [(p, i, what) for p, lines in files for i, what in per_file[point](lines)]
            else:
                found = list({"2": twins, "5": together}[point](files))
            for path, i, what in found:
                print(point, path.relative_to(top), i + 1, what)
                counts[point] += 1
    for point in args or "1234567":
        print(f"point {point}: {counts[point]}")


main()
