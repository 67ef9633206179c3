#!/usr/bin/env python3
"""Lists the places in crates/*/src that docs/DESIGN-PASS.md counts, by point: tools/design_places.py [--list] [FOLDER].

It reads text and knows no types: it finds places to look at, and which of them are kept, and why, stands in the page."""
import collections
import pathlib
import re
import signal
import sys

signal.signal(signal.SIGPIPE, signal.SIG_DFL)

DATA = "crates/field/src/table.rt"
FN = re.compile(r"^ *(?:#\[.*\]\s*)?(?:pub(?:\([a-z]+\))? )?(?:unsafe )?(?:extern \"C\" )?fn ([a-z_0-9]+)")
TYPE = re.compile(r"^ *(?:pub(?:\([a-z]+\))? )?(struct|enum) ([A-Za-z_0-9]+)")


def sources(top):
    for path in sorted(top.glob("crates/*/src/**/*.rt")):
        name = str(path.relative_to(top))
        if name != DATA:
            yield name, path.read_text().split("\n")


def functions(top):
    """Name, place, the comment above, the head up to its body, and the lines of the body."""
    for name, lines in sources(top):
        for i, line in enumerate(lines):
            found = FN.match(line)
            if not found:
                continue
            above = []
            j = i - 1
            while 0 <= j and lines[j].strip().startswith(("//", "#[")):
                above.insert(0, lines[j].strip())
                j -= 1
            indent = len(line) - len(line.lstrip())
            head, body, k = [line], [], i + 1
            inside = line.rstrip().endswith("{") and not line.strip().startswith("requires")
            end = " " * indent + "}"
            while k < len(lines) and lines[k].rstrip() != end:
                if inside:
                    body.append(lines[k])
                elif lines[k].rstrip() == " " * indent + "{":
                    inside = True
                elif lines[k].rstrip().endswith(";") and lines[k].strip().startswith(")"):
                    break
                else:
                    head.append(lines[k])
                k += 1
            yield found.group(1), f"{name}:{i + 1}", " ".join(above), "\n".join(head), body


def types(top):
    for name, lines in sources(top):
        for i, line in enumerate(lines):
            found = TYPE.match(line)
            if found and line.rstrip().endswith("{"):
                indent = len(line) - len(line.lstrip())
                k = i + 1
                while k < len(lines) and lines[k].rstrip() != " " * indent + "}":
                    k += 1
                yield found.group(1), found.group(2), f"{name}:{i + 1}", lines[i + 1:k], lines[i - 1] if i else ""


def point_1(top):
    shape = r"^ +(Refused|Fault|Stopped|Unknown|Unmet|Nothing|NoMore|Wrong|Whole)\b"
    for kind, name, at, body, _ in types(top):
        text = "\n".join(body)
        if kind == "enum" and re.search(shape, text, re.M):
            yield "an enum with a case for no value or for a refusal", at, name
        if kind == "struct":
            for field in re.findall(r"^ +(?:pub )?([a-z_]+): bool,", text, re.M):
                yield "a flag in a struct", at, f"{name}.{field}"
    none = re.compile(r"\b(0|p|end|NO_KEY) (where|if) (there|it|none|that|the)\b|\b0 is none|, 0 where|; 0 where|p where|end where there is none|NO_KEY")
    for name, at, above, head, body in functions(top):
        if re.search(r"-> (u16|u32|u64|usize)\b", head) and none.search(above):
            yield "a number that stands for none", at, name
        elif re.search(r"return NO_KEY|!= NO_KEY|== NO_KEY", "\n".join(body)):
            yield "a number that stands for none", at, name
    for name, lines in sources(top):
        for i, line in enumerate(lines):
            if re.search(r"number: \d+|refusal\(\d+|ask\(.*, \d+, ", line):
                yield "a refusal by its number", f"{name}:{i + 1}", line.strip()
            if re.search(r"kind: u32|^ +(pub )?kind: u(8|16|32)|% 8 == \d|^ +\d+ (\| \d+ )?=> ", line):
                yield "a kind by its number", f"{name}:{i + 1}", line.strip()


WORDS = set("fn let mut if else while for in return match loop break continue as true false self Self pub const impl struct enum".split())


def shape_of(body):
    """A body with its names, types and numbers made alike."""
    names = {}
    out = []
    for token in re.findall(r"[A-Za-z_][A-Za-z_0-9]*|\d+|\S", re.sub(r"//.*", "", "\n".join(body))):
        if token in WORDS:
            out.append(token)
        elif token[0].isdigit():
            out.append("N")
        elif token[0].isalpha() or token[0] == "_":
            out.append(names.setdefault(token, f"x{len(names)}"))
        else:
            out.append(token)
    return " ".join(out)


def point_2(top):
    alike = collections.defaultdict(list)
    for name, at, above, head, body in functions(top):
        shape = shape_of(body)
        if len(shape.split()) > 8:
            alike[shape].append((at, name))
    for shape, places in alike.items():
        if len(places) > 1:
            for at, name in places:
                yield f"the body of {' '.join(n for _, n in places)}", at, name
    hand = r"if ([a-z_.]+) < ([a-z_.0-9]+) \{ (\1|\2) \} else \{ (\1|\2) \}"
    for name, lines in sources(top):
        for i, line in enumerate(lines):
            if re.search(hand, line):
                yield "the lesser or the larger of two", f"{name}:{i + 1}", line.strip()
    past = r"if [a-z_]+ < [a-z_]+\.len\(\) \{ ?(!?[a-z_]+\[[a-z_]+\](?: as u32)?|$)"
    for name, at, above, head, body in functions(top):
        if len(body) <= 4 and re.search(past, "\n".join(body)):
            yield "an element, or what stands past the end", at, name


def point_3(top):
    for name, lines in sources(top):
        for i, line in enumerate(lines):
            if not re.match(r" *('[a-z]+: )?while ", line):
                continue
            indent = len(line) - len(line.lstrip())
            k = i + 1
            while k < len(lines) and lines[k].rstrip() != " " * indent + "}":
                k += 1
            body = "\n".join(lines[i + 1:k])
            count = re.search(r"\b([a-z_]+) (?:\+=|-=|= \1 [+-]) (1|2|6|7|TERM_SIZE)\b", body) or re.search(r"\bi = next;", body)
            yield ("a loop that counts by hand" if count else "another while"), f"{name}:{i + 1}", line.strip()


def point_4(top):
    for kind, name, at, body, above in types(top):
        if "Debug" not in above or "PartialEq" not in above:
            yield "a type without derived equality or printing", at, name
    for name, at, above, head, body in functions(top):
        text = " ".join(b.strip() for b in body)
        if re.fullmatch(r"[a-z]+ as (u8|u16|u32|u64|usize)", text):
            yield "a conversion by hand", at, name
        elif re.match(r"match [a-z]+ \{", text) and re.search(r"=> (\d+|true|false|page\.word[^,]*),", text):
            yield "a conversion or printing by a match", at, name
        elif re.match(r"if (word|marked)\b", text) or re.match(r"if key % 8", text):
            yield "a conversion by tests", at, name


def clauses(head):
    text = re.sub(r"\s+", " ", head)
    return re.findall(r"requires(?: [a-z_]+)? \{ (.*?) \}(?= (?:requires|ensures)|$)", text)


def point_5(top):
    facts = collections.defaultdict(list)
    groups = collections.defaultdict(list)
    for name, at, above, head, body in functions(top):
        for clause in clauses(head):
            for fact in re.split(r" × |\((?=[A-Z])|\) ?(?=×)", clause):
                word = re.match(r"\(?([A-Z][A-Za-z]+)\b", fact.strip())
                if word:
                    facts[word.group(1)].append((at, name))
        params = re.findall(r"([a-z_]+): (&?(?:'a )?(?:mut )?[A-Za-z\[\]0-9_; ]+)", head.split("->")[0].split("requires")[0])
        for i in range(len(params) - 2):
            groups[tuple(sorted(p[0] for p in params[i:i + 3]))].append((at, name))
    for fact, places in facts.items():
        if len(set(places)) >= 3:
            for at, name in sorted(set(places)):
                yield f"the fact {fact} in a requires", at, name
    together = collections.defaultdict(set)
    for names, places in groups.items():
        if len(places) >= 3:
            for place in places:
                together[place] |= set(names)
    for (at, name), names in together.items():
        yield "parameters that travel together", at, f"{name}: {' '.join(sorted(names))}"


def point_6(top):
    for kind, name, at, body, _ in types(top):
        arrays = [b for b in body if re.search(r": \[[a-z0-9]+; ", b)]
        if len(arrays) > 1:
            yield "parallel arrays in a struct", at, name
        elif arrays and re.search(r"^ +(pub )?(count|used): usize", "\n".join(body), re.M):
            yield "a buffer with a length beside it", at, name
    for name, at, above, head, body in functions(top):
        made = re.findall(r"let mut ([a-z_]+) = \[[^\]]*; [^\]]*\]", "\n".join(body))
        if len(made) > 1:
            yield "several arrays in a function", at, f"{name}: {' '.join(made)}"
        elif made and re.search(rf"&{made[0]}\[\.\.", "\n".join(body)):
            yield "a buffer with a length beside it", at, f"{name}: {made[0]}"
    for name, lines in sources(top):
        for i, line in enumerate(lines):
            if re.search(r"\[2 \* |% FORMS|/ FORMS|/ 8 % 65536|\* 65536", line):
                yield "a number packed into another", f"{name}:{i + 1}", line.strip()


def point_7(top):
    for name, at, above, head, body in functions(top):
        text = "\n".join(body)
        calls = re.findall(r"^ +[A-Za-z:0-9_|{} .]+ => (?:self\.|[a-z_]+::)*[a-z_]+\(", text, re.M)
        if len(calls) >= 3:
            yield "a switch over functions", at, name
    for name, lines in sources(top):
        for i, line in enumerate(lines):
            if re.search(r"(padded|tagged|otherwise|past): bool", line):
                yield "a flag that says which", f"{name}:{i + 1}", line.strip()


def point_8(top):
    for path in sorted(top.glob("crates/*/proofs/*/**/*.antt")):
        yield path.name, str(path.relative_to(top)), str(len(path.read_text().split("\n")) - 1)


def main():
    listed = "--list" in sys.argv
    rest = [a for a in sys.argv[1:] if a != "--list"]
    top = pathlib.Path(rest[0] if rest else pathlib.Path(__file__).parent.parent)
    for number, point in enumerate((point_1, point_2, point_3, point_4, point_5, point_6, point_7, point_8), 1):
        found = list(point(top))
        kinds = collections.Counter(re.sub(r"^(the body of|the fact) .*", r"\1 ..", what) for what, _, _ in found)
        print(f"{number}: {len(found)}: " + "; ".join(f"{what}: {n}" for what, n in kinds.items()))
        if listed:
            for what, at, name in found:
                print(f"   {at} {name} ({what})")


main()
