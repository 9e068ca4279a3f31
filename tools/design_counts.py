#!/usr/bin/env python3
"""Lists the places in src/ that today's forms of the language may write better.

    python3 tools/design_counts.py [POINT] [-v]      from the top of the repository

POINT is 1 to 8, as docs/DESIGN-PASS.md numbers them; with none, all are counted.
-v prints each place. A line is a place to look at, not a fault. An arm that reads a number into its enum, as a
TryFrom has, is not counted as a match on a number.
"""
import collections
import glob
import re
import sys

FN = re.compile(r"^( *)(?:pub(?:\([a-z]+\))? )?(?:const )?fn (\w+)", re.M)


def sources():
    for path in sorted(glob.glob("crates/*/src/**/*.rt", recursive=True)):
        text = open(path, encoding="utf-8").read()
        yield path, re.sub(r"//.*", "", text)


def line_of(text, at):
    return text.count("\n", 0, at) + 1


def functions():
    """Each function: path, line, name, parameters, clauses, body."""
    for path, text in sources():
        for m in FN.finditer(text):
            rest = text[m.start():]
            end = re.search(r"^%s\}" % m.group(1), rest, re.M)
            one = re.match(r"[^\n]*\{[^\n]*\}\n", rest)
            whole = one.group(0) if one else rest[: end.end()] if end else rest
            start = re.search(r"^%s\{$|^[^\n]*fn [^\n]*\{" % m.group(1), whole, re.M)
            stop = re.search(r";$", whole, re.M)
            bodiless = start is None or (stop is not None and stop.start() < start.start())
            body = "" if bodiless else whole[start.end():]
            head = whole[: stop.end() if bodiless and stop else start.end() if start else None]
            params = re.search(r"\((.*?)\)\s*(?:->|\n|\{|$)", head, re.S)
            clauses = re.findall(r"(?:requires|ensures)\s*\w*\s*\{(.*)\}", head)
            yield path, line_of(text, m.start()), m.group(2), params.group(1) if params else "", clauses, body


def found(pattern, what):
    for path, text in sources():
        for m in re.finditer(pattern, text, re.M):
            yield path, line_of(text, m.start()), what + ": " + " ".join(m.group(0).split())[:70]


def point_1():
    yield from found(r"^ +(?:[0-9]+|b'.')(?: \| (?:[0-9]+|b'.'))* => (?!Ok\(\w+::\w+\),$).*", "a match on a number")
    yield from found(r"(?:None|Err\(_\)|_) => (?:0|1000),|^ +return false;", "an answer that is a value apart")
    yield from found(r"Result<.*, u8>|-> Option<Refusal>", "an error as a number or an Option")
    yield from found(r"\.number\(\) == [0-9]+|number_of \w+ ≡ [0-9]+", "a refusal as a number")
    yield from found(r"None => None|None => return None|Some\((\w+)\) => Some\(\1\)|Err\((\w+)\) => (?:return )?Err\(\2\)|Ok\(_\) => \{\}", "an arm that only hands on")


def shape(body, full=False):
    words = re.findall(r"b?\"(?:[^\"\\]|\\.)*\"|b'.'|\w+(?:::\w+)*|\S", body)
    out = []
    keep = {"if", "else", "match", "for", "in", "while", "loop", "return", "let", "mut", "self", "Some", "None", "Ok", "Err", "as", "true", "false"}
    for w in words:
        if w in keep or not re.match(r"[\w\"b]", w):
            out.append(w)
        elif full:
            out.append(w)
        else:
            out.append("w")
    return tuple(out)


def pairs(a, b):
    """The pairs of words in which two bodies of one shape differ."""
    return {(x, y) for x, y in zip(shape(a, True), shape(b, True)) if x != y}


def point_2():
    groups = collections.defaultdict(list)
    for path, line, name, params, clauses, body in functions():
        s = shape(body)
        if len(s) >= 14 and not re.search(r"/(?:\w*tests|\w*cases|sheetfields)/", path):
            groups[s].append((path, line, name, body))
    for places in groups.values():
        for n, (path, line, name, body) in enumerate(places):
            for other in places[:n]:
                if len(pairs(other[3], body)) <= 3:
                    yield path, line, "fn %s differs from fn %s of %s in a few words" % (name, other[2], other[0])
                    break
    structs = collections.defaultdict(list)
    for path, text in sources():
        for m in re.finditer(r"struct (\w+)(?:<[^>]*>)? \{(.*?)^\}", text, re.M | re.S):
            fields = [f.strip() for f in m.group(2).split(",\n") if f.strip() and not f.strip().startswith("ghost")]
            names = [re.sub(r"^pub(?:\([a-z]+\))? ", "", f).split(":")[0] for f in fields]
            types = tuple(f.split(":", 1)[1].strip() for f in fields if ":" in f)
            structs[types].append((path, line_of(text, m.start()), m.group(1), names))
    for places in structs.values():
        for n, (path, line, name, names) in enumerate(places):
            for other in places[:n]:
                if sum(x != y for x, y in zip(names, other[3])) <= (len(names) > 2):
                    yield path, line, "struct %s has the fields of struct %s" % (name, other[2])
                    break


def point_3():
    yield from found(r"^ +(?:while |loop \{).*", "a while or a loop")
    for path, text in sources():
        for m in re.finditer(r"^( +)for (\w+) in [^\n]*\.\.[^\n]*\{\n(.*?)^\1\}", text, re.M | re.S):
            if re.search(r"\[[^\]]*\b%s\b[^\]]*\]|\b\w+\([^()]*\b%s\b[^()]*\)" % (m.group(2), m.group(2)), m.group(3)) or m.group(2) == "_":
                yield path, line_of(text, m.start()), "a counted for: for %s in .." % m.group(2)
    yield from found(r"for \(\w+, \w+\) in \w+\.iter\(\)\.enumerate\(\)", "an enumerated for")


def point_4():
    yield from found(r"impl(?:<[^>]*>)? (?:PartialEq|Eq|PartialOrd|Ord|Clone|Copy|Debug|Display|Default|Hash) for.*", "a derivable impl by hand")
    yield from found(r"if \w+ \{ 1 \} else \{ 0 \}", "a conversion of a bool")
    yield from found(r"\bfn (?:has_key|same_\w+|number|code|letter|sentence|\w*_part|kind_of|book_number)\b.*", "equality, conversion or printing by hand")
    yield from found(r"\b[\w.]+ as (?:u64|u32|usize|i64)\b", "a cast")


def point_5():
    facts = collections.defaultdict(list)
    groups = collections.defaultdict(list)
    for path, line, name, params, clauses, body in functions():
        crate = path.split("/")[1]
        for c in clauses:
            for part in re.split(r" × ", c):
                part = " ".join(part.split())
                if len(part) > 12 and "result" not in part:
                    facts[crate, re.sub(r"\b(\w+)\.(now|old|new)\b", r"\1", part)].append((path, line, name))
        ps = [" ".join(p.split()) for p in re.split(r",(?![^<(]*[>)])", params) if ":" in p]
        for a, b in zip(ps, ps[1:]):
            groups[crate, a, b].append((path, line, name))
    for (crate, part), places in facts.items():
        if len({p[2] for p in places}) >= 3:
            yield places[0][0], places[0][1], "%s stands in %d contracts" % (part[:60], len(places))
    for (crate, a, b), places in groups.items():
        if len({p[2] for p in places}) >= 3:
            yield places[0][0], places[0][1], "(%s, %s) go together in %d functions" % (a, b, len(places))


def point_6():
    for path, text in sources():
        for m in re.finditer(r"struct (\w+)(?:<[^>]*>)? \{(.*?)^\}", text, re.M | re.S):
            if re.search(r"&'?\w* ?(?:mut )?\[|\[\w+; ?\w+\]", m.group(2)) and re.search(r"\b(?:len|used|count|at|place): usize", m.group(2)):
                yield path, line_of(text, m.start()), "struct %s: memory with a length or place beside it" % m.group(1)
    yield from found(r"const \w+: \[&?\w+; \w+\]", "an array that runs parallel to another")


def point_7():
    for path, line, name, params, clauses, body in functions():
        arms = re.findall(r"=> \w+\((?:o|w|rt|self)\b[^\n]*\),?$", body, re.M)
        if len(arms) >= 4:
            yield path, line, "fn %s calls one of %d functions" % (name, len(arms))
    yield from found(r"\bdyn \w+|\bfn\(", "a pointer to a function")


def point_8():
    for path in sorted(glob.glob("crates/*/proofs/**/Answers.antt", recursive=True)):
        yield path, 1, "%d answers" % len(re.findall(r"^pub \S+ : goal\.", open(path, encoding="utf-8").read(), re.M))


def main():
    which = [a for a in sys.argv[1:] if a.isdigit()] or [str(n) for n in range(1, 9)]
    for n in which:
        places = list(globals()["point_" + n]())
        kinds = collections.Counter(p[2].split(":")[0] if ":" in p[2] else "place" for p in places)
        print("point %s: %d" % (n, len(places)) + "".join("; %s %d" % k for k in kinds.items() if len(kinds) > 1))
        if "-v" in sys.argv:
            for path, line, what in places:
                print("  %s:%d %s" % (path, line, what))


main()
