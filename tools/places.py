#!/usr/bin/env python3
"""Lists the places of src/ that may read like an older language, by seven points. A place is where to look, not a verdict.

Use: tools/places.py [POINT..]        from the top of the repository; without a point all seven
"""
import collections
import glob
import re
import sys

KEPT_WORDS = set("fn pub crate self mut match if else let return for in while impl Some None Ok Err as ref true false".split())


def sources():
    for path in sorted(glob.glob("crates/*/src/**/*.rt", recursive=True)):
        with open(path, encoding="utf-8") as file:
            yield path, file.read().split("\n")


def functions():
    """Each function: its path, line, name and lines."""
    for path, lines in sources():
        at = 0
        while at < len(lines):
            head = re.match(r'^(\s*)(pub(\(crate\))? )?(extern "C" )?fn (\w+)', lines[at])
            if head:
                end = at
                closing = "^" + head.group(1) + r"\}\s*$"
                body = False
                while end < len(lines) - 1 and not re.match(closing, lines[end]):
                    body = body or lines[end].endswith("{")
                    if lines[end].endswith("{}") or (not body and lines[end].endswith(";")):
                        break
                    end += 1
                yield path, at + 1, head.group(5), lines[at:end + 1]
                at = end
            at += 1


def matching(pattern):
    for path, lines in sources():
        for number, line in enumerate(lines, 1):
            if re.search(pattern, line) and not line.strip().startswith("//"):
                yield "%s:%d %s" % (path, number, line.strip())


def own_shapes():
    """1: plain numbers for kinds or refusals, and answers taken apart only to be put together again."""
    yield from matching(r"-> (Option<)?u8\b")
    yield from matching(r"^\s*(Ok|Err|Some|None|PutRefusal::\w+|\w+Error::\w+)(\([^()]*\))? => (return )?(Ok|Err|Some|None|true|false|0|1)\b")
    yield from matching(r"=> Err\(.*Error::from|\{ Some\(.*\} else \{ None \}")
    yield from matching(r"\b(number: u8|gone: bool|ended = false)")


def shape(lines):
    text = "\n".join(line for line in lines if not re.match(r"\s*(//|ensures|requires)", line))
    text = re.sub(r"b?\"[^\"]*\"|b?'[^']*'", "LIT", text)
    words = re.findall(r"\w+|[^\w\s]", text)
    return " ".join(word if word in KEPT_WORDS or not re.match(r"\w", word) else "x" for word in words)


def twins():
    """2: functions that are the same once names, numbers and literals are taken away."""
    groups = collections.defaultdict(list)
    for path, at, name, lines in functions():
        if len(lines) > 3:
            groups[shape(lines)].append("%s:%d %s" % (path, at, name))
    for group in sorted(groups.values()):
        if len(group) > 1:
            for place in group:
                yield place + "   [of " + str(len(group)) + " alike: " + group[0].split()[-1] + "]"


def loops():
    """3: loops over a number, and loops that step by hand."""
    yield from matching(r"^\s*(while|loop)\b")
    yield from matching(r"^\s*for \w+ in \(?[\w .+()]*\.\.")
    yield from matching(r"^\s*for \(\w+, \w+\) in .*enumerate")
    for path, at, name, lines in functions():
        for more, line in enumerate(lines):
            if re.match(r"^\s*for \w+ in (bytes|whole|symbol)\b", line):
                yield "%s:%d %s" % (path, at + more, line.strip())


def by_hand():
    """4: equality, order, copying, conversion and printing by hand."""
    yield from matching(r"^\s*(pub )?(pub\(crate\) )?fn (is_live|is_full|is_present|is_below|is_under|value_in|same|eight|\w+_of\(code|nothing|still|verdict|wrong|shown|price_and_shares|layer_of|fault_of|line_of|locate_of)")
    yield from matching(r"format!\(in|let (number|place|category|lot|stamp|added|executed|removed|shares|orders|trades|volume|turnover|locate|price|broken) = \w+\.\w+(\.\w+)?(\(\))?;")
    yield from matching(r"^\s*(TradingState|ShortSale|Standing|Some\(ShortSale)::\w+.* => \"|Some\(ShortSale::\w+\) => \"")


def together():
    """5: clauses that stand in three or more functions, and parameters that travel together in three or more."""
    clauses, parameters = collections.defaultdict(list), collections.defaultdict(set)
    for path, at, name, lines in functions():
        text = "\n".join(lines)
        for clause in re.findall(r"\n\s*(requires|ensures)( \w+)? \{ (.*) \}(?=\n)", text):
            clauses[(path.split("/")[1], clause[0], clause[2])].append("%s:%d %s" % (path, at, name))
        head = re.sub(r"\s+", " ", text[:text.find("\n{") if "\n{" in text else len(text)].split("ensures")[0].split("requires")[0])
        names = re.findall(r"[(,] ?(?:mut )?(\w+): ", head)
        for one in range(len(names)):
            for two in range(one + 1, len(names)):
                parameters[(path.split("/")[1], names[one], names[two])].add("%s:%d %s" % (path, at, name))
    for (crate, kind, clause), places in sorted(clauses.items()):
        if len(places) > 2:
            yield "%s: %s { %s } in %d functions" % (crate, kind, clause, len(places))
    for (crate, one, two), places in sorted(parameters.items()):
        if len(places) > 2:
            yield "%s: %s with %s in %d functions" % (crate, one, two, len(places))


def buffers():
    """6: a length or a place beside a buffer, and lists searched by hand."""
    yield from matching(r"^\s*(pub(\(crate\))? )?(len|count|next|places): usize,")
    yield from matching(r"\bbuf: &mut \[u8\], at: usize|^\s*at: usize,")
    yield from matching(r"low \+ \(high - low\) / 2|^\s*(let mut (low|high|hole|key|pair|rest|digits) =)")
    yield from matching(r"symbol\[0\]|rest\[at( \+ 1)?\],|\[u8; 8\]")


def switches():
    """7: a function pointer, or a function that is told by a flag which step to run."""
    yield from matching(r"\bfn\(|: fn\b|gone: bool|by: Side")


POINTS = {"1": own_shapes, "2": twins, "3": loops, "4": by_hand, "5": together, "6": buffers, "7": switches}


def main(words):
    for point in words or sorted(POINTS):
        places = list(POINTS[point]())
        print("## %s" % POINTS[point].__doc__)
        for place in places:
            print(place)
        print("%d places\n" % len(places))


if __name__ == "__main__":
    main(sys.argv[1:])
