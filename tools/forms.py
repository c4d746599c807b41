#!/usr/bin/env python3
"""Lists the places in crates/*/src that today's forms may replace, point by point, and counts them.

    python3 tools/forms.py [FOLDER]          the counts (FOLDER: another checkout; else this one)
    python3 tools/forms.py [FOLDER] --list   each place too

docs/DESIGN-PASS.md says what each point is. Points 2, 5, 6 and 7 need a reader as well: what is counted here is where to look.
"""
import collections
import pathlib
import re
import sys

ARGS = [a for a in sys.argv[1:] if not a.startswith('--')]
TOP = pathlib.Path(ARGS[0] if ARGS else pathlib.Path(__file__).resolve().parent.parent)


def sources():
    for path in sorted(TOP.glob('crates/*/src/**/*.rt')):
        yield path.relative_to(TOP / 'crates'), path.read_text()


def line_of(text, at):
    return text.count('\n', 0, at) + 1


def matches(*patterns):
    """Where one of the patterns fits, as (file, line, text)."""
    for name, text in sources():
        for pattern in patterns:
            for m in re.finditer(pattern, text, re.M):
                yield name, line_of(text, m.start()), ' '.join(m.group(0).split())[:90]


def functions():
    """Each function as (file, line, name, head, body)."""
    for name, text in sources():
        for m in re.finditer(r'^[ ]*(?:#\[test\]\s*)?(?:pub(?:\([a-z]+\))? )?(?:extern "C" )?(?:final )?fn (\w+)', text, re.M):
            brace, depth = re.compile(r'\n[ ]*\{\n|\{\}|\) (?:-> .*)?\{\n').search(text, m.end()), 0
            if not brace:
                continue
            at = text.index('{', brace.start())
            end = at
            while True:
                depth += {'{': 1, '}': -1}.get(text[end], 0)
                end += 1
                if depth == 0:
                    break
            yield name, line_of(text, m.start()), m.group(1), text[m.start():at], text[at:end]


def twins():
    """Functions whose bodies are the same but for names, numbers and strings."""
    shapes = collections.defaultdict(list)
    for name, line, fn, _, body in functions():
        tokens = re.findall(r'b?"[^"]*"|\w+|[^\w\s]', re.sub(r'//.*', '', body))
        keep = {'if', 'else', 'match', 'for', 'while', 'let', 'mut', 'return', 'in', 'Some', 'None', 'Ok', 'Err', 'self'}
        shape = tuple(t if t in keep or not re.match(r'\w|b?"', t) else '_' for t in tokens)
        if len(shape) >= 12:
            shapes[shape].append((name, line, fn))
    for places in shapes.values():
        if len(places) > 1:
            for place in places:
                yield place


def repeated_facts():
    """Clauses of `requires` that stand in three or more functions of a crate."""
    facts = collections.defaultdict(list)
    for name, line, fn, head, _ in functions():
        for m in re.finditer(r'requires (?:\w+ )?\{ (.*) \}', head):
            fact = re.sub(r'\.(old|now|new|entry)\b', '', m.group(1))
            facts[(name.parts[0], fact)].append((name, line, fn))
    for (crate, fact), places in facts.items():
        if len(places) >= 3:
            yield crate, len(places), fact


def travelling():
    """Three or more parameters that stand together in three or more functions of a crate."""
    groups = collections.defaultdict(set)
    for name, line, fn, head, _ in functions():
        inside = re.search(r'\(([^{}]*?)\)\s*(?:->|\n|$|ensures|requires)', head.split('ensures')[0].split('requires')[0], re.S)
        if not inside:
            continue
        params = [' '.join(p.split()) for p in re.split(r',(?![^<\[]*[>\]])', inside.group(1)) if ':' in p]
        names = [p.split(':')[0].removeprefix('mut ') for p in params]
        for size in range(3, len(names) + 1):
            for i in range(len(names) - size + 1):
                groups[(name.parts[0], tuple(names[i:i + size]))].add((str(name), fn))
    best = {k: v for k, v in groups.items() if len(v) >= 3}
    for (crate, names), fns in best.items():
        if not any(c == crate and set(names) < set(other) and fns <= best[(c, other)] for c, other in best):
            yield crate, len(fns), ', '.join(names)


def answers():
    for path in sorted(TOP.glob('crates/*/proofs/**/Answers.antt')):
        for m in re.finditer(r'^pub (\S+) : goal\.', path.read_text(), re.M):
            yield path.relative_to(TOP / 'crates'), 0, m.group(1)


POINTS = {
    '1a a match that passes a result or an option on': lambda: matches(
        r'(Ok|Some)\((\w+)\) => (Ok|Some)\(\2\)', r'None => (Err\(|None)', r'Err\(_\) => (Err\(|None)'),
    '1b if let Err(e) = .. { return Err(e) }': lambda: matches(r'if let Err\((\w+)\) = [^{]*\{\s*return Err\(\1\)'),
    '1c let .. else { return None } or { return Err(..) }': lambda: matches(r'let [^;{}]* else \{\s*return (None|Err\([^;]*\));'),
    '1d a field that is a flag': lambda: matches(r'^ +(?:pub(?:\([a-z]+\))? )?\w+: bool,'),
    '1e a field that is a number for a kind': lambda: matches(r'^ +(?:pub )?(kind|code): u\d+'),
    '1f a result in a result': lambda: matches(r'Result<Result<|Option<Result<|Result<Option<'),
    '2 twins by the shape of their bodies': twins,
    '3a an index counted by hand': lambda: matches(r'^.*\+= 1;', r'^.*wrapping_add\(1\)', r'^ *for \w+ in \(?0\.\..*', r'^ *while \w+ < .*'),
    '3b a search by hand: for .. { if .. { return': lambda: matches(r'^ *for [^{]*\{\s*if [^{]*\{\s*return'),
    '3c a loop that only writes each element': lambda: matches(r'^ *for \w+ in \w+\.iter_mut\(\) \{\s*\*\w+ = \w+;'),
    '4 order, copying and conversion by hand': lambda: matches(
        r'fn (at_most|copy|overwrite|names|named_by|coded|given|told|say|say_of|call_of|placed)\b', r'trait TotalOrder', r'match u\d+::try_from'),
    '5a a fact that three or more contracts require': repeated_facts,
    '5b parameters that travel together': travelling,
    '6 tables side by side, or a length beside': lambda: matches(r"^ +(?:pub )?\w+: &'\w+ mut \[", r'^ +(?:pub(?:\(crate\))? )?(winner|arcs|taken): usize'),
    '7 a value that picks the step': lambda: matches(r'match (\w+\.)?kind\b', r'\bkind == \d', r'enum (Kind|End|Entry|Way)\b'),
    '8 answers in proof files': answers,
}


def main():
    for point, find in POINTS.items():
        places = list(find())
        print(f'{len(places):5}  {point}')
        if '--list' in sys.argv:
            for place in places:
                print('         ', *place)


main()
