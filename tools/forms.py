#!/usr/bin/env python3
"""Counts the forms that docs/DESIGN-PASS.md speaks of, in the Rattle of crates/*/src and in crates/*/proofs.

    python3 tools/forms.py [FOLDER]          a count for each kind of place
    python3 tools/forms.py [FOLDER] KIND     the places of that kind, one a line

FOLDER is a checkout, this one where none is named. It reads text and proves nothing: a place that it lists may be good as it is, and the page says why.
"""
import collections
import pathlib
import re
import sys

KEYWORDS = set('as bool break const else enum false fn for if impl in let loop match mut pub return self struct true u8 u16 u32 u64 usize while Self'.split())


def sources(root):
    for path in sorted(root.glob('crates/*/src/*.rt')):
        yield path.relative_to(root), path.read_text()


def functions(text):
    """Each function: its line, its name, its head (to the body's brace) and its body."""
    for found in re.finditer(r'^( *)(?:pub )?(?:extern "C" )?fn (\w+)', text, re.M):
        open_at = text.find('\n' + found.group(1) + '{\n', found.start())
        next_fn = re.compile(r'^ *(?:pub )?(?:extern "C" )?fn ', re.M).search(text, found.end())
        if open_at < 0 or next_fn and open_at > next_fn.start():
            open_at = text.find('{\n', found.start())
        close = text.find('\n' + found.group(1) + '}', open_at)
        yield text.count('\n', 0, found.start()) + 1, found.group(2), text[found.start():open_at], text[open_at + 1:close]


def lines_like(pattern, root):
    places = []
    for path, text in sources(root):
        for number, line in enumerate(text.split('\n'), 1):
            if re.search(pattern, line) and not line.lstrip().startswith('//'):
                places.append(f'{path}:{number}: {line.strip()}')
    return places


def answers(root):
    return lines_like(r'^    (Refused|Nothing|NoTable)\b', root)


def numbers(root):
    places = []
    for path, text in sources(root):
        for line, name, head, body in functions(text):
            if re.search(r'(refusal|number)$', name) and '-> u8' in head:
                places.append(f'{path}:{line}: {name}')
    return places


def flags(root):
    return lines_like(r'^    pub (failed|sound|number|status|refused): ', root)


def kinds(root):
    places = []
    for path, text in sources(root):
        for line, name, head, body in functions(text):
            if re.search(r'^\s+(b\'.\'|\d+) => ', body, re.M):
                places.append(f'{path}:{line}: {name}')
    return places


def shape(body):
    body = re.sub(r'//.*', '', body)
    return ' '.join('0' if re.fullmatch(r'(0x)?[0-9a-f]+', token) and token[0].isdigit() else token if token in KEYWORDS or not token[0].isalpha() else 'x'
                    for token in re.findall(r'\w+|[^\w\s]', body))


def twins(root):
    groups = collections.defaultdict(list)
    for path, text in sources(root):
        crate = path.parts[1]
        for line, name, head, body in functions(text):
            if len(shape(body).split()) >= 12 and '-> ' in head:
                groups[(crate, shape(body))].append(f'{path}:{line} {name}')
    return ['  '.join(group) for group in groups.values() if len(group) > 1]


def loops(root):
    return lines_like(r'\bwhile\b', root)


def conversions(root):
    places = []
    for path, text in sources(root):
        for line, name, head, body in functions(text):
            arms = re.findall(r'=> (.*?),?$', body, re.M)
            if len(arms) > 2 and all(re.fullmatch(r'\d+|b".*"|".*"', arm) for arm in arms):
                places.append(f'{path}:{line}: {name}')
    return places


def travelling(root):
    seen = collections.defaultdict(list)
    for path, text in sources(root):
        for line, name, head, body in functions(text):
            found = re.search(r'\(([^()]*(?:\([^()]*\)[^()]*)*)\)', head)
            if not found or '"C"' in head:
                continue
            params = [' '.join(p.split()) for p in found.group(1).split(',') if p.strip()]
            for first, second in zip(params, params[1:]):
                seen[(path.parts[1], first, second)].append(name)
    return [f'{crate}: {first}, {second}: {", ".join(names)}' for (crate, first, second), names in seen.items() if len(names) >= 3]


def parallel(root):
    places = []
    for path, text in sources(root):
        for found in re.finditer(r'struct (\w+)(?:<.*?>)? \{\n(.*?)\n\}', text, re.S):
            sizes = re.findall(r'; (\w+)\]', found.group(2))
            if len(sizes) > len(set(sizes)) or re.search(r'\[\w+; \w+\],.*\b(first|end|len|parts): ', found.group(2), re.S):
                places.append(f'{path}:{text.count(chr(10), 0, found.start()) + 1}: {found.group(1)}')
    return places


def switches(root):
    places = []
    for path, text in sources(root):
        for line, name, head, body in functions(text):
            arms = re.findall(r'^\s+(?:b\'.\'|\d+|_|\w+::\w+) => (.*)$', body, re.M)
            if len([arm for arm in arms if '(' in arm or arm.rstrip().endswith('{')]) >= 3:
                places.append(f'{path}:{line}: {name}')
    return places


def proof_lines(root, pattern):
    places = []
    for path in sorted(root.glob('crates/*/proofs/**/*.antt')):
        for number, line in enumerate(path.read_text().split('\n'), 1):
            if re.search(pattern, line):
                places.append(f'{path.relative_to(root)}:{number}: {line.strip()}')
    return places


def renamings(root):
    return proof_lines(root, r'^    let \w+ = c in$')


def answers_written(root):
    return proof_lines(root, r'^pub (?!invariant|decreases)[\w-]+ : goal\.')


KINDS = {
    '1-answers': (answers, 'variants that make an own enum an Option or a Result'),
    '1-numbers': (numbers, 'functions that return a refusal as a number'),
    '1-flags': (flags, 'fields that say whether the fields beside them count'),
    '1-kinds': (kinds, 'functions that match a kind by its number'),
    '2-twins': (twins, 'groups of functions of one crate whose bodies differ in names and numbers alone'),
    '3-loops': (loops, 'while loops'),
    '4-conversions': (conversions, 'functions that turn each name into a number or a text'),
    '5-travelling': (travelling, 'pairs of parameters that stand side by side in three functions of a crate or more'),
    '6-parallel': (parallel, 'structs that hold arrays of one length side by side, or an array and a place in it'),
    '7-switches': (switches, 'functions that choose the step to run by a kind'),
    '8-renamings': (renamings, 'lines of answers that only give the known facts another name'),
    '8-answers': (answers_written, 'answers that are written out'),
}


def main():
    words = sys.argv[1:]
    kind = words.pop() if words and words[-1] in KINDS else None
    root = pathlib.Path(words[0] if words else pathlib.Path(__file__).resolve().parent.parent)
    if kind:
        print('\n'.join(KINDS[kind][0](root)))
        return
    for name, (find, what) in KINDS.items():
        print(f'{len(find(root)):5} {name:14} {what}')


if __name__ == '__main__':
    main()
