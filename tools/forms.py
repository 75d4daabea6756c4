#!/usr/bin/env python3
"""Places in crates/*/src where an older form of the language may still stand: `forms.py [ROOT] [POINT ..]`.

It goes by text and lists what has to be looked at, not what is wrong. Points:
  1 answers by a flag or a number: a bool beside a &mut, Option<bool>, numbers of kinds and refusals, bool parameters
  2 twins: functions and types with the same tokens but for names and literals
  3 loops by index: `while`, and `for` over a range
  4 conversion, comparison and printing by hand
  5 clauses and runs of parameters that stand in three functions or more
  6 a length beside a buffer
  7 a match whose arms call functions with the same arguments
  8 answers and lemmas under proofs/
"""
import collections
import pathlib
import re
import sys

FN = re.compile(r'^\s*(?:pub(?:\([a-z]+\))? )?(?:unsafe )?fn (\w+)', re.M)


def functions(text):
    """(line, name, signature, clauses, body) of each function of a file."""
    for found in FN.finditer(text):
        at, depth = found.end(), 0
        while at < len(text):
            c = text[at]
            if c in '([':
                depth += 1
            elif c in ')]':
                depth -= 1
            elif c == ';' and depth == 0 or c == '{' and depth == 0:
                break
            elif depth == 0 and text.startswith('ensures', at) or depth == 0 and text.startswith('requires', at):
                break
            at += 1
        signature = ' '.join(text[found.start():at].split())
        clauses, rest = [], at
        while True:
            clause = re.compile(r'\s*(requires|ensures)\*?\s*(\w+)?\s*\{').match(text, rest)
            if not clause:
                break
            end, depth = clause.end(), 1
            while depth:
                depth += {'{': 1, '}': -1}.get(text[end], 0)
                end += 1
            clauses.append(clause.group(1) + ' ' + ' '.join(text[clause.end():end - 1].split()))
            rest = end
        body = ''
        opened = re.compile(r'\s*\{').match(text, rest)
        if opened:
            end, depth = opened.end(), 1
            while depth and end < len(text):
                depth += {'{': 1, '}': -1}.get(text[end], 0)
                end += 1
            body = text[opened.end():end - 1]
        yield text.count('\n', 0, found.start() + len(found.group(0)) - len(found.group(0).lstrip())) + 1, found.group(1), signature, clauses, body


def shape(text):
    names, out = {}, []
    for token in re.findall(r"\d\w*|b?'.'|b?\"[^\"]*\"|\w+|\S", re.sub(r'//.*', '', text)):
        if re.match(r"\d|b?['\"]", token):
            out.append('#')
        elif re.match(r'\w', token) and token not in ('if', 'else', 'match', 'for', 'in', 'let', 'mut', 'return', 'while', 'as', 'fn', 'self', 'Ok', 'Err', 'Some', 'None'):
            out.append('n%d' % names.setdefault(token, len(names)))
        else:
            out.append(token)
    return ' '.join(out)


def one(files):
    for path, text in files:
        for line, name, signature, _, _ in functions(text):
            if '&mut' in signature and signature.endswith('-> bool'):
                yield path, line, name, 'a bool beside a &mut'
            if 'Option<bool>' in signature or 'Result<bool' in signature:
                yield path, line, name, 'a bool in an Option or a Result'
            if re.match(r'.*fn (number|code|level)\(', signature) and re.search(r'-> u\d+$', signature):
                yield path, line, name, 'a number of a kind or a refusal'
            for flag in re.findall(r'(\w+): bool', signature):
                yield path, line, name, f'a flag {flag} among the parameters'
            for code in re.findall(r'(code|level): (?:u8|u16)', signature):
                yield path, line, name, f'a number {code} among the parameters'
        for number, row in enumerate(text.split('\n'), 1):
            if re.match(r'\s+(pub )?(code|level): u\d+,', row) or re.match(r'\s+(Refused|Wrong)\(u8', row):
                yield path, number, row.strip(), 'a number of a kind or a refusal in a type'


def two(files):
    groups = collections.defaultdict(list)
    for path, text in files:
        for line, name, signature, _, body in functions(text):
            if len(body.split()) > 4:
                parts = shape(re.sub(r'^.*?fn \w+', 'fn', signature) + ' { ' + body)
                groups[parts].append((path, line, name))
        for found in re.finditer(r'(?:pub )?(?:struct|enum) (\w+)[^;{]*(\{[^}]*\}|\([^)]*\);)', text):
            groups['type ' + shape(found.group(2))].append((path, text.count('\n', 0, found.start()) + 1, found.group(1)))
    for group, (_, places) in enumerate(sorted((k, v) for k, v in groups.items() if len(v) > 1)):
        for path, line, name in places:
            yield path, line, name, f'like {len(places) - 1} more (group {group + 1})'


def three(files):
    for path, text in files:
        for line, name, _, _, body in functions(text):
            for row, words in enumerate(body.split('\n')):
                found = re.match(r'\s*(while .*|for (\w+) in .*\.\..*) \{$', words)
                if found:
                    yield path, line, name, found.group(1)


def four(files):
    for path, text in files:
        for line, name, signature, _, body in functions(text):
            if len(re.findall(r'if equal\(', body)) > 1:
                yield path, line, name, 'a chain of comparisons'
            if name in ('of', 'of_word', 'number', 'code', 'text', 'word', 'named', 'reason', 'yes_or_no', 'kind_of', 'word_of', 'unnamed'):
                yield path, line, name, 'a conversion as a function'
            if re.search(r'Ok\((\w+)\) => Ok\(\1\)|Some\((\w+)\) => Some\(\2( as \w+)?\)|Ok\(x\) => Ok\(x\)', body):
                yield path, line, name, 'a match that passes a value on'
        for number, row in enumerate(text.split('\n'), 1):
            if re.match(r'impl.* (From<|fmt::Display|PartialEq|PartialOrd|Ord|Clone|fmt::Debug|Error)\S* for ', row) or row.startswith('impl Error for'):
                yield path, number, row, 'an impl by hand'


def five(files):
    clauses, runs = collections.defaultdict(set), collections.defaultdict(set)
    for path, text in files:
        for line, name, signature, facts, _ in functions(text):
            for fact in facts:
                head = re.sub(r'\b(result|self|out|text|body|message)\b', '_', fact)
                head = ' '.join(re.findall(r'[\w.]+|≡', head)[:4])
                clauses[head].add((path, line, name))
            inside = re.search(r'fn \w+(?:<[^>]*>)?\((.*)\)', signature)
            parameters = [p.strip() for p in re.split(r',(?![^\[<(]*[\])>])', inside.group(1))] if inside else []
            parameters = [re.sub(r"'\w+ ", '', p) for p in parameters if ':' in p and not p.startswith(('heap', 'rt', 'f:'))]
            for a in range(len(parameters)):
                for b in range(a + 2, len(parameters) + 1):
                    runs[', '.join(parameters[a:b])].add((path, line, name))
    for head, places in sorted(clauses.items()):
        if len(places) > 2:
            yield '', 0, f'{len(places)} functions', f'clause: {head} ..'
    kept = {run: places for run, places in runs.items() if len(places) > 2}
    for run, places in sorted(kept.items()):
        if not any(run != other and run in other and places <= kept[other] for other in kept):
            yield '', 0, f'{len(places)} functions', f'parameters: {run}'


def six(files):
    for path, text in files:
        for found in re.finditer(r'struct (\w+)[^;{]*\{([^}]*)\}', text):
            if re.search(r'(len|length|count|size|used|at|next|key): (?:usize|Option<usize>)', found.group(2)):
                yield path, text.count('\n', 0, found.start()) + 1, found.group(1), 'a length or a place in a type'
        for line, name, signature, _, body in functions(text):
            if re.search(r'&mut \[u8; \d+\]\) -> usize', signature):
                yield path, line, name, 'a buffer with its length as the answer'
            if re.search(r'\[0?\.\.(count|n|length|size)\]', body):
                yield path, line, name, 'the front of a buffer by a length beside it'


def seven(files):
    for path, text in files:
        for line, name, _, _, body in functions(text):
            for found in re.finditer(r'match \w+(?:\.\w+)?[^{]*\{', body):
                end, depth = found.end(), 1
                while depth and end < len(body):
                    depth += {'{': 1, '}': -1}.get(body[end], 0)
                    end += 1
                calls = re.findall(r'=>\s*(?:Ok\()?[a-z_]\w*\(([^()]*)\)', body[found.end():end])
                if len(calls) > 1 and collections.Counter(calls).most_common(1)[0][1] > 1:
                    yield path, line, name, f'{len(calls)} arms that call'


def eight(root):
    for crate in sorted(root.glob('crates/*')):
        answers = sum(len(re.findall(r'^pub (?!\s)[\w\'-]+ : goal', p.read_text(), re.M)) for p in crate.glob('proofs/**/Answers.antt'))
        lemmas = [p for p in crate.glob('proofs/*.antt')]
        lines = sum(len(p.read_text().split('\n')) for p in crate.glob('proofs/**/*.antt'))
        if answers or lemmas or lines:
            yield crate.name, 0, f'{answers} answers', f'{len(lemmas)} files of lemmas, {lines} lines in all'


def main():
    given = sys.argv[1:]
    root = pathlib.Path(given[0] if given and not given[0].isdigit() else '.')
    points = [int(p) for p in given if p.isdigit()] or list(range(1, 9))
    files = [(str(p.relative_to(root)), p.read_text()) for p in sorted(root.glob('crates/*/src/**/*.rt'))]
    for point in points:
        find = [one, two, three, four, five, six, seven][point - 1] if point < 8 else None
        rows = list(find(files) if find else eight(root))
        print(f'point {point}: {len(rows)} places')
        for path, line, name, why in rows:
            print(f'  {path}{":" + str(line) if line else ""}  {name}: {why}')


if __name__ == '__main__':
    main()
