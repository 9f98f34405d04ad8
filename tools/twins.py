#!/usr/bin/env python3
"""Lists functions, and types, of crates/*/src whose code has one shape.

Names, numbers and texts count as alike, contracts and comments do not count. `twins.py` prints each group of two or more with at least
24 tokens (`twins.py N`: at least N), then how many groups and members there are.
"""
import glob, re, sys
from collections import defaultdict

WORDS = set('fn pub struct enum trait impl for in if else match while loop return let mut const use where Some None Ok Err self Self'.split())
TOKEN = re.compile(r'//[^\n]*|"(?:\\.|[^"\\])*"|\'[a-z]\w*\b(?!\')|[A-Za-z_]\w*|\d[\w.]*|->|=>|::|\S')


def matching(text, start, opening='{', closing='}'):
    depth = 0
    for i in range(start, len(text)):
        if text[i] == opening:
            depth += 1
        elif text[i] == closing:
            depth -= 1
            if depth == 0:
                return i + 1
    return len(text)


def without_contracts(text):
    """The text without clauses and ghost items, whose braces would be taken for code."""
    out, i = [], 0
    for m in re.finditer(r'^[ \t]*(?:requires|ensures|ghost)\b[^\n{;]*', text, re.M):
        if m.start() < i:
            continue
        out.append(text[i:m.start()])
        rest = m.end()
        if rest < len(text) and text[rest] == '{':
            rest = matching(text, rest)
        while rest < len(text) and text[rest] in ';,':
            rest += 1
        i = rest
    return ''.join(out) + text[i:]


def shape(code):
    tokens = []
    for token in TOKEN.findall(code):
        if token.startswith('//'):
            continue
        if re.match(r'[A-Za-z_]', token) and token not in WORDS:
            token = 'x'
        elif re.match(r'["\d]', token):
            token = '0'
        tokens.append(token)
    return tuple(tokens)


def items(path):
    text = without_contracts(open(path, encoding='utf-8').read())
    for m in re.finditer(r'^[ \t]*(?:pub(?:\(crate\))? )?(?:const )?(?:fn|struct|enum) (\w+)', text, re.M):
        brace, end = text.find('{', m.end()), text.find(';', m.end())
        if brace < 0 or 0 <= end < brace:
            continue
        yield m.group(1), shape(text[m.start():matching(text, brace)])


def main():
    least = int(sys.argv[1]) if len(sys.argv) > 1 else 24
    groups = defaultdict(list)
    for path in sorted(glob.glob('crates/*/src/**/*.rt', recursive=True)):
        for name, tokens in items(path):
            if len(tokens) >= least:
                groups[tokens].append(f'{path[len("crates/"):]}:{name}')
    twins = [names for names in groups.values() if len(names) > 1]
    for names in sorted(twins):
        print('  '.join(names))
    print(f'{len(twins)} groups, {sum(map(len, twins))} members')


main()
