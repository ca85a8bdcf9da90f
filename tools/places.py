#!/usr/bin/env python3
"""places.py: counts the places of docs/DESIGN-PASS.md in the repository whose top is the current folder."""
import glob
import re

source = {name: open(name).read() for name in sorted(glob.glob('crates/*/src/*.rt'))}
code = '\n'.join(source.values())
answers = [open(name).read() for name in glob.glob('crates/*/proofs/*/**/Answers.antt', recursive=True)]


def found(pattern, text=code):
    return len(re.findall(pattern, text, re.M))


def parameters():
    """Of each function the names of its parameters."""
    for m in re.finditer(r'\bfn \w+(?:<[^(]*>)?\(([^)]*)\)', code):
        yield re.findall(r'(\w+): ', m.group(1))


def together(*names):
    return sum(all(name in those for name in names) for those in parameters())


def facts():
    """How many facts stand in the contracts of three functions or more, and how often they do: the parts of their clauses, whatever the moment."""
    where = {}
    for crate, text in source.items():
        for m in re.finditer(r'^( *)(?:pub )?fn (\w+)(.*?)^\1\{', text, re.M | re.S):
            for clause in re.findall(r'^\s*(?:requires|ensures)[^{]*\{(.*)\}\s*$', m.group(3), re.M):
                parts, depth = [''], 0
                for c in clause:
                    depth += (c in '({[') - (c in ')}]')
                    if c == '×' and depth == 0:
                        parts.append('')
                    else:
                        parts[-1] += c
                for part in map(str.strip, parts):
                    part = part[1:-1] if part.startswith('(') and part.endswith(')') else part
                    fact = re.sub(r'\b([a-z_0-9]+)\.(?:now|old|new|entry|exit)', r'\1', part)
                    where.setdefault(fact, set()).add((crate, m.group(2)))
    return [len(those) for those in where.values() if len(those) >= 3]


result = r'Walk|TableRead|ArchiveRead|Written|Checked|Found|Fixed|Seen'
for what, count in [
    ('1, enums of the shape of a Result or an Option', found(rf'^(?:pub )?enum (?:{result}|Look)\b')),
    ('1, a stop as a number, or handed on by hand', found(rf'\b(?:{result})::Stop\b')),
    ('1, parameters that are a stop\'s number', found(r'stop: u32')),
    ('1, an order turned into a yes or no by hand', found(r'Order::Before\(_\) =>')),
    ('3, loops by `while`', found(r'^ *while ')),
    ('3, loops over a range', found(r"^ *(?:'\w+: )?for \w+ in [^{\n]*\.\.")),
    ('4, conversions by `as`, but to usize', found(r'\bas (?:u8|u16|u32|u64|i64)\b')),
    ('4, conversions by `as usize`', found(r'\bas usize\b')),
    ('5, functions with rows, n and dims', together('rows', 'n', 'dims')),
    ('5, functions with dims, bases and cells', together('dims', 'bases', 'cells')),
    ('5, functions with store and used or sizes', together('store', 'used') + together('store', 'sizes')),
    ('5, functions with lists and n', together('lists', 'n')),
    ('5, one fact in many contracts', found(r'n \* width dims ≡ length rows\.now')),
    ('5, facts in three contracts or more', len(facts())),
    ('5, contracts in which these facts stand', sum(facts())),
    ('6, functions with rows and n', together('rows', 'n')),
    ('7, parameters that say which step', found(r'least: usize')),
    ('8, answers', sum(found(r'^pub [^ ]+ : goal\.', text) for text in answers)),
    ('8, files of answers', len(answers)),
    ('functions with more than seven parameters', sum(len(those) > 7 for those in parameters())),
]:
    print(f'{count:6}  {what}')
