#!/usr/bin/env python3
"""Counts the places in crates/*/src that a newer form could replace: `tools/places.py [FOLDER] [-v]` prints a count for each kind, and with -v each place."""
import collections, glob, os, re, sys

args = [a for a in sys.argv[1:] if a != '-v']
root, verbose = (args[0] if args else '.'), '-v' in sys.argv
files = sorted(f for f in glob.glob(os.path.join(root, 'crates/*/src/**/*.rt'), recursive=True) if not f.endswith('tests.rt'))


def code(path):
    """The lines of a file without comments and clauses."""
    for number, line in enumerate(open(path), 1):
        text = line.split('//')[0].rstrip('\n')
        if text.strip() and not re.match(r'\s*(ghost|ensures|requires)\b', text):
            yield number, text


def functions(path):
    """The functions of a file: name, parameters, body, and the text of each clause."""
    text = re.sub(r'//.*', '', open(path).read())
    for m in re.finditer(r'\bfn (\w+)(?:<[^(]*>)?\(', text):
        depth, i = 1, m.end()
        while depth:
            depth += {'(': 1, ')': -1}.get(text[i], 0)
            i += 1
        params = text[m.end():i - 1]
        stop = re.compile(r'\n\s*\{\n|\{\n|;|\{\s*\}').search(text, i)
        head, body, depth = text[i:stop.start()], '', 0
        if text[stop.start():stop.end()].strip().startswith('{'):
            j = text.index('{', stop.start())
            k = j
            while True:
                depth += {'{': 1, '}': -1}.get(text[k], 0)
                k += 1
                if not depth:
                    break
            body = text[j:k]
        clauses = re.findall(r'(?:requires|ensures)(?: \w+)? \{(.*)\}\s*$', head, re.M)
        yield m.group(1), params, body, clauses


def by_lines(title, pattern):
    found = [(f, n, t.strip()) for f in files for n, t in code(f) if re.search(pattern, t)]
    show(title, [f'{os.path.relpath(f, root)}:{n}: {t}' for f, n, t in found])


def show(title, places):
    print(f'{len(places):4}  {title}')
    if verbose:
        for place in places:
            print('        ' + place)


def shapes():
    """Functions whose bodies differ only in names, numbers and texts."""
    seen = collections.defaultdict(list)
    for f in files:
        for name, params, body, _ in functions(f):
            shape = re.sub(r'b?"[^"]*"|\d+', '0', body)
            shape = re.sub(r'\b(?!(?:if|else|for|in|while|match|let|mut|return|Some|None|Ok|Err|as|true|false)\b)[a-zA-Z_]\w*', '_', shape)
            shape = re.sub(r'\s+', ' ', shape)
            if len(shape) > 12:
                seen[shape].append(f'{os.path.relpath(f, root)}: {name}')
    return [p for group in seen.values() if len(group) > 1 for p in group]


def told_alike(pick):
    """What stands in the heads of three or more functions, up to the names of moments."""
    seen = collections.defaultdict(set)
    for f in files:
        for name, params, _, clauses in functions(f):
            for item in pick(params, clauses):
                seen[item].add(f'{os.path.relpath(f, root)}: {name}')
    return [f'{len(v)} functions: {k}' for k, v in sorted(seen.items()) if len(v) > 2]


def facts(params, clauses):
    for clause in clauses:
        if not re.search(r'\bresult\b', clause):
            yield re.sub(r'\b(self|scope)\.(old|new|now)\b', r'\1', clause).strip()


def pairs(params, clauses):
    names = [p.strip() for p in re.split(r',\s*(?![^<(\[]*[>)\]])', params.replace('\n', ' ')) if ':' in p]
    names = [re.sub(r"'\w+ ", '', n) for n in names]
    return {f'{a}, {b}' for a, b in zip(names, names[1:])}


print('1. Own Option or Result, a flag with a value beside it, numbers for kinds')
by_lines('own enums', r'\benum \w')
by_lines('numbers that stand for flags, or a flag with its value beside it', r'(flags|versym) [%/>]|told: bool|flags: u16')
by_lines('an Option or Result taken apart and put together by hand', r'=> None,$|Err\(Fault::|Err\(AllocError\)')
by_lines('values that stand in for none', r'unwrap_or\((0|false)\)')
print('2. Twins')
show('functions whose bodies differ only in names and numbers', shapes())
print('3. Loops')
by_lines('all loops', r'^\s*(for|while|loop)\b')
by_lines('of them: an index counted by hand', r'^\s*(while\b|for \w+ in \d+\.\.|for \(\w+, \w+\) in .*enumerate)')
print('4. Equality, order, copying, conversion and printing by hand')
by_lines('impl blocks', r'^impl.*\b(From|TryFrom|PartialEq|Eq|PartialOrd|Ord|Display|Debug|Clone|Copy|Default)\b.* for ')
by_lines('functions', r'fn (equal|same_version|is_named|listed|among|copy|copy_to|row|place|digits|number|render|refusal_line)\b')
by_lines('casts', r' as (u8|u16|u32|u64|usize)\b')
print('5. Facts and parameters that stand together in three functions or more')
show('facts', told_alike(facts))
show('pairs of parameters', told_alike(pairs))
print('6. Buffers with a length beside, parallel arrays, lists searched by hand')
by_lines('tables', r'\[\w+; [\w_]+\]')
by_lines('lengths and places beside a list', r'\b(len|used|\w+_len|at|from|next|start|free): ?(usize|Option<usize>)|let mut (next|start|free|place) =')
print('7. Switches on the step to run, tables of functions')
by_lines('places', r'\benum Pick|match \*?pick|\bdyn\b|: fn\(')
print('8. Proofs')
answers = [a for f in glob.glob(os.path.join(root, 'crates/*/proofs/**/Answers.antt'), recursive=True) for a in re.findall(r'^pub \S+ :', open(f).read(), re.M)]
lines = sum(len(open(f).readlines()) for f in glob.glob(os.path.join(root, 'crates/*/proofs/**/*.antt'), recursive=True))
print(f'{len(answers):4}  answers\n{lines:4}  lines of proofs')
