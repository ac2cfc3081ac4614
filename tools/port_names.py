#!/usr/bin/env python3
"""Brings the definitions and lemmas of this repository to today's spelling: snake case, a dash only between two names.

usage: port_names.py [--check] (at the top of the repository, once, right after port.py)

It gathers what specs/ and the law files of proofs/ declare, makes a table of old and new spellings, and turns whole words in the .antt
files and in the clauses, ghost items and comments' code spans of the .rt files. Names of other libraries, of what Rattle makes, and of
functions stay. --check writes nothing and prints the table.
"""
import glob
import os
import re
import sys

WORD = r'[^\s(){}.;,@"«»\[\]`]+'
TOKEN = re.compile(WORD)
USE = re.compile(r'^\s*(?:pub |ghost )*use\s+([^\s{};]+?)(?:\.\{([^}]*)\})?(?:\s+as\s+(\S+?))?;?\s*$', re.M)
LETTERS = re.compile(r"^[a-z][\w₀-₉′'-]*$")


def crates():
    return sorted(os.path.basename(c) for c in glob.glob('crates/*'))


def files():
    every = glob.glob('crates/*/specs/**/*.antt', recursive=True) + glob.glob('crates/*/proofs/**/*.antt', recursive=True)
    return sorted(every)


def is_function_proof(path):
    return '/proofs/' in path and os.path.basename(path) == 'Proof.antt'


def read(path):
    with open(path, encoding='utf-8') as f:
        return f.read()


def code_of(text):
    return re.sub(r'--[^\n]*|"(?:[^"\\\n]|\\.)*"', '', text)


def declared(text):
    """The names that a file declares: at the head of a line, before a colon."""
    out = set()
    for line in code_of(text).split('\n'):
        m = re.match(r'^\s*(?:(?:pub|abbrev|unfoldable)\s+)*((?:' + WORD + r'\s+)*?' + WORD + r')\s+:\s', line)
        if m and not line.lstrip().startswith(('use ', 'module ', 'record ', 'data ', '|', 'let ', 'in ', '=')):
            for name in m[1].split():
                out.add(name)
    return {n for n in out if LETTERS.match(n)}


def external(text, ours):
    out = set()
    for m in USE.finditer(text):
        module = m[1]
        parts = module.split('.')
        own = len(parts) > 1 and parts[0] == 'Rattle' and parts[1] in ours
        for item in (m[2] or '').split(','):
            bits = item.split(' as ')
            name = bits[0].strip()
            if name and not own:
                out.add(name)
    return out


def snake(part):
    if not re.match(r'[a-z]', part):
        return part
    part = re.sub(r'(?<=[a-z0-9])([A-Z])', lambda m: '_' + m[1].lower(), part)
    return re.sub(r'(?<=[A-Z])([A-Z])', lambda m: '_' + m[1].lower(), part).lower() if part.lower() != part else part


def lemma(name, heads):
    """A dash stays between two names; a plain word is joined by an underscore."""
    parts = [snake(p) for p in name.split('-')]
    segments, i = [], 0
    while i < len(parts):
        for j in range(len(parts), i, -1):
            word = '_'.join(parts[i:j])
            if word in heads or j == i + 1:
                segments.append((word, word in heads or not re.match(r'[a-z]', word)))
                i = j
                break
    out = segments[0][0]
    for (_, a), (word, b) in zip(segments, segments[1:]):
        out += ('-' if a and b else '_') + word
    return out


# std's words on lists, options, tests and numbers that lemmas here are named by
STD = set('append length take drop set sets get_or map filter reverse sum cons nil snoc flat_map min max suc zero none some true false cond and or not xor '
          'eqb leb ltb eq le lt add mul div mod every keep'.split())


def table():
    ours = crates()
    specs, laws, outside, texts = set(), set(), set(), {}
    for path in files():
        text = texts[path] = read(path)
        outside |= external(text, ours)
        if is_function_proof(path):
            continue
        names = declared(text)
        # what a let or a lambda binds goes along
        names |= {n for n in re.findall(r'\blet\s+(' + WORD + r')\s*(?::|=)', code_of(text)) if LETTERS.match(n)}
        (specs if '/specs/' in path else laws).update(names)
    for path in glob.glob('crates/*/src/**/*.rt', recursive=True):
        text = read(path)
        outside |= external(text, ours)
        # another name that a file gives a definition
        specs |= {n for items in re.findall(r'ghost use [^;]*', text) for n in re.findall(r' as (\w+)', items) if LETTERS.match(n)}
    heads = {n.replace('-', '_') if '-' in n else snake(n) for n in specs} | STD
    made = {}
    for name in sorted(specs):
        if name not in outside:
            made[name] = snake(name.replace('-', '_'))
    for name in sorted(laws - specs):
        if name not in outside:
            made[name] = lemma(name, heads)
    made = {a: b for a, b in made.items() if a != b}
    fields = {n for path, text in texts.items() if not is_function_proof(path) for n in re.findall(r'^\s+pub (' + WORD + r')\s+:', text, re.M)}
    return made, texts, fields


def functions():
    """The functions of src/, as old proofs spell the steps that call them."""
    out = set()
    for path in glob.glob('crates/*/src/**/*.rt', recursive=True):
        out |= set(re.findall(r'\bfn (\w+)', read(path)))
    return out | {name.replace('_', '-') for name in out}


def imported(text, ours):
    """What a file imports from this repository."""
    out = set()
    for m in USE.finditer(text):
        parts = m[1].split('.')
        if len(parts) > 1 and parts[0] == 'Rattle' and parts[1] in ours:
            for item in (m[2] or '').split(','):
                out |= {bit.strip() for bit in item.split(' as ') if bit.strip()}
    return out


def words_of(text):
    """The words of a file, but for the paths of what it imports."""
    code = USE.sub(lambda m: f'{m[2] or ""} {m[3] or ""}', code_of(text))
    return set(TOKEN.findall(code))


def settle(made, texts, fields):
    """A lemma or field that would be spelled as a definition that stands in its file gets the ending _lem. A field clashes only where it is declared."""
    laws = {path: text for path, text in texts.items() if not is_function_proof(path)}
    tops = {n for text in laws.values() for n in re.findall(r'^(?:(?:pub|abbrev|unfoldable) )*(' + WORD + r') :', text, re.M)}
    shown = {n for path, text in laws.items() if '/specs/' in path for n in re.findall(r'^(?:(?:pub|abbrev|unfoldable) )*(' + WORD + r') :', text, re.M)}
    # read by hand: the field and the definition don't meet in one record
    share = {'up-to'}
    changed = True
    while changed:
        changed = False
        for path, text in sorted(laws.items()):
            own = set(re.findall(r'^\s+pub (' + WORD + r')\s+:', text, re.M))
            words = {w for w in words_of(text) if w not in share and (w in tops or w not in fields or w in own)}
            by_new = {}
            # definitions first: they keep the plain name
            for old in sorted(words, key=lambda w: (w not in shown, w)):
                new = made.get(old, old)
                if by_new.setdefault(new, old) != old:
                    if old not in made and old not in tops and old not in own:
                        print(f'look: {old} and {by_new[new]} in {path}')
                        continue
                    print(f'falls together: {old} and {by_new[new]} in {path}: {new}_lem')
                    made[old] = new + '_lem'
                    changed = True
                    break


def turn_antt(text, made, may=None):
    def code(part):
        def one(m):
            dotted = part[m.start() - 1 : m.start()] == '.' and part[m.end() : m.end() + 1] != '.{'
            return made.get(m[0], m[0]) if may is None or may(m[0], dotted) else m[0]

        return TOKEN.sub(one, part)

    out, last = [], 0
    for m in re.finditer(r'--[^\n]*|"(?:[^"\\\n]|\\.)*"', text):
        out.append(code(text[last:m.start()]))
        out.append(comment(m[0], made) if m[0].startswith('--') else m[0])
        last = m.end()
    out.append(code(text[last:]))
    return ''.join(out)


def comment(text, made):
    """In a comment a name in camel case turns."""
    def one(m):
        word = m[0].rstrip(".,:;'")
        tail = m[0][len(word):]
        new = made.get(word)
        if new and re.search('[A-Z]', word):
            return new + tail
        return m[0]
    return re.sub(r"[^\s(){};,@\"«»\[\]`]+", one, text)


CLAUSE = re.compile(r'\b(?:requires|ensures)\s*\*?\s*(?:\w+\s*)?\{|\bghost\s+(?:\w+\s*(?::|=)\s*)?\{|#\[tactic\(')
GHOST_USE = re.compile(r'ghost\s+use\b[^;]*;')


def turn_rt(text, made):
    spans = [(m.start(), m.end()) for m in GHOST_USE.finditer(text)]
    for m in CLAUSE.finditer(text):
        depth, i = 1, m.end()
        opened, closed = ('(', ')') if m[0].endswith('(') else ('{', '}')
        while depth and i < len(text):
            depth += {opened: 1, closed: -1}.get(text[i], 0)
            i += 1
        spans.append((m.end(), i))
    spans.sort()
    out, last = [], 0
    for a, b in spans:
        if a < last:
            continue
        out.append(re.sub(r'//[^\n]*', lambda c: comment(c[0], made), text[last:a]))
        out.append(TOKEN.sub(lambda m: made.get(m[0], m[0]), text[a:b]))
        last = b
    out.append(re.sub(r'//[^\n]*', lambda c: comment(c[0], made), text[last:]))
    return ''.join(out)


def main():
    check = '--check' in sys.argv
    made, texts, fields = table()
    settle(made, texts, fields)
    if check:
        for old, new in sorted(made.items()):
            print(f'{old}\t{new}')
        return 0
    ours, steps = crates(), functions()
    for path, text in texts.items():
        may = None
        if is_function_proof(path):
            # the names of goals and steps there are Rattle's
            known = imported(text, ours)

            def may(word, dotted, known=known):
                return word in known and not dotted or dotted and word in fields and word not in steps

        new = turn_antt(text, made, may)
        if new != text:
            with open(path, 'w', encoding='utf-8') as f:
                f.write(new)
    for path in sorted(glob.glob('crates/*/src/**/*.rt', recursive=True)):
        text = read(path)
        new = turn_rt(text, made)
        if new != text:
            with open(path, 'w', encoding='utf-8') as f:
                f.write(new)
    print(f'{len(made)} spellings turned')
    return 0


if __name__ == '__main__':
    sys.exit(main())
