#!/bin/sh
# The field's own words: no name of the sources has a word of ci/words.txt, no comment and no document a phrase of it, but for
# the exceptions of ci/words_exceptions.txt. Both files say at their head how they are read.
#
#   sh ci/words.sh     prints each place, or how many words and phrases were looked for
#
# Names are those of src, specs, proofs, must-fail edits and mutants, and their files' names. Code spans, blocks of output and
# strings are no text here.
set -eu
cd "$(dirname "$0")/.."
exec python3 - << 'END'
import fnmatch, os, re, subprocess, sys

WORDS, EXCEPTIONS = 'ci/words.txt', 'ci/words_exceptions.txt'
TOKEN = re.compile(r'[^\W\d]\w*')
HUMP = re.compile(r'[A-Z]+(?![a-z])|[A-Z]?[a-z]+|\d+')
STRING = re.compile(r'"(?:\\.|[^"\\])*"')
CHAR = re.compile(r"b?'(?:\\.|[^\\'])'")
SPAN = re.compile(r'`[^`\n]*`|\]\([^)\n]*\)')


def rows(path, fields):
    for number, line in enumerate(open(path, encoding='utf-8'), 1):
        line = line.rstrip('\n')
        if line and not line.startswith('#'):
            row = line.split('\t')
            if len(row) != fields:
                sys.exit(f'{path}:{number}: {fields} fields are wanted, with a tab between them')
            yield row


def in_globs(path, globs):
    return any(fnmatch.fnmatch(path, glob) for glob in globs)


names, phrases = [], []
for kind, word, instead, where in rows(WORDS, 4):
    if kind == 'name':
        names.append((re.compile(f'(?:^|_)(?:{word})(?:_|$)'), word, instead, where.split(',')))
    elif kind == 'text':
        phrases.append((re.compile(word), word, instead, where.split(',')))
    else:
        sys.exit(f'{WORDS}: {kind} is neither name nor text')
exceptions = list(rows(EXCEPTIONS, 4))
allowed = {(kind, text): where.split(',') for kind, text, where, _ in exceptions}
used = set()
found = []


def is_allowed(kind, text, path):
    globs = allowed.get((kind, text))
    if globs and in_globs(path, globs):
        used.add((kind, text))
        return True
    return False


words_of = {}


def look_at_name(token, path, number):
    if token not in words_of:
        parts = '_'.join(part.lower() for part in HUMP.findall(token))
        words_of[token] = [row for row in names if row[0].search(parts)]
    for _, word, instead, where in words_of[token]:
        if in_globs(path, where) and not is_allowed('name', token, path):
            found.append(f'{path}:{number}: {token}: for {word} write {instead}')


def look_at_text(text, path, number):
    text = SPAN.sub(lambda span: ' ' * len(span[0]), text)
    for pattern, _, instead, where in phrases:
        for hit in pattern.finditer(text):
            if in_globs(path, where) and not is_allowed('text', hit[0], path):
                found.append(f'{path}:{number}: "{hit[0]}": write "{instead}"')


def parts_of(line, ending, in_string=False):
    """A line's code and its comment, and whether a string goes on behind it; strings are blanked."""
    if ending == 'antt':
        cut = re.search(r'(?:^|(?<=\s))--(?:\s|$)', line)
        return (line, '', False) if not cut else (line[:cut.start()], line[cut.start():], False)
    if in_string:
        _, closed, line = line.partition('"')
        if not closed:
            return '', '', True
    line = STRING.sub(lambda string: ' ' * len(string[0]), CHAR.sub(' ', line))
    cut = re.search('//|"', line)
    if cut and cut[0] == '"':
        return line[:cut.start()], '', True
    return (line, '', False) if not cut else (line[:cut.start()], line[cut.start():], False)


def look_at_source(path, ending):
    fenced = in_string = False
    for number, line in enumerate(open(path, encoding='utf-8'), 1):
        code, comment, in_string = parts_of(line.rstrip('\n'), ending, in_string)
        for token in TOKEN.findall(code):
            look_at_name(token, path, number)
        if comment.lstrip('/! ').startswith('```'):
            fenced = not fenced
        elif comment and not fenced:
            look_at_text(comment, path, number)


class Page:
    """Which lines of a page are indented code: four spaces after a blank line, outside of lists."""

    def __init__(self):
        self.blank, self.code, self.list = True, False, False

    def is_code(self, line):
        if not line.strip():
            self.blank = True
            return self.code
        if line.startswith('    ') and (self.code or self.blank and not self.list):
            self.code = True
        else:
            self.code = False
            if re.match(r'\s*(?:[-*+]|\d+[.)])\s', line):
                self.list = True
            elif not line.startswith(' '):
                self.list = False
        self.blank = False
        return self.code


def look_at_page(path):
    fence, page = None, Page()
    for number, line in enumerate(open(path, encoding='utf-8'), 1):
        line = line.rstrip('\n')
        if line.strip().startswith('```'):
            fence = line.strip()[3:] if fence is None else None
        elif fence in ('rust', 'antt'):
            look_at_text(parts_of(line, 'antt' if fence == 'antt' else 'rt')[1], path, number)
        elif fence is None and not page.is_code(line):
            look_at_text(line, path, number)


def look_at_script(path):
    for number, line in enumerate(open(path, encoding='utf-8'), 1):
        if re.match(r'\s*#(?!!)', line):
            look_at_text(line, path, number)


listed = subprocess.run(['git', 'ls-files', '-co', '--exclude-standard'], check=True, capture_output=True, text=True).stdout.splitlines()
for path in listed:
    if not os.path.isfile(path) or path.startswith('ci/words'):
        continue
    top, _, _ = path.partition('/')
    if top in ('crates', 'mutants'):
        for token in TOKEN.findall(path):
            look_at_name(token, path, 0)
    if path.endswith(('.rt', '.antt', '.edit', '.rs')):
        ending = path.rpartition('.')[2]
        if ending == 'edit':
            target = open(path, encoding='utf-8').readline().strip()
            ending = 'antt' if target.endswith('.antt') else 'rt'
        look_at_source(path, ending) if top in ('crates', 'mutants') else None
    elif path.endswith('.md') and path != 'docs/API.md':
        look_at_page(path)
    elif path.endswith(('.sh', '.py')):
        look_at_script(path)
for kind, text, _, _ in exceptions:
    if (kind, text) not in used:
        found.append(f'{EXCEPTIONS}: {text} is no exception any more')
for line in found:
    print(line)
if found:
    sys.exit(f'{len(found)} places with words that {WORDS} replaces')
print(f'{len(names)} words and {len(phrases)} phrases: none is there, but for {len(exceptions)} exceptions')
END
