"""heads.py: the heads of the functions of a source file, for the tools that hold contracts to a form.

A head is what stands in front of a function's body: its name, its parameters, the type of its result, and its clauses; of a method also
the type that it is of, and the trait that it is a method of, with what the trait's laws are said by.
"""
import glob
import re
from collections import namedtuple

# clauses: the word and what stands in the braces of each, on one line; owner: the type of the `impl` that it stands in, '' for none;
# trait: the trait of that `impl`; laws: what is given to the ghosts of the trait
Head = namedtuple('Head', 'line name public parameters result clauses owner trait laws')
# a function's first words, wherever on a line they stand: pub, pub(crate), extern "C" and whatever else comes before `fn`
FIRST = re.compile(r'(?<![\w#])((?:[a-z]+(?:\([^)]*\))?(?:\s+"\w+")?\s+)*)fn\s+(\w+)')
ARROW = re.compile(r'(?s)\s*->\s*(.*?)\s*(?=\b(?:requires|ensures|ghost)\b|\{)')
IMPL = re.compile(r'(?m)^[ \t]*(?:unsafe\s+)?impl\b')
LAW = re.compile(r'\bghost\s+(\w+)\s*=\s*\{')
CLOSING = {'(': ')', '{': '}', '[': ']', '<': '>'}


def files():
    """Every source file, with its crate and its module."""
    for path in sorted(glob.glob('crates/*/src/**/*.rt', recursive=True)):
        crate, module = re.match(r'crates/(\w+)/src/(.*)\.rt', path).groups()
        yield path, crate, module.replace('/', '::')


def bare(text):
    """The text with its comments blank, each as long as it was."""
    return re.sub(r'//[^\n]*', lambda m: ' ' * len(m[0]), text)


def closed(text, at):
    """The position after the bracket that closes the one at this position; an arrow's head closes none."""
    opening, depth = text[at], 0
    while True:
        if text[at - 1:at + 1] not in ('->', '=>'):
            depth += {opening: 1, CLOSING[opening]: -1}.get(text[at], 0)
        at += 1
        if depth == 0:
            return at


def one_line(text):
    return ' '.join(text.split())


def clauses(text, at):
    """The clauses from here to the body, which is the first brace with no word in front."""
    found = []
    while True:
        m = re.compile(r'([^{]*)').match(text, at)
        words, at = m[1].split(), m.end()
        if not words:
            return found
        end = closed(text, at)
        found.append((words[0], one_line(text[at + 1:end - 1])))
        at = end


def impls(text):
    """Each `impl`: from where to where its functions stand, its type, its trait, and what is given to the trait's ghosts."""
    for m in IMPL.finditer(text):
        at = m.end()
        if text[at] == '<':
            at = closed(text, at)
        body = text.index('{', at)
        trait, _, owner = one_line(text[at:body]).rpartition(' for ')
        end = closed(text, body)
        laws = [(law[1], one_line(text[law.end():closed(text, law.end() - 1) - 1])) for law in LAW.finditer(text, body, end)]
        yield body, end, owner, trait, laws


def heads(text):
    """Every function's head. One is public where a caller outside the crate, or a linker, finds it: so is a trait's."""
    text = bare(text)
    blocks = list(impls(text))
    for m in FIRST.finditer(text):
        start = m.end()
        if text[start] == '<':
            start = closed(text, start)
        end = closed(text, start)
        arrow = ARROW.match(text, end)
        words = m[1].split()
        owner, trait, laws = next((block[2:] for block in blocks if block[0] < m.start() < block[1]), ('', '', []))
        yield Head(text.count('\n', 0, m.start()) + 1, m[2], 'pub' in words or 'extern' in words or trait != '', one_line(text[start + 1:end - 1]),
                   one_line(arrow[1]) if arrow else '', clauses(text, arrow.end() if arrow else end), owner, trait, laws)
