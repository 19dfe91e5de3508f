#!/usr/bin/env python3
"""contracts.py [--check]: docs/CONTRACTS.md, the list of every public function with what determines it.

A contract determines its function where what comes back (the result, and every byte and board that was lent for writing, at exit) stands
alone, or in a view that loses nothing, on one side, and a definition over the arguments on the other. This program knows the views
and the theorem that shows of each that it loses nothing; it looks whether that theorem stands where it says. An error is

- a public function with no contract, with one of another form, or with a `ghost` value;
- a definition that speaks of the result, or of what was lent as the call leaves it;
- a result, a field of a result, or a parameter lent for writing, that no clause determines; a result that holds references, where its
  contract is not an equation of all of it;
- a theorem that is not there, or is over some of the results alone.

What the ghost of a trait is given is the contract of the trait's function.

--check compares only.
"""
import glob
import re
import sys

import heads
import models

# in a view: r is the result, exit what a parameter lent for writing holds when the call ends (`x.new`), entry what one held when it began
# (`x.old`, and `x.now` of one lent for reading); a board is there as its tables, and sizes are the model's
MODEL = 'code_demands', 'Unique'
LISTED = 'board_listing', 'Unique'
VIEWS = {
    'tables': ('r|exit', *MODEL, 'one_board'),
    'outcome': ('r exit', *MODEL, 'one_answer'),
    'range_outcome': ('sizes r exit', *MODEL, 'one_range_answer'),
    'range_meant': ('r', *MODEL, 'one_range'),
    'translated': ('r exit', *MODEL, 'one_translation'),
    'loaded': ('r exit entry', *MODEL, 'one_load'),
    'stored': ('r exit exit', *MODEL, 'one_store'),
    'answer_of': ('r', *MODEL, 'one_check'),
    'answer': ('sizes r', *LISTED, 'one_read'),
    'answered': ('r', *LISTED, 'one_answered'),
    'filled': ('r exit', *LISTED, 'one_written'),
    'listed': ('r exit exit', 'listing_image', 'Listed', 'one_listed'),
    # the memory of a call that has none is the empty list; the image of a call that only reads it is lent for reading
    'left': ('r (entry|exit) (entry|exit|none) exit', *MODEL, 'one_left'),
    # what was lent to a function, as it is
    '≡': ('exit', *MODEL, 'one_value'),
}
# a view that determines a result only beside another one, whose theorem takes both; of a result with no value in it, alone
BESIDE = {'answer_of': 'range_outcome'}
NO_VALUE = 'Result<(), Refusal>'
# structs whose fields are given one by one
FIELDS = {
    'Lookup': ('r', *MODEL, 'one_lookup'),
    'Checked': ('r', *MODEL, 'one_checked'),
}
# contracts that are records: what their last arguments are; those before them are the definition's
RECORDS = {
    'Tells': ('r', *MODEL, 'one_told'),
    'Ran': ('exit r', 'script', 'Runs', 'ran_once'),
    'RanFrom': ('exit r', 'script', 'Runs', 'from_once'),
}
ITSELF, EXIT, BOARD = 'the equation itself', '≡', 'tables'
# the words of a clause; a reference that the result takes along is spoken of as it came in
RESULT, WHEN = 'result', {'now': 'entry', 'old': 'entry', 'new': 'exit'}
TAKEN = r'(\w+)\.entry\b(?!\.)'
# the sizes of a model, and how the page says them
SIZES = '(sizes SPACES PAGES PLACES)'
PARTS = {RESULT: 'r', SIZES: 'sizes', '[]': 'none'}
# where the equation that a contract is said by comes from
EQUATION = 'Rattle.std.specs.Prelude'
# traits whose functions are determined by what is given to a ghost of theirs
LAWS = {'From': 'from_gives'}

errors = []


def parts(text, between=' '):
    """The words and brackets of a term, or the parameters of a head, in their order."""
    found, depth = [''], 0
    for c in text:
        depth += {'(': 1, '[': 1, ')': -1, ']': -1}.get(c, 0)
        if c == between and depth == 0:
            found.append('')
        else:
            found[-1] += c
    return found


def kind(part):
    """What a part is in a view (r, entry, exit, sizes, none, or ? for anything else), and the parameter that it speaks of."""
    if part in PARTS:
        return PARTS[part], None
    m = re.fullmatch(r'«?(\w+)»?\.(now|old|new)', part) or re.fullmatch(rf'\({BOARD} (\w+)\.(now|old|new)\)', part)
    return (WHEN[m[2]], m[1]) if m else ('?', None)


def shown(found, form):
    """What these parts determine, where they have the form of a view: r, and parameters."""
    if not re.fullmatch(form, ' '.join(k for k, _ in found)):
        return None
    return {'r' if k == 'r' else name for k, name in found if k in ('r', 'exit')}


def plain(term, lent):
    """Whether a definition speaks of the arguments alone: a term with no relation in it, no result, nothing at exit."""
    rest = re.sub(r'«?\b\w+»?\.(now|old|entry)\b', '', term)
    words = re.findall(r'\w+', rest)
    return re.fullmatch(r"[\w\s()«»\[\].+*∷'-]*", rest) and not {RESULT, 'new', *lent} & set(words)


def equation(head, left):
    """What the left side of an equation determines, and its view."""
    found = [kind(part) for part in left]
    view = left[0]
    if found == [('r', None)]:
        return {'r'}, ITSELF
    if view in VIEWS:
        what = shown(found[1:], VIEWS[view][0])
        partly = view in BESIDE.values() or view in BESIDE and head.result != NO_VALUE
        return ({f'.{view}' if w == 'r' else w for w in what} if what and partly else what), view
    field = re.fullmatch(rf'{RESULT}(\.\w+)', ' '.join(left))
    struct = head.result.partition('<')[0]
    if field and struct in FIELDS:
        return {field[1]}, struct
    return ({found[0][1]} if len(left) == 1 and found[0][0] == 'exit' else None), EXIT


def determined(head, clause, lent, holds):
    """What one clause determines, the definition and the view; None where its form is not known. A result that holds references may take
    along what was lent, and is then determined with it."""
    fact = parts(clause)
    if fact.count('≡') == 1:
        at = fact.index('≡')
        what, view = equation(head, fact[:at])
        definition = ' '.join(fact[at + 1:])
        if view == ITSELF and holds:
            what = what | set(re.findall(TAKEN, definition))
    elif fact[0] in RECORDS:
        view = fact[0]
        own = len(fact) - len(RECORDS[view][0].split())
        what = shown([kind(part) for part in fact[own:]], RECORDS[view][0])
        definition = ' '.join(fact[:own])
    else:
        return None
    return (what, definition, view) if what and plain(definition, lent) else None


def clauses(head):
    """The clauses of a head; of a trait's function what is given to the trait's ghost, with the names of the parameters."""
    trait = re.match(r'\w*', head.trait)[0]
    for name, law in head.laws:
        m = re.fullmatch(r'λ ([\w ]+) (\w+)\. (\w+) ≡ (.*)', law)
        if LAWS.get(trait) == name and m and m[2] == m[3] and m[2] not in re.findall(r'\w+', m[4]):
            names = dict(zip(m[1].split(), (p.split(':')[0].split()[-1] for p in parts(head.parameters, ',') if p.strip())))
            return [('ensures', f'{RESULT} ≡ ' + re.sub(r'\w+', lambda w: names.get(w[0], w[0]), m[4]))]
    return head.clauses


def origin(text, name):
    """The module that a file has a name from, or None; a name given by `as` has none."""
    for m in re.finditer(r'(?m)^\s*(?:ghost )?use ([^\s{]+)\.\{([^}]*)\}', text):
        if name in [word.strip() for word in m[2].split(',')]:
            return m[1]
    return None


def binders(text):
    """The variables that a theorem or a section of a file is over, and what follows them."""
    names = set()
    while m := re.match(r"(?:→ )?[({]([\w' ]+) : ", text):
        names |= set(m[1].split())
        text = text[heads.closed(text, re.search(r'[({]', text).start()):].lstrip()
    return names, text.removeprefix('→ ')


def premises_of_any(premises, sides, known):
    """Whether premises hold of whatever came back: they speak of variables alone, so of no result that is made in one way only, and none is
    the equation that is to be shown."""
    words = [re.findall(r"(?<![.\w'])[\w']+", premise) for premise in premises]
    return not set('()[]{},') & set(''.join(premises)) and all(set(these) <= known and not set(these) <= set(sides) for these in words)


def shows_one(statement, view, form, known):
    """Whether a theorem goes from the view, or a struct's fields, of any two results to an equation for each part of what comes back: known
    are the variables of the section that it stands in."""
    own, rest = binders(statement)
    *before, after = rest.split(' → ')
    equations = [re.fullmatch(r"\(?([\w']+) ≡ ([\w']+)\)?", part) for part in after.split(' × ')]
    sides = [side for m in equations if m for side in m.groups()]
    return (view in re.findall(r'\w+|≡', statement.rpartition(' → ')[0])
            and len(equations) == len([k for k in form.split() if k not in ('entry', 'sizes')])
            and len(set(sides)) == 2 * len(equations) and set(sides) <= own and premises_of_any(before, sides, own | known))


def statement(proofs, name):
    """What a theorem says: from its name to its first line."""
    m = re.search(rf'(?m)^ *pub {name} : ((?:.*\n)+?) *(?:unfolding\b|{name}\b)', proofs)
    return heads.one_line(m[1]) if m else ''


def theorem(view, text, other):
    """The theorem of a view, by its name and where it is, and what is wrong: it has to stand there, over the view that the source has. It
    is that of the other view where the one determines nothing alone."""
    if origin(text, '◌≡◌') != EQUATION and view not in RECORDS:
        return ('', ''), ['has an equation of its own']
    if view == ITSELF:
        return (ITSELF, ''), []
    form, crate, file, name = (VIEWS | RECORDS | FIELDS)[other]
    try:
        proofs = open(f'crates/{crate}/proofs/{file}.antt').read()
    except OSError:
        proofs = ''
    said = f'`{name}`', f' ({crate}, {file})'
    sections = set().union(*(binders(m)[0] for m in re.findall(r'(?m)^ *module _ (.*) where$', proofs)))
    if not shows_one(statement(proofs, name), view, form, sections | {*VIEWS, *RECORDS}):
        return said, [f'wants a theorem {name} in {crate}, {file}: one result by {view}']
    if view in FIELDS or view == EXIT or origin(text, view) == origin(proofs, view) is not None:
        return said, []
    return said, [f'has another {view} than the theorem {name}']


def fields(crate, struct):
    """The fields of a struct of this crate, read from its source."""
    for path in sorted(glob.glob(f'crates/{crate}/src/**/*.rt', recursive=True)):
        text = heads.bare(open(path).read())
        m = re.search(rf'\bstruct {struct.partition("<")[0]}\s*(?:<[^>]*>)?\s*\{{', text)
        if m:
            return re.findall(r'(\w+)\s*:(?!:)', text[m.end():heads.closed(text, m.end() - 1)])
    return ['?']


def lent_by(head, holders):
    """The names of the parameters that are lent for writing, those among them that hold what is lent."""
    for parameter in parts(head.parameters, ','):
        name, _, its = parameter.partition(':')
        its = its or f'{name} {head.owner}'
        if re.search(r"[&*]\s*(?:'\w+\s+)?mut\b", parameter) or (holders & set(re.findall(r'\w+', its)) and not its.strip().startswith('&')):
            yield name.split()[-1]


def holds_some(head, holders):
    """Whether the result may hold a reference."""
    return '&' in head.result or bool(holders & set(re.findall(r'\w+', head.result.replace('Self', head.owner))))


def missing(crate, head, lent, found, holds):
    """What comes back and is determined by no clause."""
    what = set().union(*(w for w, _, _ in found))
    given = {w[1:] for w in what if w.startswith('.')}
    beside = [{one, other} for one, other in BESIDE.items() if given & {one, other}]
    if beside:
        yield from ('its result' for both in beside if not both <= given)
    elif head.result and 'r' not in what:
        yield from (f'the field {f} of its result' for f in fields(crate, head.result) if f not in given) if given else ['its result']
    yield from (f'what it leaves in {p}' for p in lent if p not in what)
    if holds and ITSELF not in {view for _, _, view in found}:
        yield 'what it hands back by reference'


def judged(crate, head, holders):
    """The rows of one public function, and what is wrong with its contract."""
    lent, holds = list(lent_by(head, holders)), holds_some(head, holders)
    found = [determined(head, clause, lent, holds) if word == 'ensures' else None for word, clause in clauses(head) if word != 'requires']
    if not found:
        return [], ['has no contract']
    if None in found:
        return [], ['has a contract of a form that is not known']
    return found, [f'does not determine {m}' for m in missing(crate, head, lent, found, holds)]


def full_name(crate, module, head):
    """The crate, the module, the type that a method is of, and the function."""
    owner = re.match(r'\w*', head.owner)[0]
    return '::'.join(part for part in (crate, '' if module in ('lib', 'main') else module, owner, head.name) if part)


def theorems(what, clause, view, text):
    """The theorems by which what a clause determines is one, as the page names them: that of its view, and that of a board in it."""
    other = BESIDE.get(view, view) if f'.{view}' in what else view
    found = [theorem(view, text, other)]
    if view != BOARD and re.search(rf'\({BOARD} \w+\.new\)', clause):
        found.append(theorem(BOARD, text, BOARD))
    places = dict.fromkeys(place for (_, place), _ in found)
    return ', '.join(', '.join(name for (name, at), _ in found if at == place) + place for place in places), [wrong for _, all_wrong in found for wrong in all_wrong]


def holders(texts):
    """The types that may hold a reference: those with a parameter that is no number."""
    for text in texts:
        for m in re.finditer(r'\b(?:struct|enum)\s+(\w+)\s*<', text):
            given = text[m.end():heads.closed(text, m.end() - 1) - 1]
            if not all(p.split()[0] == 'const' for p in parts(given, ',') if p.strip()):
                yield m[1]


def rows():
    sources = [(path, crate, module, open(path).read()) for path, crate, module in heads.files() if crate not in models.CRATES.values()]
    holding = set(holders(heads.bare(text) for *_, text in sources))
    for path, crate, module, text in sources:
        for head in heads.heads(text):
            if not head.public:
                continue
            name = full_name(crate, module, head)
            found, wrong = judged(crate, head, holding)
            for (what, definition, view), (_, clause) in zip(found, [c for c in clauses(head) if c[0] == 'ensures']):
                said, astray = theorems(what, clause, view, text)
                wrong += astray
                yield name, definition.replace(SIZES, 'sizes'), said
            errors.extend(f'{path}:{head.line}: {name} {w}' for w in wrong)


def page():
    lines = [
        '# What determines each public function',
        '',
        'Made by `tools/contracts.py`, and checked by `./test`. What comes back from a function is its result, and every byte and every board',
        'that it was lent for writing. The contract sets it equal to a definition over the arguments: as it is, or in a view. By the theorems of',
        'the last column two results that meet the contract are one. Where it says \'the equation itself\', the contract is `result ≡` the',
        'definition, and there is nothing to show. No public function has a `requires`, so this holds for every input.',
        '',
        'In the crates of both models `sizes` are the sizes that the types are made with, so a row there holds of both models, as its theorem',
        'does. lend_premium is lend_entry in the other model\'s name (`tools/models.py`): each of its functions stands here by the entry',
        'model\'s.',
        '',
        '| function | definition | the only result by |',
        '|---|---|---|',
    ]
    lines += [f'| `{name}` | `{definition}` | {said} |' for name, definition, said in rows()]
    return '\n'.join(lines) + '\n'


text = page()
for error in errors:
    print(error)
path = 'docs/CONTRACTS.md'
if '--check' in sys.argv:
    try:
        same = open(path).read() == text
    except OSError:
        same = False
    print('docs/CONTRACTS.md lists every public function' if same else f'{path} is not what tools/contracts.py makes: run it')
    sys.exit(1 if errors or not same else 0)
open(path, 'w').write(text)
sys.exit(1 if errors else 0)
