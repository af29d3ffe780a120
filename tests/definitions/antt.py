"""Reads antt: the words of a text, the header of a file, its declarations, and the names that a text uses."""
import re
from dataclasses import dataclass, field

_NAME = r'[^\s(){}.;,@"«»⟦⟧]+'
_WORD = re.compile(
    r'(?P<comment>--[^\n]*|\{-.*?-\})|(?P<text>"(?:\\.|[^"\\])*")|(?P<quote>⟦[^⟧]*⟧)'
    rf'|(?P<path>{_NAME}(?:\.{_NAME})*)|(?P<projection>\.{_NAME}(?:\.{_NAME})*)|(?P<mark>\S)', re.S)
_IMPORT = re.compile(
    r'(?:pub\s+)?use\s+(?P<path>[^\s{;]+?)(?:\.\{(?P<items>[^}]*)\}|\s+as\s+(?P<alias>\S+))?\s*$', re.S)
_DECLARATION = re.compile(
    rf'(?:(?:unfoldable|abbrev|pub)\s+)*'
    rf'(?:(?P<kind>data|record)\s+(?P<type>{_NAME})|(?P<name>{_NAME})(?:\s+\{{[^}}]*\}})?\s+:\s)')
_CONSTRUCTOR = re.compile(rf'^\s+({_NAME})\s+:\s', re.M)

# What is built in, and so stands for itself: the language's words and the names of its prelude that are used here.
BUILT_IN = set('→ × = : | ↦ ¬ _ ℓ λ let in where record data pub abbrev unfoldable Type Unit tt ⊥ ∥ ∥₁ absurd omega'.split())


class Unreadable(Exception):
    """A text that is not in the form that this program reads."""


@dataclass
class Declaration:
    """One top-level declaration. Its lines are counted with the comment above it, and without any comment."""
    name: str
    text: str
    lines: int
    code_lines: int
    binders: str = ''
    constructors: set = field(default_factory=set)


def without_comments(text):
    """The text with each comment blanked, so that lines and columns stay."""
    def blank(word):
        return re.sub(r'[^\n]', ' ', word[0]) if word['comment'] else word[0]
    return _WORD.sub(blank, text)


def read_import(line):
    """The names that a `use` line brings, each with the path that it means."""
    match = _IMPORT.match(line.strip())
    if not match:
        raise Unreadable(f'no use line: {line.strip()}')
    path = match['path'].split('.')
    if match['items'] is None:
        return {match['alias'] or path[-1]: path}
    names = {}
    for item in filter(None, (item.strip() for item in match['items'].split(','))):
        inner, _, alias = (part.strip() for part in item.partition(' as '))
        names[alias or inner.split('.')[-1]] = path + inner.split('.')
    return names


def read_file(text):
    """The imports and the declarations of a file."""
    lines, code = text.split('\n'), without_comments(text).split('\n')
    imports, found, heads, block, binders = {}, [], [], 0, ''
    for number, line in enumerate(code):
        indent = len(line) - len(line.lstrip())
        if line.strip() and indent == 0:
            block = 0
        if not line.strip() or indent > block:
            continue
        head = line[block:]
        first = head.split()[0]
        match = _DECLARATION.match(head)
        if re.match(r'(pub\s+)?use\s', head):
            imports.update(read_import(_gathered(code, number)))
        elif first == 'module':
            block, binders = 2, line
        elif re.match(r'(pub\s+)?mod\s', head):
            continue
        elif match:
            heads.append((number, match, binders if block else ''))
        elif not heads or first not in (heads[-1][1]['name'], '}', '})'):
            raise Unreadable(f'line {number + 1}: no declaration: {line}')
    for place, (start, match, outer) in enumerate(heads):
        end = heads[place + 1][0] if place + 1 < len(heads) else len(code)
        found.append(_declaration(lines, code, start, end, match, outer))
    return imports, found


def _gathered(code, start):
    """A `use` line, which may go on up to its closing brace."""
    end = start
    while '{' in code[start] and '}' not in code[end]:
        end += 1
    return '\n'.join(code[start:end + 1])


def _declaration(lines, code, start, end, match, binders):
    rows = [number for number in range(start, end) if code[number].strip() and not code[number].startswith('module ')]
    top = start
    while top > 0 and lines[top - 1].strip().startswith('--'):
        top -= 1
    text = '\n'.join(code[start:rows[-1] + 1])
    made = Declaration(match['type'] or match['name'], text, len([each for each in lines[top:rows[-1] + 1] if each.strip()]),
                       len(rows), binders)
    if match['kind'] == 'data':
        made.constructors = set(_CONSTRUCTOR.findall(text))
    return made


def references(text, bound):
    """The paths that a text uses and does not bind; `bound` are the names that are bound round it. A `⟦…⟧` is given as it
    stands."""
    words = [word for word in _WORD.finditer(text) if not word['comment'] and not word['text']]
    # In each bracket: the names bound there, those that its end binds outside, and those whose type or value is being read.
    frames, used, at = [(set(bound), [], [])], [], 0
    while at < len(words):
        word, follows = words[at][0], words[at + 1][0] if at + 1 < len(words) else ''
        names, outside, waiting = frames[-1]
        if word in ('(', '{'):
            inner = _names_before_colon(words, at + 1)
            frames.append((set(), inner, []))
            at += len(inner)
        elif word in (')', '}') and len(frames) > 1:
            frames.pop()
            frames[-1][0].update(outside)
        elif word == 'λ':
            at = _bind_function(words, at + 1, names, used)
        elif word == 'in':
            names.update(waiting)
        elif words[at]['path'] and (follows == ':' or follows == '=' and words[at - 1][0] == 'let'):
            if words[at - 1][0] != 'let':
                names.update(waiting)
            waiting.append(word)
        elif words[at]['quote']:
            used.append(word)
        elif words[at]['path'] and not word[0].isdigit() and word not in BUILT_IN:
            is_label = follows == '=' and words[at - 1][0] in ('{', ';')
            if not is_label and not any(word.split('.')[0] in frame[0] for frame in frames):
                used.append(word)
        at += 1
    return used


def clauses(declaration, is_constructor):
    """The parts of a declaration, each with the names that its patterns bind: its signature, each of its clauses, and the
    constructors in the patterns, of which `is_constructor` tells: any other name there is bound."""
    indent = len(declaration.text) - len(declaration.text.lstrip())
    head = re.compile(rf'^ {{{indent}}}{re.escape(declaration.name)}(?=[\s=])', re.M)
    starts = [match.start() for match in head.finditer(declaration.text)]
    starts = [start for start in starts if start > 0]
    yield declaration.text[:starts[0] if starts else None], set()
    for start, end in zip(starts, starts[1:] + [None]):
        pattern, body = _cut_at_equals(declaration.text[start:end])
        names = [word['path'] for word in _WORD.finditer(pattern) if word['path'] and not word['path'][0].isdigit()][1:]
        known = {name for name in names if is_constructor(name)}
        yield ' '.join(known), set()
        yield body, set(names) - known


def _cut_at_equals(clause):
    """What stands before a clause's `=`, and behind it."""
    depth = 0
    for word in _WORD.finditer(clause):
        depth += (word[0] in ('(', '{')) - (word[0] in (')', '}'))
        if word[0] == '=' and depth == 0:
            return clause[:word.start()], clause[word.end():]
    raise Unreadable(f'no clause: {clause}')


def _names_before_colon(words, at):
    """The names of a binder such as `(x y : A)`, whose words begin here; none where it is no binder."""
    names = []
    while at < len(words) and words[at]['path'] and words[at][0] not in BUILT_IN - {'_'}:
        names.append(words[at][0])
        at += 1
    return names if names and at < len(words) and words[at][0] == ':' else []


def _bind_function(words, at, frame, used):
    """Binds the names behind a λ, and answers where its dot stands."""
    in_type = False
    while words[at][0] != '.':
        in_type = words[at][0] == ':' or in_type and words[at][0] != ')'
        if words[at]['path'] and words[at][0] != ':':
            (used.append if in_type and words[at][0] not in BUILT_IN else frame.add)(words[at][0])
        at += 1
    return at
