"""Reads Rattle: what a file of src declares, imports and promises."""
import re
from dataclasses import dataclass, field

from definitions.antt import Unreadable, read_import

_QUIET = re.compile(r'//[^\n]*|/\*.*?\*/|b?"(?:\\.|[^"\\])*"|b?\'(?:\\[^\']+|[^\'\\])\'', re.S)
_SPACE = re.compile(r'\s+|#!?(?=\[)')
_MODULE = re.compile(r'(?:pub(?:\([^)]*\))?\s+)?mod\s+\w+\s*;')
_GHOST_USE = re.compile(r'ghost\s+(use\s+[^;]+);')
_USE = re.compile(r'(?P<pub>pub\s+)?(?:pub\([^)]*\)\s+)?use\s+([^;]+);')
_GHOST = re.compile(r'ghost\s+(\w+)\s*[:=]\s*(?={)')
_MACRO = re.compile(r'macro_rules!\s*\w+\s*(?={)')
_FUNCTION = re.compile(r'(?P<pub>pub\s+)?(?:pub\([^)]*\)\s+)?(?:(?:const|unsafe|async|extern)\s+)*fn\s+(?P<name>\w+)')
_ITEM = re.compile(r'(?P<pub>pub\s+)?(?:pub\([^)]*\)\s+)?(?P<kind>struct|enum|trait|impl|const|static|type)\b\s*(?P<name>\w+)?')
_CLAUSE = re.compile(r'(?:requires|ensures)\s+(?:\w+\s*)?(?={)|ghost\s+(\w+)\s*:\s*(?={)')
_PATH = re.compile(r'(?<![\w\'])[A-Za-z_]\w*(?:::\w+)*')
_IMPL = re.compile(r'(?:(?P<trait>[\w:]+)(?:<[^{]*?>)?\s+for\s+)?(?P<type>\w+)')
_PAIRS = {'(': ')', '[': ']', '{': '}', '<': '>'}


@dataclass
class Item:
    """A function, a type, a trait, an impl or a constant. `types` is Rust text that names types: a signature, or fields;
    `outer` is that of the impl round it; `claims` are the texts of clauses or of ghost members."""
    kind: str
    name: str
    public: bool = False
    types: str = ''
    outer: str = ''
    trait: str = ''
    claims: list = field(default_factory=list)
    variants: list = field(default_factory=list)
    members: list = field(default_factory=list)
    ghosts: dict = field(default_factory=dict)

    def generics(self):
        """The names of its type parameters, and of those of the impl round it."""
        names = set()
        for head in (self.types.lstrip(), self.outer.lstrip()):
            if head.startswith('<'):
                names.update(re.findall(r'(?:^|,)\s*(?:const\s+)?([A-Za-z]\w*)', head[1:_end_of(head, 0) - 1]))
        return names

    def parameters(self):
        """The names of its parameters."""
        return set(re.findall(r'(\w+)\s*:(?!:)', self.types))


@dataclass
class Source:
    """What a file declares, and what its names mean: `imports` those of Rust, `ghosts` those of its clauses."""
    items: list = field(default_factory=list)
    imports: dict = field(default_factory=dict)
    exports: dict = field(default_factory=dict)
    ghosts: dict = field(default_factory=dict)


def type_paths(text):
    """The paths of types that a text of Rust names: those with a capital."""
    return [path for path in _PATH.findall(text) if re.search(r'(?:^|::)[A-Z]', path)]


def read_source(text):
    text = _QUIET.sub(lambda quiet: re.sub(r'[^\n]', ' ', quiet[0]), text)
    source = Source()
    source.items = _items(text, 0, len(text), source)
    return source


def _items(text, at, end, source):
    """The items of a file, or of an impl's or a trait's body; what it imports is put to the source."""
    found = []
    while at < end:
        space = _SPACE.match(text, at, end)
        if space:
            at = _end_of(text, space.end()) if space[0].startswith('#') else space.end()
        elif match := _GHOST_USE.match(text, at):
            source.ghosts.update(read_import(match[1]))
            at = match.end()
        elif match := _USE.match(text, at):
            (source.exports if match['pub'] else source.imports).update(_expand(match[2]))
            at = match.end()
        elif match := _MACRO.match(text, at):
            at = _end_of(text, match.end())
        elif match := _MODULE.match(text, at):
            at = match.end()
        elif match := _GHOST.match(text, at):
            stop = _end_of(text, match.end())
            found.append(Item('ghost', match[1], claims=[text[match.end() + 1:stop - 1]]))
            at = stop + (text[stop:stop + 1] in (';', ','))
        elif match := _FUNCTION.match(text, at):
            item, at = _function(text, match)
            found.append(item)
        elif match := _ITEM.match(text, at):
            item, at = _item(text, match)
            found.append(item)
        else:
            raise Unreadable(f'line {text.count(chr(10), 0, at) + 1}: no item: {text[at:at + 60]!r}')
    return found


def _function(text, match):
    """A function with its clauses, and where it ends; its body is not read."""
    item, at = Item('fn', match['name'], bool(match['pub'])), match.end()
    item.types, at = _up_to(text, at, lambda at: text[at] in '{;' or _CLAUSE.match(text, at))
    while clause := _CLAUSE.match(text, at):
        end = _end_of(text, clause.end())
        item.claims.append(text[clause.end() + 1:end - 1])
        if clause[1]:
            item.types += f' {clause[1]}: '
        at = re.compile(r'\s*').match(text, end).end()
    return item, at + 1 if text[at] == ';' else _end_of(text, at)


def _item(text, match):
    """Any other item, and where it ends."""
    item = Item(match['kind'], match['name'] or '', bool(match['pub']))
    if item.kind in ('const', 'static', 'type'):
        return item, _up_to(text, match.end(), lambda at: text[at] == ';')[1] + 1
    head, at = _up_to(text, match.end('kind') if item.kind == 'impl' else match.end(), lambda at: text[at] in '{;')
    if text[at] == ';':
        item.types = head
        return item, at + 1
    end = _end_of(text, at)
    if item.kind == 'struct':
        fields, item.claims = _fields(text[at:end])
        item.types = head + fields
        return item, end
    if item.kind == 'enum':
        body = re.sub(r'#\[[^]]*\]', '', text[at + 1:end - 1])
        payload = re.compile(r'\([^)]*\)|\{[^}]*\}')
        item.types = ' '.join([head, *payload.findall(body)])
        item.variants = re.findall(r'[A-Z]\w*', payload.sub('', body))
        return item, end
    inner = Source()
    item.types, item.members = head, _items(text, at + 1, end - 1, inner)
    item.ghosts = inner.ghosts
    if item.kind == 'impl':
        start = _end_of(head, head.index('<')) if head.lstrip().startswith('<') else 0
        named = _IMPL.match(head[start:].lstrip())
        item.name, item.trait = named['type'], (named['trait'] or '').split('::')[-1]
        for member in item.members:
            member.outer = head
    return item, end


def _fields(text):
    """The fields of a struct without its ghost fields, and the texts of these."""
    claims, ghost = [], re.compile(r'ghost\s+\w+\s*:\s*(?={)')
    while match := ghost.search(text):
        end = _end_of(text, match.end())
        claims.append(text[match.end() + 1:end - 1])
        text = text[:match.start()] + text[end:]
    return text, claims


def _up_to(text, at, is_end):
    """The text up to the first place outside round and square brackets that is an end, and this place."""
    start = at
    while not is_end(at):
        at = _end_of(text, at) if text[at] in '([' else at + 1
    return text[start:at], at


def _end_of(text, at):
    """The place behind the bracket that closes the one at this place."""
    opening, closing, depth = text[at], _PAIRS[text[at]], 0
    while True:
        depth += (text[at] == opening) - (text[at] == closing and text[at - 1:at + 1] != '->')
        at += 1
        if depth == 0:
            return at


def _expand(path):
    """The names of a Rust `use`, each with its path."""
    path = path.strip()
    if not path.endswith('}'):
        path, _, alias = (part.strip() for part in path.partition(' as '))
        parts = path.split('::')
        parts = parts[:-1] if parts[-1] == 'self' else parts
        return {alias or parts[-1]: parts}
    head, inner = path[:-1].split('{', 1)
    names, depth, start = {}, 0, 0
    for at, each in enumerate(inner + ','):
        depth += (each == '{') - (each == '}')
        if each == ',' and depth == 0:
            if inner[start:at].strip():
                names.update(_expand(head + inner[start:at].strip()))
            start = at + 1
    return names
