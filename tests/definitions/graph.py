"""The graph of definitions: what each definition, type and contract of the crates names."""
from typing import NamedTuple

from definitions.antt import BUILT_IN, Unreadable, clauses, read_file, references
from definitions.rattle import read_source, type_paths

# The toolchain's libraries, of which nothing is followed.
LIBRARIES = {'std', 'core', 'clap', 'memchr', 'sha2', 'hex'}
RUST_BUILT_IN = set('Self Option Result Vec String Copy Clone Drop Iterator From Into PartialEq Eq Default HostRuntime'.split())
# Members of an impl that prove something, or serve the checker: no contract speaks of them.
PROOFS = {'laws', 'coded', 'size', 'size_decreases', 'inverse', 'inverse_ok'}

# Members of an impl that one call promises and another asks for, and of which no clause says more: the contracts hold whatever
# they mean, so nobody has to believe it.
HANDED_ON = {'has_read'}


class Node(NamedTuple):
    """A definition of specs, a type or trait of src, the contract of a function there, or an impl's ghost members."""
    kind: str
    crate: str
    place: str
    name: str


class Unresolved(Exception):
    """A name that means nothing here."""


class Project:
    def __init__(self, crates):
        self.crates = sorted(folder.name for folder in crates.iterdir() if (folder / 'src').is_dir())
        self.specs, self.declarations, self.sources, self.items, self.impls = {}, {}, {}, {}, {}
        self.errors = []
        for crate in self.crates:
            for path in sorted((crates / crate / 'specs').rglob('*.antt')):
                self._read_specs(crate, path, '.'.join(path.relative_to(crates / crate / 'specs').with_suffix('').parts))
            for path in sorted((crates / crate / 'src').rglob('*.rt')):
                parts = path.relative_to(crates / crate / 'src').with_suffix('').parts
                self._read_source(crate, path, '' if parts in (('lib',), ('main',)) else '.'.join(parts))
        for (crate, place), source in self.sources.items():
            for number, item in enumerate(source.items):
                if item.kind == 'impl':
                    self._keep_impl(Node('impl', crate, place, str(number)), item)

    def _read_specs(self, crate, path, place):
        try:
            imports, declarations = read_file(path.read_text())
        except Unreadable as error:
            raise Unreadable(f'{path}: {error}') from error
        names = {}
        for each in declarations:
            node = Node('definition', crate, place, each.name)
            self.declarations[node] = each
            for name in {each.name} | each.constructors:
                if names.setdefault(name, node) != node:
                    self.errors.append(f'{crate}/{place}: {name} has two meanings')
        self.specs[crate, place] = imports, names

    def _read_source(self, crate, path, place):
        try:
            source = read_source(path.read_text())
        except Unreadable as error:
            raise Unreadable(f'{path}: {error}') from error
        self.sources[crate, place] = source
        for item in source.items:
            if item.kind not in ('impl', 'ghost'):
                self.items[Node('contract' if item.kind == 'fn' else 'type', crate, place, item.name)] = item

    def _keep_impl(self, node, item):
        self.items[node] = item
        owner = self._rust(node.crate, node.place, [item.name], item.generics())
        if owner:
            self.impls.setdefault(owner, []).append(node)
        for member in item.members:
            if owner and member.kind == 'fn':
                self.items[Node('contract', node.crate, node.place, f'{item.name}::{member.name}')] = member

    # What names mean.

    def meaning(self, path):
        """The node of a whole path, such as `Rattle.ged_line.specs.Bytes.space`; None for what is a library's."""
        if path[0] in ('Prim', 'denote') or path[0] == 'Rattle' and path[1] in LIBRARIES:
            return None
        if len(path) < 5 or path[0] != 'Rattle' or path[1] not in self.crates or path[2] != 'specs':
            raise Unresolved
        crate, rest = path[1], path[3:]
        if rest[0] == 'declared':
            return self._declared(crate, '', rest[1:])
        for cut in range(len(rest) - 1, 0, -1):
            imports, names = self.specs.get((crate, '.'.join(rest[:cut])), ({}, {}))
            if rest[cut] in names:
                return names[rest[cut]]
            if rest[cut] in imports:
                return self.meaning(imports[rest[cut]] + rest[cut + 1:])
        raise Unresolved

    def _declared(self, crate, place, path):
        """The type or constant of src that `specs.declared` gives."""
        if len(path) > 1 and (crate, inner := _below(place, path[0])) in self.sources:
            return self._declared(crate, inner, path[1:])
        if len(path) > 1 and path[0] == 'TheConstants':
            path = path[1:]
        node = self._rust(crate, place, path[:1], set())
        if node and path[1:2] == ['TheVariants'] and not set(path[2:3]) <= set(self.items[node].variants):
            raise Unresolved
        return node

    def _rust(self, crate, place, path, generics, imported=False):
        """The item that a path of Rust names in a module; None for what is a library's or a type parameter."""
        head, source = path[0], self.sources[crate, place]
        if len(path) > 1 and (head in ('crate', 'super', 'self') or imported and head in self.crates):
            crate = head if head in self.crates else crate
            place = {'super': place.rpartition('.')[0], 'self': place}.get(head, '')
            return self._rust(crate, place, path[1:], generics)
        for kind in ('type', 'contract'):
            if len(path) == 1 and (node := Node(kind, crate, place, head)) in self.items:
                return node
        if (crate, _below(place, head)) in self.sources and len(path) > 1:
            return self._rust(crate, _below(place, head), path[1:], generics)
        for names in (source.imports, source.exports):
            if head in names and names[head] != path:
                return self._rust(crate, place, names[head] + path[1:], generics, imported=True)
        if len(path) > 1 and (node := Node('type', crate, place, head)) in self.items:
            return node
        if head in generics | RUST_BUILT_IN or imported or head in LIBRARIES:
            return None
        raise Unresolved

    def _in_specs(self, node, path):
        """What a path means in a definition's file."""
        imports, names = self.specs[node.crate, node.place]
        return self._in_scope(path, imports, lambda head: names[head] if head in names else self._whole(path))

    def _in_scope(self, path, imports, otherwise):
        head = path[0]
        if head in imports:
            return self.meaning(imports[head] + path[1:])
        operators = [whole for name, whole in imports.items() if '◌' in name and head in name.split('◌')]
        if operators:
            return self.meaning(operators[0])
        return otherwise(head)

    def _whole(self, path):
        if path[0] not in ('Rattle', 'Prim'):
            raise Unresolved
        return self.meaning(path)

    def _is_constructor(self, node, name):
        """Whether a name in a pattern is a constructor: of a library, of a type of src, or of a definition."""
        try:
            found = self._in_specs(node, name.split('.'))
        except Unresolved:
            # An import that leads nowhere is told where the name is looked up as one that is used.
            return name in BUILT_IN or name.split('.')[0] in self.specs[node.crate, node.place][0]
        if not found or found.kind == 'type':
            return True
        head, _, last = name.rpartition('.')
        own = last if head else self.specs[node.crate, node.place][0].get(name, [name])[-1]
        return own in self.declarations[found].constructors

    # What they lead to.

    def edges(self, node):
        """The nodes that a node names, each with whether it does so in a view, an invariant or a ghost field alone."""
        if node.kind == 'definition':
            return self._edges_of_definition(node)
        item = self.items[node]
        models = [each for each in self.impls.get(node, []) if self.items[each].trait == 'Model']
        if models:
            return self._members(models[0], {'Value'}, False) + self._members(models[0], {'view', 'invariant'}, True)
        if node.kind == 'impl':
            return self._members(node, {each.name for each in item.members} - PROOFS - HANDED_ON, False)
        bound = {each.name for each in item.members if each.kind == 'ghost'}
        edges = self._claims(node, item, set(), {}, item.kind == 'struct')
        for member in item.members:
            edges += self._claims(node, member, bound | item.generics(), {}, False)
        return edges

    def _edges_of_definition(self, node):
        declaration, found = self.declarations[node], []
        binders = {word for word in declaration.binders.replace('{', ' ').replace('(', ' ').split(':')[0].split()[2:]}
        for text, bound in clauses(declaration, lambda name: self._is_constructor(node, name)):
            for path in references(text, bound | binders):
                found += self._found(node, path, lambda: self._in_specs(node, path.split('.')))
        return [(each, False) for each in found]

    def _members(self, node, names, in_view):
        """What ghost members of an impl name."""
        item, edges = self.items[node], []
        for member in item.members:
            if member.kind == 'ghost' and member.name in names:
                edges += self._claims(node, member, set(), item.ghosts, in_view)
        return edges

    def _claims(self, node, item, bound, ghosts, in_view):
        """What an item's signature and its claims name."""
        generics, edges = bound | item.generics(), []
        ghosts = {**self.sources[node.crate, node.place].ghosts, **ghosts}
        for path in type_paths(item.types + item.outer):
            if path.split('::')[0] not in generics:
                found = self._found(node, path, lambda: self._rust(node.crate, node.place, path.split('::'), generics))
                edges += [(each, False) for each in found]
        for text in item.claims:
            for path in references(text, generics | item.parameters() | {'self', 'result', 'Self'}):
                found = self._found(node, path, lambda: self._in_clause(node, path, ghosts, generics))
                edges += [(each, in_view) for each in found]
        return edges

    def _in_clause(self, node, path, ghosts, generics):
        """What a path means in a clause: a ghost import, or a name of Rust. A `⟦<Type as Trait>⟧` means that impl."""
        if path.startswith('⟦'):
            names = type_paths(path)
            owners = [self._rust(node.crate, node.place, name.split('::'), generics) for name in names]
            impls = [each for owner in owners for each in self.impls.get(owner, []) if self.items[each].trait in names]
            return [owner for owner in owners if owner] + impls
        path = path.split('.')
        return self._in_scope(path, ghosts, lambda head: self._rust(node.crate, node.place, [head], set()))

    def _found(self, node, path, look):
        """What a name means, as a list; one that means nothing is an error."""
        try:
            found = look()
        except Unresolved:
            if path not in BUILT_IN:
                self.errors.append(f'{node.crate}/{node.place}, {node.name}: no meaning of {path}')
            return []
        return found if isinstance(found, list) else [found] if found else []

    # Where reading begins, and how far it comes.

    def public(self):
        """The nodes that the crates give to their callers."""
        roots = []
        for crate in self.crates:
            if (crate, '') not in self.sources or not any(key[0] == crate for key in self.specs):
                continue
            for name in self.sources[crate, ''].exports:
                node = self._rust(crate, '', [name], set())
                roots.append(node)
                roots += self._promised(node)
        return roots

    def _promised(self, owner):
        """The public methods of a type, and its impls of traits."""
        for node in self.impls.get(owner, []):
            item = self.items[node]
            if item.trait and item.trait != 'Model':
                yield node
            for member in item.members:
                if member.kind == 'fn' and member.public and not item.trait:
                    yield Node('contract', node.crate, node.place, f'{item.name}::{member.name}')

    def reached(self, roots, views=True, without=lambda node: False):
        """The nodes that are reached from the roots; `views` tells whether also through views and invariants."""
        seen, waiting = set(), [root for root in roots if not without(root)]
        while waiting:
            node = waiting.pop()
            if node not in seen:
                seen.add(node)
                waiting += [each for each, in_view in self.edges(node) if (views or not in_view) and not without(each)]
        return seen


def _below(place, name):
    return f'{place}.{name}' if place else name
