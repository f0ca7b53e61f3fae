"""What definitions and contracts cite, for tools/definitions: read as text, not compiled."""
import os
import re

from repository import CRATES, below
from sources import BLANK

TOKEN = re.compile(r'"(?:\\.|[^"\\])*"|[(){};,\[\]]|[^\s(){}\[\];,"]+')
WORD = re.compile(r'[^\W\d]\w*')
STARTS = re.compile(r'(?:(?:abbrev|unfoldable|pub|record|data|infix\w*|module|use|ghost)\b)')
HEAD = re.compile(r'(?:(?:abbrev|unfoldable)\s+)?pub\s+(?:def\s+)?(record\s+|data\s+)?(\S+)')
ITEM = re.compile(r'(?:pub(?:\s*\([^)]*\))?\s+)?(?:(?:const|unsafe|async)\s+)*(fn|impl|trait|struct|enum|union|type|const|static|mod|use)\b')
CLAUSE = re.compile(r'\s*(requires|ensures)\b\s*(?:\w+\s*)?\{')

# stands before each statement of a `do`
STATEMENT = '⏎'


class Unknown(Exception):
    """A name that a citation has and that this reader does not find."""


def is_statement(rows, row):
    """The row begins a statement of a `do`, where these rows have one."""
    first = next((each for each in rows if ' ← ' in each), None)
    return first is not None and len(first) - len(first.lstrip()) == len(row) - len(row.lstrip())


def tokens(text):
    """The words, brackets and signs of a text, without its strings."""
    return [token for token in TOKEN.findall(text) if not token.startswith('"')]


def head_end(text, at, end):
    """Where an item's head stops: at its first brace or semicolon, unless that is in brackets, as in `[u8; 32]`."""
    depth = 0
    for m in re.compile(r'[][{;]').finditer(text, at, end):
        if m.group() in '[]':
            depth += 1 if m.group() == '[' else -1
        elif not depth:
            return m.start()
    raise ValueError('an item without an end')


def closing(text, at):
    """Where the brace closes that opens here."""
    depth = 0
    for m in re.compile(r'[{}]').finditer(text, at):
        depth += 1 if m.group() == '{' else -1
        if depth == 0:
            return m.start()
    raise Unknown('a brace that is not closed')


def pattern(words, is_constructor):
    """The constructors that a pattern names, and the names that it gives."""
    cited, given = [], set()
    for word in words:
        chain = word.strip('.').split('.')
        if is_constructor(chain):
            cited.append(chain)
        elif WORD.fullmatch(chain[0]):
            given.add(chain[0])
    return cited, given


def binder(words, at):
    """The names that a group gives which begins here, as in `(x y : T)`, or none."""
    names = []
    for word in words[at + 1:]:
        if word == ':':
            return set(names)
        if not WORD.fullmatch(word):
            return set()
        names.append(word)
    return set()


def equals(words):
    """Where the sign between the two sides of an equation stands: not within the braces of a named argument, as `f {A = B} x = y`."""
    depth = 0
    for at, word in enumerate(words):
        depth += (word in '({[') - (word in ')}]')
        if word == '=' and not depth:
            return at
    raise Unknown('a clause without `=`')


def citations(words, given, is_constructor):
    """The names that an expression cites, each as the parts between its dots, and not those that it gives itself."""
    found, scopes, binders, pending, at = [], [set(given)], [], set(), 0
    while at < len(words):
        word = words[at]
        if word in '({[':
            names = binder(words, at)
            binders.append(names)
            scopes.append(scopes[-1] | names)
        elif word in ')}]':
            scopes.pop()
            scopes[-1] |= binders.pop()
        elif '↦' in words[at:at + 6] and at > 0 and words[at - 1] in '[|':
            end = words.index('↦', at)
            cited, names = pattern(words[at:end], is_constructor)
            found += cited
            scopes[-1] |= names
            at = end
        elif word == 'λ':
            end = next(i for i in range(at + 1, len(words)) if words[i].endswith('.'))
            cited, names = pattern(words[at + 1:end + 1], is_constructor)
            found += cited
            scopes[-1] |= names
            at = end
        elif word == 'let':
            scopes[-1].add(words[at + 1])
        elif word == 'do':
            found.append(['>>='])
        elif word == STATEMENT:
            scopes[-1] |= pending
            pending = set(words[at + 1:at + 2]) if words[at + 2:at + 3] == ['←'] else set()
            at += 2 if pending else 0
        elif not word.startswith('.') and words[at + 1:at + 2] != ['=']:
            chain = word.strip('.').split('.')
            if chain[0] not in scopes[-1]:
                found.append(chain)
        at += 1
    return found


class Definition:
    """A definition below a crate's specs."""

    def __init__(self, file, name, first, lines):
        self.file, self.path, self.name, self.first, self.lines = file, file.path, name, first, lines


def scope_of(imports):
    """The names that imports bring and the modules that they rename: of each its crate, its path there and its name."""
    names, modules = {}, {}
    for line in imports:
        m = re.match(r'(?:pub\s+)?use\s+Rattle\.(\w+)\.(\w+)\.([\w.]+?)(?:\.\{(.*)\}|\s+as\s+(\w+)|)\s*;?$', line.strip(), re.S)
        if not m:
            continue
        crate, part, path, brought, alias = m.groups()
        at = (crate, part, tuple(path.split('.')))
        for name in (brought or '').split(','):
            name, _, other = name.strip().partition(' as ')
            if name:
                names[(other or name).strip()] = at + (name.strip(),)
        if alias:
            modules[alias] = at
    return names, modules


class Specs:
    """A file of definitions."""

    def __init__(self, path):
        self.path, self.own, self.constructors, imports = path, {}, {}, []
        with open(path, encoding='utf-8') as f:
            self.rows = [re.sub(r'--(?=\s|$).*', '', row.rstrip('\n')) for row in f]
        modules, at = [], 0
        while at < len(self.rows):
            row = self.rows[at]
            indent = len(row) - len(row.lstrip())
            if not row.strip():
                at += 1
                continue
            while modules and modules[-1][0] >= indent:
                modules.pop()
            end = at + 1
            while end < len(self.rows) and not self.begins(self.rows[end], indent):
                end += 1
            kept = [i for i in range(at, end) if self.rows[i].strip()]
            if row.strip().startswith('module'):
                end = next(i for i in range(at, end) if re.search(r'\bwhere\s*$', self.rows[i])) + 1
                modules.append((indent, at, end))
            elif row.strip().startswith(('use', 'pub use')):
                imports.append(' '.join(self.rows[i] for i in kept))
            elif not row.strip().startswith(('infix', 'pub mod')):
                self.add(at, kept, indent, modules)
            at = end
        self.names, self.modules = scope_of(imports)

    @staticmethod
    def begins(row, indent):
        """The row begins what stands beside or above something of this indent."""
        if not row.strip():
            return False
        here = len(row) - len(row.lstrip())
        return here < indent or (here == indent and bool(STARTS.match(row.lstrip())))

    def add(self, at, kept, indent, modules):
        m = HEAD.match(self.rows[at].strip())
        if not m:
            raise Unknown('%s:%d: %s' % (self.path, at + 1, self.rows[at]))
        around = [i for _, first, end in modules for i in range(first, end)]
        it = Definition(self, m.group(2), at, set(kept) | set(around))
        it.form, it.indent = (m.group(1) or '').strip(), indent
        it.rows = [self.rows[i] for i in kept]
        it.around = [' '.join(self.rows[first:end]) for _, first, end in modules]
        self.own[it.name] = it
        if it.form == 'data':
            for row in it.rows[1:]:
                name = re.match(r'\s+(?:pub\s+)?(\S+)\s+:', row)
                if name:
                    self.constructors.setdefault(name.group(1), []).append(it)


class Source:
    """A source with its contracts: its items, and what its `use` lines bring."""

    def __init__(self, path, crate):
        self.path, self.crate = path, crate
        with open(path, encoding='utf-8') as f:
            text = f.read()
        # a comment or a text is blank, and every line stays where it was
        self.text = BLANK.sub(lambda m: re.sub(r'[^\n]', ' ', m.group()), text)
        self.rust = {}
        self.imports, self.items = self.read(0, len(self.text), None)

    def read(self, at, end, owner):
        imports, items = [], []
        while at < end:
            skip = re.compile(r'\s+|#!?\[(?:[^\[\]]|\[[^\[\]]*\])*\]|;').match(self.text, at, end)
            if skip:
                at = skip.end()
                continue
            if re.compile(r'ghost\s').match(self.text, at):
                at = self.ghost(at, end, owner, imports, items)
                continue
            m = ITEM.match(self.text, at, end)
            if not m:
                at += 1
                continue
            at = self.item(at, end, m, owner, items)
        return imports, items

    def ghost(self, at, end, owner, imports, items):
        if re.compile(r'ghost\s+(?:pub\s+)?use\b').match(self.text, at):
            stop = self.text.index(';', at)
            imports.append(self.text[at + len('ghost'):stop])
            return stop + 1
        m = re.compile(r'ghost\s+(\w+)\s*').match(self.text, at)
        stop, parts = m.end(), []
        while True:
            more = re.compile(r'\s*[:=]\s*\{').match(self.text, stop)
            if not more:
                break
            stop = closing(self.text, more.end() - 1) + 1
            parts.append(self.text[more.end():stop - 1])
        items.append(Item(self, 'ghost', m.group(1), at, stop, owner, ghosts=parts))
        return stop

    def item(self, at, end, m, owner, items):
        kind = m.group(1)
        if kind == 'use':
            stop = self.text.index(';', at)
            self.use(self.text[m.end():stop])
            return stop + 1
        stop = head_end(self.text, at, end)
        head = self.text[at:stop]
        if kind == 'fn':
            first = re.search(r'\b(?:requires|ensures)\b', head)
            head = head[:first.start()] if first else head
            stop = at + len(head)
            clauses = []
            while True:
                clause = CLAUSE.match(self.text, stop, end)
                if not clause:
                    break
                stop = closing(self.text, clause.end() - 1) + 1
                clauses.append(self.text[clause.end():stop - 1])
            stop = head_end(self.text, stop, end)
            stop = closing(self.text, stop) + 1 if self.text[stop] == '{' else stop + 1
            name = re.search(r'\bfn\s+(\w+)', head).group(1)
            items.append(Item(self, kind, name, at, stop, owner, head=head, ghosts=clauses))
            return stop
        stop = closing(self.text, stop) + 1 if self.text[stop] == '{' else stop + 1
        name = re.match(r'\s*(\w+)', self.text[m.end():])
        it = Item(self, kind, name.group(1) if name else '', at, stop, owner, head=head)
        if kind in ('impl', 'trait', 'mod') and self.text[stop - 1] == '}':
            it.imports, it.items = self.read(at + len(head) + 1, stop - 1, it if kind != 'mod' else None)
        items.append(it)
        return stop

    def use(self, text):
        def brought(path, rest):
            rest = rest.strip()
            if not rest.startswith('{'):
                head, brace, inner = rest.partition('{')
                if brace:
                    brought(path + head.strip(), brace + inner)
                    return
                whole, _, alias = (path + rest).partition(' as ')
                self.rust[(alias or whole.rpartition('::')[2]).strip()] = whole.strip()
                return
            depth, part = 0, ''
            for c in rest[1:rest.rindex('}')] + ',':
                depth += (c == '{') - (c == '}')
                if c == ',' and depth == 0:
                    if part.strip():
                        brought(path, part)
                    part = ''
                else:
                    part += c
        brought('', text)


class Item:
    """An item of a source: a function with its clauses, a ghost member, an impl, a trait or a type."""

    def __init__(self, source, kind, name, at, end, owner, head='', ghosts=()):
        self.source, self.kind, self.name, self.owner = source, kind, name, owner
        self.head, self.ghosts, self.imports, self.items = head, list(ghosts), [], []
        self.first = source.text.count('\n', 0, at)
        rows = source.text[at:end].split('\n')
        self.lines = {self.first + i for i, row in enumerate(rows) if row.strip() and not re.match(r'\s*#\[', row)}
        self.text = source.text[at:end]
        if kind == 'impl':
            self.read_impl()

    def read_impl(self):
        rest = re.sub(r'\s+', ' ', self.head[self.head.index('impl') + 4:]).strip()
        self.generics = ''
        if rest.startswith('<'):
            stop = angle(rest, 0)
            self.generics, rest = rest[1:stop], rest[stop + 1:].strip()
        rest, _, self.where = rest.partition(' where ')
        before, is_of, after = rest.partition(' for ')
        self.trait = type_of(before)[0] if is_of else None
        self.type = type_of(after if is_of else before)

    def types(self):
        """The associated types of an impl."""
        return {it.name: type_of(it.text.partition('=')[2].strip(' ;')) for it in self.items if it.kind == 'type' and '=' in it.text}


def angle(text, at):
    """Where the angle bracket closes that opens here."""
    depth = 0
    for i in range(at, len(text)):
        depth += (text[i] == '<') - (text[i] == '>' and text[i - 1] != '-')
        if depth == 0:
            return i
    raise Unknown('an angle bracket that is not closed in ' + text)


def parts_of(text):
    """The pieces between the commas that stand in no bracket."""
    found, depth, part = [], 0, ''
    for i, c in enumerate(text + ','):
        depth += (c in '<([{') - (c in ')]}' or (c == '>' and text[i - 1] != '-'))
        if c == ',' and depth == 0:
            found.append(part.strip())
            part = ''
        else:
            part += c
    return [it for it in found if it]


def type_of(text):
    """A type as its name and its arguments, without references and lifetimes."""
    text = re.sub(r"&|'\w+\b|\bmut\b|\bdyn\b", ' ', text).strip()
    m = re.match(r'[\w:]+', text)
    if not m:
        return ('()', [])
    name, rest = m.group().rpartition('::')[2], text[m.end():].strip()
    arguments = parts_of(rest[1:angle(rest, 0)]) if rest.startswith('<') else []
    return (name, [type_of(it) for it in arguments if '=' not in it and it.strip(' ,')])


class Repository:
    """The definitions and sources of every crate."""

    def __init__(self):
        self.crates = [name for name in ordered()]
        self.specs, self.types, self.impls, self.traits, self.functions = {}, {}, [], {}, []
        for crate in self.crates:
            folder = os.path.join(CRATES, crate, 'src')
            for at, _, names in sorted(os.walk(folder)):
                for name in sorted(names):
                    if name.endswith('.rt'):
                        self.gather(Source(os.path.join(at, name), crate))

    def gather(self, source):
        for it in source.items:
            if it.kind in ('struct', 'enum', 'union', 'type'):
                self.types[(source.crate, it.name)] = it
            elif it.kind == 'trait':
                self.traits.setdefault(it.name, it)
            elif it.kind == 'impl':
                self.impls.append(it)
            if it.kind == 'fn':
                self.functions.append(it)
            self.functions += [inner for inner in it.items if inner.kind in ('fn', 'ghost')]

    def file(self, crate, path):
        """The file of definitions that a path names."""
        at = os.path.join(CRATES, crate, 'specs', *path) + '.antt'
        if at not in self.specs:
            if not os.path.exists(at):
                raise Unknown('%s.specs.%s' % (crate, '.'.join(path)))
            self.specs[at] = Specs(at)
        return self.specs[at]

    def definitions(self):
        """The names of all definitions."""
        found = set()
        for crate in self.crates:
            top = os.path.join(CRATES, crate, 'specs')
            for at, _, names in os.walk(top):
                for name in names:
                    path = os.path.relpath(os.path.join(at, name), top).removesuffix('.antt').split(os.sep)
                    found.update(self.file(crate, path).own)
        return found

    def imported(self, crate, part, path, name):
        """What an import brings: its sort, what it is, and whether it is a constructor."""
        if crate not in self.crates or part != 'specs':
            return ('kit', (crate, '.'.join(path), name), name[:1].isupper())
        if path[0] == 'declared':
            variants = path[-1].startswith('The')
            owner = path[-2] if variants else path[-1]
            if (crate, owner) not in self.types:
                raise Unknown('the type %s of %s' % (owner, crate))
            return ('type', self.types[(crate, owner)], variants)
        file = self.file(crate, path)
        if name in file.own:
            return ('definition', file.own[name], False)
        if name in file.constructors:
            return ('constructor', file.constructors[name], True)
        raise Unknown('%s in %s' % (name, file.path))

    def in_scope(self, chain, names, modules):
        """What a citation means among imports, or None."""
        head = chain[0]
        for word in (head, '◌%s◌' % head):
            if word in names:
                return self.imported(*names[word])
        if head in modules and len(chain) > 1:
            return self.imported(*modules[head], chain[1])
        return None

    def of_specs(self, file, chain):
        """What a citation means in a file of definitions, or None."""
        for word in (chain[0], '◌%s◌' % chain[0]):
            if word in file.constructors:
                return ('constructor', file.constructors[word], True)
            if word in file.own:
                return ('definition', file.own[word], False)
        return self.in_scope(chain, file.names, file.modules)

    def cited(self, it):
        """What a definition cites."""
        def is_constructor(chain):
            found = self.of_specs(it.file, chain)
            return bool(found and found[2])
        chains, given = [], set()
        for header in it.around:
            words = tokens(header)[2:]
            chains += citations(words, given, is_constructor)
            for at, word in enumerate(words):
                if word in '({':
                    given |= binder(words, at)
        if it.form in ('record', 'data'):
            chains += self.cited_of_fields(it, given, is_constructor)
        else:
            chains += self.cited_of_clauses(it, given, is_constructor)
        found = [each for each in (self.of_specs(it.file, chain) for chain in chains) if each]
        return [each for each in self.settled(found) if each[1] is not it]

    @staticmethod
    def settled(found):
        """What citations mean, each constructor as its type: where two types have one of this name, as the one that is cited beside it."""
        beside = {id(it) for sort, it, _ in found if sort == 'definition'}
        for sort, it, is_constructor in found:
            if sort != 'constructor':
                yield (sort, it, is_constructor)
            elif not any(id(owner) in beside for owner in it):
                yield from (('definition', owner, True) for owner in it)

    @staticmethod
    def cited_of_fields(it, given, is_constructor):
        head = ' '.join(it.rows)
        stop = re.search(r'\bwhere\b', head)
        words = tokens(head[:stop.start()])
        words = words[words.index(it.name) + 1:]
        chains = citations(words, given, is_constructor)
        for at, word in enumerate(words):
            if word in '({':
                given = given | binder(words, at)
        body = head[stop.end():]
        fields = list(re.finditer(r'(?:\bpub\s+)?(\S+)\s+:\s' if it.form == 'data' else r'\bpub\s+(\S+)\s+:\s', body))
        if it.form == 'data':
            # a constructor stands at the head of its line
            fields = [m for row in it.rows[1:] for m in [re.match(r'\s+(?:pub\s+)?(\S+)\s+:\s(.*)', row)] if m]
            return chains + [chain for m in fields for chain in citations(tokens(m.group(2)), given, is_constructor)]
        for i, m in enumerate(fields):
            end = fields[i + 1].start() if i + 1 < len(fields) else len(body)
            chains += citations(tokens(body[m.end():end]), given, is_constructor)
            given = given | {m.group(1)}
        return chains

    @staticmethod
    def cited_of_clauses(it, given, is_constructor):
        pieces = []
        for row in it.rows:
            if len(row) - len(row.lstrip()) == it.indent and not row.lstrip().startswith('}'):
                pieces.append(row)
            else:
                pieces[-1] += ' ' + (STATEMENT if is_statement(it.rows, row) else '') + row
        signature = tokens(pieces[0])
        chains = citations(signature[signature.index(':') + 1:], given, is_constructor)
        own = [part for part in it.name.split('◌') if part]
        for piece in pieces[1:]:
            words = tokens(piece)
            at = equals(words)
            cited, names = pattern([w for w in words[:at] if w not in own and w not in '(){}'], is_constructor)
            chains += cited + citations(words[at + 1:], given | names, is_constructor)
        return chains


def ordered():
    """The crates, each behind those that it stands on."""
    found = []
    for name, lower in below().items():
        found += [it for it in lower + [name] if it not in found]
    return found
