"""What public names a Rust or Rattle source declares, for tools/public-names and tools/compare-names: read as text, not compiled."""
import os
import re

from repository import CRATES

# A comment, a string or a character; a lifetime has no second quote and stays.
BLANK = re.compile(r'''//[^\n]*|/\*.*?\*/|b?"(?:\\.|[^"\\])*"|b?'(?:\\[^']*|[^'\\\s])\'''', re.S)
PUBLIC = re.compile(r'pub\s+(?:(?:const|unsafe|async)\s+)*(mod|struct|enum|union|trait|type|fn|const|static)\s+(\w+)')


def blocks(text):
    """The pieces of a text that end at a semicolon or have a block in braces, with what stands in the braces."""
    depth, start, opened = 0, 0, 0
    for m in re.finditer(r'[{};]', text):
        if m.group() == '{':
            depth += 1
            opened = m.start() if depth == 1 else opened
        elif m.group() == '}':
            depth -= 1
            if depth == 0:
                yield text[start:opened].strip(), text[opened + 1:m.start()]
                start = m.end()
        elif depth == 0:
            yield text[start:m.start()].strip(), None
            start = m.end()


def pieces(text):
    """The pieces of a source, without its comments, strings and attributes."""
    text = BLANK.sub(' ', text)
    text = re.sub(r'#!?\[[^\[\]]*(?:\[[^\[\]]*\][^\[\]]*)*\]', ' ', text)
    return list(blocks(text))


def uses(path, inner):
    """The names that a `use` of this path brings, each with its whole path."""
    if inner is None:
        path, _, alias = re.sub(r'\s+', ' ', path).partition(' as ')
        whole = path.strip()
        return [((alias or whole.rpartition('::')[2]).strip(), whole)]
    found, depth, part = [], 0, ''
    for c in inner + ',':
        depth += (c == '{') - (c == '}')
        if c == ',' and depth == 0:
            at = part.find('{')
            if part.strip():
                found += uses(path + part[:at].strip(), part[at + 1:part.rindex('}')]) if at >= 0 else uses(path + part.strip(), None)
            part = ''
        else:
            part += c
    return found


def exports(text):
    """The names that a file makes public, each with the path that it is taken from, or None where it stands in the file."""
    found = {}
    for head, body in pieces(text):
        brought = re.match(r'pub\s+use\s+(.*)', head, re.S)
        own = PUBLIC.match(head)
        if brought:
            found.update(uses(brought.group(1).strip(), body))
        elif own:
            found[own.group(2)] = None
    return found


def methods(text):
    """The public methods of a file's types and the methods of its traits, as pairs of owner and name."""
    found = set()
    for head, body in pieces(text):
        trait = re.match(r'pub\s+trait\s+(\w+)', head)
        owner = trait.group(1) if trait else type_of_impl(head)
        if not owner or body is None:
            continue
        word = r'(?:pub\s+)?fn\s+(\w+)' if trait else r'pub\s+(?:(?:const|unsafe|async)\s+)*fn\s+(\w+)'
        for inner, _ in blocks(body):
            m = re.search(r'(?:^|\s)' + word, inner)
            if m:
                found.add((owner, m.group(1)))
    return found


def type_of_impl(head):
    """The type of an `impl` of its own methods, or None."""
    m = re.match(r'impl\b\s*', head)
    if not m:
        return None
    rest = head[m.end():]
    if rest.startswith('<'):
        depth = 0
        for at, c in enumerate(rest):
            depth += (c == '<') - (c == '>' and rest[at - 1] != '-')
            if depth == 0:
                rest = rest[at + 1:].strip()
                break
    # what a bound of `where` says is no part of the type
    is_of_trait = re.search(r'\sfor\s', re.split(r'\swhere\s', rest)[0])
    return None if is_of_trait else re.match(r'\w*', rest).group()


def read(path):
    with open(path, encoding='utf-8') as f:
        return f.read()


def module_file(folder, name):
    """The file of a module beside others of a folder, or None."""
    for path in (os.path.join(folder, name + '.rt'), os.path.join(folder, name, 'mod.rt')):
        if os.path.exists(path):
            return path
    return None


def public_names(crate='oauth2'):
    """The public names at a crate's root, and below it those of its public modules, as `module::name`."""
    folder = os.path.join(CRATES, crate, 'src')
    names = set()
    for name, path in exports(read(os.path.join(folder, 'lib.rt'))).items():
        of = path.split('::')[0] if path else crate
        if name == '*':
            names |= public_names(of)
            continue
        names.add(name)
        beside = os.path.join(CRATES, of, 'src') if os.path.isdir(os.path.join(CRATES, of)) else folder
        module = module_file(beside, name) if path is None or path.count('::') == 1 else None
        if module:
            names.update('%s::%s' % (name, inner) for inner in exports(read(module)))
    return names
