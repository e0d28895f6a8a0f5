# Reads files of antt: what each declares, and of which definitions a statement speaks. For tests/promises.
import re


class Declared:
    """A theorem or a definition. Its text is what is read to know what it says: a theorem's statement, or all of a definition, after
    the heads of the modules that it stands in."""

    def __init__(self, source, name, public, definition, modules, text):
        self.source, self.name, self.public, self.definition, self.modules = source, name, public, definition, modules
        self.text = '\n'.join(modules + [text])
        self.fields = re.findall(r'^ +pub (\S+) :', text, re.M) if definition else []

    def __str__(self):
        return f'{self.name} ({self.source.path})'

    def sees(self, other):
        """Whether it can name another of its file: one that is not pub is seen in its own module alone."""
        return other is not self and (other.public or other.modules == self.modules[:len(other.modules)])

    def words(self):
        """The words of its text, without the fields that are taken of something, `.d`."""
        words = (word.rstrip('.') for word in re.split(r'[\s(){},;]+', self.text))
        return {word for word in words if word and not word.startswith('.')}


class Source:
    """A file: its declarations in their order, the whole path of each name that it uses, and the modules that it opens by `pub mod`. Whether
    it is open itself, to those who read other libraries, its tree finds out."""

    BLOCK, LINE = r'\{-(?:(?!\{-|-\})[\s\S])*-\}', r'(?<!\S)--(?!\S).*'
    COMMENT = re.compile(rf'^ *(?:{BLOCK}|{LINE})\n| *(?:{BLOCK}|{LINE})', re.M)
    DECLARES = re.compile(r'( *)(?:(abbrev|unfoldable) )?(pub )?(?:(record|data) )?([^\s(){},;.:]+)(?: ([:({]).*| :)$')
    USES = re.compile(r'^ *(?:pub )?use ([^\s{]+?)(?:\.\{([^}]*)\}| as (\S+))?$', re.M)

    def __init__(self, path, text):
        self.path, self.declared, self.used, self.open = path, [], {}, False
        last = ''
        while last != text:  # a comment can stand in a comment
            last, text = text, self.COMMENT.sub('', text)
        for module, names, alias in self.USES.findall(text):
            module = self.whole(module)
            for each in names.split(',') if names else []:
                name, _, other = each.strip().partition(' as ')
                self.used[(other or name.rpartition('.')[2]).strip('◌')] = f'{module}.{name}'
            if not names:
                self.used[alias or module.rpartition('.')[2]] = module
        self.opens = re.findall(r'^pub mod (\S+)$', text, re.M)
        self.read(text.split('\n'))

    def whole(self, path):
        """A path as it is written here, from its library on."""
        first, dot, rest = path.partition('.')
        return self.used.get(first, first) + dot + rest

    def read(self, lines):
        def indent(k):
            return len(lines[k]) - len(lines[k].lstrip())

        def part(i, goes_on):
            k = i + 1
            while k < len(lines) and goes_on(k):
                k += 1
            return '\n'.join(lines[i:k])

        modules = []
        for i, line in enumerate(lines):
            if not line:
                continue
            own = indent(i)
            modules = [m for m in modules if m[0] < own]
            if line.lstrip().startswith('module '):
                modules.append((own, part(i, lambda k: not lines[k - 1].endswith('where'))))
            found = self.DECLARES.match(line)
            if not found or not (found[3] or found[4] or found[6] in (':', None)) or own != 2 * len(modules):
                continue  # an equation, a field, or what a `where` has
            definition = bool(found[2] or found[4])
            if definition:  # with its equations: to where the indent is back after a blank line
                text = part(i, lambda k: not lines[k] or indent(k) > own or lines[k - 1])
            else:  # to where the indent is back
                text = part(i, lambda k: lines[k] and indent(k) > own)
            heads = [head for _, head in modules]
            self.declared.append(Declared(self, found[5], bool(found[3]), definition, heads, text))

    def find(self, name):
        return [d for d in self.declared if d.name == name]


class Tree:
    def __init__(self, paths):
        self.sources = {}
        for path in paths:
            with open(path, encoding='utf-8') as file:
                self.sources[path] = Source(path, file.read())
        for path in self.sources:
            if path.endswith('/Lib.antt'):
                self.open(path, path.removesuffix('/Lib.antt'))

    def open(self, path, folder):
        """Marks a file as open, and those that it opens, which stand in a folder."""
        if path in self.sources:
            self.sources[path].open = True
            for module in self.sources[path].opens:
                self.open(f'{folder}/{module}.antt', f'{folder}/{module}')

    def find(self, path, name):
        return self.sources[path].find(name) if path in self.sources else []

    def declared(self, path):
        return self.sources[path].declared if path in self.sources else []

    def meant(self, path):
        """What a whole path names: `Rattle.CRATE.specs.MODULE.NAME`, or with `proofs`."""
        found = re.match(r'Rattle\.(\w+)\.((?:specs|proofs)\..+)\.(.+)', path)
        return self.find(f'crates/{found[1]}/{found[2].replace(".", "/")}.antt', found[3]) if found else []

    def spoken_of(self, declared):
        """What its text names, of its own file or by a path: definitions, and a `pub c : T` that stands for a number or the like."""
        words, source = declared.words(), declared.source
        found = [d for d in source.declared if declared.sees(d) and d.name.strip('◌') in words]
        return found + [d for word in words for d in self.meant(source.whole(word))]
