"""Makes the program of a seed: its objects, its functions and its files."""
import collections
import re

from constructs import ROWS, SPELLINGS
from places import NoneThere, Object, Type, is_number, is_row
from statements import STRUCTS, Statements

Function = collections.namedtuple('Function', 'name result params pure static file cost')


def declarator(t, name):
    return f'{"*" * t.stars}{name}{"".join(f"[{n}]" for n in t.lengths)}'


class Maker(Statements):
    """The program of a seed: `files` are its texts, `used` the names of the constructs in it."""

    def __init__(self, seed):
        super().__init__(seed)
        self.functions, self.result, self.current = [], None, None
        count = self.draw([1, 1, 2, 2, 3])
        self.main_file = self.random.randrange(count)
        self.with_line = [i in (0, self.main_file) or self.chance(.6) for i in range(count)]
        self.objects, self.parts = [{} for _ in range(count)], [[] for _ in range(count)]
        self.program(range(count))

    # Objects of the file level

    def visible(self, file):
        """The objects that a file sees: its own, and those of the others that are not static."""
        others = {o.name: o for i, objects in enumerate(self.objects) for o in objects.values() if i != file and o.name[0] == 'g'}
        return {**others, **self.objects[file]}

    def kind_of_object(self, shape):
        base, struct = self.draw(SPELLINGS), self.draw(STRUCTS)
        return {'number': Type(base, 0, ()), 'pointer': Type(base, 1, ()), 'handle': Type(base, 2, ()), 'pointers': Type(base, 1, (3,)),
                'array': Type(base, 0, (self.draw([1, 3, 4, 5, 8]),)), 'matrix': Type(base, 0, (2, self.draw([2, 3]))),
                'struct': Type(struct, 0, ()), 'structs': Type(struct, 0, (self.draw([2, 3]),)), 'link': Type(struct, 1, ())}[shape]

    def new(self, name, t, use='global'):
        self.objects[self.file][name] = self.scope[name] = Object(name, t, use)

    def hidden(self):
        """The name of a static object; those of several files are the same."""
        return f'h{len(self.objects[self.file])}'

    def object(self, shape):
        t, static = self.kind_of_object(shape), self.chance(.3)
        name = self.hidden() if static else self.name('g')
        first = f' = {self.initial(t)}' if self.has_pointer(t) or self.chance(.6) else ''
        self.new(name, t)
        text = f'{"static " * static}{self.spelled(t.base)} {declarator(t, name)}{first};'
        again = f'extern {self.spelled(t.base)} {declarator(t, name)};'
        return text if static else self.draw([text, text, f'{again}\n{text}', f'{text}\n{again}'])

    def texts(self):
        name, n = self.hidden(), self.random.randint(1, 3)
        self.new(name, Type('char', 1, (n,)), 'text')
        return f'static char *{name}[] = {{{", ".join(self.text() for _ in range(n))}}};'

    def listed(self):
        name, n, base = self.hidden(), self.random.randint(1, 4), self.draw(SPELLINGS)
        values = ', '.join(self.e() for _ in range(n))
        self.new(name, Type(base, 0, (n,)))
        return f'static {self.spelled(base)} {name}[] = {{{values}}};'

    def unknown(self):
        """Two pointers to a struct that no file knows: the one is null, the other points to the first."""
        name = self.name('far')
        self.functions.append(Function(f'{name}f', Type('int', 0, ()), [], True, True, self.file, 12))
        return (f'struct {name};\nstatic struct {name} *{name}, **{name}s = &{name};\n'
                f'static int {name}f(void) {{ return *{name}s == 0 && !{name} && {name}s != 0; }}')

    def declared(self):
        base, name = f'struct only{len(self.structs)}', self.hidden()
        self.structs[base] = [('c', Type('char', 0, ())), ('w', Type('long', 0, ())), ('h', Type('short', 0, (3,)))]
        text = f'static {self.body(base)} {name} = {self.initial(Type(base, 0, ()))}, {name}s[2];'
        self.new(name, Type(base, 0, ()))
        self.new(f'{name}s', Type(base, 0, (2,)))
        return text

    def plaineof(self):
        if self.with_line[self.file] or 'EOF' in self.scope:
            raise NoneThere
        self.new('EOF', Type('int', 0, ()))
        return 'static int EOF = 3;'

    def body(self, name):
        return name + ' {' + ''.join(f' {self.spelled(t.base)} {declarator(t, member)};' for member, t in self.structs[name]) + ' }'

    # Functions

    def params(self, deep):
        params = [('n', Type(self.draw(SPELLINGS), 0, ()), '7')] if deep else []
        for i in range(self.draw([0, 1, 2, 2, 3, 4, 8 - deep])):
            t = self.kind_of_object(self.draw(['number'] * 5 + ['pointer', 'link', 'array', 'array', 'matrix']))
            if t.lengths:
                count, known = len(t.lengths), [*SPELLINGS, *STRUCTS]
                t = self.find(lambda u: not u.stars and len(u.lengths) == count and u.base in known, uses=('global',))[2]
            params.append((f'p{i}', t, 'plain' if is_number(t) else 'lent'))
        return params

    def head(self, f, prototype=False):
        shown = []
        for name, t, _ in f.params:
            text = declarator(t, self.draw([name, '', name + 'x']) if prototype else name)
            text = re.sub(r'\[\d+', '[', text, count=1) if self.chance(.4) else text
            shown.append(f'{self.spelled(t.base)} {text}')
        result = f'{self.spelled(f.result.base)} {"*" * f.result.stars}' if f.result else 'void '
        return f'{"static " * f.static}{result}{f.name}({", ".join(shown) or self.draw(["void", ""])})'

    def named(self, result, params, pure):
        static = self.chance(.3)
        name = f'help{sum(f.file == self.file for f in self.functions)}' if static else self.name('f')
        return Function(name, result, params, pure, static, self.file, 0)

    def function(self, kind=''):
        deep, self.pure = kind in ('deep', 'both'), kind in ('pure', 'both')
        self.result = None if not kind and self.chance(.4) else Type(self.draw(SPELLINGS), 0, ())
        f = self.named(self.result, self.params(deep), self.pure)
        self.scope.update((name, Object(name, t, 'fixed' if use == '7' else use)) for name, t, use in f.params)
        self.current, self.selfs, self.nesting, self.here, before = None, 0, 0, {name for name, _, _ in f.params}, self.cost
        lines = [self.declaration() for _ in range(self.random.randint(1, 3))]
        lines += [f'if (n < 1) {self.back()}'] if deep else []
        self.current = f if deep else None
        for _ in range(self.random.randint(1, 4)):
            lines.append(self.statement() if self.cost - before < 1500 else self.simple())
        lines += [] if self.pure else [self.mixed(o.name, o.type) for o in self.scope.values() if o.use in ('plain', 'open')]
        lines += [self.back()] if self.result else []
        mask, times = ('7', 9) if self.selfs < 2 else ('3', 16)
        self.functions.append(f._replace(cost=(self.cost - before + 20) * (times if deep else 1),
                                         params=[(name, t, mask if use == '7' else use) for name, t, use in f.params]))
        self.pure, self.current = False, None
        return self.draw(['', '', f'{self.head(f, True)};\n']) + f'{self.head(f)}\n{{\n' + ''.join(f'\t{line}\n' for line in lines) + '}'

    def finding(self):
        t = self.find(is_row, uses=('global',))[2]
        f = self.named(t._replace(stars=1, lengths=()), [('a', t, 'lent'), ('i', Type(self.draw(SPELLINGS), 0, ()), 'plain')], True)
        self.functions.append(f._replace(cost=12))
        return self.head(f) + self.draw([' {{ return a + (unsigned)i % {}; }}', ' {{ return &a[(unsigned)i % {}]; }}',
                                         ' {{ if (i & 1) return a; return &((unsigned)i % {})[a]; }}']).format(t.lengths[0])

    def putting(self):
        if self.with_line[self.file] or any(f.name == 'putchar' and f.file == self.file for f in self.functions):
            raise NoneThere
        number = Type('int', 0, ())
        self.functions.append(Function('putchar', number, [('c', number, 'plain')], False, True, self.file, 8))
        return 'static int putchar(int c) { mix(c * 7); return c + 1; }'

    def mutual(self):
        unsigned, name = Type('unsigned', 0, ()), self.name('f')
        self.functions.append(Function(name, unsigned, [('n', unsigned, '7')], True, False, self.file, 60))
        return (f'static unsigned {name}b(unsigned n);\n'
                f'unsigned {name}(unsigned n) {{ return n ? {name}b(n - 1) * 3 : {self.number()}; }}\n'
                f'static unsigned {name}b(unsigned n) {{ return n == 0 ? {self.number()} : {name}(n - 1) ^ n; }}')

    def mixed(self, text, t, depth=0):
        """A statement that mixes all numbers of an object into what is shown."""
        if t.lengths:
            i, inner = f'd{depth}', self.mixed(f'{text}[d{depth}]', t._replace(lengths=t.lengths[1:]), depth + 1)
            return f'for (int {i} = 0; {i} < {t.lengths[0]}; {i}++) {inner}'
        if t.base in SPELLINGS:
            return f'mix({"*" * t.stars}{text});'
        text += '->' if t.stars else '.'
        return '{ ' + ' '.join(self.mixed(text + name, u, depth) for name, u in self.structs[t.base]) + ' }'

    # The files

    def program(self, files):
        def number(*lengths):
            return Type(self.draw(SPELLINGS), 0, lengths)
        s1, few = Type('struct s1', 0, ()), [2, 3, 4]
        self.structs = {'struct node': [('value', number()), ('next', Type('struct node', 1, ()))],
                        'struct s1': [('a', number()), ('b', number()), ('t', Type('char', 0, (self.draw(few) + 1,))), ('c', number())],
                        'struct s2': [('m', number()), ('in', s1), ('r', number(self.draw(few))), ('w', s1._replace(lengths=(2,)))],
                        'struct s3': [('k', number()), ('p', s1._replace(stars=1)), ('q', number()._replace(stars=1)), ('v', number(2, 2))]}
        shared = list(self.structs)
        for self.file in [*files, *files]:
            self.scope, self.constant = self.visible(self.file), True
            self.parts[self.file] += [self.from_rows(ROWS['object'])[1] for _ in range(self.random.randint(2, 5))]
        self.constant = False
        for _ in range(self.random.randint(4, 9)):
            self.file = self.draw(files)
            self.scope = self.visible(self.file)
            self.parts[self.file].append(self.from_rows(ROWS['function'])[1])
        self.file, self.cost, self.result, self.here, self.nesting = self.main_file, 0, Type('int', 0, ()), set(), 0
        self.scope = self.visible(self.file)
        lines = [self.declaration() for _ in range(self.random.randint(2, 4))]
        for _ in range(self.random.randint(4, 14)):
            lines += [self.statement()] if self.cost < 60000 else []
        lines += [self.mixed(o.name, o.type) for o in self.scope.values() if o.use in ('plain', 'open')]
        lines += [f'show{i}();' for i in files] + [f'return {self.e()};'] * self.chance(.9)
        self.parts[self.file].append('int main(void)\n{\n' + ''.join(f'\t{line}\n' for line in lines) + '}')
        for self.file in files:
            shows = [f'\t{self.mixed(o.name, o.type)} show();\n' for o in self.objects[self.file].values() if o.use != 'text']
            self.parts[self.file].append(f'void show{self.file}(void)\n{{\n{"".join(shows)}}}')
        self.files = ['\n'.join([*self.beginning(i, shared, files), *self.parts[i], '']) for i in files]

    def beginning(self, file, shared, files):
        yield from ['#include <stdio.h>'] * self.with_line[file]
        yield from (self.body(name) + ';' for name in shared)
        yield from ['void mix(long x);', 'void show(void);', *(f'void show{i}(void);' for i in files)]
        yield from (f'extern {self.spelled(o.type.base)} {declarator(o.type, o.name)};' for i in files for o in self.objects[i].values()
                    if i != file and o.name[0] == 'g')
        yield from (self.head(f, True) + ';' for f in self.functions if f.file != file and not f.static)
        if file == 0:
            yield 'static unsigned long sum = 1;'
            yield 'void mix(long x) { sum = sum * 1000003 + x; }'
            yield ('void show(void) { for (int i = 60; i >= 0; i -= 4) putchar("0123456789abcdef"[sum >> i & 15]); '
                   'putchar(\'\\n\'); }')
