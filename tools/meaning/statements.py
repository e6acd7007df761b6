"""Declarations of blocks, statements and calls, from the rows of constructs.py."""
import re

from constructs import ROWS, SPELLINGS
from places import NoneThere, Object, Places, Type, is_number, is_row

STRUCTS = ['struct s1', 'struct s2', 'struct s3']


class Statements(Places):
    """What the functions of a program hold."""

    # Initialisers and declarations

    def has_pointer(self, t):
        return t.stars or any(self.has_pointer(u) for _, u in self.structs.get(t.base, []))

    def initial(self, t, inner=False):
        """An initialiser; one with pointers leaves none of them null. An inner one is an element of a list."""
        own, self.own_left = self.own_left, []
        try:
            if not t.lengths and (t.stars or t.base in SPELLINGS):
                return self.kept_pointer(t) if t.stars else self.e()
            if is_row(t) and t.base.endswith('char') and self.chance(.5):
                for text in (self.text() for _ in range(5)):
                    if len(re.findall(r'\\x..|\\[0-7]{1,3}|\\.|[^"\\]', text.replace('" "', ''))) <= t.lengths[0]:
                        return text
            full = self.has_pointer(t)
            if not full and self.chance(.2):
                return '{0}'
            if not t.lengths and inner and not self.constant and self.chance(.3):
                return self.shown(*self.find(lambda u: u == t, uses=('global', 'open', 'lent'))[:2])
            parts = [t._replace(lengths=t.lengths[1:])] * t.lengths[0] if t.lengths else [u for _, u in self.structs[t.base]]
            parts = parts if full else parts[:self.random.randint(1, len(parts))]
            return '{' + ', '.join(self.initial(part, True) for part in parts) + self.draw(['', '', ',']) + '}'
        finally:
            self.own_left = own

    def length(self, n):
        return self.draw([n] * 12 + [f'{n - 1} + 1', f'sizeof(char) * {n}', f'1 ? {n} : -1', f'{n}ul', f'0x{n:x}', f'{n * 2} >> 1'])

    def locals(self, kind):
        """A declaration of locals, and what assigns the numbers without initialiser."""
        base, texts, later = self.draw(STRUCTS if kind == 'struct' else SPELLINGS), [], ''
        for _ in range(1 if kind == 'again' else self.draw([1, 1, 2, 3])):
            name = self.name('v')
            if kind == 'again' and self.nesting:
                name = self.draw(o.name for o in self.scope.values() if o.use in ('plain', 'global') and o.name not in self.here)
            shape = self.draw(['number', 'number', 'pointer', 'array', 'matrix'] if kind in ('mixed', 'struct') else ['number'])
            lengths = {'array': (2 if kind == 'struct' else self.draw([1, 2, 3, 4, 5, 8, 8]),), 'matrix': (2, self.draw([2, 3]))}
            lengths = lengths.get(shape, ())
            t = Type(base, shape == 'pointer', lengths)
            self.barred.add(name)
            text = f'{"*" * t.stars}{name}{"".join(f"[{self.length(n)}]" for n in lengths)}'
            if kind == 'later':
                later += f' {name} = {self.e()};'
            else:
                text += f' = {self.initial(t)}'
            texts.append(text)
            self.scope[name] = Object(name, t, 'plain' if kind in ('plain', 'later', 'again') else 'open')
            self.here.add(name)
        return f'{self.spelled(base)} {", ".join(texts)};{later}'

    def copy(self):
        _, right, t = self.structs_of_a_type(False)
        name = self.name('x')
        self.scope[name] = Object(name, t, 'open')
        return f'{{ {t.base} {name} = {right}; {self.s()} {self.s()} }}'

    def counter(self):
        name = self.name('i')
        self.scope[name] = Object(name, Type('int', 0, ()), 'fixed')
        return name

    # Statements

    def statement(self, kinds=('simple', 'statement', 'statement', 'calling')):
        names = ('scope', 'own_left', 'barred', 'weight', 'loops', 'limit')
        before = [(name, getattr(self, name)) for name in names]
        self.limit = self.draw([1, 2, 2, 3, 4])
        plain = [o.name for o in self.scope.values() if o.use == 'plain']
        self.own_left = self.random.sample(plain, min(len(plain), self.draw([0, 0, 1, 2])))
        self.barred = set(self.own_left)
        try:
            return self.from_rows(ROWS[self.draw(kinds)])[1]
        except NoneThere:
            return self.from_rows(ROWS['simple'])[1]
        finally:
            self.__dict__.update(before)

    def simple(self):
        return self.statement(('simple', 'simple', 'simple', 'calling'))

    def s(self):
        if self.nesting >= 3 or self.weight > 300 or self.chance(.4):
            return self.simple()
        self.nesting += 1
        try:
            return self.statement()
        finally:
            self.nesting -= 1

    def declaration(self):
        before, self.barred, self.own_left = (self.barred, self.own_left), set(), []
        try:
            return self.from_rows(ROWS['locals'])[1]
        finally:
            self.barred, self.own_left = before

    def items(self):
        here, self.here, self.nesting = self.here, set(), self.nesting + 1
        texts = [self.declaration() if self.chance(.3) else self.s() for _ in range(self.random.randint(1, 4))]
        self.here, self.nesting = here, self.nesting - 1
        return ' '.join(texts)

    def loop(self):
        self.weight, self.loops = self.weight * 7, True
        return ''

    def count(self):
        self.loop()
        return str(self.random.randint(1, 6))

    def leave(self):
        return self.draw([''] if self.loops else [])

    def own(self):
        return self.own_left.pop() if self.own_left else self.draw([])

    def plain(self):
        name = self.draw(o.name for o in self.scope.values() if o.use == 'plain' and o.name not in self.barred)
        self.barred.add(name)
        return name

    def back(self):
        return f'return {self.e()};' if self.result else 'return;'

    def out(self):
        return self.draw(['putchar'] if self.with_line[self.file] and not self.pure else [])

    def get(self):
        return self.draw(['getchar'] if self.with_line[self.file] and not self.pure else [])

    # Calls

    def called(self, wanted, argument=None):
        f = self.draw(f for f in self.functions if wanted(f) and not (f.static and f.file != self.file)
                      and (f.pure or not self.pure) and f.cost * self.weight <= 10000)
        self.cost += f.cost * self.weight
        return f'{f.name}({", ".join(self.arguments(f.params, argument))})'

    def arguments(self, params, argument=None):
        """Arguments; where one is given, it is that for the first number, and nothing that may change stands in the others."""
        texts, constant, kept = [], self.constant, argument is not None
        for _, t, use in params:
            self.constant = constant or kept
            if use.isdigit():
                texts.append(self.fill(f'@e:8 & {use}'))
            elif is_number(t):
                texts.append(argument or self.e())
                argument = None
            elif t.stars:
                texts.append(self.address(t._replace(stars=t.stars - 1), ('global', 'open', 'lent')))
            else:
                texts.append(self.shown(*self.find(lambda u: u == t, uses=('global', 'open', 'lent'))[:2]))
        self.constant = constant
        return texts

    def call(self):
        return self.called(lambda f: f.pure and f.result and not f.result.stars)

    def finder(self):
        return self.called(lambda f: f.result and f.result.stars)

    def behind(self):
        return self.draw([] if self.pure else ['*']) + self.finder()

    def act(self):
        return self.called(lambda f: not f.pure)

    def acting(self):
        return self.called(lambda f: not f.pure and f.result)

    def around(self):
        return self.called(lambda f: not f.pure and any(is_number(t) and not use.isdigit() for _, t, use in f.params), self.acting())

    def again(self, pure=True):
        """A call of the function itself, at most two in it and none in a loop."""
        f = self.current
        if not f or self.pure != pure or self.weight > 1 or self.selfs > 1:
            raise NoneThere
        self.selfs += 1
        return f'{f.name}({", ".join([f.params[0][0] + " - 1", *self.arguments(f.params[1:])])})'

    def deeper(self):
        return self.again(False)
