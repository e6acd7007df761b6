"""How the rows of constructs.py are filled: drawing, expressions, and the objects in scope with the places in them."""
import collections
import random
import re

from constructs import DIVISORS, ROWS, SPELLINGS, WORDS

# A type is a base, the stars before a name and the lengths behind it: the profile has no parentheses there.
Type = collections.namedtuple('Type', 'base stars lengths')
# How an object may be used: `global`; `plain`, a local whose address is never kept; `open`, another local; `fixed`, a number that is
# only read; `lent`, a parameter that is a pointer and may point to a local of the caller; `text`, an array of pointers to texts.
Object = collections.namedtuple('Object', 'name type use')
HOLE = re.compile(r'@(?:(\w)=)?([a-z]+)(?::(\w+))?')
# What a row may change before it turns out that it cannot be filled.
STATE = ('weight', 'depth', 'nesting', 'loops', 'selfs', 'limit', 'constant', 'here', 'scope', 'own_left', 'barred')


class NoneThere(Exception):
    """There is nothing in scope that a hole could be filled with."""


def is_number(t):
    return not t.stars and not t.lengths and t.base in SPELLINGS


def is_row(t):
    return not t.stars and len(t.lengths) == 1 and t.base in SPELLINGS


def is_struct(t):
    return not t.stars and not t.lengths and t.base not in SPELLINGS


def is_pointer(t):
    return t.stars and not t.lengths


class Places:
    """What the maker of programs draws, with the state that it draws by."""

    def __init__(self, seed):
        self.random = random.Random(seed)
        self.used, self.structs, self.numbers = [], {}, collections.Counter()
        self.made, self.same_type = {}, None    # the names of a row's holes; the type of the last place
        self.scope = {}                         # the objects, by their names
        self.own_left, self.barred = [], set()  # locals for side effects; names that the full expression may not use
        self.constant = False                   # only integer constant expressions and address constants
        self.pure = False                       # in a function without effects
        self.weight, self.cost = 1, 0           # how often this place runs at most, and the nodes that run
        self.depth, self.limit, self.nesting = 0, 3, 0
        self.loops, self.selfs, self.here = False, 0, set()

    # Drawing and filling

    def chance(self, part):
        return self.random.random() < part

    def draw(self, items):
        items = list(items)
        if not items:
            raise NoneThere
        return self.random.choice(items)

    def name(self, letter='t'):
        self.numbers[letter] += 1
        return f'{letter}{self.numbers[letter]}'

    def spelled(self, base):
        return self.draw(SPELLINGS.get(base, [base]))

    def hole(self, match):
        name, word, argument = match.groups()
        if word in self.made:
            return self.made[word]
        if word in WORDS:
            text = self.draw(WORDS[word])
        else:
            text = getattr(self, word)(*([self.made.get(argument, argument)] if argument else []))
        if name:
            self.made[name] = text
        return text

    def fill(self, template):
        outer, self.made = self.made, {}
        try:
            return HOLE.sub(self.hole, template)
        finally:
            self.made = outer

    def from_rows(self, rows):
        """A row that can be filled, and its text."""
        for _ in range(40):
            row, used, state = self.random.choice(rows), len(self.used), {name: getattr(self, name) for name in STATE}
            self.scope, self.own_left, self.barred = dict(self.scope), list(self.own_left), set(self.barred)
            try:
                text = self.fill(row[-1])
                self.used.append(row[1])
                return row, text
            except NoneThere:
                self.__dict__.update(state)
                del self.used[used:]
        raise NoneThere

    # Expressions

    def e(self, least=2):
        """An expression of an integer type that binds as tightly as that at least."""
        self.cost += self.weight
        kinds = ['leaf'] if self.constant else ['leaf', 'read', 'read']
        if self.depth < self.limit:
            kinds += ['pure'] * 4 + ['own'] * (2 if self.own_left else 0) + ['asked'] * (not self.constant)
        rows = ROWS[self.draw(kinds)]
        if self.depth >= self.limit and rows is ROWS['read']:
            rows = rows[:2]
        self.depth += 1
        try:
            row, text = self.from_rows(rows)
        except NoneThere:
            row, text = self.from_rows(ROWS['leaf'])
        finally:
            self.depth -= 1
        return text if row[2] >= int(least) and not self.chance(.05) else f'({text})'

    def number(self):
        bits = self.draw([3, 3, 4, 7, 8, 15, 16, 31, 32, 63, 64])
        value = self.draw([self.random.getrandbits(bits), 2 ** bits - 1, 2 ** (bits - 1), self.random.randrange(10)])
        suffix = self.draw(['', '', '', '', 'u', 'U', 'l', 'L', 'ul', 'LU', 'Lu'])
        form = self.draw(['{}', '{}', '{}', '0x{:x}', '0X{:X}', '0{:o}'])
        return form.format(value) + suffix + 'u' * (form == '{}' and value >= 2 ** 63 and 'u' not in suffix.lower())

    def eof(self):
        return self.draw(['EOF'] if self.with_line[self.file] else [])

    def text(self):
        """A text of three bytes or more, none of the first three an escape."""
        more = list('qrs789-+*/') + ['\\n', '\\t', '\\\\', '\\"', '\\\'', '\\12', '\\377', '\\0', '\\a', '\\b', '\\f', '\\v', '\\r', '\\?', '\\x7f" "', '\\xfe" "', '" "', '\xe9']
        pieces = [self.draw('abcxyz 0123.,') for _ in range(3)] + [self.draw(more) for _ in range(self.random.randrange(6))]
        return f'"{"".join(pieces)}"'

    def divisor(self):
        return self.fill(self.draw(DIVISORS))

    def index(self, length):
        """An index into an array of the length."""
        n = int(length)
        if self.constant or self.chance(.3):
            return str(self.random.randrange(n))
        return self.fill(f'@e:8 & {n - 1}' if not n & n - 1 else self.draw([f'(unsigned)@e:14 % {n}', f'(unsigned long)@e:14 % {n}']))

    # Objects, and the places in them

    def places(self, t, steps=(), derefs=1):
        """Each place in an object of the type: the steps to it, and its own type."""
        yield steps, t
        if t.lengths:
            yield from self.places(t._replace(lengths=t.lengths[1:]), (*steps, ('[', t.lengths[0])), derefs)
        elif t.stars and derefs:
            yield from self.places(t._replace(stars=t.stars - 1), (*steps, ('*', 0)), derefs - 1 if t.stars == 1 else derefs)
        elif not t.stars:
            for name, member in self.structs.get(t.base, []):
                yield from self.places(member, (*steps, ('.', name)), derefs)

    def allowed(self, o, steps, writing):
        """Whether a place may be written, or read, where the maker stands now."""
        through = any(kind == '*' for kind, _ in steps)
        if not writing:
            return not (self.constant and through)
        if self.pure:
            return o.use in ('plain', 'open') and not through
        return o.use in ('global', 'plain', 'open') or o.use == 'lent' and bool(steps)

    def find(self, wanted, writing=False, uses=('global', 'plain', 'open', 'fixed', 'lent', 'text')):
        """An object in scope with a place whose type is wanted: the object, the steps to the place, and its type."""
        objects = [o for o in self.scope.values() if o.name not in self.barred and o.use in uses]
        self.random.shuffle(objects)
        for o in objects:
            found = [(steps, t) for steps, t in self.places(o.type) if wanted(t) and self.allowed(o, steps, writing)]
            if found:
                return o, *self.draw(found)
        raise NoneThere

    def shown(self, o, steps, least=14, kept=False):
        """A place as C writes it. A kept one has no index that anything changes."""
        text, level, constant = o.name, 15, self.constant
        self.constant = constant or kept
        for at, (kind, what) in enumerate(steps):
            tight = text if level == 15 else f'({text})'
            if kind == '[':
                index, form = self.index(what), self.draw([0] * 8 + [1, 2]) if not self.constant else 0
                text, level = [(f'{tight}[{index}]', 15), (f'({index})[{tight}]', 15), (f'*({text} + ({index}))', 14)][form]
            elif kind == '.':
                arrow = at and steps[at - 1][0] == '*' and self.chance(.8)
                text, level = f'{pointer}->{what}' if arrow else f'{tight}.{what}', 15
            else:
                pointer = tight
                text, level = (f'{tight}[0]', 15) if self.chance(.2) else (f'*{text}', 14)
        self.constant = constant
        return text if level >= int(least) else f'({text})'

    def read(self):
        return self.shown(*self.find(is_number)[:2])

    def write(self, least=14):
        return self.shown(*self.find(is_number, writing=True)[:2], least)

    def wide(self):
        return self.shown(*self.find(lambda t: is_number(t) and 'long' in t.base, writing=True)[:2])

    def place(self, size):
        """A number of the size at least, whose address may be taken."""
        small = 'char' if int(size) > 1 else 'none'
        o, steps, t = self.find(lambda u: is_number(u) and small not in u.base, uses=('global', 'plain', 'open', 'lent'))
        text = self.shown(o, steps)
        self.same_type = t
        return text

    def same(self):
        """A number of the type of the last `place`."""
        return self.shown(*self.find(lambda t: t == self.same_type, uses=('global', 'plain', 'open', 'lent'))[:2])

    def row_of(self, writing):
        """An array of numbers that stays the same array while the row runs, and the type of its elements. Its length is `@n`."""
        o, steps, t = self.find(is_row, writing, ('global', 'open', 'lent'))
        self.made['n'] = str(t.lengths[0])
        return self.shown(o, steps, 15, kept=True), t.base

    def array(self):
        return self.row_of(False)[0]

    def grid(self):
        """An array of arrays of numbers that stays the same while the row runs. Its length is `@n`."""
        o, steps, t = self.find(lambda u: not u.stars and len(u.lengths) == 2 and u.base in SPELLINGS, uses=('global', 'open'))
        self.made['n'] = str(t.lengths[0])
        return self.shown(o, steps, 15, kept=True)

    def element(self):
        """The type of the elements of an array, which is `@a`."""
        self.made['a'], base = self.row_of(False)
        return base

    def target(self):
        """The same of an array that may be written."""
        self.made['a'], base = self.row_of(True)
        return base

    def address(self, t, uses):
        """A pointer to an object of the type that is in use so."""
        o, steps, found = self.find(lambda u: u == t or u.lengths and u._replace(lengths=u.lengths[1:]) == t, uses=uses)
        if found == t:
            return f'&{self.shown(o, steps)}'
        text, at = self.shown(o, steps, 15), self.random.randrange(found.lengths[0])
        return self.draw([text, f'&{text}[{at}]', f'({text} + {at})', f'(1 + &{text}[{at}] - 1)'])

    def pointer(self):
        if self.chance(.5):
            return '&' + self.place(1)
        return self.shown(*self.find(is_pointer, uses=('global', 'open', 'lent', 'text'))[:2])

    def pointed(self):
        """A pointer to a number."""
        return self.shown(*self.find(lambda t: is_pointer(t) and t.stars == 1 and t.base in SPELLINGS, uses=('global', 'open', 'lent'))[:2])

    def two(self):
        """Whether two objects of one type are the same."""
        a = self.draw(o for o in self.scope.values() if o.use == 'global')
        b = self.draw(o for o in self.scope.values() if o.use == 'global' and o.type == a.type)
        return f'&{a.name} {self.draw(WORDS["equal"])} &{b.name}'

    def kept_pointer(self, t):
        """A pointer of the type that may be kept."""
        if self.chance(.3) and not self.constant:
            return self.shown(*self.find(lambda u: u == t, uses=('global', 'open'))[:2])
        return self.address(t._replace(stars=t.stars - 1), ('global',))

    def keep(self):
        o, steps, t = self.find(is_pointer, True, ('global', 'open'))
        value = self.kept_pointer(t)
        return f'{self.shown(o, steps)} = ' + self.draw([value, f'{self.e(4)} ? {value} : {self.kept_pointer(t)}'])

    def structs_of_a_type(self, writing=True):
        o, steps, t = self.find(is_struct, writing, ('global', 'open', 'lent'))
        return self.shown(o, steps), self.shown(*self.find(lambda u: u == t, uses=('global', 'open', 'lent'))[:2]), t

    def struct(self):
        return '{} = {}'.format(*self.structs_of_a_type())

    def structchain(self):
        left, right, t = self.structs_of_a_type()
        return f'{left} = {self.shown(*self.find(lambda u: u == t, True, ("global", "open", "lent"))[:2])} = {right}'

    def structplace(self):
        return self.shown(*self.find(is_struct, uses=('global', 'open', 'lent'))[:2])

    def member(self):
        left, right, t = self.structs_of_a_type()
        return f'({left} = {right}).' + self.draw(name for name, u in self.structs[t.base] if is_number(u))
