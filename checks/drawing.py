"""What the random cases of checks/random-queries are drawn from: schemas, queries of every form, and tuples."""
from common import width_of, word_of
from meaning import JOINS, number_of, shown

CYCLES = 40000  # about how far a tuple file goes
KEYWORDS = '''select from where group by groups each in size advance tuples time union concat into as and or not cast
count sum min max avg wsum end tick valid eos'''.split()
FRAMES = 'own lag lag count sum min max avg last_value'.split()
NAMES = '''a b c d x1 y_2 price volume symbol cost wire reg module begin endmodule always assign clk rst out input
posedge if else q it w g stream n0_1 u8 text1 overflow a0123456789b0123456789c012345678 initial memory integer
case lag rows over filter row current partition last_value between unbounded preceding arrival asof'''.split()
UNSIGNED = 'u1 u1 u2 u3 u7 u8 u8 u16 u31 u32 u32 u33 u63 u64 u64'.split()
SIGNED = 's2 s2 s3 s7 s8 s8 s16 s31 s32 s32 s33 s63 s64 s64'.split()
TEXTS = 'text1 text2 text3 text4 text4 text7 text8'.split()
LETTERS = ['', 'A', 'B', 'end', 'a b', ' ', ',', '"', 'x,"y"', '~~~~~~~~', 'UBSN', 'UBSNX', '0', '#', "it's"]


def is_loose(expression):
    """Whether an expression has no kind but that of its place."""
    return (
        expression[0] == 'literal'
        or expression[0] == '~'
        and is_loose(expression[2])
        or expression[0] in ('+', '-', '*', '&', '|', '^', '<<', '>>')
        and is_loose(expression[2])
        and is_loose(expression[3])
    )


def weight_of(query):
    """About how large a circuit is, a body for each of its copies."""
    if query['sort'] == 'read':
        return 0
    if query['sort'] in JOINS:
        return weight_of(query['left']) + weight_of(query['right'])
    if query['sort'] == 'ASOF':
        key, most = query['by']
        of_key = most // (8 if width_of(dict(query['columns'])[key]) > 10 else 256)
        return weight_of(query['left']) + weight_of(query['right']) + 1 + of_key
    size, advance, measure = query['window'] or (1, 1, 'TUPLES')
    copies = (-(-size // advance) if measure == 'TUPLES' else size // advance + 1) * (query['group'] or (0, 1))[1]
    inside = (
        weight_of(query['body'])
        if query['body']
        else 1 + sum(10 if it[1] == 'avg' else 1 for it in (query['totals'] or []) + (query['frames'] or []))
    ) + (query['part'][1] // 8 if query['part'] else 0)
    return weight_of(query['source']) + copies * inside


def is_slow(query):
    """Whether a query tells rows of windows or of groups, so that it may be at work when the next tuple comes."""
    parts = [query[it] for it in ('left', 'right', 'source', 'body') if query.get(it)]
    return bool(query.get('window') or query.get('group')) or any(map(is_slow, parts))


def may_have_spare(query):
    """Whether a query is a window whose body may be at work when the next tuple comes."""
    return (
        bool(query.get('window'))
        and query['window'][2] == 'TUPLES'
        and not (query['sort'] == 'each' and query['group'])
        and bool(query['group'] or query['body'] and is_slow(query['body']))
    )


class Maker:
    """Draws schemas, queries and tuples. What it draws is accepted, unless its plan passes a limit."""

    def __init__(self, draw, groups, signed, ticks, times, keyed, frames=False, arrival=False, asof=False, sets=False):
        self.frames, self.many = frames or arrival and draw.random() < 0.4, frames and draw.random() < 0.4
        self.arrival, self.asof, self.sets = arrival, asof, {}
        if asof:
            self.frames, self.arrival = (it or draw.random() < 0.4 for it in (frames, arrival))
            self.many = draw.random() < 0.4
        self.draw, self.groups, self.signed, self.ticks, self.times, self.keyed, self.words = (
            draw,
            groups,
            signed,
            ticks or times,
            times,
            keyed,
            {},
        )
        self.schema = {
            name: [(column, self.kind()) for column in self.names(draw.randint(1, 4))]
            for name in self.names(draw.choice([1, 1, 2, 2, 3]))
        }
        if asof and self.often(0.7):
            self.schema = self.of_one_key()
        if sets:
            self.sets = {name: self.parameter() for name in self.names(draw.randint(1, 4))}

    def of_one_key(self):
        """A schema whose streams have one column in common, of one kind, and no other."""
        (key, *names), kind = self.names(11), self.kind()
        of_streams = [[names.pop() for _ in range(self.draw.randint(0, 3))] for _ in self.schema]
        of_streams = [self.draw.sample(own + [key], len(own) + 1) for own in of_streams]
        return {
            name: [(column, kind if column == key else self.kind()) for column in own]
            for name, own in zip(self.schema, of_streams)
        }

    def often(self, chance):
        """True with this chance."""
        return self.draw.random() < chance

    def kind(self):
        """A kind of a column."""
        return self.number_kind() if self.often(0.7) else self.draw.choice(TEXTS)

    def number_kind(self):
        """A kind of numbers."""
        return self.draw.choice(SIGNED if self.signed and self.often(0.5) else UNSIGNED)

    def names(self, number, taken=()):
        """So many names that are apart from those that are taken."""
        return self.draw.sample([name for name in NAMES if name not in KEYWORDS and name not in taken], number)

    def word(self, kind):
        """A word of a kind, out of few."""
        if kind not in self.words:
            top = 2 ** width_of(kind) - 1
            some_ = [0, 1, 2, 3, top, top - 1, self.draw.randint(0, top)]
            if kind[0] == 's':
                some_ = list(dict.fromkeys([0, 1, 2, top, top - 1, top // 2, top // 2 + 1, self.draw.randint(0, top)]))
            if kind[0] == 't':
                some_ = [word_of(it[: int(kind[4:])], kind) for it in LETTERS]
            if self.many and top > 255 and kind[0] != 't':
                some_ = list(dict.fromkeys(some_ + [self.draw.randint(0, top) for _ in range(8)]))
            self.words[kind] = self.draw.sample(
                [it for it in some_ if 0 <= it <= top], min(len(some_) - 2, 12 if self.many else 4) if top > 1 else 2
            )
        return self.draw.choice(self.words[kind])

    def parameter(self):
        """A parameter's kind, mostly that of a column, and the word that a file sets."""
        kinds = [kind for columns in self.schema.values() for _, kind in columns] + ['u1']
        kind = self.draw.choice(kinds) if self.often(0.8) else self.kind()
        return kind, self.word(kind)

    def literal(self, kind):
        """A literal of a kind."""
        word = self.word(kind)
        text = shown(word, kind)
        if kind[0] == 's':
            sign = '-' if text[0] == '-' or word == 0 and self.often(0.2) else ''
            return ('literal', kind, word, sign + '00' * self.often(0.05) + text.lstrip('-'))
        if kind[0] == 't':
            return (
                self.literal(kind)
                if "'" in text and self.often(0.9)
                else ('literal', kind, word_of(text.replace("'", ''), kind), "'" + text.replace("'", '') + "'")
            )
        return ('literal', kind, word, '00' * self.often(0.05) + text)

    def expression(self, columns, kind, depth, loose=True):
        """An expression of a kind; where `loose` is false, one that does not take its kind from its place."""
        same = [name for name, its in columns if its == kind]
        held = [name for name, (its, _) in self.sets.items() if its == kind]
        ways = ['column'] * 3 * bool(same) + ['literal'] * loose + ['parameter'] * 2 * bool(held)
        if depth > 0:
            ways += (
                ['CAST']
                + ['+', '-', '*', '&', '|', '^', '~', 'shift'] * (kind[0] != 't' and (kind != 'u1' or self.often(0.2)))
                + (['compare'] * 5 + ['AND', 'OR', 'NOT']) * (kind == 'u1')
            )
        way = self.draw.choice(ways or ['CAST'])
        if way == 'column':
            return (way, kind, *[self.draw.choice(same)] * 2)
        if way == 'literal':
            return self.literal(kind)
        if way == 'parameter':
            name = self.draw.choice(held)
            return (way, kind, self.sets[name][1], f":{' ' * self.often(0.1)}{name}")
        if way == 'CAST':
            had = [its for _, its in columns if (its[0] == 't') == (kind[0] == 't')]
            if kind[0] != 't' and self.signed and self.often(0.1):
                return (way, kind, self.negative())
            return (
                way,
                kind,
                self.alone(
                    columns,
                    self.draw.choice(had) if had and self.often(0.9) else 'text8' if kind[0] == 't' else 'u64',
                    depth - 1,
                ),
            )
        if way == 'NOT':
            return (way, kind, self.expression(columns, kind, depth - 1))
        if way == '~':
            return (way, kind, self.expression(columns, kind, depth - 1, loose))
        if way == 'shift':
            left, most = self.expression(columns, kind, depth - 1, loose), width_of(kind) - 1
            by = self.draw.choice([0, min(1, most), most, self.draw.randint(0, most)])
            number = ('literal', kind, by, f'({by})' if self.often(0.1) else '00' * self.often(0.05) + str(by))
            return (self.draw.choice(['<<', '>>']), kind, left, number)
        of = kind
        if way == 'compare':
            way, of = self.draw.choice(['=', '=', '<>', '<', '<=', '>', '>=']), self.draw.choice(
                [its for _, its in columns] + ['u64', 'text8'][: self.often(0.1) * 2]
            )
            loose = of in ('u64', 'text8')
        left = self.expression(columns, of, depth - 1)
        return (
            way,
            kind,
            left,
            self.expression(columns, of, depth - 1, loose or way in ('AND', 'OR') or not is_loose(left)),
        )

    def negative(self):
        """A literal that takes no kind from its place, and has a sign: an s64."""
        number = self.draw.choice([0, 1, 5, 2**31, 2**63])
        return ('literal', 's64', -number % 2**64, f'-{number}')

    def alone(self, columns, kind, depth):
        """An expression whose place gives it no kind."""
        return self.expression(columns, kind, depth, kind in ('u64', 'text8'))

    def items(self, columns, kinds=None, taken=()):
        """Plain items, of given kinds or of any."""
        if kinds is None:
            kinds = [
                self.draw.choice(columns)[1] if self.often(0.8) else self.kind() for _ in range(self.draw.randint(1, 4))
            ]
        out = []
        for name, kind in zip(self.names(len(kinds), taken), kinds):
            it = self.alone(columns, kind, self.draw.randint(0, 3))
            own = it[2] if it[0] == 'column' else name
            out.append((own if own not in taken and own not in [n for n, _ in out] and self.often(0.7) else name, it))
        return out if len({name for name, _ in out}) == len(out) else self.items(columns, kinds, taken)

    def totals(self, columns, taken=()):
        """Aggregates, one to three."""
        out = []
        for name in self.names(self.draw.randint(1, 3), taken):
            sort, kind = self.draw.choice(['count', 'sum', 'min', 'max', 'avg', 'wsum']), self.draw.choice(columns)[1]
            if kind[0] == 't' and sort in ('sum', 'avg', 'wsum'):
                kind = self.number_kind()
            argument = None if sort == 'count' else self.alone(columns, kind, self.draw.choice([0, 0, 1, 2]))
            out.append(
                (
                    name,
                    sort,
                    argument,
                    [
                        abs(number_of(self.word(kind), kind)) % 2 ** (width_of(kind) - (kind[0] == 's'))
                        for _ in range(self.draw.randint(1, 5))
                    ]
                    if sort == 'wsum'
                    else None,
                )
            )
        return out

    def frames_over(self, columns):
        """Items of a select of frames, one to four, of which one looks back at least."""
        out = []
        for name in self.names(self.draw.randint(1, 4)):
            sort, kind = self.draw.choice(FRAMES), self.draw.choice(columns)[1]
            if kind[0] == 't' and sort in ('sum', 'avg'):
                kind = self.number_kind()
            argument = None if sort == 'count' else self.alone(columns, kind, self.draw.choice([0, 0, 1, 2]))
            condition = self.expression(columns, 'u1', self.draw.randint(1, 2)) if self.often(0.4) else None
            back = self.draw.choice([0, 1, 1, 2, 3, 4, 5, 7, 8, 19, None])
            if sort in ('own', 'lag'):
                condition, back = None, max(back or 1, 1) if sort == 'lag' else None
            out.append((name, sort, argument, condition, back))
        return out if any(item[1] != 'own' for item in out) else self.frames_over(columns)

    def part(self, columns):
        """A key and how many of its values rows are kept of, or none: mostly few, so that further ones come."""
        if self.often(0.4):
            return None
        most = self.draw.choice([1, 1, 2, 2, 3, 4, 7, 8, 9, 64, 65, self.draw.randint(1, 100)])
        return self.draw.choice(columns)[0], most

    def framed(self, source):
        """A select of frames over a source."""
        return self.select(source, frames=self.frames_over(source['columns']), part=self.part(source['columns']))

    def framed_body(self, scope, depth):
        """Totals of frames of what a body sees."""
        source = self.framed(self.read(scope) if self.often(0.7) else self.source(scope, depth))
        return self.select(source, totals=self.totals(source['columns']))

    def read(self, scope):
        """A stream, or what a body sees."""
        name = self.draw.choice(list(scope))
        return {'sort': 'read', 'name': name, 'columns': scope[name], 'closing': False}

    def select(self, source, items=None, totals=None, filter_=0.4, window=None, group=None, frames=None, part=None):
        """A select over a source, with what is asked for and a condition or none."""
        columns = (
            [(name, 'u32' if sort == 'count' else e[1]) for name, sort, e, _ in totals or []]
            or [(name, e[1]) for name, e in items or []]
            or [(name, 'u32' if sort == 'count' else e[1]) for name, sort, e, _, _ in frames or []]
            or source['columns']
        )
        if group:
            columns = [(name, kind) for name, kind in source['columns'] if name == group[0]] + columns
        condition = self.expression(source['columns'], 'u1', self.draw.randint(1, 3)) if self.often(filter_) else None
        return {
            'sort': 'select',
            'source': source,
            'items': items,
            'totals': totals,
            'frames': frames,
            'part': part,
            'filter': condition,
            'window': window,
            'group': group,
            'body': None,
            'columns': columns,
            'closing': bool(source['closing'] and window[2] == 'TUPLES' if window else totals or source['closing']),
        }

    def window(self, measure='TUPLES'):
        """The sizes of a window."""
        far = self.often(0.05)
        size = self.draw.randint(1, 40 if far else 6)
        return size, self.draw.randint(max(1, -(-size // 8)), 60 if far else 6), measure

    def source(self, scope, depth, closing=False):
        """What stands behind FROM or IN: a name, a query in brackets, or an as-of join."""
        if self.asof and not closing and self.often(0.5):
            return self.joined(scope, depth - 1)
        return (
            self.read(scope)
            if not closing and (depth < 1 or self.often(0.5))
            else self.query(scope, depth - 1, closing)
        )

    def query(self, scope, depth, closing=False):
        """A query, as deep as is said; closing where that is asked."""
        ways = (
            ['plain', 'total', 'total']
            + ['window', 'window', 'each', 'each', 'UNION', 'CONCAT'] * (depth > 0)
            + ['group', 'by'] * (2 * self.groups)
            + ['keyed'] * (4 * self.keyed)
            + ['frames'] * (4 * self.frames)
            + ['arrival'] * (8 * self.arrival * (depth > 0 and not closing))
        )
        way = self.draw.choice(ways if depth >= 0 else ['total'])
        if way == 'arrival':
            return self.by_arrival(scope, depth)
        if way in ('UNION', 'CONCAT'):
            return self.union(scope, depth, closing) if way == 'UNION' else self.concat(scope, depth, closing)
        timed = self.times and way in ('window', 'each') and scope is self.schema and not closing and self.often(0.5)
        source = (
            self.read(scope) if timed else self.source(scope, depth, closing and way not in ('total', 'group', 'by'))
        )
        columns, measure = source['columns'], 'TIME' if timed else 'TUPLES'
        if way == 'plain':
            return self.select(source, None if self.often(0.2) else self.items(columns))
        if way == 'total':
            return self.select(source, totals=self.totals(columns))
        if way == 'frames':
            return self.framed(source)
        if way == 'window':
            return self.select(source, totals=self.totals(columns), window=self.window(measure))
        key, kind = self.draw.choice(columns)
        group = key, self.draw.choice([1, 2, 2, 3, 4, 7])
        if way == 'group':
            if self.often(0.3) and source['closing'] >= closing:
                return self.select(source, totals=self.totals(columns, [key]), window=self.window(), group=group)
            return self.select(source, totals=self.totals(columns, [key]), group=group)
        var = self.names(1)[0] if self.often(0.7) else self.draw.choice(list(self.schema))
        if self.asof and self.often(0.5):
            rows = self.joined({var: columns}, self.draw.choice([0, 1, 1]))
            body = self.select(rows, totals=self.totals(rows['columns']))
        elif self.arrival and self.often(0.5):
            rows = self.by_arrival({var: columns}, self.draw.choice([0, 1, 1, 2]))
            body = self.select(rows, totals=self.totals(rows['columns']))
        elif self.frames and self.often(0.4):
            body = self.framed_body({var: columns}, depth - 1)
        else:
            body = self.query({var: columns}, depth - 1, True)
        if way != 'each' and key in [name for name, _ in body['columns']]:
            body = self.renamed(body, [key])
        out = {
            'sort': 'each',
            'var': var,
            'source': source,
            'body': body,
            'filter': None,
            'totals': None,
            'frames': None,
            'part': None,
            'window': None,
            'group': None,
        }
        more = (
            {'window': self.window(measure), 'columns': body['columns'], 'closing': source['closing'] and not timed}
            if way == 'each'
            else {
                'group': group,
                'columns': [(key, kind)] + body['columns'],
                'closing': way == 'by' or source['closing'],
            }
        )
        return out | more | ({'window': self.window()} if way == 'keyed' else {})

    def renamed(self, query, taken):
        """The same rows under other names, at most eight columns."""
        columns = query['columns'][:8]
        return self.select(
            query,
            [(new, ('column', kind, old, old)) for new, (old, kind) in zip(self.names(len(columns), taken), columns)],
            filter_=0,
        )

    def union(self, scope, depth, closing):
        """A union whose right side has the kinds of the left one."""
        left = self.query(scope, depth - 1, closing)
        source = self.source(scope, depth - 1, closing)
        right = self.select(source, self.items(source['columns'], [kind for _, kind in left['columns']]))
        left, right = (right, left) if self.often(0.3) else (left, right)
        return {
            'sort': 'UNION',
            'left': left,
            'right': right,
            'columns': left['columns'],
            'closing': left['closing'] and right['closing'],
        }

    def arriving(self, scope, depth, kinds=None):
        """A select whose rows come each of one that came, with columns of given kinds or of any."""
        source = self.read(scope) if depth < 1 or self.often(0.6) else self.by_arrival(scope, depth - 1)
        if self.asof and depth > 0 and self.often(0.3):
            source = self.joined(scope, depth - 1)
        if self.frames and self.often(0.5):
            source = self.framed(source)
            if kinds is None:
                return source
        if kinds is None and self.often(0.3):
            return self.select(source)
        return self.select(source, self.items(source['columns'], kinds))

    def by_arrival(self, scope, depth):
        """A union by arrival, at times of one query with itself; its right side has the kinds of the left one."""
        nests = depth > 0 and self.often(0.4)
        left = self.by_arrival(scope, depth - 1) if nests else self.arriving(scope, depth)
        right = self.arriving(scope, depth, [kind for _, kind in left['columns']]) if self.often(0.9) else left
        left, right = (right, left) if self.often(0.3) else (left, right)
        return {'sort': 'ARRIVAL', 'left': left, 'right': right, 'columns': left['columns'], 'closing': False}

    def side(self, scope, depth):
        """A side of an as-of join: a name, a select or a union by arrival."""
        if self.often(0.5):
            return self.read(scope)
        return self.by_arrival(scope, depth) if depth > 0 and self.often(0.3) else self.arriving(scope, depth)

    def fitting(self, scope, depth, key, kind, taken):
        """A side with a key of this name and kind, where no other column has a name that is taken."""
        streams = [name for name, its in scope.items() if (key, kind) in its and not set(dict(its)) & taken - {key}]
        if streams and self.often(0.8):
            name = self.draw.choice(streams)
            source = {'sort': 'read', 'name': name, 'columns': scope[name], 'closing': False}
            return source if self.often(0.6) else self.select(source, filter_=0.8)
        source = self.side(scope, depth)
        items = self.items(source['columns'], taken=taken | {key}) if self.often(0.9) else []
        same = [name for name, its in source['columns'] if its == kind]
        of_key = ('column', kind, *[self.draw.choice(same)] * 2) if same and self.often(0.9) else None
        items.insert(self.draw.randint(0, len(items)), (key, of_key or self.alone(source['columns'], kind, 1)))
        return self.select(source, items)

    def joined(self, scope, depth):
        """An as-of join of two sides, at times of one stream twice; GROUPS is mostly so low that further keys come."""
        first = self.side(scope, depth)
        if len(first['columns']) > 8:
            first = self.renamed(first, [])
        shared = [it for it in first['columns'] if sum(it in its for its in scope.values()) > 1]
        key, kind = self.draw.choice(shared if shared and self.often(0.7) else first['columns'])
        second = self.fitting(scope, depth, key, kind, set(dict(first['columns'])))
        left, right = (first, second) if self.often(0.6) else (second, first)
        most = self.draw.choice([1, 1, 2, 2, 3, 4, 7, 9, 64, 65, 1024, 4096, self.draw.randint(1, 4096)])
        return {
            'sort': 'ASOF',
            'left': left,
            'right': right,
            'by': (key, most),
            'columns': left['columns'] + [it for it in right['columns'] if it[0] != key],
            'closing': False,
        }

    def paced(self, scope, depth, base):
        """A query with a row at the end where `base` is None, else with one for each row of it."""
        if depth > 0 and self.often(0.3):
            return self.concat(scope, depth - 1, base is None, base)
        source = self.paced(scope, depth - 1, base) if depth > 0 and self.often(0.3) else base
        if source is None:
            source = self.source(scope, depth - 1)
            return self.select(source, totals=self.totals(source['columns']))
        if self.frames and self.often(0.3):
            return self.select(source, frames=self.frames_over(source['columns']), filter_=0)
        return self.select(source, None if self.often(0.1) else self.items(source['columns']), filter_=0)

    def concat(self, scope, depth, closing, base=None):
        """Two queries of one pace, side by side."""
        if base is None and not closing and self.often(0.4):
            base = self.read(scope)
        left, right = self.paced(scope, depth - 1, base), self.paced(scope, depth - 1, base)
        if set(dict(left['columns'])) & set(dict(right['columns'])) or len(left['columns'] + right['columns']) > 16:
            left = self.renamed(left, [])
            right = self.renamed(right, dict(left['columns']))
        return {
            'sort': 'CONCAT',
            'left': left,
            'right': right,
            'columns': left['columns'] + right['columns'],
            'closing': left['closing'] and right['closing'],
        }

    def tuples(self, gap, most, ticks=None):
        """Beats, a list of (cycle, [(stream, words)]), where a tick is a stream without words, and the cycle of the
        end, None where no record says it. Ticks, and the end behind them, may have a gap of their own."""
        beats, at, near, free = [], self.draw.randint(0, 3), self.often(0.6), 0
        for _ in range(self.draw.choice([0, 1, 2, 3, 5, 8, 12, 20, 30])):
            streams = [name for name in self.schema if self.often(0.6)] or [self.draw.choice(list(self.schema))]
            most -= len(streams)
            if most < 0 or at > min(CYCLES, 10**7 - 1):
                break
            rows = [
                (name, tuple(self.word(kind) for _, kind in self.schema[name]))
                for name in self.draw.sample(streams, len(streams))
            ]
            if self.ticks and self.often(0.5) and at >= free:
                rows = rows if self.often(0.6) else []
                rows.insert(self.draw.randint(0, len(rows)), ('tick', ()))
                free = at + (ticks or gap)
            beats.append((at, rows))
            at += gap + (0 if near or self.often(0.5) else self.draw.randint(0, 2 * gap))
        if beats and ('tick', ()) not in beats[-1][1]:
            beats[-1] = (max(beats[-1][0], free), beats[-1][1])
            at = max(at, beats[-1][0] + gap)
        ends = [None, beats[-1][0] if beats else 0, max(at, free)]
        return beats, self.draw.choice(ends if at <= 10**7 else ends[:2])
