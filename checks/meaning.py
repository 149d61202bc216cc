"""The query language once more, from docs/LANGUAGE.md alone: what a query means, and its text. It shares nothing with
the crates.

A query is a dict. Its 'sort' is
    read            the rows of 'name'
    UNION, CONCAT   of 'left' and 'right'; so ARRIVAL, which is UNION BY ARRIVAL
    ASOF            of 'left' and 'right' with 'by' (key, groups); it is a source alone
    select          'items' [(name, expression)], None for *; or 'totals' [(name, aggregate, expression, weights)];
                    or 'frames' [(name, sort, expression, condition, back)], whose sort is 'own', 'lag', 'last_value'
                    or an aggregate's, with 'part' (key, groups) or None;
                    over 'source', with 'window' (size, advance, 'TUPLES' or 'TIME'), 'filter' and 'group'
                    (key, groups), each None where it is missing
    each            'body' over 'source' by its 'window' or its 'group', or by both, the windows of each key, as 'var'
and each has its 'columns' [(name, kind)]. An expression is (sort, kind, part, ..): ('column', kind, name, name),
('literal', kind, word, text), ('parameter', kind, word, text) whose word is the one that the
file sets, ('NOT', kind, e), ('~', kind, e), ('CAST', kind, e), and (operator, kind, e, e).

The right outcomes of a query are {spill: tree}, where a tree stands for a set of lists of rows: ('rows', row, ..) is
one list, ('merge', a, b) every interleaving, ('chain', a, b) what comes of a and then of b, ('either', a, b, ..) what
comes of one of them. Lists are gone through only where an order that UNION leaves open comes to matter, and then at
most MOST.
"""
import collections
import functools

from common import width_of

MOST = 400  # lists of rows that are looked at where an order is open
WORK = 20000  # rows of slices and groups that are looked at
LEVELS = {'OR': 0, 'AND': 1, 'NOT': 2, '|': 4, '^': 5, '&': 6, '<<': 7, '>>': 7, '+': 8, '-': 8, '*': 9, '~': 10}
LEVELS |= dict.fromkeys(['=', '<>', '<', '<=', '>', '>='], 3)
JOINS = {'UNION': 'UNION', 'ARRIVAL': 'UNION BY ARRIVAL', 'CONCAT': 'CONCAT'}
SPENT = [0]
NONE = ('rows',)


class TooMany(Exception):
    """More lists of rows, or more rows of parts, than are looked at."""


# ---- kinds and words


def number_of(word, kind):
    """The number that a word stands for; a text's is its word."""
    return word - 2 ** width_of(kind) if kind[0] == 's' and word >> width_of(kind) - 1 else word


def shown(word, kind):
    """A word as a file has it."""
    return word.to_bytes(int(kind[4:]), 'big').rstrip(b'\0').decode() if kind[0] == 't' else str(number_of(word, kind))


# ---- trees of outcomes


def merge(a, b):
    """Every interleaving of two trees."""
    return b if a == NONE else a if b == NONE else ('merge', a, b)


def chain(a, b):
    """What comes of one tree, and then of another."""
    if a == NONE or b == NONE:
        return b if a == NONE else a
    return a + b[1:] if a[0] == b[0] == 'rows' else ('chain', a, b)


def either(trees):
    """What comes of one of several trees."""
    trees = list(dict.fromkeys(trees))
    return trees[0] if len(trees) == 1 else ('either', *trees)


def beside(a, b):
    """The rows of two trees side by side, where both have as many."""
    pairs = [(left, right) for left in lists(a) for right in lists(b)]
    if len(pairs) > MOST:
        raise TooMany
    if any(len(left) != len(right) for left, right in pairs):
        raise ValueError('CONCAT of unlike lengths')
    return either([('rows', *(x + y for x, y in zip(left, right))) for left, right in pairs])


def is_done(tree):
    """Whether the empty list is among those of a tree."""
    return (
        len(tree) == 1 if tree[0] == 'rows' else (any if tree[0] == 'either' else all)(is_done(it) for it in tree[1:])
    )


@functools.lru_cache(100000)
def steps(tree):
    """The rows that may come first, each with the trees for what follows."""
    sort, *parts = tree
    out = collections.defaultdict(set)
    if sort == 'rows' and parts:
        out[parts[0]].add(('rows', *parts[1:]))
    if sort == 'either':
        for part in parts:
            for row, rests in steps(part).items():
                out[row] |= rests
    if sort in ('merge', 'chain'):
        a, b = parts
        for row, rests in steps(a).items():
            out[row] |= {(merge if sort == 'merge' else chain)(rest, b) for rest in rests}
        if sort == 'merge' or is_done(a):
            for row, rests in steps(b).items():
                out[row] |= {merge(a, rest) if sort == 'merge' else rest for rest in rests}
    return out


def lists(tree):
    """All lists of a tree, each once."""
    if tree[0] == 'rows':
        return [tree[1:]]
    out, todo = [], [((), frozenset([tree]))]
    while todo:
        rows, trees = todo.pop()
        if any(map(is_done, trees)):
            out.append(rows)
        if len(out) + len(todo) > MOST:
            raise TooMany
        follow = collections.defaultdict(set)
        for it in trees:
            for row, rests in steps(it).items():
                follow[row] |= rests
        todo += [(rows + (row,), frozenset(rests)) for row, rests in follow.items()]
    return out


def has(tree, rows):
    """Whether these rows are a list of a tree."""
    trees = {tree}
    for row in rows:
        trees = {rest for it in trees for rest in steps(it).get(row, ())}
    return any(map(is_done, trees))


def one_of(tree):
    """One of the lists."""
    return tree[1:] if tree[0] == 'rows' else sum(map(one_of, tree[1 : 2 if tree[0] == 'either' else 3]), ())


def some(tree):
    """Lists among which each multiset of rows is that is one of the tree's."""
    if tree[0] == 'either':
        return [rows for part in tree[1:] for rows in some(part)]
    if tree[0] == 'rows':
        return [tree[1:]]
    out = [left + right for left in some(tree[1]) for right in some(tree[2])]
    if len(out) > MOST:
        raise TooMany
    return out


def changed(tree, change):
    """Each row changed; None drops it."""
    if tree[0] == 'rows':
        return ('rows', *(it for it in map(change, tree[1:]) if it is not None))
    parts = [changed(it, change) for it in tree[1:]]
    return either(parts) if tree[0] == 'either' else {'merge': merge, 'chain': chain}[tree[0]](*parts)


# ---- the meaning


def value_of(expression, row):
    """The word of an expression over a row."""
    sort, kind, *parts = expression
    if sort == 'column':
        return row[parts[0]]
    if sort in ('literal', 'parameter'):
        return parts[0]
    x = value_of(parts[0], row)
    if sort == 'NOT':
        return 1 - x
    if sort == '~':
        return ~x % 2 ** width_of(kind)
    if sort == 'CAST':
        had, wants = width_of(parts[0][1]), width_of(kind)
        return x << wants >> had if kind[0] == 't' else number_of(x, parts[0][1]) % 2**wants
    y, of = value_of(parts[1], row), parts[0][1]
    bound, m, n = 2 ** width_of(of), number_of(x, of), number_of(y, of)
    return int(
        {
            '+': (x + y) % bound,
            '-': (x - y) % bound,
            '*': x * y % bound,
            '&': x & y,
            '|': x | y,
            '^': x ^ y,
            '<<': (x << y) % bound if sort == '<<' else 0,
            '>>': (m >> y) % bound if sort == '>>' else 0,
            '=': x == y,
            '<>': x != y,
            '<': m < n,
            '<=': m <= n,
            '>': m > n,
            '>=': m >= n,
            'AND': x & y,
            'OR': x | y,
        }[sort]
    )


def average_of(numbers, kind):
    """The word of the average: the sum wraps in 32 bits more than the kind has, and is divided toward zero."""
    width = width_of(kind) + 32
    total = sum(numbers) % 2**width
    if kind[0] == 's' and total >> width - 1:
        return -((2**width - total) // len(numbers)) % 2 ** width_of(kind)
    return total // len(numbers) % 2 ** width_of(kind)


def total_of(item, rows):
    """The word of an aggregate over rows."""
    name, sort, expression, weights = item
    if sort == 'count':
        return len(rows) % 2**32
    values, kind, width = [value_of(expression, row) for row in rows], expression[1], width_of(expression[1])
    if sort in ('min', 'max'):
        return (min if sort == 'min' else max)(values, key=lambda word: number_of(word, kind), default=0)
    if sort == 'avg':
        return average_of([number_of(word, kind) for word in values], kind) if values else 0
    return sum(values) % 2**width if sort == 'sum' else sum(n * v for n, v in zip(weights, values)) % 2**width


def frame_of(item, rows):
    """What an item of a select of frames makes of the rows up to one, that one last."""
    name, sort, expression, condition, back = item
    if sort in ('own', 'lag'):
        at = len(rows) - 1 - (back if sort == 'lag' else 0)
        return value_of(expression, rows[at]) if at >= 0 else 0
    last = rows if back is None else rows[-back - 1 :]
    inside = [row for row in last if condition is None or value_of(condition, row)]
    if sort == 'last_value':
        return value_of(expression, inside[-1]) if inside else 0
    return total_of((name, sort, expression, None), inside)


def framed(query, names, rows):
    """What a select of frames makes of each row, None of one of a further key, and whether there was such a one."""
    key, most = query['part'] or (None, 1)
    own, out, spill = {}, [], False
    for row in rows:
        mine = own.get(row[names.index(key)] if key else None)
        if mine is None and len(own) == most:
            spill = True
            out.append(None)
            continue
        mine = own.setdefault(row[names.index(key)] if key else None, [])
        mine.append(dict(zip(names, row)))
        out.append(tuple(frame_of(item, mine) for item in query['frames']))
    return spill, out


def over_frames(query, names, found):
    """The results of a select of frames."""
    out = collections.defaultdict(list)
    for before, tree in found.items():
        for rows in lists(tree):
            spill, made = framed(query, names, rows)
            out[before or spill].append(('rows', *(row for row in made if row is not None)))
    return {spill: either(trees) for spill, trees in out.items()}


def both(left, right, join):
    """Two results joined; a spill of either is one of both."""
    out = collections.defaultdict(list)
    for spill, a in left.items():
        for other, b in right.items():
            out[spill or other].append(join(a, b))
    return {spill: either(trees) for spill, trees in out.items()}


def of_parts(found, cut, body, spills=lambda rows: False):
    """The results of a body over each part of the rows, one behind the other."""
    out = collections.defaultdict(list)
    for before, tree in found.items():
        for rows in lists(tree):
            joined = {before or spills(rows): NONE}
            for part in cut(rows):
                SPENT[0] += 1 + len(part)
                if SPENT[0] > WORK:
                    raise TooMany
                joined = both(joined, body(part), chain)
            for spill, it in joined.items():
                out[spill].append(it)
    return {spill: either(trees) for spill, trees in out.items()}


def windowed(query, found, clock, body):
    """The results of a body over each window."""
    size, advance, measure = query['window']
    if measure == 'TUPLES':
        return of_parts(found, lambda rows: [rows[at : at + size] for at in range(0, len(rows), advance)], body)
    times, ticks = clock[0][query['source']['name']], clock[1]

    def cut(rows):
        """The parts of the rows."""
        return [
            tuple(row for row, time in zip(rows, times, strict=True) if at <= time < at + size)
            for at in range(0, ticks + 1, advance)
        ]

    return of_parts(found, cut, body)


def grouped(found, at, most, body):
    """The results of a body over the rows of each key, with the key in front; a further key spills."""

    def keys(rows):
        """The keys in the order in which they come."""
        return list(dict.fromkeys(row[at] for row in rows))

    def keyed(part):
        """The rows of a part, with its key in front."""
        return {spill: changed(tree, lambda row: (part[0],) + row) for spill, tree in body(part[1]).items()}

    return of_parts(
        found,
        lambda rows: [(key, tuple(row for row in rows if row[at] == key)) for key in keys(rows)[:most]],
        keyed,
        lambda rows: len(keys(rows)) > most,
    )


def parted(query, found, at, body):
    """The results of a body over the windows of each key, in the order in which they are full."""
    (size, advance, _), (_, most) = query['window'], query['group']

    def cut(rows):
        """The parts of the rows."""
        own, full = {}, []
        for row in rows:
            if row[at] in own or len(own) < most:
                mine = own.setdefault(row[at], [])
                mine.append(row)
                if len(mine) >= size and (len(mine) - size) % advance == 0:
                    full.append((row[at], tuple(mine[-size:])))
        return full + [
            (key, tuple(mine[j:]))
            for key, mine in own.items()
            for j in range(0, len(mine), advance)
            if j + size > len(mine)
        ]

    def keyed(part):
        """The rows of a part, with its key in front."""
        return {spill: changed(tree, lambda row: (part[0],) + row) for spill, tree in body(part[1]).items()}

    return of_parts(found, cut, keyed, lambda rows: len({row[at] for row in rows}) > most)


def selected(query, columns, found):
    """A select without its window, over rows of these columns."""
    names = [name for name, _ in columns]

    def named(row):
        """A row by the names of its columns."""
        return dict(zip(names, row))

    if query['filter']:
        found = {
            spill: changed(tree, lambda row: row if value_of(query['filter'], named(row)) else None)
            for spill, tree in found.items()
        }
    if query['group']:
        key, most = query['group']
        return grouped(
            found,
            names.index(key),
            most,
            lambda rows: selected(query | {'filter': None, 'group': None}, columns, {False: ('rows', *rows)}),
        )
    if query['frames']:
        return over_frames(query, names, found)
    if query['totals']:
        open_ = lists if any(item[1] == 'wsum' for item in query['totals']) else some
        return {
            spill: either(
                [
                    ('rows', tuple(total_of(item, [named(row) for row in rows]) for item in query['totals']))
                    for rows in open_(tree)
                ]
            )
            for spill, tree in found.items()
        }
    if query['items']:
        return {
            spill: changed(tree, lambda row: tuple(value_of(e, named(row)) for _, e in query['items']))
            for spill, tree in found.items()
        }
    return found


Come = collections.namedtuple('Come', 'place reader row')  # a row, the cycle that it came in, and which source read it


def arrives(query):
    """Whether each row of a query comes of one row that came."""
    if query['sort'] == 'select':
        return not (query['totals'] or query['window'] or query['group']) and arrives(query['source'])
    return query['sort'] in ('read', 'ARRIVAL', 'ASOF')


def readers(query):
    """How many sources a query that arrives reads, each use counted."""
    if query['sort'] in ('ARRIVAL', 'ASOF'):
        return readers(query['left']) + readers(query['right'])
    return 1 if query['sort'] == 'read' else readers(query['source'])


def kept(query, found):
    """The rows with places that pass the condition of a select."""
    names, where = [name for name, _ in query['source']['columns']], query['filter']
    return [it for it in found if not where or value_of(where, dict(zip(names, it.row)))]


def come(query, sources, clock=None, reader=0):
    """The rows of a query that arrives, with places, and whether a row of a further key was left out. Where there is no
    clock, a source's rows come one behind the other. Sources are numbered in the order in which their rows of one place
    come: from the left, but those of the right side of ASOF before those of its left side; from `reader` on."""
    if query['sort'] == 'read':
        rows = sources[query['name']]
        places = clock[2][query['name']] if clock else range(len(rows))
        return False, [Come(place, reader, row) for place, row in zip(places, rows, strict=True)]
    if query['sort'] == 'ARRIVAL':
        spill, left = come(query['left'], sources, clock, reader)
        other, right = come(query['right'], sources, clock, reader + readers(query['left']))
        return spill or other, sorted(left + right, key=lambda it: it.place)
    if query['sort'] == 'ASOF':
        spill, right = come(query['right'], sources, clock, reader)
        other, left = come(query['left'], sources, clock, reader + readers(query['right']))
        return spill or other or len(first_places(query, left, right)) > query['by'][1], joined(query, left, right)
    spill, found = come(query['source'], sources, clock, reader)
    names, found = [name for name, _ in query['source']['columns']], kept(query, found)
    if query['frames']:
        more, made = framed(query, names, [it.row for it in found])
        return spill or more, [it._replace(row=row) for it, row in zip(found, made) if row is not None]
    if query['items']:
        found = [
            it._replace(row=tuple(value_of(e, dict(zip(names, it.row))) for _, e in query['items'])) for it in found
        ]
    return spill, found


def keys_of(query):
    """Where the key of an as-of join stands in rows of its left side, and in rows of its right side."""
    return [[name for name, _ in query[side]['columns']].index(query['by'][0]) for side in ('left', 'right')]


def first_places(query, left, right):
    """Of each key of an as-of join when it came first, on either side: its place, the right side's before the left
    side's, and its number on the side."""
    came = collections.defaultdict(list)
    for side, (at, rows) in enumerate(reversed(list(zip(keys_of(query), (left, right))))):
        for number, it in enumerate(rows):
            came[it.row[at]].append((it.place, side, number))
    return {key: min(times) for key, times in came.items()}


def joined(query, left, right):
    """An as-of join: a row for each left row whose key is among the first ones that came on either side, in order. Beside
    it stands the last right row of its key whose place is no later, without its key, or zeros."""
    (own, other), firsts = keys_of(query), first_places(query, left, right)
    known, out = sorted(firsts, key=firsts.get)[: query['by'][1]], []
    for it in left:
        if it.row[own] in known:
            seen = [by.row for by in right if by.row[other] == it.row[own] and by.place <= it.place]
            last = seen[-1] if seen else (0,) * len(query['right']['columns'])
            out.append(it._replace(row=it.row + last[:other] + last[other + 1 :]))
    return out


def outcomes_of(query, sources, clock):
    """All right outcomes of a query over the rows of its sources, by name; TooMany where there are too many.

    The clock is the times of the rows of each stream, by name, the number of all ticks, and the cycles of the rows.
    """
    SPENT[0] = 0
    return results(query, sources, clock)


def results(query, sources, clock=None):
    """What a query results in, by whether a row of a further key was left out."""
    sort = query['sort']
    if sort == 'read':
        return {False: ('rows', *sources[query['name']])}
    if sort in ('ARRIVAL', 'ASOF'):
        spill, found = come(query, sources, clock)
        return {spill: ('rows', *(it.row for it in found))}
    if sort in ('UNION', 'CONCAT'):
        left, right = results(query['left'], sources, clock), results(query['right'], sources, clock)
        return both(left, right, merge if sort == 'UNION' else beside)
    columns, found = query['source']['columns'], results(query['source'], sources, clock)
    if sort == 'select':
        return (
            windowed(query, found, clock, lambda rows: selected(query, columns, {False: ('rows', *rows)}))
            if query['window']
            else selected(query, columns, found)
        )

    def body(rows):
        """The results of the body over these rows."""
        return results(query['body'], {query['var']: rows})

    if not query['group']:
        return windowed(query, found, clock, body)
    at = [name for name, _ in columns].index(query['group'][0])
    return parted(query, found, at, body) if query['window'] else grouped(found, at, query['group'][1], body)


# ---- the text


def expression_text(expression, level=0):
    """The text of an expression, in brackets where its place asks for them; the sign of unlike goes by the number of
    letters of its left side."""
    sort, kind, *parts = expression
    if sort in ('column', 'literal', 'parameter'):
        return parts[-1]
    if sort == 'CAST':
        return f'CAST({expression_text(parts[0])} AS {kind})'
    own = LEVELS[sort]
    if sort == 'NOT':
        text = f'NOT {expression_text(parts[0], 3)}'
    elif sort == '~':
        text = f'~ {expression_text(parts[0], 10)}'
    else:
        left, right = expression_text(parts[0], 4 if own == 3 else own), expression_text(parts[1], own + 1)
        text = f"{left} {'!=' if sort == '<>' and len(left) % 2 else sort} {right}"
    return f'({text})' if own < level else text


def item_text(item):
    """The text of an item."""
    name, expression = item
    return name if expression[2:] == (name, name) else f'{expression_text(expression)} AS {name}'


def total_text(item):
    """The text of an aggregate with its name."""
    name, sort, expression, weights = item
    inside = expression_text(expression) if expression else ''
    return f'{sort}({inside}, {weights}) AS {name}' if sort == 'wsum' else f'{sort}({inside}) AS {name}'


def frame_text(item, part):
    """The text of an item of a select of frames; its words' letters and its spelling go by its number of letters."""
    name, sort, expression, condition, back = item
    if sort == 'own':
        return item_text((name, expression))
    inside, way = expression_text(expression) if expression else '', len(name)
    by = f'PARTITION BY {part[0]} GROUPS {part[1]}' if part else ''
    over = 'OVER' if way % 2 else 'over'
    if sort == 'lag':
        number = '' if back == 1 and way % 3 == 0 else f', {back}'
        return f"{'lag' if way % 2 else 'LAG'}({inside}{number}) {over} ({by}) AS {name}"
    bound = f"{'UNBOUNDED' if back is None else back} PRECEDING"
    rows = f'ROWS BETWEEN {bound} AND CURRENT ROW' if way % 3 == 1 else f'rows {bound}'
    picks = f' FILTER (WHERE {expression_text(condition)})' if condition else ''
    return f"{sort}({inside}){picks} {over} ({by + ' ' * bool(by) + rows}) AS {name}"


def source_text(query):
    """The text of what stands behind FROM or IN; the case of ASOF goes by the number of letters of its left side."""
    if query['sort'] == 'ASOF':
        (key, most), left, right = query['by'], source_text(query['left']), source_text(query['right'])
        return f"{left} {'ASOF asof AsOf'.split()[len(left) % 3]} {right} BY {key} GROUPS {most}"
    return query['name'] if query['sort'] == 'read' else f'({query_text(query)})'


def window_text(window):
    """The text of a window, or nothing."""
    return f' [SIZE {window[0]} ADVANCE {window[1]} {window[2]}]' if window else ''


def query_text(query):
    """The text of a query."""
    sort = query['sort']
    if sort in JOINS:
        left, right = query_text(query['left']), query['right']
        word = 'UNION by arrival' if sort == 'ARRIVAL' and len(left) % 3 == 0 else JOINS[sort]
        return f'{left} {word} ' + (source_text(right) if right['sort'] in JOINS else query_text(right))
    source, group = source_text(query['source']), query['group']
    if sort == 'each':
        parts = (f' BY {group[0]} GROUPS {group[1]}' if group else '') + window_text(query['window'])
        return f"EACH {query['var']} IN {source}{parts} ({query_text(query['body'])})"
    items = (
        [total_text(it) for it in query['totals'] or []]
        or [frame_text(it, query['part']) for it in query['frames'] or []]
        or [item_text(it) for it in query['items'] or []]
        or ['*']
    )
    text = (
        'SELECT ' + ', '.join(([group[0]] if group else []) + items) + f' FROM {source}' + window_text(query['window'])
    )
    text += f" WHERE {expression_text(query['filter'])}" if query['filter'] else ''
    return text + (f' GROUP BY {group[0]} GROUPS {group[1]}' if group else '')


def forms_of(query):
    """The names of what stands in a query."""
    sort = query['sort']
    if sort in JOINS:
        return {JOINS[sort]} | forms_of(query['left']) | forms_of(query['right'])
    if sort == 'read':
        return set()
    if sort == 'ASOF':
        inside = forms_of(query['left']) | forms_of(query['right'])
        return {'ASOF'} | inside | ({'ASOF in ASOF'} if 'ASOF' in inside else set())
    out = {
        name
        for name, found in (
            ('WHERE', query['filter']),
            ('aggregates', query['totals']),
            ('frames', query['frames']),
            ('frames of each key', query['frames'] and query['part']),
            ('windows', query['window']),
            ('windows of time', query['window'] and query['window'][2] == 'TIME'),
            ('groups', query['group']),
            ('windows of each key', sort == 'each' and query['window'] and query['group']),
        )
        if found
    }
    out |= {'nested'} if query['source']['sort'] != 'read' or sort == 'each' else set()
    out |= {'plain'} if sort == 'select' and not query['totals'] and not query['frames'] else set()
    return out | forms_of(query['source']) | (forms_of(query['body']) if query['body'] else set())
