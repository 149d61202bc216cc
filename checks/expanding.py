"""A query without ASOF: each of its as-of joins is written as frames by key over a UNION BY ARRIVAL, as docs/RECIPES.md
shows."""

PARTS = 'left', 'right', 'source', 'body'


def column(name, kind):
    """A column as an expression."""
    return 'column', kind, name, name


def zero(kind):
    """The zero of a kind."""
    return 'CAST', kind, ('literal', 'text8', 0, "''") if kind[0] == 't' else ('literal', 'u64', 0, '0')


def mark(bit):
    """A column of one bit."""
    return 'CAST', 'u1', ('literal', 'u64', bit, str(bit))


def select(source, items=None, frames=None, part=None, filter_=None):
    """A select of items (name, expression), or of frames (name, sort, expression, condition, back)."""
    columns = [(item[0], item[1 if items else 2][1]) for item in items or frames]
    return {
        'sort': 'select',
        'source': source,
        'items': items,
        'totals': None,
        'frames': frames,
        'part': part,
        'filter': filter_,
        'window': None,
        'group': None,
        'body': None,
        'columns': columns,
        'closing': False,
    }


def marks(taken):
    """Two names that no column has."""
    free = (f'm{at}' for at in range(len(taken) + 2))
    return [name for name in free if name not in taken][:2]


def apart(query):
    """An as-of join as frames by key, and of these the rows for rows of the left side."""
    left, right, key = query['left'], query['right'], query['by'][0]
    beside = [it for it in right['columns'] if it[0] != key]
    of_right, of_left = marks(dict(query['columns']))
    rights = select(
        right,
        [(name, column(name, kind) if name == key else zero(kind)) for name, kind in left['columns']]
        + [(name, column(name, kind)) for name, kind in beside]
        + [(of_right, mark(1)), (of_left, mark(0))],
    )
    lefts = select(
        left,
        [(name, column(name, kind)) for name, kind in left['columns']]
        + [(name, zero(kind)) for name, kind in beside]
        + [(of_right, mark(0)), (of_left, mark(1))],
    )
    both = {'sort': 'ARRIVAL', 'left': rights, 'right': lefts, 'columns': rights['columns'], 'closing': False}
    framed = select(
        both,
        frames=[(name, 'own', column(name, kind), None, None) for name, kind in left['columns']]
        + [(name, 'last_value', column(name, kind), column(of_right, 'u1'), None) for name, kind in beside]
        + [(of_left, 'own', column(of_left, 'u1'), None, None)],
        part=query['by'],
    )
    return select(
        framed, [(name, column(name, kind)) for name, kind in query['columns']], filter_=column(of_left, 'u1')
    )


def expanded(query):
    """A query in which no ASOF stands, with the same columns."""
    query = query | {part: expanded(query[part]) for part in PARTS if query.get(part)}
    return apart(query) if query['sort'] == 'ASOF' else query
