"""When the rows of a query that arrives leave, and when it tells of a further key: from docs/FIGURES.md and
docs/MODULE.md alone.

All cycles count from that of a row's beat. Each source that a query reads has a cycle of its own behind a beat, by its
number in `come` of checks/meaning.py. What is said of a source's rows is said of source 0; those of source k are k
cycles later.
"""
from common import width_of
from meaning import come, first_places, framed, kept, readers


def depth_of(expression):
    """The levels of operations of an expression."""
    sort, _, *parts = expression
    return 0 if sort in ('column', 'literal', 'parameter') else 1 + max(map(depth_of, parts))


def depth_of_condition(expression):
    """The levels of a condition, or of none; an operation of its own looks at a literal or a parameter alone."""
    return max(depth_of(expression), expression[0] in ('literal', 'parameter')) if expression else 0


def delay_of(item):
    """The cycles from the arguments of an item of a select of frames to its value."""
    _, sort, expression, condition, back = item
    if sort in ('own', 'lag', 'last_value') or sort == 'count' and condition is None or back is None and sort != 'avg':
        return 1
    if sort in ('min', 'max'):
        return 2 * back.bit_length() + 1
    if sort != 'avg':
        return 3
    width = width_of(expression[1])
    return width + (34 if back is None else (back + 1).bit_length() + 4)


def look_up(width, most):
    """The cycles until the slot of a key of so many bits is known, for so many slots."""
    return 3 if width <= 10 else 2 if most <= 64 else (width + 1) // 2


def look_up_of(query):
    """The same of an as-of join, or of a select of frames with PARTITION."""
    of, (key, most) = ('left', query['by']) if query['sort'] == 'ASOF' else ('source', query['part'])
    return look_up(width_of(dict(query[of]['columns'])[key]), most)


def in_turn(first, second):
    """When rows leave of two sides that take turns: those of the first side come in the cycles before the second's."""
    return max(early_of(first), early_of(second) - readers(first)) + 1


def early_before(query):
    """When rows come to the frames of an as-of join, or to the items of a select."""
    if query['sort'] == 'ASOF':
        return in_turn(query['right'], query['left'])
    parts = [item[1] for item in query['items'] or []] + [item[2] for item in query['frames'] or []]
    conditions = [query['filter']] + [item[3] for item in query['frames'] or []]
    levels = [depth_of(it) for it in parts if it] + [depth_of_condition(it) for it in conditions]
    return early_of(query['source']) + max(levels) + bool(query['filter'])


def early_of(query):
    """The figure a of a query that arrives: a row leaves the module in the cycle behind it."""
    sort = query['sort']
    if sort == 'read':
        return 0
    if sort == 'ARRIVAL':
        return in_turn(query['left'], query['right'])
    if sort == 'ASOF':
        return early_before(query) + look_up_of(query) + 3
    delays = [delay_of(item) for item in query['frames'] or []]
    return early_before(query) + max(delays, default=0) + (look_up_of(query) + 1 if query['part'] else 0)


def figures_of(query):
    """The seven figures of a query that arrives."""
    early, many = early_of(query), readers(query)
    return [early, early + many - 1, early + many - 1, many, many, many, many]


def further(query, sources, clock):
    """The first row of a further key at this part of a query, or None."""
    if query['sort'] == 'ASOF':
        right = come(query['right'], sources, clock)[1]
        left = come(query['left'], sources, clock, readers(query['right']))[1]
        firsts = sorted(first_places(query, left, right).values())[query['by'][1] :]
        return (right, left)[firsts[0][1]][firsts[0][2]] if firsts else None
    found = kept(query, come(query['source'], sources, clock)[1])
    made = framed(query, [name for name, _ in query['source']['columns']], [it.row for it in found])[1]
    return next((it for it, row in zip(found, made) if row is None), None)


def further_at(query, sources, clock):
    """The cycle in which a query that arrives first tells of a further key, at whichever of its parts, or None."""
    parts = [query[side] for side in ('left', 'right', 'source') if query.get(side)]
    cycles = [further_at(part, sources, clock) for part in parts]
    if query['sort'] == 'ASOF' or query.get('part'):
        row = further(query, sources, clock)
        cycles += [row.place + row.reader + early_before(query) + look_up_of(query) + 1] if row else []
    return min((cycle for cycle in cycles if cycle is not None), default=None)
