"""Random queries under Icarus with registers and memories unknown at the start, beside `run` of the program. Slots by key
alone have contents (docs/MODULE.md).

Of each case the schema, the query or several of them, and the tuple file are drawn from the seed and the case's number.
The module stands in a testbench of its own, which resets it for one cycle or two. In half of the cases it begins with a
part of the file, and resets it once more. What it then prints must be the lines of `run` (of `manyrun`, where there are
several queries) with every bit known. From the edge of the first reset on, the lines of valid, of the end and of the
faults must be known in each cycle. With unknown inputs each case runs once more, with the columns of a stream unknown
in all cycles without a tuple on it, those of a reset too. Many cases share one compilation by Icarus.
"""
import collections
import concurrent.futures
import csv
import functools
import io
import itertools
import random
import re
import tempfile

from cases import Case, called, schema_text, statements_of, tuples_text, written
from common import contents_of, ended, has_tick, inputs_of, width_of, word_of
from drawing import Maker, may_have_spare, weight_of
from meaning import forms_of, query_text

WEIGHTS = 3, 5, 8, 16  # the most of a query, by weight_of
WORK = 1000000  # about a file's cycles, times the bytes of the module
CYCLES = 25, 1000  # the fewest and the most of a file, about
BATCH = 16  # cases in one compilation
MARGIN = 20  # cycles that a testbench goes on behind the last line of `run`
SORTS = ('groups', 'groups', 'spare', 'keyed', 'times', 'union', 'concat', 'arrival', 'asof', 'frames', 'lists')
WANTED = {'keyed': 'windows of each key', 'times': 'windows of time', 'union': 'UNION', 'concat': 'CONCAT'}
WANTED |= {'arrival': 'UNION BY ARRIVAL', 'asof': 'ASOF', 'frames': 'frames'}
LIMIT = 'refused by limit'
TOLD = 20  # differences that are printed; the others are counted
LINES = ('out', 'valid'), ('out', 'eos'), ('fault', 'group'), ('fault', 'queue')
Drawn = collections.namedtuple('Drawn', 'number cases text beats end want design names resets')


# ---- what is drawn


def query_of(maker, draw, sort):
    """A query of a sort that weighs little enough: most modules are small, since `run` reads each whole."""
    most = draw.choice(WEIGHTS)
    queries = iter(lambda: maker.query(maker.schema, draw.choice([1, 1, 2, 2, 3])), None)
    return next(
        it
        for it in queries
        if weight_of(it) <= most
        and (may_have_spare(it) or sort != 'spare')
        and (sort not in WANTED or WANTED[sort] in forms_of(it))
    )


def drawn(program, seed, room, number):
    """A case with what the program says of it, or a refusal's line."""
    draw = random.Random(f'{seed} {number} unknown')
    sort = draw.choice(SORTS)
    signed, ticks = draw.random() < 0.4, draw.random() < 0.3
    keyed, frames, arrival, asof = (sort == it for it in ('keyed', 'frames', 'arrival', 'asof'))
    maker = Maker(draw, True, signed, ticks, sort == 'times', keyed, frames, arrival, asof, draw.random() < 0.3)
    query = query_of(maker, draw, sort)
    if sort == 'lists':
        statements, text = statements_of(maker, draw, query, draw.randint(2, 8), max(WEIGHTS))
    else:
        statements = [(query, maker.names(1)[0])]
        text = f'{query_text(query)} INTO {statements[0][1]}\n'
    cases = [Case(maker.schema, it, into, [], maker.sets) for it, into in statements]
    figures, runs, compiles = [('figures', 'run', 'compile'), ('manyfigures', 'manyrun', 'many')][sort == 'lists']
    written(f'{room}/schema.txt', schema_text(maker.schema, maker.sets))
    written(f'{room}/query.txt', text)
    status, out, notes = called(program, room, figures, 'schema.txt', 'query.txt')
    if status == 9 and notes.startswith('limit: '):
        return LIMIT
    if status:
        return f'case {number}: {figures}: status {status}, {notes}\n{schema_text(maker.schema, maker.sets)}{text}'
    gap, *ticks = (int(it) for it in re.findall(r'^(?:gap|ticks) (\d+)$', out, re.M))
    compiled, design, more = called(program, room, compiles, 'schema.txt', 'query.txt')
    cycles = min(CYCLES[1], max(CYCLES[0], WORK // max(1, len(design))))
    beats, end = maker.tuples(gap, max(1, min(40, cycles // gap)), *ticks)
    written(f'{room}/tuples.csv', tuples_text(maker.schema, maker.sets, beats, end))
    status, want, notes = called(program, room, runs, 'schema.txt', 'query.txt', 'tuples.csv')
    if status or compiled:
        return f'case {number}: status {status} and {compiled}, {notes}{more}\n{schema_text(maker.schema, maker.sets)}{text}'
    names = sorted(set().union(*(forms_of(case.query) for case in cases)))
    names += (
        ['parameters'] * (':' in text)
        + [f'drawn as {sort}']
        + ['GROUPS 1'] * ('GROUPS 1 ' in f'{text} ')
        + ['ticks'] * has_tick(design)
    )
    return Drawn(number, cases, text, beats, end, want, design, names, resets_of(draw, beats, gap))


def resets_of(draw, beats, gap):
    """The cycles of the first reset, those of the file in front of a second one, and the cycles of that."""
    again = draw.random() < 0.5
    last = (beats[-1][0] if beats else 0) + draw.randint(0, 3 * gap)
    return draw.choice([1, 1, 2]), draw.randint(1, last + 1) if again else 0, draw.choice([1, 1, 2, 3]) * again


# ---- the lines that are wanted


def lines_of(drawn):
    """The lines of `run` for each result: the cycle, what it is, and the words as bits, all of them known."""
    several = len(drawn.cases) > 1 or 'q__many' in drawn.design
    names = [case.into for case in drawn.cases]
    out = [[] for _ in names]
    for line in csv.reader(io.StringIO(drawn.want, newline='')):
        at = names.index(line.pop(1)) if several else 0
        out[at].append(line)
    return [told(its, [kind for _, kind in case.query['columns']]) for its, case in zip(out, drawn.cases)]


def told(lines, kinds):
    """The lines of one result: the last is its end, also where a row's only value is that word."""
    out = []
    for cycle, *values in lines[:-1]:
        if values == ['overflow']:
            out.append(f'{cycle} overflow 1')
            continue
        words = [f'{word_of(it, kind):0{width_of(kind)}b}' for it, kind in zip(values, kinds)]
        out.append(' '.join([cycle, 'row 1', *words]))
    return out + [f'{lines[-1][0]} end 1']


# ---- a testbench


def shown_by(number, at, result, columns):
    """What a testbench does with the lines of a result: every bit that is not 0 shows, so an unknown one does too."""
    out, fault, form = f'out__{result}', f'fault__{result}', ' %b' * len(columns)
    show = f'$display("{number} {at} %0d'
    return [
        f'if ({fault}group !== 0 && !told[{at}]) begin',
        f'told[{at}] = 1; {show} overflow %b", cycle, {fault}group);',
        'end',
        f'if ({out}valid !== 0) {show} row %b{form}", {", ".join(["cycle", f"{out}valid", *columns])});',
        f'if ({fault}queue !== 0) {show} queue %b", cycle, {fault}queue);',
        f'if ({out}eos !== 0) begin stopped[{at}] = 1; {show} end %b", cycle, {out}eos); end',
    ]


def lives_of(drawn, last):
    """The cycles of a testbench that set inputs: what each is, and its records. The file's cycle 0 is the one behind
    the last reset."""
    first, life, second = drawn.resets
    beats = dict(drawn.beats)
    end = (drawn.beats[-1][0] if drawn.beats else 0) if drawn.end is None else drawn.end
    begin = first + life + second
    cycles = {at: ('reset', []) for at in [*range(first), *range(first + life, begin)]}
    for base, until in ((first, life), (begin, last + MARGIN)):
        for at in sorted({*beats, end}):
            if at < until:
                cycles[base + at] = ('end' if at == end else 'beat', beats.get(at, []))
    return cycles


def idle_of(schema, ticks, unknown):
    """The statements that set the inputs of a cycle without a beat. Where `unknown`, all columns are x."""
    plain = {f'in__{stream}__valid' for stream, _ in schema} | {'tick'}
    return [
        f"{name} = {{{width}{{1'b{'x' if unknown and name not in plain else 0}}}}};"
        for name, width in inputs_of(schema, ticks)
    ]


def cases_of(drawn, schema, last, ticks, idle):
    """The branches that set the inputs of each cycle with a beat, a reset or an end."""
    for at, (what, records) in sorted(lives_of(drawn, last).items()):
        sets = ['rst = 1;'] * (what == 'reset') + ['eos = 1;'] * (what == 'end')
        for stream, words in records:
            if stream == 'tick':
                sets += ['tick = 1;'] * ticks
                continue
            sets.append(f'in__{stream}__valid = 1;')
            sets += [
                f"in__{stream}__{column} = {width_of(kind)}'d{word};"
                for (column, kind), word in zip(schema[stream], words)
            ]
        yield f'{at}: begin {" ".join(sets)} end'


def bench(drawn, want, unknown):
    """The testbench of a case around its module. Where `unknown`, the columns of a stream are x while its valid is 0,
    and the testbench's name and lines end in `x`."""
    number = f"{drawn.number}{'x' * unknown}"
    outs = re.findall(r'output wire (?:\[(\d+):0\] )?((?:out|fault)__\w+)', drawn.design)
    results = [f'{case.into}__' for case in drawn.cases] if 'module q__many(' in drawn.design else ['']
    steering = [f'{front}__{result}{it}' for result in results for front, it in LINES]
    ticks, schema, begin = has_tick(drawn.design), drawn.cases[0].schema, sum(drawn.resets)
    inputs, idle = inputs_of(schema.items(), ticks), idle_of(schema.items(), ticks, unknown)
    last = max(int(lines[-1].split()[0]) for lines in want if lines)
    sets = [(f'set__{name}', width_of(kind), word) for name, (kind, word) in drawn.cases[0].sets.items()]
    ports = ['clk', 'rst', 'eos', *(it[0] for it in [*inputs, *sets]), *(name for _, name in outs)]
    lines = [f'module bench{number};', 'reg clk = 0, rst = 1, eos = 0, done = 0;']
    lines += [f'integer at = 0, cycle = {-begin};']
    lines += [f'reg [{width - 1}:0] {name};' for name, width in inputs]
    lines += [f"wire [{width - 1}:0] {name} = {width}'d{word};" for name, width, word in sets]
    lines += [f'wire [{width or 0}:0] {name};' for width, name in outs]
    lines += [f'reg [{len(results) - 1}:0] told = 0, stopped = 0;']
    lines += [f'unit{drawn.number} unit(' + ', '.join(f'.{name}({name})' for name in ports) + ');']
    lines += [
        *contents_of(drawn.design),
        'initial begin',
        *idle,
        'while (!done) #5 clk = ~clk;',
        'end',
        'always @(negedge clk) if (at > 0) begin',
    ]
    lines += [f"if (^{{{', '.join(steering)}}} === 1'bx) $display(\"{number} unknown %0d\", cycle);"]
    lines += ['if (cycle >= 0) begin']
    for at, result in enumerate(results):
        columns = [name for _, name in outs if name.startswith(f'out__{result}') and name not in steering]
        lines += [f'if (!stopped[{at}]) begin', *shown_by(number, at, result, columns), 'end']
    lines += ['end', f'if (&stopped || cycle > {last + MARGIN}) done = 1;', 'end']
    lines += ['always @(posedge clk) #1 begin', 'at = at + 1; cycle = cycle + 1; rst = 0; eos = 0;', *idle, 'case (at)']
    lines += cases_of(drawn, schema, last, ticks, idle)
    return '\n'.join([*lines, 'default: ;', 'endcase', 'end', 'endmodule', ''])


# ---- running and judging


def told_of(drawn, want, came, unknown):
    """All that a difference is about."""
    lines = [f"== case {drawn.number}{', columns unknown' * unknown}: resets {drawn.resets}"]
    first = drawn.cases[0]
    lines += [schema_text(first.schema, first.sets) + drawn.text]
    lines += ['-- tuples', tuples_text(first.schema, first.sets, drawn.beats, drawn.end), '-- wanted, came']
    for at, its in enumerate(want):
        own = [line.split(' ', 1)[1] for line in came if line.startswith(f'{at} ')]
        lines += [f'{at} {"=" if a == b else "!"} {a} | {b}' for a, b in itertools.zip_longest(its, own)]
    return '\n'.join(lines + [it for it in came if it.startswith('unknown')][:3]) + '\n'


def simulated(room, all_, wants, modes):
    """The lines of all testbenches by the testbench, and None; or what Icarus says where it refuses them."""
    units = [re.sub(r'^module \w+\(', f'module unit{it.number}(', it.design, flags=re.M) for it in all_]
    benches = [bench(it, want, unknown) for it, want in zip(all_, wants) for unknown in modes]
    tops = [word for text in benches for word in ('-s', re.match(r'module (\w+)', text).group(1))]
    written(f'{room}/benches.v', '\n'.join(units + benches))
    built = ended(['iverilog', '-g2005', *tops, '-o', f'{room}/a.vvp', f'{room}/benches.v'])
    came = collections.defaultdict(list)
    for line in [] if built.returncode else ended(['vvp', '-n', f'{room}/a.vvp']).stdout.splitlines():
        number, _, rest = line.partition(' ')
        came[number].append(rest)
    return came, built.stdout if built.returncode else None


def batch(program, seed, unknown_inputs, numbers):
    """What some cases come to, in one compilation: of each what stands in it, and the texts of its differences in each
    mode, None where there is none."""
    modes = [False, True][: 1 + unknown_inputs]
    with tempfile.TemporaryDirectory() as room:
        all_ = [drawn(program, seed, room, number) for number in numbers]
        out = [(['refused'], [it]) for it in all_ if isinstance(it, str) and it != LIMIT]
        out += [([LIMIT], [None]) for it in all_ if it == LIMIT]
        all_ = [it for it in all_ if not isinstance(it, str)]
        wants = [lines_of(it) for it in all_]
        came, refused = simulated(room, all_, wants, modes) if all_ else ({}, None)
        if refused is not None:
            return out + [(it.names, [f'== case {it.number}: Icarus refuses its batch\n{refused}']) for it in all_]
        for it, want in zip(all_, wants):
            names = it.names + ['two resets'] * (it.resets[2] > 0)
            out.append((names, [judged(it, want, came[f"{it.number}{'x' * mode}"], mode) for mode in modes]))
        return out


def judged(drawn, want, came, unknown):
    """The text of a difference, or None."""
    own = [[line.split(' ', 1)[1] for line in came if line.startswith(f'{at} ')] for at in range(len(want))]
    same = own == want and sum(map(len, own)) == len(came)
    return None if same else told_of(drawn, want, came, unknown)


def randomly(program, asked):
    """Runs the cases that are asked for, prints what differs and a line of counts, and gives the number of
    differences."""
    numbers = range(asked.random) if asked.only is None else [asked.only]
    batches = [numbers[at : at + BATCH] for at in range(0, len(numbers), BATCH)]
    call = functools.partial(batch, program, asked.seed, asked.unknown_inputs)
    forms, wrong, many = collections.Counter(), collections.Counter(), 0
    with concurrent.futures.ProcessPoolExecutor(asked.jobs) as pool:
        for names, texts in itertools.chain.from_iterable(pool.map(call, batches)):
            forms.update(names)
            many += 1
            wrong.update(mode for mode, text in enumerate(texts) if text is not None)
            if sum(wrong.values()) <= TOLD:
                print(''.join(f'{text}\n' for text in texts if text is not None), end='', flush=True)
    counts = ', '.join(f'{name} {times}' for name, times in sorted(forms.items()))
    more = f', {wrong[1]} with unknown columns' * asked.unknown_inputs
    print(f'{many} cases, {wrong[0]} differences{more}: {counts}')
    return sum(wrong.values())
