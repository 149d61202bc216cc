"""The text of a wrapper with AXI4-Stream ports around a module: what tools/axis writes."""
import collections
import re
import sys
import tempfile

from common import (
    command_of,
    compiled,
    ended,
    has_tick,
    parameters_of,
    ports_of,
    refused,
    results_of,
    schema_of,
    statements_of,
    text_of,
    width_of,
)
from registers import declared, lite_ports, register_file

# A stream of the schema: what stands in front of its lines, its name, and its columns with their widths.
Side = collections.namedtuple('Side', 'line stream columns')

# A result: what stands in front of its lines, what stands behind `out__` in those of the module, its columns with their
# widths; the rows that a beat can cause, those that the end can, and the last cycle in which a beat's can leave; the
# places of its FIFO, and how many of them are kept for rows of beats that were let in.
Result = collections.namedtuple('Result', 'line front columns rows end_rows last depth kept')

# A module behind its wrapper: its name, the sides, whether it has ticks, its gap, the distance of ticks where it is
# more than that, the cycles between two beats and those between the last of them and the end, the results, the
# ports of the parameters with their widths, and whether registers behind AXI4-Lite hold these.
Plan = collections.namedtuple('Plan', 'module sides ticks gap calm pace rest results sets lite')


def bytes_of(columns):
    """The bytes of a transfer: each column in whole ones."""
    return sum(-(-width // 8) for _, width in columns)


def places_of(columns):
    """Each column with the lowest bit of its place in a transfer, and its width."""
    at = 0
    for name, width in columns:
        yield name, at, width
        at += 8 * -(-width // 8)


def bits_for(most):
    """The bits of a counter up to a number."""
    return max(1, most.bit_length())


# ---- how long beats are apart, and how deep FIFOs are


def kept_of(rows, last, pace):
    """The places for rows of beats that a FIFO's count does not tell of yet.

    A beat is taken in cycle t. The module has it in t + 1, and its last row is written in t + 2 + last at the latest.
    The count that t was decided by is that of t - 2: a register says whether there is room, and one that beats are
    taken. So these places are for the beats of last + 5 cycles; and one row at most leaves in a cycle.
    """
    return min(rows * -(-(last + 5) // pace), last + 5) if rows else 0


def depth_for(rows, end_rows, last, gap):
    """The depth with which a reader that is never busy slows nothing: a power of two."""
    least = max(kept_of(rows, last, gap) + 4, end_rows + 1, 16)
    return 1 << (least - 1).bit_length()


def pace_for(figures, depths, gap):
    """The cycles between two beats, with which each FIFO has room for what they cause: the gap, or more where a FIFO is
    small."""
    pace = gap
    while any(kept_of(rows, last, pace) > max(rows, depth - 2) for (rows, _, last), depth in zip(figures, depths)):
        pace += 1
    return pace


# ---- the plan of a wrapper


def sides_of(schema):
    """The inputs: a name for each stream in front of its lines."""
    one = len(schema) == 1
    return [
        Side('s_axis' if one else f's_axis_{stream}', stream, [(column, width_of(kind)) for column, kind in columns])
        for stream, columns in schema
    ]


def figures_of(program, schema, statements):
    """Of each query the rows that a beat can cause, those that the end can, and the last cycle in which a beat's can
    leave the root: `nt`, `ne` and `lt` of explain."""
    figures = []
    with tempfile.TemporaryDirectory() as room:
        for statement in statements:
            with open(f'{room}/query.txt', 'w', encoding='utf8') as file:
                file.write(statement)
            said = ended([program, 'explain', schema, f'{room}/query.txt']).stdout
            root = re.search(r'^root (p\d+)$', said, re.M)[1]
            numbers = re.search(rf'^{root} .* : ([\d ]+)$', said, re.M)[1].split()
            figures.append((int(numbers[3]), int(numbers[4]), int(numbers[1])))
    return figures


def depths_of(figures, names, gap, asked):
    """The places of each result's FIFO."""
    if asked is None:
        return [depth_for(*it, gap) for it in figures]
    least, name, rows, end_rows = max((max(it[0], it[1] + 1), name, *it[:2]) for it, name in zip(figures, names))
    if asked < least:
        sys.exit(
            f'--depth {asked} is too small: of {name} one tuple or tick can cause {rows} rows, and the end {end_rows} '
            f'and a transfer of its own, so it takes {least} places'
        )
    return [1 << max(2, (asked - 1).bit_length())] * len(figures)


def planned(plan, depth=None):
    """The plan with FIFOs of a depth, or of that with which a reader that is always ready slows nothing."""
    figures = [(it.rows, it.end_rows, it.last) for it in plan.results]
    depths = depths_of(figures, [it.line for it in plan.results], plan.gap, depth)
    pace = pace_for(figures, depths, plan.gap)
    rest = max(pace, *(it.last + 4 for it in plan.results if it.rows), 1)
    results = [
        it._replace(depth=places, kept=kept_of(it.rows, it.last, pace)) for it, places in zip(plan.results, depths)
    ]
    return plan._replace(pace=pace, rest=rest, results=results)


def plan_of(program, files, depth=None, room=None, lite=False):
    """How the wrapper of a query is laid out, and the text of its module; the module alone stays in the room."""
    command = command_of(files[1])
    design, text = compiled(program, files, room, command)
    if design is None:
        refused(text, command, files)
    schema, statements = schema_of(text_of(files[0])), statements_of(text_of(files[1]))
    sets = [(f'set__{name}', width_of(kind)) for name, kind in parameters_of(text_of(files[0]))]
    if lite and not sets:
        sys.exit(f'{files[0]}: it has no parameters, so there is nothing that registers could hold')
    said = ended([program, 'figures' if command == 'compile' else 'manyfigures', *files]).stdout
    gap, *ticks = (int(it) for it in re.findall(r'^(?:gap|ticks) (\d+)$', said, re.M))
    results = [
        Result('m_axis' + f'_{front[:-2]}' * bool(front), front, columns, *it, 0, 0)
        for (front, columns), it in zip(results_of(text), figures_of(program, files[0], statements))
    ]
    calm = ticks[0] if ticks and ticks[0] > gap else None
    plan = Plan(ports_of(text)[0], sides_of(schema), has_tick(text), gap, calm, gap, gap, results, sets, lite)
    return planned(plan, depth), text


# ---- the text


def ports(plan):
    """The ports of the wrapper."""
    yield from ('input wire aclk', 'input wire aresetn')
    for line, _, columns in plan.sides:
        yield from (f'input wire {line}_tvalid', f'output wire {line}_tready')
        yield f'input wire [{8 * bytes_of(columns) - 1}:0] {line}_tdata'
        if len(plan.sides) == 1:
            yield from (f'input wire [{bytes_of(columns) - 1}:0] {line}_tkeep', f'input wire {line}_tlast')
    if len(plan.sides) > 1:
        yield from ('input wire s_axis_end_tvalid', 'output wire s_axis_end_tready')
    yield from ['input wire tick'] * plan.ticks
    if plan.lite:
        yield from (declared(way, bits, f's_axil_{name}') for way, bits, name in lite_ports(plan.sets))
    else:
        yield from (f'input wire [{width - 1}:0] {name}' for name, width in plan.sets)
    for it in plan.results:
        yield from (f'output reg {it.line}_tvalid', f'input wire {it.line}_tready')
        yield f'output wire [{8 * bytes_of(it.columns) - 1}:0] {it.line}_tdata'
        yield f'output wire [{bytes_of(it.columns) - 1}:0] {it.line}_tkeep'
        yield from (f'output wire {it.line}_tlast', f'output wire {it.line}_tuser')
    yield from ('output reg overflow', 'output reg queue', 'output reg lost')


def entry(plan):
    """What is taken, in registers in front of the module: nothing is on an input where nothing is taken."""
    one = len(plan.sides) == 1
    for line, stream, columns in plan.sides:
        keep = f' && {line}_tkeep[0]' if one else ''
        yield f'wire take__{stream} = aresetn && ready && {line}_tvalid{keep};'
        yield f'reg valid__{stream};' + ''.join(f' reg [{width - 1}:0] {stream}__{name};' for name, width in columns)
        yield 'always @(posedge aclk) begin'
        yield f'    valid__{stream} <= take__{stream}{f" || (aresetn && held && valid__{stream})" if plan.calm else ""};'
        for name, at, width in places_of(columns):
            stays = f'aresetn && held ? {stream}__{name} : ' if plan.calm else ''
            yield f"    {stream}__{name} <= {stays}take__{stream} ? {line}_tdata[{at + width - 1}:{at}] : {width}'d0;"
        yield 'end'
        yield f'assign {line}_tready = ready;'
    if not one:
        yield 'assign s_axis_end_tready = ready;'
    offered = ' || '.join([f'{line}_tvalid' for line, _, _ in plan.sides] + ['s_axis_end_tvalid'] * (not one))
    yield f'wire last = ready && {"s_axis_tvalid && s_axis_tlast" if one else "s_axis_end_tvalid"};'
    yield f'wire beat = ready && ({offered}){" || ticked" if plan.ticks else ""};'
    if plan.calm:
        yield f'assign holds = held ? !ticked : ready && ({offered}) && tick && !ticked;'


def ticking(plan):
    """Ticks: in front of what is taken in their cycle, or counted. One that waits goes alone, and while one waits
    nothing is taken."""
    if plan.calm:
        yield from calming(plan.calm)
    yield from (
        'reg [31:0] waiting; reg waits; reg tick_in;',
        f'wire ticked = open && {"calm && " if plan.calm else ""}(waits || tick);',
        "wire still = aresetn && (tick == ticked ? waits : tick || waiting != 32'd1);",
        'always @(posedge aclk) begin',
        '    waits <= still;',
        "    waiting <= aresetn ? waiting + {31'd0, tick} - {31'd0, ticked} : 32'd0;",
        '    tick_in <= aresetn && ticked;',
        'end',
    )


def calming(cycles):
    """Whether the distance of ticks has run since the last one, for the next and for the end; and whether what was
    transferred in the cycle of a tick that waits is held until that tick goes."""
    bits = bits_for(cycles)
    yield from (
        f'reg calm; reg held; reg [{bits - 1}:0] hush; wire holds;',
        'always @(posedge aclk) begin',
        '    held <= aresetn && holds;',
        f"    hush <= off ? {bits}'d0 : ticked ? {bits}'d{cycles - 1} : hush == {bits}'d0 ? {bits}'d0 : hush - {bits}'d1;",
        f"    calm <= off || (!ticked && hush <= {bits}'d1);",
        'end',
    )


def steering(plan):
    """When a beat is taken, the end, and the reset behind the result's end."""
    bits, rest = bits_for(plan.rest), plan.rest
    spaced = "1'd1" if plan.pace == 1 else f"!beat && pause <= {bits}'d{rest - plan.pace + 1}"
    rooms = ''.join(f' && {it.line}_room' for it in plan.results if it.kept)
    ends = ''.join(f' && {it.line}_end_room' for it in plan.results)
    yield f'wire spaced = {spaced};'
    more = '!shut && !last'
    yield f'wire opens = !off && {f"(holds || ({more}))" if plan.calm else more} && spaced{rooms};'
    yield f'wire close = ending && rested{" && calm && !held" if plan.calm else ""}{ends};'
    yield from (
        'always @(posedge aclk) begin',
        '    open <= opens;',
        f'    ready <= opens{" && !still" if plan.ticks else ""}{" && !holds" if plan.calm else ""};',
        f"    pause <= off ? {bits}'d0 : beat ? {bits}'d{rest - 1}",
        f"        : pause == {bits}'d0 ? {bits}'d0 : pause - {bits}'d1;",
        f"    rested <= {'' if rest == 1 else '!beat && '}pause <= {bits}'d1;",
        '    shut <= !off && (shut || last);',
        '    ending <= !off && (ending || last) && !close;',
        '    eos <= aresetn && close;',
    )
    yield from ('    rst <= resets;', 'end')


def holding(plan):
    """The registers of the parameters: what was written is taken in the cycle before the module's reset, which lasts
    until each parameter has been written."""
    yield from (f'wire [{width - 1}:0] {name};' for name, width in plan.sets)
    names = ['aclk', 'aresetn'] + [name for name, _ in plan.sets]
    lines = [f'.{name}({name})' for name in names] + ['.take(resets)', '.complete(complete)']
    lines += [f'.{name}(s_axil_{name})' for _, _, name in lite_ports(plan.sets)]
    yield from (
        f'registers__{plan.module.removeprefix("q__")} registers(',
        ',\n'.join(f'    {it}' for it in lines),
        ');',
    )


def told(plan, line):
    """Whether a line of the module is 1 for some result."""
    return ' || '.join(f'{it.line}_{line}' for it in plan.results)


def exit_of(it):
    """A result's FIFO: words in a memory, and one in front of it in registers."""
    line, bits, width = it.line, bits_for(it.depth - 1), sum(width for _, width in it.columns) + 3
    one, push, fetch = f"{bits + 1}'d1", f"{{{bits}'d0, {line}_push}}", f"{{{bits}'d0, {line}_fetch}}"
    room, end_room = (f"{bits + 1}'d{it.depth - places}" for places in (it.kept, it.end_rows + 1))
    yield from (
        f'reg [{width - 1}:0] {line}_words [0:{it.depth - 1}]; reg [{width - 1}:0] {line}_head;',
        f'reg [{bits - 1}:0] {line}_put; reg [{bits - 1}:0] {line}_get; reg [{bits}:0] {line}_stored;',
        f'reg {line}_some; reg {line}_room; reg {line}_end_room; reg {line}_done;',
        f'wire {line}_push = !rst && ({line}_row || {line}_eos);',
        f'wire {line}_fetch = {line}_some && (!{line}_tvalid || {line}_tready);',
        'always @(posedge aclk) begin',
        f'    if ({line}_push) {line}_words[{line}_put] <= {{{line}_eos, {line}_group, {line}_row, {line}_data}};',
        f'    if ({line}_fetch) {line}_head <= {line}_words[{line}_get];',
        f"    {line}_put <= aresetn ? {line}_put + {{{bits - 1}'d0, {line}_push}} : {bits}'d0;",
        f"    {line}_get <= aresetn ? {line}_get + {{{bits - 1}'d0, {line}_fetch}} : {bits}'d0;",
        f"    {line}_stored <= aresetn ? {line}_stored + {push} - {fetch} : {bits + 1}'d0;",
        f'    {line}_some <= aresetn && ({line}_push || ({line}_fetch ? {line}_stored != {one} : {line}_some));',
        f"    {line}_tvalid <= aresetn && ({line}_fetch || ({line}_tvalid && !{line}_tready));",
        f'    {line}_room <= {line}_stored <= {room};',
        f'    {line}_end_room <= {line}_stored <= {end_room};',
        f"    {line}_done <= !off && ({line}_done || {line}_eos);",
        'end',
        f'assign {{{line}_tlast, {line}_tuser}} = {line}_head[{width - 1}:{width - 2}];',
        f'assign {line}_tkeep = {{{bytes_of(it.columns)}{{{line}_head[{width - 3}]}}}};',
    )
    at = 0
    for _, place, bits in places_of(it.columns):
        whole, word = 8 * -(-bits // 8), f'{line}_head[{at + bits - 1}:{at}]'
        padded = f"{{{whole - bits}'d0, {word}}}" if whole > bits else word
        yield f'assign {line}_tdata[{place + whole - 1}:{place}] = {padded};'
        at += bits


def connections(plan):
    """The ports of the module."""
    yield from ('.clk(aclk)', '.rst(rst)')
    for _, stream, columns in plan.sides:
        yield f'.in__{stream}__valid(valid__{stream}{" && !held" if plan.calm else ""})'
        yield from (f'.in__{stream}__{name}({stream}__{name})' for name, _ in columns)
    yield from ('.eos(eos)', *['.tick(tick_in)'] * plan.ticks)
    yield from (f'.{name}({name})' for name, _ in plan.sets)
    for it in plan.results:
        yield f'.out__{it.front}valid({it.line}_row)'
        at = 0
        for name, width in it.columns:
            yield f'.out__{it.front}{name}({it.line}_data[{at + width - 1}:{at}])'
            at += width
        yield f'.out__{it.front}eos({it.line}_eos)'
        yield f'.fault__{it.front}group({it.line}_group)'
        yield f'.fault__{it.front}queue({it.line}_queue)'


def layout(columns):
    """Where the columns of a transfer lie, in words."""
    return ', '.join(f'{name} {at + width - 1}:{at}' for name, at, width in places_of(columns))


def heading(plan):
    """What the wrapper does, in comments."""
    calm = f', ticks and the end behind a tick by {plan.calm}' if plan.calm else ''
    yield f'// {plan.module} behind AXI4-Stream: beats are apart by {plan.pace} cycles, the end by {plan.rest}{calm}'
    for it in plan.sides:
        yield f'// {it.line}_tdata: {layout(it.columns)}'
    if plan.lite:
        words = ', '.join(f'{name} at {8 * at}' for at, (name, _) in enumerate(plan.sets))
        yield f'// s_axil: {words}; the state at {8 * len(plan.sets)}'
    for it in plan.results:
        yield f'// {it.line}_tdata: {layout(it.columns)}'
        yield (
            f'// {it.line}: {it.depth} places, {it.kept} of them for beats that were taken; '
            f'at most {it.rows} rows of a beat, in {it.last + 1} cycles, and {it.end_rows} of the end'
        )


def wrapper(plan):
    """The text of the wrapper."""
    lines = [*heading(plan), f'module axis__{plan.module.removeprefix("q__")}(']
    lines += [',\n'.join(f'    {it}' for it in ports(plan)), ');']
    bits = bits_for(plan.rest)
    lines.append(f'reg rst; reg open; reg ready; reg shut; reg ending; reg rested; reg eos; reg [{bits - 1}:0] pause;')
    for it in plan.results:
        lines.append(f'wire {it.line}_row; wire {it.line}_eos; wire {it.line}_group; wire {it.line}_queue;')
        lines.append(f'wire [{sum(width for _, width in it.columns) - 1}:0] {it.line}_data;')
    lines += ['wire off = !aresetn || rst;', *(ticking(plan) if plan.ticks else ()), *entry(plan)]
    for it in plan.results:
        lines += exit_of(it)
    done = ' && '.join(f'{it.line}_done' for it in plan.results)
    if plan.lite:
        lines += [f'wire complete; wire resets = !aresetn || ({done}) || !complete;', *holding(plan)]
    else:
        lines.append(f'wire resets = !aresetn || {done};')
    lines += steering(plan)
    full = ' || '.join(f'({it.line}_push && {it.line}_stored[{bits_for(it.depth - 1)}])' for it in plan.results)
    lines += [
        f'{plan.module} unit(',
        ',\n'.join(f'    {it}' for it in connections(plan)),
        ');',
        'always @(posedge aclk) begin',
        f'    overflow <= aresetn && (overflow || (!rst && ({told(plan, "group")})));',
        f'    queue <= aresetn && (queue || (!rst && ({told(plan, "queue")})));',
        f'    lost <= aresetn && (lost || {full});',
        'end',
        'endmodule',
        *(register_file(f'registers__{plan.module.removeprefix("q__")}', plan.sets) if plan.lite else ()),
        '',
    ]
    return '\n'.join(lines)
