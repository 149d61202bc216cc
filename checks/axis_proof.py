"""The proof half of checks/axis: assertions within a wrapper, a module that gives any rows that its figures allow, and
the solver's run."""
import re
import sys

from axis_registers import ports_of_sets, registers_kept
from common import ended, has_tick, parameters_of, ports_of, results_of, schema_of, width_of

COUNT = 8  # bits of counters: the runs are shorter than 256 cycles


def figures_in(text):
    """The gap, the distance of ticks where there is one, and of each result what the heading of a wrapper says: rows,
    cycles, rows of the end."""
    calm = re.search(r'behind a tick by (\d+)', text)
    told = re.findall(
        r'^// m_axis\w*: .* at most (\d+) rows of a beat, in (\d+) cycles, and (\d+) of the end', text, re.M
    )
    gap = int(re.search(r'apart by (\d+) cycles', text)[1])
    return gap, calm and int(calm[1]), [tuple(map(int, it)) for it in told]


def budget(at, front, columns, figures):
    """The rows of one result: each beat brings a few, which leave in so many cycles or not at all, and the end brings
    some."""
    rows, cycles, end_rows = figures
    slots, bits = [f'slot{at}_{k}' for k in range(cycles)], max(rows, end_rows, 1).bit_length()
    width = sum(width for _, width in columns)
    yield f'(* anyseq *) wire free{at}; (* anyseq *) wire ends{at}; (* anyseq *) wire full{at};'
    yield f'(* anyseq *) wire [{width - 1}:0] data{at};'
    yield f'reg [{bits - 1}:0] {", ".join(slots)}; reg [{bits - 1}:0] left{at}; reg done{at};'
    some = ' || '.join(f"{slot} != {bits}'d0" for slot in slots)
    yield f"wire some{at} = {some}; wire row{at} = free{at} && (some{at} || (ended && left{at} != {bits}'d0));"
    yield f'wire last{at} = ends{at} && ended && !done{at};'
    yield f'assign out__{front}valid = row{at} && !done{at}; assign out__{front}eos = last{at};'
    yield f'assign fault__{front}group = full{at}; assign fault__{front}queue = 1\'d0;'
    low = 0
    for name, columns_bits in columns:
        yield f'assign out__{front}{name} = data{at}[{low + columns_bits - 1}:{low}];'
        low += columns_bits
    yield 'always @(posedge clk) begin'
    yield f"    {slots[0]} <= rst || !beat || eos ? {bits}'d0 : {bits}'d{rows};"
    for k in range(1, cycles):
        older = ' && '.join(
            [f'row{at}', *(f"{slot} == {bits}'d0" for slot in slots[k:]), f"{slots[k - 1]} != {bits}'d0"]
        )
        yield f"    {slots[k]} <= rst ? {bits}'d0 : {older} ? {slots[k - 1]} - {bits}'d1 : {slots[k - 1]};"
    used = f"row{at} && !some{at} ? left{at} - {bits}'d1 : left{at}"
    yield f"    left{at} <= rst ? {bits}'d0 : eos ? {bits}'d{end_rows} : {used};"
    yield f'    done{at} <= !rst && (done{at} || last{at});'
    yield 'end'


def distance_kept(calm):
    """That ticks and the end keep the distance of ticks."""
    yield 'integer quiet;'
    yield f'always @(posedge clk) quiet <= rst ? {calm} : tick ? 1 : quiet < {calm} ? quiet + 1 : quiet;'
    yield f'always @* if (there && !rst) assert (!(tick || eos) || quiet >= {calm});'


def stand_in(text, module, schema, figures):
    """A module with the ports of the real one, which gives any rows that the figures allow, and says that its inputs
    keep the rules."""
    gap, calm, rows = figures
    results, ticks = results_of(text), has_tick(text)
    begins = re.search(r'^module ', text, re.M).start()
    head = text[begins : text.index(');', begins) + 2]
    valids = [f'in__{name}__valid' for name, _ in schema]
    lines = [head, 'reg there = 0; reg ended; integer since;', 'always @(posedge clk) there <= 1;']
    lines += [f'wire beat = {" || ".join([*valids, "eos", *["tick"] * ticks])};']
    lines += ['always @(posedge clk) begin', f'since <= rst ? {gap} : beat ? 1 : since < {gap} ? since + 1 : since;']
    lines += ['ended <= !rst && (ended || eos);', 'end', 'always @* if (there) begin']
    lines += ['assert (!(rst && beat));', 'if (!rst) assert (!(ended && beat));']
    lines += [f'if (!rst) assert (!beat || since >= {gap});', 'end']
    lines += distance_kept(calm) if calm else ()
    for at, ((front, columns), it) in enumerate(zip(results, rows)):
        lines += budget(at, front, columns, it)
    return '\n'.join([*lines, 'endmodule', ''])


def entry_kept(schema, calm):
    """Assertions about what the module sees, or what is held for it behind a tick that waits."""
    one = len(schema) == 1
    for name, columns in schema:
        line = 's_axis' if one else f's_axis_{name}'
        keep = f' && {line}_tkeep[0]' if one else ''
        bits = sum(8 * -(-width_of(kind) // 8) for _, kind in columns)
        yield f'reg was_{name}; reg [{bits - 1}:0] gave_{name};'
        yield 'always @(posedge aclk) begin'
        if calm:
            yield 'if (!(aresetn && held))'
        yield 'begin'
        yield f'was_{name} <= aresetn && {line}_tvalid && {line}_tready{keep}; gave_{name} <= {line}_tdata;'
        yield 'end end'
        yield f'always @* if (there) assert (valid__{name} == was_{name});'
        at = 0
        for column, kind in columns:
            width = width_of(kind)
            given = f'was_{name} ? gave_{name}[{at + width - 1}:{at}] : {width}\'d0'
            yield f'always @* if (there) assert ({name}__{column} == ({given}));'
            at += 8 * -(-width // 8)


def ticks_kept(schema, calm):
    """Assertions about ticks: none is lost, and each tuple is behind those up to its transfer."""
    low = f'[{COUNT - 1}:0]'
    yield f'reg {low} raised = 0, passed = 0, before;'
    yield 'always @(posedge aclk) begin'
    yield 'raised <= aresetn ? raised + tick : 0; passed <= aresetn ? passed + tick_in : 0;'
    yield f'{"if (!(aresetn && held)) " if calm else ""}before <= raised + tick;'
    yield 'end'
    yield f'always @* if (there) assert (raised == passed + tick_in + waiting{low});'
    yield "always @* if (there) assert (waits == (waiting != 32'd0));"
    for name, _ in schema:
        shown = f'valid__{name}{" && !held" if calm else ""}'
        yield f'always @* if (there && {shown}) assert (before == passed + tick_in);'


def exit_kept(line, columns):
    """Assertions about a result: what comes K-th leaves K-th and stays until it is taken, and nothing stays behind."""
    width = sum(width for _, width in columns)
    at, parts = 0, []
    for _, bits in columns:
        parts.insert(0, f'{line}_tdata[{at + bits - 1}:{at}]')
        at += 8 * -(-bits // 8)
    shown = f'{{{line}_tlast, {line}_tuser, {line}_tkeep[0], {", ".join(parts)}}}'
    yield f'(* anyconst *) wire [{COUNT - 1}:0] which_{line}; reg [{COUNT - 1}:0] in_{line}, out_{line};'
    yield f'reg [{width + 2}:0] word_{line}; reg wait_{line}; reg [{width + 2}:0] held_{line};'
    yield f'wire [{width + 2}:0] shown_{line} = {shown};'
    yield 'always @(posedge aclk) begin'
    yield f'if (aresetn && {line}_push && in_{line} == which_{line})'
    yield f'    word_{line} <= {{{line}_eos, {line}_group, {line}_row, {line}_data}};'
    yield f'in_{line} <= aresetn ? in_{line} + {line}_push : 0;'
    yield f'out_{line} <= aresetn ? out_{line} + ({line}_tvalid && {line}_tready) : 0;'
    yield f'wait_{line} <= aresetn && {line}_tvalid && !{line}_tready; held_{line} <= shown_{line};'
    yield 'end'
    yield 'always @* if (there) begin'
    yield f'if ({line}_tvalid && out_{line} == which_{line}) assert (shown_{line} == word_{line});'
    yield f'if ({line}_tvalid) assert ({line}_tkeep == 0 || &{line}_tkeep);'
    yield f'if (wait_{line}) assert ({line}_tvalid && held_{line} == shown_{line});'
    yield f'assert ({line}_push == (!rst && ({line}_row || {line}_eos)));'
    yield f'assert (in_{line} == out_{line} + {line}_stored + {line}_tvalid);'
    yield f'assert ({line}_some == ({line}_stored != 0));'
    yield 'assert (!lost);'
    yield 'end'


def with_assertions(text, inputs, results, ticks, calm):
    """A wrapper with assertions in front of its end. The first cycle is a reset, and no later one."""
    schema, sets = inputs
    more = ['reg there = 0;', 'always @(posedge aclk) there <= 1;', 'always @* assume (aresetn == there);']
    more += [*entry_kept(schema, calm), *(ticks_kept(schema, calm) if ticks else ())]
    for front, columns in results:
        more += exit_kept(f'm_axis_{front[:-2]}' if front else 'm_axis', columns)
    more += registers_kept(sets)
    return text.replace('endmodule', '\n'.join([*more, 'endmodule']), 1)


def proved(case, schema_file, module_text, text, steps, room):
    """Whether the assertions hold in all runs of so many steps; a line tells of it."""
    with open(schema_file, encoding='utf8') as file:
        said = file.read()
    schema, sets = schema_of(said), ports_of_sets(parameters_of(said))
    figures = figures_in(text)
    module, top = ports_of(module_text)[0], re.search(r'^module (\w+)', text, re.M)[1]
    with open(f'{room}/proof.v', 'w', encoding='utf8') as file:
        file.write(with_assertions(text, (schema, sets), results_of(module_text), has_tick(module_text), figures[1]))
        file.write(stand_in(module_text, module, schema, figures))
    script = f'read_verilog -formal -sv {room}/proof.v; prep -flatten -nordff -top {top}; write_smt2 -wires {room}/proof.smt2'
    said = ended(['yosys', '-q', '-p', script])
    if said.returncode:
        sys.exit(said.stdout)
    said = ended(['yosys-smtbmc', '-s', 'z3', '-t', str(steps), f'{room}/proof.smt2'])
    well = said.returncode == 0 and 'status: passed' in said.stdout.lower()
    depths = ', '.join(re.findall(r'^// m_axis\w*: (\d+) places', text, re.M))
    print(f'{"ok" if well else "FAILED"} {case}: {depths} places, {steps} steps', flush=True)
    if not well:
        print('\n'.join(line for line in said.stdout.splitlines() if re.search('Assert|failed|rror', line))[:1500])
    return well
