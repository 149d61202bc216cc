"""The random half of checks/axis: a testbench that drives a wrapper of tools/axis at random, and what it logs beside
what `run` writes."""
import re
import subprocess
import sys
import tempfile

import axis_registers
from common import ended, parameters_of, schema_of, verilated, width_of

BUSY = '''task choose;
begin
now = $urandom % 5; valid_in = now == 0 ? 16 : now == 1 ? 128 : now == 2 ? 240 : 256;
now = $urandom % 6; ready_in = now == 0 ? 16 : now == 1 ? 128 : now == 2 ? 240 : now == 3 ? 0 : 256;
now = $urandom % 4; tick_in = now == 0 ? 0 : now == 1 ? 2 : now == 2 ? 24 : 64;
end
endtask
function coin(input integer of);
coin = ($urandom % 256) < of;
endfunction'''
REGISTERS = ('write', 'wrote', 'read', 'got', 'reset')  # lines that sessions do not consist of


# ---- the testbench


def ports_of_wrapper(text):
    """The ports of a wrapper: direction, bits and name."""
    first = text.partition('endmodule')[0]
    return [
        (way, int(high or 0) + 1, name)
        for way, high, name in re.findall(r'^    (input|output) (?:wire|reg) (?:\[(\d+):0\] )?(\w+),?$', first, re.M)
    ]


def random_word(columns):
    """A random transfer: small numbers, and texts of one letter, the first column in the lowest bytes."""
    words = []
    for _, kind in columns:
        width = width_of(kind)
        whole = 8 * -(-width // 8)
        if kind.startswith('text'):
            words.insert(0, f"{{letter(0), {whole - 8}'d0}}" if whole > 8 else 'letter(0)')
        else:
            words.insert(0, f'small_{whole}({2 ** min(width, 3)})')
    return '{' + ', '.join(words) + '}'


def drawing(schema):
    """The functions that random_word calls."""
    yield 'function [7:0] letter(input integer of); letter = 97 + $urandom % 4; endfunction'
    for whole in sorted({8 * -(-width_of(kind) // 8) for _, columns in schema for _, kind in columns}):
        yield f'function [{whole - 1}:0] small_{whole}(input integer of); small_{whole} = $urandom % of; endfunction'


def logged(schema, results, ticks, bench):
    """What is logged at an edge: ticks in front of transfers, the end behind them, and what leaves."""
    one = len(schema) == 1
    if ticks:
        yield f'if (tick) $display("{bench} %0d tick", cycle);'
    for name, _ in schema:
        line = 's_axis' if one else f's_axis_{name}'
        keep = f' && {line}_tkeep[0]' if one else ''
        yield f'took_{name} = {line}_tvalid && {line}_tready;'
        yield f'if (took_{name}) count = count + 1;'
        yield f'if (took_{name}{keep}) $display("{bench} %0d in {name} %h", cycle, {line}_tdata);'
    taken = f'took_{schema[0][0]} && s_axis_tlast' if one else 's_axis_end_tvalid && s_axis_end_tready'
    yield f'ends = {taken};'
    yield f'if (ends) begin $display("{bench} %0d end", cycle); given = given + 1; end'
    for at, line in enumerate(results):
        shown = f'{line}_tkeep, {line}_tlast, {line}_tuser, {line}_tdata'
        yield f'if ({line}_tvalid && {line}_tready) $display("{bench} out {at} %b %b %b %h", {shown});'
        yield f'if ({line}_tvalid && {line}_tready && {line}_tlast) had[{at}] = had[{at}] + 1;'
    yield f'if (queue || lost) begin $display("{bench} fault"); over = 1; end'


def driven(schema, results, ticks, bench):
    """What is driven behind an edge: an offer stays until it is taken."""
    one = len(schema) == 1
    yield 'if (cycle % 97 == 0) choose;'
    yield 'if (left == 0 && ends) left = 1 + $urandom % (1 << (1 + $urandom % 11));'
    for name, columns in schema:
        line = 's_axis' if one else f's_axis_{name}'
        yield f'if (took_{name}) begin {line}_tvalid = 0; left = left > 0 ? left - 1 : 0; end'
        yield f'if (!{line}_tvalid && coin(valid_in) && !stop{"" if one else " && left > 0"}) begin'
        yield f'{line}_tvalid = 1; {line}_tdata = {random_word(columns)};'
        if one:
            yield 's_axis_tlast = left <= 1; now = coin(16); s_axis_tkeep = now ? 0 : ~0;'
            yield 'if (left <= 1) left = 0;'
        yield 'end'
    if not one:
        yield 'if (ends) s_axis_end_tvalid = 0;'
        yield 'else if (left == 0 && !stop && coin(valid_in)) s_axis_end_tvalid = 1;'
    yield 'if (count >= TRANSFERS && ends) stop = 1;'
    if ticks:
        yield 'tick = !stop && coin(tick_in);'
    yield from (f'{line}_tready = coin(stop ? 256 : ready_in);' for line in results)
    done = ' && '.join(f'had[{at}] == given' for at in range(len(results)))
    yield f'if (stop && {done}) begin $display("{bench} done %0d %0d", count, cycle); over = 1; end'
    yield f'if (cycle > 400 * TRANSFERS + 100000) begin $display("{bench} late"); over = 1; end'


def testbench(bench, text, inputs, results, ticks, transfers):
    """A testbench that offers transfers and ticks to a wrapper at random, and is ready at random; its lines begin with
    its name. The inputs are the schema's streams and the ports of its parameters."""
    (schema, sets), ports = inputs, ports_of_wrapper(text)
    lines = [f'module {bench}(output reg over);', f'localparam TRANSFERS = {transfers};']
    lines += ['integer cycle = 0, count = 0, given = 0, now, valid_in = 256, ready_in = 256, tick_in = 0, left = 7;']
    lines += [f'integer had [0:{len(results) - 1}];', f'reg {", ".join(f"took_{name} = 0" for name, _ in schema)};']
    lines += ['reg stop = 0, ends = 0, wrote = 0, asked = 0;']
    lines += [
        f'{"reg" if way == "input" else "wire"} [{bits - 1}:0] {name}{" = 0" * (way == "input")};'
        for way, bits, name in ports
    ]
    module = re.search(r'^module (\w+)', text, re.M)[1]
    lines += [f'{module} unit({", ".join(f".{name}({name})" for _, _, name in ports)});', BUSY, *drawing(schema)]
    first = [f'had[{at}] = 0;' for at in range(len(results))] + ['over = 0;']
    lines += ['initial begin', *first, 'end', 'always #5 aclk = ~aclk;']
    told, more = (axis_registers.logged(sets, bench), axis_registers.driven(sets)) if sets else ((), ())
    lines += [
        'always @(posedge aclk) if (aresetn && !over) begin',
        *told,
        *logged(schema, results, ticks, bench),
        'end',
    ]
    lines += ['always @(posedge aclk) if (!over) begin #1', 'cycle = cycle + 1; aresetn = cycle > 3;']
    lines += ['if (cycle > 4) begin', *driven(schema, results, ticks, bench), *more, 'end', 'end', 'endmodule', '']
    return '\n'.join(lines)


def together(benches):
    """The testbench that runs others until all are over."""
    lines = ['module testbench;']
    lines += [f'wire over_{bench}; {bench} part_{bench}(.over(over_{bench}));' for bench in benches]
    every = ' && '.join(f'over_{bench}' for bench in benches)
    return '\n'.join([*lines, 'always #50', f'    if ({every}) $finish;', 'endmodule', ''])


# ---- what was logged


def values_of(columns, word):
    """The columns of a transfer, each with its kind, as texts of a tuple file."""
    for _, kind in columns:
        width = width_of(kind)
        value = word & (1 << width) - 1
        word >>= 8 * -(-width // 8)
        if kind.startswith('text'):
            yield value.to_bytes(width // 8, 'big').rstrip(b'\0').decode()
        else:
            yield str(value - (1 << width) if kind.startswith('s') and value >> width - 1 else value)


def sessions_of(log, schema, apart):
    """The tuple file of each session, with beats and ticks so far apart, and the transfers that left, by result."""
    (gap, calm), kinds = apart, dict(schema)
    sessions, now, at, ticked, cycle, came = [], [], 0, None, None, {}
    for line in log:
        words = line.split()
        if words[1] in REGISTERS:
            continue
        if words[0] == 'out':
            came.setdefault(int(words[1]), []).append(words[2:])
            continue
        if words[0] != cycle:
            cycle, at = words[0], at + gap
        if words[1] == 'tick' or (words[1] == 'end' and ticked != at):
            at = at if ticked is None else max(at, ticked + calm)
        if words[1] == 'tick':
            now.append(f'{at},tick\n')
            ticked = at
        elif words[1] == 'in':
            now.append(','.join([str(at), words[2], *values_of(kinds[words[2]], int(words[3], 16))]) + '\n')
        else:
            sessions.append(''.join(now) + f'{at},end\n')
            now, at, ticked = [], 0, None
    return sessions, came


def fronts_of(log, parameters):
    """The records of each session that set the parameters, and what is wrong with the registers, or nothing."""
    if not parameters:
        return [], ''
    sets = axis_registers.ports_of_sets(parameters)
    values, why = axis_registers.sets_in(log, sets)
    fronts = []
    for words in values:
        texts = [next(values_of([it], word)) for it, word in zip(parameters, words)]
        fronts.append(''.join(f'set,{name},{text}\n' for (name, _), text in zip(parameters, texts)))
    return fronts, why or axis_registers.answered(log, sets)


def words_of(row, widths):
    """The words that a row of a result file may stand for."""
    for value, width in zip(row, widths):
        words = {int.from_bytes(value.encode().ljust(width // 8, b'\0'), 'big')}
        yield words | ({int(value) % 2**width} if re.fullmatch(r'-?\d+', value) else set())


def differs(rows, overflow, transfers, columns):
    """What of a session's transfers is not as its rows want it, or nothing; transfers that were used are gone."""
    widths = [width for _, width in columns]
    for at, row in enumerate(rows):
        keep, last, user, data = transfers.pop(0) if transfers else ('', '', '', '0')
        word, at_bit, values = int(data, 16), 0, []
        for width in widths:
            values.append(word >> at_bit & (1 << width) - 1)
            at_bit += 8 * -(-width // 8)
        if '0' in keep or not keep or not all(v in w for v, w in zip(values, words_of(row, widths))) or word >> at_bit:
            return f'row {at + 1}: {",".join(row)} was wanted, and {values} came with tkeep {keep}'
        if last == '1':
            return '' if at == len(rows) - 1 and int(user) == overflow else f'the end came with row {at + 1}'
    keep, last, user, _ = transfers.pop(0) if transfers else ('', '', '0', '')
    return (
        '' if last == '1' and '1' not in keep and int(user) == overflow else f'no end behind {len(rows)} rows: {keep}'
    )


def compared(program, files, log, results, apart):
    """What differs between a log and what the program says of its sessions, or nothing; and the sessions and rows."""
    with open(files[0], encoding='utf8') as file:
        text = file.read()
    sessions, came = sessions_of(log, schema_of(text), apart)
    fronts, why = fronts_of(log, parameters_of(text))
    if why:
        return why, len(sessions), 0
    rows_there = 0
    with tempfile.TemporaryDirectory() as room:
        for number, text in enumerate(sessions):
            with open(f'{room}/tuples.csv', 'w', encoding='utf8') as file:
                file.write((fronts[number] if fronts else '') + text)
            command = 'run' if results[0][0] == '' else 'manyrun'
            ran = subprocess.run([program, command, *files, f'{room}/tuples.csv'], stdout=subprocess.PIPE, text=True)
            if ran.returncode:
                return f'session {number + 1}: status {ran.returncode}', len(sessions), rows_there
            lines = [line.split(',')[1:] for line in ran.stdout.splitlines()]
            for at, (front, columns) in enumerate(results):
                own = [line[bool(front) :] for line in lines if not front or line[0] == front[:-2]]
                rows = [row for row in own if row not in (['end'], ['overflow'])]
                rows_there += len(rows)
                why = differs(rows, ['overflow'] in own, came.setdefault(at, []), columns)
                if why:
                    return f'session {number + 1}, result {at + 1}: {why}', len(sessions), rows_there
    more = sum(map(len, came.values()))
    return f'{more} transfers too many' if more else '', len(sessions), rows_there


def simulated(texts, benches, seed, room, icarus):
    """What the testbenches log, by their names: under Verilator, or under Icarus."""
    with open(f'{room}/bench.v', 'w', encoding='utf8') as file:
        file.write('\n'.join(benches.values()) + together(benches))
    with open(f'{room}/design.v', 'w', encoding='utf8') as file:
        file.write('\n'.join(texts))
    if icarus:
        words = ['iverilog', '-g2005-sv', '-o', f'{room}/a.vvp', f'{room}/bench.v', f'{room}/design.v']
        refused, ran = ended(words), ['vvp', f'{room}/a.vvp']
        refused = refused if refused.returncode else None
    else:
        built, refused = verilated(f'{room}/bench.v', f'{room}/design.v', room, '-CFLAGS', '-O1')
        ran = [built, f'+verilator+seed+{seed}']
    if refused:
        sys.exit(refused.stdout)
    logs = {bench: [] for bench in benches}
    for line in ended(ran).stdout.splitlines():
        name, _, rest = line.partition(' ')
        if name in logs:
            logs[name].append(rest)
    return logs
