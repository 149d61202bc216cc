"""What the scripts on hostile use share: commands over small texts that go through every part of the program."""
import os
import subprocess

SCHEMA = 'stream trades (symbol text4, price u32, volume u32); stream quotes (symbol text4, bid u32, ask u32);\n'
TUPLES = ''.join(f'{at},trades,UBSN,{7 + at},{10 * at}\n' for at in range(5)) + '5,quotes,UBSN,1,2\n5,tick\n8,end\n'
APART = ''.join(f'{40 * at},trades,{"UBSN" if at % 2 else "CSGN"},{7 + at},{at}\n' for at in range(5))
MODULE = '''module m(input wire clk, input wire rst, input wire in__s__valid, input wire [7:0] in__s__v, input wire eos,
  output reg out__valid, output reg [7:0] out__v, output reg out__eos);
  always @(posedge clk) if (rst) out__valid <= 1'd0; else out__valid <= in__s__valid;
  always @(posedge clk) out__v <= in__s__v + 8'd1;
  always @(posedge clk) if (rst) out__eos <= 1'd0; else out__eos <= eos;
endmodule
'''
DUMP = '''$timescale 1 ns $end
$scope module m $end
$var wire 1 !! out__valid $end
$var wire 8 !" out__v [7:0] $end
$var wire 1 !# out__eos $end
$upscope $end
$enddefinitions $end
#0
0!!
b0 !"
0!#
#3
1!!
b101 !"
#4
0!!
1!#
#5
'''
SMALL = {'S': 'stream s (v u8);\n', 'V': MODULE, 'T': '0,s,5\n2,s,255\n', 'D': DUMP}

# Each query with its tuples.
QUERIES = {
    'columns': ('SELECT symbol, price FROM trades INTO r', TUPLES),
    'expressions': (
        'SELECT price * 2 + volume AS x, CAST(price AS u8) AS y '
        "FROM trades WHERE symbol = 'UBSN' AND NOT price < 8 INTO r",
        TUPLES,
    ),
    'bits': (
        'SELECT price & 6 | volume ^ 1 AS x, ~ price << 2 AS y, volume >> 1 AS z FROM trades WHERE price & 1 != 0 INTO r',
        TUPLES,
    ),
    'totals': (
        'SELECT count() AS n, sum(price) AS s, min(price) AS a, max(price) AS b, wsum(price, [1, 2, 3]) AS w '
        'FROM trades INTO r',
        TUPLES,
    ),
    'average': ('SELECT avg(price) AS a FROM trades INTO r', TUPLES),
    'windows': ("SELECT count() AS n FROM trades [SIZE 4 ADVANCE 2 TUPLES] WHERE symbol = 'UBSN' INTO r", TUPLES),
    'groups': ('SELECT symbol, count() AS n, sum(price) AS s FROM trades GROUP BY symbol GROUPS 4 INTO r', TUPLES),
    'overflow': ('SELECT price, count() AS n FROM trades GROUP BY price GROUPS 2 INTO r', APART),
    'copies of a group': (
        'EACH g IN trades BY symbol GROUPS 2 '
        '(SELECT max(n) AS m FROM (SELECT count() AS n FROM g [SIZE 2 ADVANCE 1 TUPLES])) INTO r',
        APART,
    ),
    'spare copies': (
        'EACH w IN trades [SIZE 4 ADVANCE 4 TUPLES] '
        '(SELECT max(m) AS top FROM (SELECT sum(price) AS m FROM w [SIZE 2 ADVANCE 1 TUPLES])) INTO r',
        TUPLES,
    ),
    'union': ('SELECT price FROM trades UNION SELECT bid AS price FROM quotes INTO r', APART),
    'arrival': (
        'SELECT price, lag(volume) OVER (PARTITION BY symbol GROUPS 1) AS v FROM trades '
        'UNION BY ARRIVAL SELECT bid AS price, ask AS v FROM quotes INTO r',
        APART,
    ),
    'asof': (
        'SELECT symbol, price, bid FROM trades ASOF (SELECT symbol, bid FROM quotes WHERE ask > 1) '
        'BY symbol GROUPS 1 WHERE price > 0 INTO r',
        APART + '170,quotes,NESN,3,4\n200,trades,UBSN,5,6\n',
    ),
    'concat': ('SELECT sum(price) AS p FROM trades CONCAT SELECT count() AS n FROM quotes INTO r', TUPLES),
}

# Queries for one module: two that share what they filter, and one with groups.
MANY = '''SELECT price FROM trades WHERE symbol = 'UBSN' INTO a;
SELECT count() AS n FROM trades WHERE symbol = 'UBSN' INTO b; -- and; last
SELECT symbol, sum(price) AS s FROM trades GROUP BY symbol GROUPS 4 INTO c
'''


def cases():
    """The name of each case, the words and the texts by the names that stand in the words."""
    for name, (query, tuples) in QUERIES.items():
        texts = {'S': SCHEMA, 'Q': query + '\n', 'T': tuples}
        yield f'run, {name}', ['run', 'S', 'Q', 'T'], texts
    for word in ('compile', 'figures', 'explain'):
        for name in ('windows', 'groups', 'spare copies', 'union', 'arrival', 'asof'):
            yield f'{word}, {name}', [word, 'S', 'Q'], {'S': SCHEMA, 'Q': QUERIES[name][0] + '\n'}
    yield 'run --start, groups', ['run', 'S', 'Q', 'T', '--start', '7'], {
        'S': SCHEMA,
        'Q': QUERIES['groups'][0],
        'T': TUPLES,
    }
    yield 'sim', ['sim', 'S', 'V', 'T', '--extra', '3'], SMALL
    yield 'load', ['load', '9'], {}
    for name in ('windows', 'groups'):
        yield f'vcd, {name}', ['vcd', 'S', 'Q', 'T'], {'S': SCHEMA, 'Q': QUERIES[name][0], 'T': QUERIES[name][1]}
    yield 'undump', ['undump', 'D'], SMALL
    for word in ('many', 'manyfigures'):
        yield word, [word, 'S', 'M'], {'S': SCHEMA, 'M': MANY}
    yield 'manyrun', ['manyrun', 'S', 'M', 'T'], {'S': SCHEMA, 'M': MANY, 'T': TUPLES}


def put(room, texts):
    """Writes the texts into a folder, each under its name."""
    for name, text in texts.items():
        with open(os.path.join(room, name), 'wb') as file:
            file.write(text if isinstance(text, bytes) else text.encode())


def answered(program, words, room, **more):
    """The status, the output and the notes of a command over the texts of a folder."""
    said = subprocess.run([program, *words], cwd=room, stdin=subprocess.DEVNULL, capture_output=True, **more)
    return said.returncode, said.stdout, said.stderr
