"""What the scripts share: the program, schemas and words, a testbench around a module, seconds, and tables."""
import os
import re
import resource
import shutil
import subprocess
import sys
import time

HOME = os.path.dirname(os.path.dirname(os.path.abspath(__file__)))
PROGRAM = os.path.join(HOME, 'crates', 'glacier', 'out', 'glacier')
STACK = 8 << 20  # bytes, as a process has them by default


# ---- files


def opened(path, mode='r'):
    """A file of text or of bytes; where it cannot be opened, one line says so."""
    try:
        return open(path, mode) if 'b' in mode else open(path, mode, newline='', encoding='utf8')
    except OSError as error:
        sys.exit(f'{path}: {error.strerror}')


def text_of(path):
    """The text of a file; where it cannot be read, one line says so."""
    with opened(path) as file:
        try:
            return file.read()
        except (OSError, UnicodeDecodeError) as error:
            sys.exit(f'{path}: no text of UTF-8: {error}')


# ---- the program


def with_program(words):
    """The option by which a script is told which program it calls."""
    words.add_argument(
        '--program', metavar='PATH', default=PROGRAM, help='a built glacier, if not the one that ./glacier leaves'
    )


def program_of(asked):
    """The program's path. Nothing is built here: a first ./glacier proves for a while."""
    path = os.path.abspath(asked.program)
    if not os.access(path, os.X_OK):
        sys.exit(f'no program at {path}: ./glacier builds it, proved, or name one by --program, as ./try')
    return path


def needs(*tools):
    """Ends where a tool is not there that a script calls."""
    for tool in tools:
        if not shutil.which(tool):
            sys.exit(f'needs {tool}, which is not there: it is one of Debian\'s packages, rt is the toolchain\'s')


def ended(words, **more):
    """A command that ran, with all that it wrote."""
    return subprocess.run(words, stdout=subprocess.PIPE, stderr=subprocess.STDOUT, text=True, **more)


def measured(words, folder=None, text=None):
    """The processor seconds of a command, with the system's, and the command that ran. Its stack is that of a default
    process."""
    before = resource.getrusage(resource.RUSAGE_CHILDREN)
    ran = subprocess.run(
        words,
        cwd=folder,
        input=text,
        stdout=subprocess.PIPE,
        stderr=subprocess.PIPE,
        preexec_fn=lambda: resource.setrlimit(resource.RLIMIT_STACK, (STACK, STACK)),
    )
    after = resource.getrusage(resource.RUSAGE_CHILDREN)
    return after.ru_utime + after.ru_stime - before.ru_utime - before.ru_stime, ran


def timed(words):
    """The processor seconds of a command that must end well, and the lines of its output, without those of a
    simulator's own."""
    seconds, ran = measured(words)
    if ran.returncode:
        sys.exit(f'status {ran.returncode}: ' + ' '.join(words))
    return seconds, [line for line in ran.stdout.decode().splitlines(True) if not line.startswith('- ')]


def refused(text, command, files):
    """Ends with the line of a refusal, and which script shows its place."""
    shown = f': tools/where {command} {" ".join(files)} shows the place' if ' at ' in text else ''
    sys.exit(f'{text}{shown}')


def compiled(program, files, room, command='compile'):
    """The file in the room with the Verilog text of a query, or of several by `many`, and the text; or None, and what
    is told of the refusal."""
    said = subprocess.run([program, command, *files], stdout=subprocess.PIPE, stderr=subprocess.PIPE, text=True)
    if said.returncode:
        return None, said.stderr.strip()
    with open(f'{room}/design.v', 'w') as f:
        f.write(said.stdout)
    return f'{room}/design.v', said.stdout


# ---- schemas, words, tuple files


def width_of(kind):
    """The bits of a kind."""
    return 8 * int(kind[4:]) if kind.startswith('text') else int(kind[1:])


def word_of(text, kind):
    """The word that a value of a tuple file stands for."""
    return (
        int.from_bytes(text.encode().ljust(int(kind[4:]), b'\0'), 'big')
        if kind.startswith('text')
        else int(text) % 2 ** width_of(kind)
    )


def schema_of(text):
    """The streams of a schema's text, each with its columns and their kinds."""
    text = re.sub(r'--.*', '', text)
    return [
        (name, re.findall(r'(\w+)\s+(\w+)', columns))
        for name, columns in re.findall(r'stream\s+(\w+)\s*\(([^)]*)\)', text)
    ]


def parameters_of(text):
    """The parameters of a schema's text, each with its kind."""
    text = re.sub(r'stream\s+\w+\s*\([^)]*\)', '', re.sub(r'--.*', '', text))
    return re.findall(r'parameter\s+(\w+)\s+(\w+)', text)


def sets_of(parameters, rows):
    """The ports of parameters, each with its width, and with the word that the records of a tuple file give it."""
    values = {row[1]: row[2] for row in rows if row[0] == 'set'}
    return [(f'set__{name}', width_of(kind), word_of(values[name], kind)) for name, kind in parameters]


def fits(value, kind):
    """Whether a field of a tuple file is a value of a kind."""
    if kind.startswith('text'):
        return len(value.encode()) <= int(kind[4:]) and bool(re.fullmatch('[ -~]*', value))
    bits, signed = int(kind[1:]), kind[0] == 's'
    spelled = re.fullmatch(r'-?\d+' if signed else r'\d+', value)
    return bool(spelled) and -(2 ** (bits - 1)) * signed <= int(value) < 2 ** (bits - signed)


def beats_of(rows):
    """The records of a tuple file by their cycle, a tick as ['tick'], and the cycle of the end. Those that set a
    parameter have none."""
    beats, last, end = {}, 0, None
    for row in rows:
        if row[0] == 'set':
            continue
        last = int(row[0])
        if row[1] == 'end':
            end = last
        else:
            beats.setdefault(last, []).append(row[1:])
    return beats, last if end is None else end


# ---- texts of queries


def statements_of(text):
    """The statements of a text of queries, without its comments: a `;` within a text literal parts nothing."""
    statements = ['']
    for part in re.findall(r"'[^']*'|--[^\n]*|;|[^;'-]+|.", text):
        if part == ';':
            statements.append('')
        elif not part.startswith('--'):
            statements[-1] += part
    return [it.strip() for it in statements if it.strip()]


def command_of(path, one='compile', several='many'):
    """The command for a file with one query, or for one with several."""
    return several if ';' in re.sub(r"'[^']*'|--[^\n]*", '', text_of(path)) else one


# ---- modules and testbenches


def ports_of(text):
    """The name of a module, and the columns of its result with their widths."""
    outs = re.findall(r'output wire (?:\[(\d+):0\] )?(out__\w+)', text)
    return re.search(r'^module (\w+)', text, re.M).group(1), [
        (n, int(w or 0) + 1) for w, n in outs if n not in ('out__valid', 'out__eos')
    ]


def results_of(text):
    """The results of a module: what stands behind `out__` and `fault__` in the names of a result's lines, nothing for
    the module of one query, and the columns with their widths."""
    outs = [(name, int(high or 0) + 1) for high, name in re.findall(r'output wire (?:\[(\d+):0\] )?out__(\w+)', text)]
    return [
        (
            front,
            [
                (name[len(front) :], width)
                for name, width in outs
                if name.startswith(front) and name[len(front) :] not in ('valid', 'eos')
            ],
        )
        for front in re.findall(r'output wire (?:\[0:0\] )?fault__((?:\w+__)?)group\b', text)
    ]


def has_tick(text):
    """Whether a module has the port of ticks, as those of windows of time have it."""
    return bool(re.search(r'input wire (?:\[0:0\] )?tick\b', text))


def inputs_of(schema, ticks=False):
    """The input ports of a schema's streams, in order, with their widths, and that of ticks where the module has it."""
    ports = []
    for stream, columns in schema:
        ports += [(f'in__{stream}__valid', 1)] + [
            (f'in__{stream}__{column}', width_of(kind)) for column, kind in columns
        ]
    return ports + [('tick', 1)] * ticks


def contents_of(text, unit='unit'):
    """The lines that give each word of a memory of slots by key its first contents. Any will do; a simulator with four
    values knows nothing of a row whose key is looked up in a word without."""
    memories = re.findall(r'^ *reg (?:\[\d+:0\] )?(\w*_slot_mem_n\d+) \[0:(\d+)\];', text, re.M)
    loops = [
        f'for (word = 0; word <= {last}; word = word + 1) {unit}.{name}[word] = $random;' for name, last in memories
    ]
    return ['integer word;', 'initial begin', *loops, 'end'] if loops else []


def harness(module, schema, outs, shown, steps, more=(), ticks=False, results=('',), sets=()):
    """A testbench: `shown` is what is done with outputs in the middle of a cycle, `steps` sets the inputs right behind
    the edge that begins one, `more` stands behind the declarations, `ticks` says whether the module has the port of
    ticks. `results` are what stands behind `out__` and `fault__` in the names of each result's lines. `sets` are the
    ports of the parameters, with their widths and the words that they hold from time 0 on."""
    told = [
        f'{front}__{result}{line}'
        for result in results
        for front, line in (('out', 'valid'), ('out', 'eos'), ('fault', 'group'), ('fault', 'queue'))
    ]
    inputs = inputs_of(schema, ticks)
    lines = ['module testbench;', 'reg clk = 0, rst = 1, eos = 0, told = 0;', 'integer cycle = -1;']
    lines += [f'reg [{w - 1}:0] {name} = 0;' for name, w in inputs]
    lines += [f"reg [{w - 1}:0] {name} = {w}'d{word};" for name, w, word in sets]
    lines += ['wire ' + ', '.join(told) + ';'] + [f'wire [{w - 1}:0] {name};' for name, w in outs] + list(more)
    names = ['clk', 'rst'] + [n for n, _ in inputs] + ['eos'] + [n for n, _, _ in sets] + told + [n for n, _ in outs]
    lines += [
        f'{module} unit(' + ', '.join(f'.{n}({n})' for n in names) + ');',
        'always #5 clk = ~clk;',
        'always @(negedge clk) if (!rst) begin',
    ]
    lines += shown + ['end', 'always @(posedge clk) #1 begin', 'cycle = cycle + 1; rst = 0; eos = 0;']
    lines += [f'{name} = 0;' for name, _ in inputs] + steps
    return '\n'.join(lines + ['end', 'endmodule', ''])


def inputs_at(schema, records, ticks=False):
    """The inputs that the records of a beat set, each with its width and its word. A tick sets none where the module
    has no port for it."""
    for stream, *values in records:
        if stream == 'tick':
            yield from [('tick', 1, 1)] * ticks
            continue
        yield f'in__{stream}__valid', 1, 1
        for (column, kind), value in zip(dict(schema)[stream], values):
            yield f'in__{stream}__{column}', width_of(kind), word_of(value, kind)


def steps_of(schema, beats, end, ticks=False):
    """The statements that set the inputs of each cycle that has a beat."""
    steps = ['case (cycle)']
    for cycle in sorted(set(beats) | {end}):
        steps.append(f'{cycle}: begin')
        steps += [f"{name} = {width}'d{word};" for name, width, word in inputs_at(schema, beats.get(cycle, []), ticks)]
        steps += ['eos = 1;'] if cycle == end else []
        steps.append('end')
    return steps + ['default: ;', 'endcase']


def verilated(bench, design, room, *more):
    """A simulator that Verilator builds of a testbench, or the command that failed."""
    words = ['--timing', '-Wno-fatal', '-Wno-lint', '--top-module', 'testbench', '--Mdir', f'{room}/v', bench, design]
    built = ended(['verilator', '--binary', *more, *words])
    return (f'{room}/v/Vtestbench', None) if not built.returncode else (None, built)


# ---- queries that are large


def tree(operators, first):
    """A balanced tree of so many additions, whose leaves are columns and numbers from `first` on."""
    if operators == 0:
        return ('abcd'[first % 4] + ' * ' if first % 2 else '') + str(first + 1)
    left = (operators - 1) // 2
    return f'({tree(left, first)}) + ({tree(operators - 1 - left, first + left + 1)})'


def chain(column, times, number):
    """So many additions of one number to a column, one behind the other."""
    return column + f' + {number}' * times


def select(items, source='s'):
    """A select of expressions, each with a name."""
    return 'SELECT ' + ', '.join(f'{item} AS x{at}' for at, item in enumerate(items)) + f' FROM {source}'


# ---- tables of the pages

END = '<!-- to here -->\n'


def parted(page, by):
    """A page of docs/ in front of what a script writes there, that, and what is behind it."""
    with open(f'{HOME}/docs/{page}', encoding='utf8') as file:
        before, mark, rest = file.read().partition(f'<!-- by {by} -->\n')
    there, end, behind = rest.partition(END)
    if not mark or not end:
        sys.exit(f'docs/{page} has no place for it between <!-- by {by} --> and {END.strip()}')
    return before + mark, there, end + behind


def put_on_page(page, by, text):
    """Writes a text between its markers on a page of docs/."""
    before, _, behind = parted(page, by)
    with open(f'{HOME}/docs/{page}', 'w', encoding='utf8') as file:
        file.write(before + text + behind)


def with_write(words, by, page='MEASURED.md'):
    """The option by which a table is put on its page."""
    words.add_argument('--write', action='store_true', help=f'put the table on docs/{page} too, between its markers')
    words.set_defaults(by=by, page=page)


def said_by(*words):
    """The first line that a command prints, or nothing."""
    try:
        ran = subprocess.run(words, cwd=HOME, stdout=subprocess.PIPE, stderr=subprocess.DEVNULL, text=True)
    except OSError:
        return ''
    return ran.stdout.split('\n')[0]


def measured_with(program=None):
    """The line above a table: commit, date, machine, and the program where one is measured."""
    commit = said_by('git', 'rev-parse', '--short=8', 'HEAD') or 'unknown'
    changed = ' with changes' if said_by('git', 'status', '--porcelain', '--untracked-files=no') else ''
    with open('/proc/cpuinfo', encoding='utf8') as file:
        model = re.search(r'model name\s*:\s*(.*)', file.read())
    name = (
        f'; program: {"`./glacier`, proved" if program == PROGRAM else "one named by `--program`"}' if program else ''
    )
    machine = f'{os.cpu_count()} processors{f" {model[1].strip()}" if model else ""}'
    return f'Commit {commit}{changed}; date {time.strftime("%Y-%m-%d")}; machine: {machine}{name}.\n\n'


class Table:
    """A table that is printed row by row, and put on its page at the end where --write asks for it."""

    def __init__(self, *heads):
        self.lines = []
        self.row(*heads)
        self.put('|' + '---|' * len(heads))

    def put(self, line):
        """Prints a line, and keeps it."""
        print(line, flush=True)
        self.lines.append(line)

    def row(self, *cells):
        """A row of the table."""
        self.put('| ' + ' | '.join(map(str, cells)) + ' |')

    def end(self, asked, program, mode=''):
        """Writes the table where that is asked for, at the place of this script in this mode."""
        if asked.write:
            text = '\n'.join(self.lines) + '\n'
            put_on_page(asked.page, f'{asked.by}{mode}', measured_with(program) + text)
