"""Random cases as files: a schema, one or several statements, tuples, and a call of the program in a folder of them."""
import collections
import csv
import functools
import io
import resource
import subprocess

from drawing import weight_of
from meaning import query_text, shown

SECONDS = 120  # of the processor, for one call of the program
Case = collections.namedtuple('Case', 'schema query into start sets')


def written(path, text):
    """Writes a text as it is."""
    with open(path, 'w', newline='') as file:
        file.write(text)


def called(program, room, *words):
    """A call of the program in a folder: its status, its output, and what it told."""
    most = functools.partial(resource.setrlimit, resource.RLIMIT_CPU, (SECONDS, SECONDS))
    ran = subprocess.run([program, *words], cwd=room, stdout=subprocess.PIPE, stderr=subprocess.PIPE, preexec_fn=most)
    return ran.returncode, ran.stdout.decode(), ran.stderr.decode().strip()


def schema_text(schema, sets):
    """The text of a schema, with parameters."""
    return ''.join(
        f"stream {name} ({', '.join(f'{column} {kind}' for column, kind in columns)});\n"
        for name, columns in schema.items()
    ) + ''.join(f'parameter {name} {kind};\n' for name, (kind, _) in sets.items())


def tuples_text(schema, sets, beats, end):
    """The tuple file of beats, with a record of the end where it has a cycle, and a record for each parameter."""
    out = io.StringIO()
    write = csv.writer(out, lineterminator='\n').writerow
    for name, (kind, word) in reversed(sets.items()):
        write(['set', name, shown(word, kind)])
    for cycle, rows in beats:
        for name, words in rows:
            write([cycle, name] + [shown(word, kind) for word, (_, kind) in zip(words, schema.get(name, []))])
    if end is not None:
        write([end, 'end'])
    return out.getvalue()


def statements_of(maker, draw, query, number, weight):
    """A list of statements: that query under several names, others that weigh so much together, and what parts them."""
    names = maker.names(number)
    light = iter(lambda: maker.query(maker.schema, draw.choice([0, 0, 1, 1, 2])), None)
    queries = [query] + [
        query if draw.random() < 0.15 else next(it for it in light if weight_of(it) <= weight // number)
        for _ in names[1:]
    ]
    draw.shuffle(queries)
    parts = draw.choice([';', ';\n', ' ; -- one; and the next\n', '\t;\r\n'])
    return list(zip(queries, names)), parts.join(
        f'{query_text(it)} INTO {name}' for it, name in zip(queries, names)
    ) + draw.choice(['', ';', '; \n-- no more\n'])
