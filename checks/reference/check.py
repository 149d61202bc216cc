"""Cases of checks/random-queries by the repository's reference evaluator, crates/gl_reference.

main.txt beside this file, a program in Rattle, reads cases and prints what the evaluator answers. It is built in a copy
of the repository's tracked files, as a crate above gl_reference, by `rt try`: without proof. So a difference may be one
of the build as well, and none says nothing of the proofs.
"""
import concurrent.futures
import functools
import os
import re
import shutil
import subprocess
import sys
import tempfile

from meaning import has

TOP = os.path.dirname(os.path.dirname(os.path.dirname(os.path.abspath(__file__))))
NAME = 'gl_reference_run'
USES = 'gl_bits gl_values gl_schema gl_query gl_query_reader gl_reference gl_tuples gl_tuple_reader'
PART = 400  # cases in one run of the program
SECONDS = 600  # for one run of it


def written(path, text):
    """Adds a text to a file."""
    os.makedirs(os.path.dirname(path), exist_ok=True)
    with open(path, 'a', newline='') as file:
        file.write(text)


def copied(top):
    """Copies the crates, and puts the program's among them; gives its folder."""
    found = subprocess.run(
        ['git', '-C', TOP, 'ls-files', '-z', 'HANDLES', 'crates.txt', 'crates'], stdout=subprocess.PIPE, check=True
    ).stdout
    for name in filter(None, found.decode().split('\0')):
        os.makedirs(os.path.dirname(f'{top}/{name}'), exist_ok=True)
        shutil.copy(f'{TOP}/{name}', f'{top}/{name}')
    crate = f'{top}/crates/{NAME}'
    for name in 'specs', 'proofs':
        written(f'{crate}/{name}/Lib.antt', '')
    with open(f'{TOP}/checks/reference/main.txt') as file:
        written(f'{crate}/src/main.rt', file.read())
    written(f'{top}/crates.txt', f'{NAME}: {USES}\n')
    return crate


def lines_of(texts):
    """A case in the program's form: its schema, its query and its tuple file."""
    schema, query, tuples = (text.strip('\n') for text in texts)
    return 'schema ' + schema.replace('\n', ' ') + f'\nquery {query}\ntuples ' + tuples.replace('\n', '\t') + '\n'


def answer_of(line):
    """The rows and the spill that the program printed; None where it refused."""
    found = re.fullmatch(r'rows (\S*) spill ([01])', line)
    return found and ([tuple(map(int, row.split(','))) for row in found[1].split('|') if row], found[2] == '1')


def answers(cases):
    """What the reference evaluator answers to each case, given by its three texts."""
    with tempfile.TemporaryDirectory() as top:
        crate = copied(f'{top}/copy')
        parts = [cases[at : at + PART] for at in range(0, len(cases), PART)]
        for at, part in enumerate(parts):
            written(f'{top}/cases/part{at:05}', ''.join(map(lines_of, part)))
        ran = subprocess.run(
            ['rt', 'try', '--steps', '1', '--seconds', str(SECONDS), '--cases', f'{top}/cases'],
            cwd=crate,
            stdout=subprocess.PIPE,
            stderr=subprocess.PIPE,
        )
        lines = ran.stdout.decode().splitlines()
    lines = [line for line in lines if not line.startswith('== ')]
    if len(lines) != len(cases):
        sys.exit(f'the reference evaluator did not answer each case:\n{ran.stderr.decode()[-2000:]}')
    return [answer_of(line) for line in lines]


def difference(right_ones, made, answer):
    """What is told of a case whose answer is no right outcome, or nothing."""
    number, case, beats, texts = made
    tree = answer and right_ones(case, beats).get(answer[1])
    if tree and has(tree, answer[0]):
        return None
    return '\n'.join(
        [f'== case {number}: the reference evaluator answers {answer}', *(text.strip('\n') for text in texts)]
    )


def differences(cases, right_ones, jobs, most):
    """How many cases have an answer that is no right outcome, printed but for those past `most`.

    A case is its number, what it is, its beats and its three texts.
    """
    told = answers([texts for *_, texts in cases])
    with concurrent.futures.ProcessPoolExecutor(jobs) as pool:
        texts = [
            text for text in pool.map(functools.partial(difference, right_ones), cases, told, chunksize=20) if text
        ]
    spills = sum(answer is not None and answer[1] for answer in told)
    print(
        *texts[:most],
        f'the reference evaluator: {len(cases)} cases, {len(texts)} differences; {spills} answers leave groups out',
        sep='\n',
    )
    return len(texts)
