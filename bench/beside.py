#!/usr/bin/env python3
"""The time of `pydcore validate` beside pydantic-core's, on the same documents in one run.

Run by hand: bench/beside.py [PROGRAM] [RUNS]. PROGRAM is crates/pydcore/out/pydcore where none is named.

For each case: the size of the document, the least time of the whole process with its output thrown
away, the least time of pydantic-core's `validate_json` and `to_json` (or the errors' JSON) in a Python
that is already running, their ratio (below 1: faster), bytes of memory at the peak for each byte of the
document, and the time for the whole document by the time for a quarter of it. Where Python has no
pydantic_core, its columns are empty.
"""
import json
import os
import random
import subprocess
import sys
import tempfile
import time

try:
    import pydantic_core
except ImportError:
    pydantic_core = None

ROOT = os.path.dirname(os.path.dirname(os.path.abspath(__file__)))
INT, STR, ANY = ({'type': name} for name in ('int', 'str', 'any'))


def list_of(schema):
    return {'type': 'list', 'items_schema': schema}


def array(make, count):
    chance = random.Random(7)
    items = (json.dumps(make(chance, i), ensure_ascii=False, separators=(',', ':')) for i in range(count))
    return '[' + ','.join(items) + ']'


def small_object(chance, i):
    return {'id': i, 'sku': f'a{i}', 'ok': True, 'price': f'{i}.50', 'tags': ['x', 'y'],
            'addr': {'street': f's {i}', 'zip': f'{i % 99999:05}'}}


def accented(chance, i):
    return f'gr\u00fc\u00dfe \u4f60\u597d \\ "q" {i} ' * 3


# name: schema, document of a count of items, count
CASES = {
    'list of ints': (list_of(INT), lambda n: array(lambda c, i: c.randrange(10**9), n), 360000),
    'list of strings': (list_of(STR), lambda n: array(lambda c, i: f'abcdefghij{i}', n), 200000),
    'list of texts under lengths': (list_of({'type': 'str', 'min_length': 1}), lambda n: array(accented, n), 42000),
    'small objects under any': (ANY, lambda n: array(small_object, n), 28000),
    'small objects under a list of dicts': (
        list_of({'type': 'dict', 'keys_schema': STR, 'values_schema': ANY}), lambda n: array(small_object, n), 28000),
    'set of ints': ({'type': 'set', 'items_schema': INT}, lambda n: array(lambda c, i: i * 7 % 10**7, n), 360000),
    'dict from texts to ints': (
        {'type': 'dict', 'keys_schema': STR, 'values_schema': INT},
        lambda n: '{' + ','.join(f'"k{i}":{i}' for i in range(n)) + '}', 200000),
    'list of errors': (list_of(INT), lambda n: array(lambda c, i: 'x', n), 100000),
    'texts under a pattern': (
        list_of({'type': 'str', 'pattern': r'^\w{1,64}$'}), lambda n: array(lambda c, i: f'abc{i % 100}', n), 80000),
}


def run(program, schema, document):
    """Seconds of one run of the program."""
    start = time.perf_counter()
    ended = subprocess.run([program, 'validate', schema, document], stdout=subprocess.DEVNULL)
    spent = time.perf_counter() - start
    assert ended.returncode in (0, 1), ended.returncode
    return spent


# A process counts the peak of the one that started it as its own, so a small one starts the program.
STARTER = """
import os, sys
silent = [(os.POSIX_SPAWN_OPEN, 1, os.devnull, os.O_WRONLY, 0)]
_, _, usage = os.wait4(os.posix_spawn(sys.argv[1], sys.argv[1:], os.environ, file_actions=silent), 0)
print(usage.ru_maxrss * 1024)
"""


def peak(program, schema, document):
    """Bytes at the peak of one run of the program, of those that are more than a small Python's."""
    words = [sys.executable, '-S', '-c', STARTER, program, 'validate', schema, document]
    return int(subprocess.run(words, stdout=subprocess.PIPE, check=True).stdout)


def beside(validator, serializer, document):
    """Seconds that pydantic-core takes for the document."""
    start = time.perf_counter()
    try:
        serializer.to_json(validator.validate_json(document))
    except pydantic_core.ValidationError as error:
        error.json(include_url=False)
    return time.perf_counter() - start


def measured(program, runs, folder, schema, make, count):
    """Size, our seconds, theirs, bytes at the peak, and our seconds for a quarter."""
    names = [os.path.join(folder, name) for name in ('schema', 'whole', 'quarter')]
    whole = make(count)
    for name, text in zip(names, (json.dumps(schema), whole, make(count // 4))):
        with open(name, 'w', encoding='utf-8') as file:
            file.write(text)
    bytes_of_it = whole.encode()
    ours, theirs, quarters = [], [], []
    if pydantic_core:
        pair = pydantic_core.SchemaValidator(schema), pydantic_core.SchemaSerializer(schema)
    for _ in range(runs):
        ours.append(run(program, names[0], names[1]))
        quarters.append(run(program, names[0], names[2]))
        if pydantic_core:
            theirs.append(beside(*pair, bytes_of_it))
    most = peak(program, names[0], names[1])
    return len(bytes_of_it), min(ours), min(theirs) if theirs else None, most, min(quarters)


def main():
    program = sys.argv[1] if len(sys.argv) > 1 else os.path.join(ROOT, 'crates/pydcore/out/pydcore')
    runs = int(sys.argv[2]) if len(sys.argv) > 2 else 5
    print(f'{"document and schema":36} {"MB":>5} {"ours":>7} {"theirs":>7} {"ratio":>6} {"memory":>7} {"x4":>5}')
    with tempfile.TemporaryDirectory() as folder:
        for name, (schema, make, count) in CASES.items():
            size, ours, theirs, most, quarter = measured(program, runs, folder, schema, make, count)
            there = f'{theirs:7.3f} {ours / theirs:6.2f}' if theirs else f'{"":14}'
            print(f'{name:36} {size / 1e6:5.1f} {ours:7.3f} {there} {most / size:7.1f} {ours / quarter:5.1f}', flush=True)


if __name__ == '__main__':
    main()
