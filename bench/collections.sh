#!/bin/sh
# Bytes per second of `validate` on lists, sets and dicts of 1 and 4 MiB, and how the time grows from one to the other; and the same for the number of nodes of a schema.
# Run by hand: bench/collections.sh [RUNS]
root=$(CDPATH= cd -- "$(dirname -- "$0")/.." && pwd -P)
"$root/pydcore" >/dev/null 2>&1
export PYTHONPATH="$root/bench" PYTHONDONTWRITEBYTECODE=1
exec python3 - "$root/crates/pydcore/out/pydcore" "${1:-3}" <<'PYTHON'
import sys

from measuring import filled, print_growth, seconds

program, runs = sys.argv[1], int(sys.argv[2])
ONE = ['1', '1.0', '10e-1', '"1"', 'true', '0', '0.0', 'false']


def inner(i):
    return '[' + ','.join(str((i * 7 + j) % 1000) for j in range(1000)) + ']'


cases = {
    'list of ints': ('{"type":"list","items_schema":{"type":"int"}}', lambda size: filled('[', str, ']', size)),
    'list of errors': ('{"type":"list","items_schema":{"type":"int"}}', lambda size: filled('[', lambda i: '"x"', ']', size)),
    'set, all items different': ('{"type":"set"}', lambda size: filled('[', str, ']', size)),
    'set, all items equal': ('{"type":"set"}', lambda size: filled('[', lambda i: '1.0', ']', size)),
    'set of a few numbers in many spellings': ('{"type":"set"}', lambda size: filled('[', lambda i: ONE[i % 8], ']', size)),
    'set of far exponents': ('{"type":"set"}', lambda size: filled('[', lambda i: '1e%d' % (10**9 + i), ']', size)),
    'set of frozensets': ('{"type":"set","items_schema":{"type":"frozenset"}}', lambda size: filled('[', inner, ']', size)),
    'dict, all keys different': ('{"type":"dict"}', lambda size: filled('{', lambda i: '"k%d":1' % i, '}', size)),
    'dict, all keys equal after validation': ('{"type":"dict","keys_schema":{"type":"int"}}', lambda size: filled('{', lambda i: '"%s1":1' % ('0' * (i % 50)), '}', size)),
}

print_growth(program, runs, cases)


def tuple_of(nodes):
    items = ','.join(['{"type":"int"}'] * (nodes - 1))
    return seconds(program, runs, '{"type":"tuple","items_schema":[' + items + ']}', '[' + ','.join(['1'] * (nodes - 1)) + ']')


small, large = tuple_of(25_000), tuple_of(100_000)
print(f'schema of 100,000 nodes: {large:.2f} s, {large / small:.2f} times that of 25,000')
PYTHON
