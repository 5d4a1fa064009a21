#!/bin/sh
# Bytes per second of `validate` with the schema {"type":"any"} on documents of 1 and 4 MiB, and how the time grows from one to the other.
# Run by hand: bench/json.sh [RUNS]
root=$(CDPATH= cd -- "$(dirname -- "$0")/.." && pwd -P)
"$root/pydcore" >/dev/null 2>&1
export PYTHONPATH="$root/bench" PYTHONDONTWRITEBYTECODE=1
exec python3 - "$root/crates/pydcore/out/pydcore" "${1:-3}" <<'PYTHON'
import sys

from measuring import filled, print_growth

program, runs = sys.argv[1], int(sys.argv[2])

documents = {
    'numbers': lambda size: filled('[', lambda i: str(i % 100000), ']', size),
    'one string with escapes': lambda size: '"' + 'plain text \\n\\u00e9' * ((size - 2) // 19) + '"',
    'nested small objects': lambda size: filled('[', lambda i: '{"a":{"b":[1,{"c":null}]}}', ']', size),
    'array of the same names and values': lambda size: filled('[', lambda i: '"k%06d",1' % i, ']', size),
    'members, all names different': lambda size: filled('{', lambda i: '"k%06d":1' % i, '}', size),
    'members, all names equal': lambda size: filled('{', lambda i: '"k000000":1', '}', size),
}

print_growth(program, runs, {name: ('{"type":"any"}', make) for name, make in documents.items()})
PYTHON
