#!/bin/sh
# Bytes per second of `validate` on one text of 1 and 4 MiB under a pattern, and on one integer of as many digits, and how the time grows from one to the other.
# Run by hand: bench/scalars.sh [RUNS]
root=$(CDPATH= cd -- "$(dirname -- "$0")/.." && pwd -P)
"$root/pydcore" >/dev/null 2>&1
export PYTHONPATH="$root/bench" PYTHONDONTWRITEBYTECODE=1
exec python3 - "$root/crates/pydcore/out/pydcore" "${1:-3}" <<'PYTHON'
import sys

from measuring import print_growth

program, runs = sys.argv[1], int(sys.argv[2])

cases = {
    'text that matches (a|b)*c$': ('{"type":"str","pattern":"(a|b)*c$"}', lambda size: '"' + 'ab' * ((size - 4) // 2) + 'c"'),
    'text that does not match (x+x+)+y': ('{"type":"str","pattern":"(x+x+)+y"}', lambda size: '"' + 'x' * (size - 2) + '"'),
    'integer of digits': ('{"type":"int"}', lambda size: '9' * size),
    'numeric text of zeros': ('{"type":"int"}', lambda size: '"' + '0' * (size - 3) + '1"'),
}

print_growth(program, runs, cases)
PYTHON
