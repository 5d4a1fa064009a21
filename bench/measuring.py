"""What the benchmarks share: documents of a size, and how the time of `validate` grows with it."""
import os
import subprocess
import tempfile
import time

MIB = 1024 * 1024


def filled(front, unit, end, size):
    """front, then units (by their number) joined by commas, then end, in at most size bytes."""
    parts, length, i = [], len(front) + len(end), 0
    while True:
        piece = unit(i)
        if length + len(piece) + 1 > size:
            break
        parts.append(piece)
        length += len(piece) + 1
        i += 1
    return front + ','.join(parts) + end


def seconds(program, runs, schema, document):
    """The least time of some runs, from the start of the process to its end."""
    with tempfile.TemporaryDirectory() as folder:
        names = [os.path.join(folder, name) for name in ('S', 'D')]
        for name, text in zip(names, (schema, document)):
            with open(name, 'w') as file:
                file.write(text)
        best = None
        for _ in range(runs):
            start = time.perf_counter()
            ended = subprocess.run([program, 'validate', *names], stdout=subprocess.DEVNULL)
            spent = time.perf_counter() - start
            assert ended.returncode in (0, 1), ended.returncode
            best = spent if best is None else min(best, spent)
        return best


def print_growth(program, runs, cases):
    """A line for each case, which is a schema and a function that makes a document of a size."""
    print(f'{"document of 4 MiB":38} {"MB/s":>7} {"4 MiB / 1 MiB":>14}')
    for name, (schema, make) in cases.items():
        small, large = (seconds(program, runs, schema, make(size)) for size in (MIB, 4 * MIB))
        print(f'{name:38} {4 * MIB / large / 1e6:7.1f} {large / small:14.2f}')
