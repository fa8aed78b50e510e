# Draws a trace that the model of tools/gate_model.py gives, as a kernel would print it (docs/TRACES.md):
#   python3 tools/draw_trace.py SEED VERSION ENTRIES > TRACE
# The stored input of check_trace is `2 2 600`.
import random
import sys

from draw_doors import draw_event, draw_record, draw_setup, draw_timed
from gate_model import ready, serves, step_sound


def heard(g, version, code, *rest):
    """The answer to a record of a log of that version, and the gate after it."""
    if version == 1 and code == 5:
        return 18, g
    answer, after = step_sound(g, code, *rest)
    if version == 1 and code == 3 and answer == 0:
        ready(after)
    return answer, after


def entry(g, version, record):
    """The line of a record that finds the gate g, and the gate after it."""
    answer, after = heard(g, version, *record)
    served = after.served if serves(after) else '-'
    return ' '.join(map(str, ['E', *record, answer, served, *after.charges[:after.N]])), after


def setup_lines(g, version):
    head = ['S', version, g.K, g.N, g.L] + ([g.W] if version > 1 else []) + ([int(g.timed)] if version > 2 else [])
    rows = (['C', g.kinds[c], g.homes[c], g.priorities[c]] for c in range(g.N))
    return [' '.join(map(str, line)) for line in (head, ['Z', *g.sizes[:g.K]], *rows)]


def trace(r, version, entries):
    g = draw_setup(r, version > 2 and draw_timed(r))
    if version == 1:
        g.W = 0
    lines = setup_lines(g, version)
    draw = draw_record if version > 2 else draw_event
    for _ in range(entries):
        line, g = entry(g, version, draw(r, g))
        lines.append(line)
    return lines


if __name__ == '__main__':
    seed, version, entries = map(int, sys.argv[1:])
    print(*trace(random.Random(seed), version, entries), sep='\n')
