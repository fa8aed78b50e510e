# Draws the cases of door_cases, and writes what the model (tools/gate_model.py) says of each:
#   python3 tools/draw_doors.py                        crates/door_cases/stdin and stdout
#   python3 tools/draw_doors.py SEED COUNT IN OUT      COUNT other cases
# A case is a gate's bytes, a record's code, its argument and its deadline. A line is 1 for a sound gate or 0, the
# answer, and each byte that the record changed, as OFFSET=VALUE.
import random
import struct
import sys
from gate_damage import any_client, any_deadline, damaged
from gate_model import (SOUND, LIMIT, IDLE, FRONT, BEST, SPENT, TIDYING, fresh, used, waiting, serves, cap, is_blocked,
                        holds, broken, sound, join, step, step_sound)


def draw_setup(r, timed):
    K = r.choice((1, 1, 2, 3, 8, r.randint(1, 8)))
    N = r.choice((0, 1, 4, 10, 20, 40, 64, 64, r.randint(0, 64), r.randint(0, 64)))
    L = r.choice((1, 10, 100, 65535, r.randint(1, 65535)))
    W = r.choice((0, 1, 5, 65535, L, r.randint(0, 65535)))
    sizes = [r.choice((1, 1, 2, 3, 8, r.randint(1, 8))) for _ in range(K)]
    best = r.choice((0, 0.1, 0.2, 0.5, r.random()))
    span = r.choice((0, 3, 65535))
    rows = [(int(r.random() < best), r.randrange(K), r.randint(0, span)) for _ in range(N)]
    return fresh(K, N, L, W, timed, sizes, rows)


def draw_timed(r):
    """Deadlines or priorities."""
    return r.random() < 0.5


# RECORDS

def draw_client(r, g):
    return r.randrange(g.N) if g.N and r.random() < 0.9 else any_client(r, g)


def draw_event(r, g):
    """A record's code and its argument."""
    t = r.random()
    if t < 0.05:
        return r.choice((0, 6, 255, r.randrange(256))), r.choice((0, 1, 65535))
    if t < 0.3:
        return 1, g.served if serves(g) and r.random() < 0.1 else draw_client(r, g)
    if t < 0.6:
        left = max(cap(g) - g.units, 0)
        return 2, r.choice((r.randint(0, left), left, left, left + 1, 0, 1, 65535)) % 65536
    if t < 0.8:
        likely = 5 if g.server == TIDYING else 3
        return r.choice((likely, likely, likely, 8 - likely)), r.choice((0, 0, 0, 0, 0, 0, 1, 256))
    if serves(g) and r.random() < 0.2:
        return 4, g.served
    queued = [c for k in range(min(g.K, 8)) for c in waiting(g, k)]
    return 4, r.choice(queued) if queued and r.random() < 0.8 else draw_client(r, g)


def draw_deadline(r, g, code):
    """The deadline of a record, seldom one that has no form."""
    seldom = 0.15 if code == 1 else 0.05
    return any_deadline(r) if code == 1 and g.timed or r.random() < seldom else 0


def draw_record(r, g):
    code, argument = draw_event(r, g)
    return code, argument, draw_deadline(r, g, code)


def draw_invoke(r, g):
    return 1, draw_client(r, g), draw_deadline(r, g, 1)


def draw_telling_record(r, g):
    """One of some, with a choice for those that are accepted, and for the refusals that are seldom met."""
    for _ in range(r.choice((1, 1, 8))):
        record = draw_record(r, g)
        if step(g, *record)[0] in (0, 17, 19):
            break
    return record


# SOUND GATES

def reached(r):
    """After some records from a fresh gate: first mostly invokes, then anything."""
    g = draw_setup(r, draw_timed(r))
    for i in range(r.choice((0, 5, 20, 40, 60, 120))):
        record = draw_invoke(r, g) if i < 40 and r.random() < 0.7 else draw_record(r, g)
        g = step_sound(g, *record)[1]
    return g


def drawn(r):
    """Made place by place, reached or not: units and charges at or near their limits, and any deadlines."""
    g = draw_setup(r, draw_timed(r))
    clients = r.sample(range(g.N), g.N)
    real = [c for c in clients if g.kinds[c] == 0]
    best = [c for c in clients if g.kinds[c] == 1]
    for c in real:
        g.charges[c] = r.choice((0, 1, LIMIT, LIMIT - 1, LIMIT - r.randrange(100), r.randint(0, LIMIT)))
    server = r.choice((IDLE, FRONT, FRONT, BEST, SPENT, SPENT, TIDYING, TIDYING))
    if server == TIDYING:
        g.server = TIDYING
    elif server == BEST and best or server == SPENT and real:
        g.server, g.served = server, (best if server == BEST else real).pop()
    elif server != FRONT or not real:
        return g
    for c in real[:r.randint(0 if server == TIDYING else 1, len(real))] if real else []:
        k = g.homes[c]
        if len(used(g.lines[k])) < g.sizes[k]:
            join(g.lines[k], c)
        elif r.random() < 0.8:
            g.rooms[k] |= 1 << c
    for c in (c for k in range(g.K) for c in waiting(g, k) if g.timed):
        g.deadlines[c] = any_deadline(r)
    fronts = [g.lines[k][0] for k in range(g.K) if used(g.lines[k]) and not is_blocked(g, k)]
    r.shuffle(fronts)
    if server == FRONT:
        g.server, g.served = FRONT, fronts.pop()
    for c in fronts:
        join(g.queue, c)
    for c in best[:r.randint(0, len(best))]:
        join(g.background, c)
    g.units = r.choice((0, cap(g), max(cap(g) - 1, 0), r.randint(0, cap(g))))
    return g


# DAMAGED GATES

def harmed(r, pool, part):
    """One in which that part of soundness does not hold, and alone if one is found soon."""
    best = None
    for _ in range(1500):
        g = damaged(r, r.choice(pool))
        if not holds(g, part) and (best is None or len(broken(g)) < len(broken(best))):
            best = g
            if len(broken(g)) == 1:
                break
    return best or harmed(r, pool, part)


def changed(r, pool):
    """One with any damage, sound or not."""
    while True:
        g = r.choice(pool)
        h = damaged(r, g)
        if h.data() != g.data():
            return h


# CASES

def gates(r, count):
    """The empty gate, and one that has no cluster but a cap; then, of five, two that are reached, one that is drawn,
    one that breaks a part of soundness, each in its turn, and one with any damage; last, a size of 9."""
    pool = [draw(r) for _ in range(150) for draw in (reached, drawn)]
    yield fresh(0, 0, 0, 0, False, [], [])
    yield fresh(0, 0, 1, 0, False, [], [])
    for i in range(count - 3):
        if i % 5 < 3:
            yield (reached, drawn, reached)[i % 5](r)
        elif i % 5 == 3:
            yield harmed(r, pool, SOUND[i // 5 % len(SOUND)])
        else:
            yield changed(r, pool)
    yield fresh(1, 0, 1, 0, False, [9], [])


def told(g, record):
    """The line of a case."""
    answer, after = step(g, *record)
    before, now = g.data(), after.data()
    changes = ''.join(' %d=%d' % (i, now[i]) for i in range(len(now)) if now[i] != before[i])
    return '%d %d%s\n' % (sound(g), answer, changes)


def main(seed='4', count='723', stdin='crates/door_cases/stdin', stdout='crates/door_cases/stdout'):
    r = random.Random(int(seed))
    with open(stdin, 'wb') as cases, open(stdout, 'w') as lines:
        for g in gates(r, int(count)):
            record = draw_telling_record(r, g)
            cases.write(g.data() + struct.pack('<BHI', *record))
            lines.write(told(g, record))


if __name__ == '__main__':
    main(*sys.argv[1:])
