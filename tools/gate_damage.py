# Damage to a sound gate: one thing changed. Some of it may as well leave the gate sound, so that the line is tried from
# both sides. A damage changes nothing where the gate has no place for it.
import gate_model
from gate_model import (LAYOUT, UNUSED, LIMIT, IDLE, FRONT, BEST, SPENT, TIDYING, used, room, queues, waits, serves,
                        is_spent, join, leave)

def any_client(r, g):
    return r.choice((r.randrange(g.N) if g.N else 0, max(g.N - 1, 0), g.N, 64, 255, 65535))


# THE SETUP

def clusters(r, g):
    g.K = r.choice((0, 9, 255, g.K - 1, g.K + 1))


def cap(r, g):
    g.L = r.choice((0, g.units, max(g.units - 1, 0))) % 65536


def tidy(r, g):
    g.W = r.choice((0, g.units, max(g.units - 1, 0))) % 65536


def ranks(r, g):
    g.timed = not g.timed


def clients(r, g):
    g.N = r.choice((65, 255, max(g.N - 1, 0), g.N + 1))


def size(r, g):
    k = r.randrange(g.K)
    g.sizes[k] = r.choice((0, 9, 255, g.sizes[k] + 1, g.sizes[k] - 1))


def kind(r, g):
    if g.N:
        g.kinds[r.randrange(g.N)] = r.choice((0, 1, 2, 255))


def home(r, g):
    if g.N:
        g.homes[r.randrange(g.N)] = r.choice((g.K, 255, g.K - 1, 0))


def priority(r, g):
    if g.N:
        g.priorities[r.randrange(g.N)] = r.choice((0, 65535))


def size_past(r, g):
    if g.K < 8:
        g.sizes[r.choice((g.K, 7))] = 1


def row_past(r, g):
    if g.N < 64:
        r.choice((g.kinds, g.homes, g.priorities, g.charges))[r.choice((g.N, 63))] = 1


# PLACES

def gap(r, g):
    places = r.choice(queues(g))
    n = len(used(places))
    if n:
        places[:n + 1] = (places[:n - 1] + [UNUSED, places[n - 1]])[:len(places)]


def number(r, g):
    """A number that no client has, in the first unused place or over a used one."""
    places = r.choice((g.lines[0], r.choice(queues(g))))
    places[min(r.randint(0, len(used(places))), len(places) - 1)] = r.choice((g.N, g.N, 64, 254))


def room_number(r, g):
    if g.N < 64:
        g.rooms[r.randrange(g.K)] |= 1 << r.choice((g.N, 63))


def line_past(r, g):
    if g.K < 8 and g.N:
        g.lines[r.choice((g.K, 7))][0] = r.randrange(g.N)


def room_past(r, g):
    if g.K < 8 and g.N:
        g.rooms[r.choice((g.K, 7))] |= 1 << r.randrange(g.N)


def free(g):
    """The clients that neither wait nor are spent, or 0 where there is none."""
    return [c for c in range(g.N) if not waits(g, c) and not is_spent(g, c)] or [0]


def newcomer(r, g):
    """A client that waited nowhere at a line's end: its own or another."""
    c = r.choice(free(g))
    k = r.choice((g.homes[c], g.homes[c], r.randrange(g.K)))
    if UNUSED in g.lines[k]:
        join(g.lines[k], c)


def newcomer_in_room(r, g):
    c = r.choice(free(g))
    g.rooms[r.choice((g.homes[c], g.homes[c], r.randrange(g.K)))] |= 1 << c


def newcomer_in_background(r, g):
    if UNUSED in g.background:
        join(g.background, r.choice(free(g)))


def leaver(r, g):
    places = r.choice(queues(g))
    if used(places):
        leave(places, r.choice(used(places)))


def room_leaver(r, g):
    k = r.randrange(g.K)
    if g.rooms[k]:
        g.rooms[k] &= ~(1 << r.choice(room(g, k)))


def twice(r, g):
    queued = [c for c in range(g.N) if waits(g, c)]
    places = r.choice(g.lines[:g.K] + [g.queue, g.background])
    if queued and UNUSED in places:
        join(places, r.choice(queued))


def twice_in_room(r, g):
    queued = [c for c in range(g.N) if waits(g, c)]
    if queued:
        c = r.choice(queued)
        g.rooms[r.choice((g.homes[c], r.randrange(g.K)))] |= 1 << c


def spent_again(r, g):
    if g.server == SPENT:
        k = g.homes[g.served]
        if UNUSED in g.lines[k] and r.random() < 0.5:
            join(g.lines[k], g.served)
        else:
            g.rooms[k] |= 1 << g.served


# THE GLOBAL QUEUE

def line_swap(r, g):
    line = r.choice(g.lines[:g.K])
    n = len(used(line))
    if n > 1:
        i, j = r.choice(((0, n - 1), (n - 2, n - 1)))
        line[i], line[j] = line[j], line[i]


def queue_swap(r, g):
    places = r.choice((g.queue, g.background))
    n = len(used(places))
    if n > 1:
        i, j = r.sample(range(n), 2)
        places[i], places[j] = places[j], places[i]


def queue_other(r, g):
    n = len(used(g.queue))
    if n:
        i = r.randrange(n)
        g.queue[i] = r.choice(used(g.lines[g.homes[g.queue[i]]]) + g.queue[:n])


def queued_twice(r, g):
    if used(g.queue) and UNUSED in g.queue:
        join(g.queue, r.choice(used(g.queue)))


def served_queued(r, g):
    if g.server == FRONT:
        join(g.queue, g.served)


def blocked_front_queued(r, g):
    if g.server == SPENT and used(g.lines[g.homes[g.served]]):
        join(g.queue, g.lines[g.homes[g.served]][0])


# THE SERVER

def server_case(r, g):
    if serves(g):
        g.server = r.choice((FRONT, BEST, SPENT))


def served(r, g):
    if serves(g):
        g.served = r.choice((any_client(r, g), g.N, g.served + 256, g.served + 1)) % 65536


def falls_idle(r, g):
    g.server, g.served, g.units = IDLE, 0, r.choice((0, g.units))


def falls_tidying(r, g):
    g.server, g.served, g.units = TIDYING, 0, r.choice((0, g.units, g.W, g.W + 1))


def idle_units(r, g):
    if g.server == IDLE:
        g.units = r.choice((1, g.L))


def serves_another(r, g):
    queued = [c for c in range(g.N) if waits(g, c)] or [0]
    g.server, g.served = r.choice((FRONT, BEST, SPENT)), r.choice((any_client(r, g), r.choice(queued)))


def units(r, g):
    if g.server != IDLE:
        cap = gate_model.cap(g)
        g.units = r.choice((0, cap, cap + 1, cap + 65536, 4294967295, g.L, g.W))


# CHARGES

def best_charge(r, g):
    best = [c for c in range(g.N) if g.kinds[c] == 1]
    if best:
        g.charges[r.choice(best)] = r.choice((1, LIMIT))


def charge(r, g):
    real = [c for c in range(g.N) if g.kinds[c] == 0]
    if real:
        g.charges[r.choice(real)] = r.choice((LIMIT, LIMIT, LIMIT + 1, LIMIT + 1, 2 ** 31, 2 ** 32 - 1))


# DEADLINES: others where they may be, and some where they may not

def any_deadline(r):
    """Few enough that equal ones meet, and some that differ in one of their four bytes alone."""
    return r.choice((0, 1, r.randint(0, 3), r.randrange(256) << 8 * r.randrange(4), 2 ** 31 - r.randint(0, 1),
                     2 ** 32 - 1 - r.randint(0, 1), r.getrandbits(32)))


def date(r, g, clients):
    if clients:
        g.deadlines[r.choice(clients)] = any_deadline(r)


def deadline(r, g):
    date(r, g, [c for c in range(g.N) if g.kinds[c] == 0 and waits(g, c)])


def absent_deadline(r, g):
    date(r, g, [c for c in free(g) if c < g.N and g.kinds[c] == 0])


def spent_deadline(r, g):
    date(r, g, [g.served] if g.server == SPENT else [])


def best_deadline(r, g):
    date(r, g, [c for c in range(g.N) if g.kinds[c] == 1])


def deadline_past(r, g):
    date(r, g, [g.N, 63] if g.N < 64 else [])


# ANY BYTES, but the one that says how clients rank and those of the server: of these, others than 0 and 1, and other
# cases than five, are no gate.
BYTES = [i for i in range(LAYOUT.size) if i != 6 and i not in range(471, 474)]


def overwrite(r, g, times):
    data = bytearray(g.data())
    for _ in range(times):
        i = r.choice(BYTES)
        data[i] = r.choice((0, 1, 255, r.randrange(256), (data[i] + 1) % 256, data[i] ^ 1 << r.randrange(8)))
    g.read(bytes(data))


def byte(r, g):
    overwrite(r, g, 1)


def noise(r, g):
    overwrite(r, g, r.choice((2, 10, 100, 2000)))


DAMAGES = [clusters, cap, tidy, ranks, clients, size, kind, home, priority, size_past, row_past, gap, number,
           room_number, line_past, room_past, newcomer, newcomer_in_room, newcomer_in_background, leaver, room_leaver,
           twice, twice_in_room, spent_again, line_swap, queue_swap, queue_other, queued_twice, served_queued,
           blocked_front_queued, server_case, served, falls_idle, falls_tidying, idle_units, serves_another, units,
           best_charge, charge, deadline, absent_deadline, spent_deadline, best_deadline, deadline_past, byte, noise]


def damaged(r, g):
    """The gate with some damage, or the same gate."""
    h = g.copy()
    r.choice(DAMAGES)(r, h)
    return h
