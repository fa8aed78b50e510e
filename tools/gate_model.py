# A plain model of the gate, written from document 01 and what requests 2 and 5 of document 02 change in it: what a
# sound gate is, and what a record of the newest logs does to one.
# It shares nothing with the crates but the layout of a gate as bytes. Used by tools/draw_doors.py.
import struct

UNUSED = 255
LIMIT = 33554431
IDLE, FRONT, BEST, SPENT, TIDYING = 0, 1, 2, 3, 4

# The layout, numbers with their low byte first: K, N, L, W, 1 for deadlines or 0 for priorities, 8 sizes, 64 kinds, 64
# clusters, 64 priorities, 8 lines of 8 places, 8 waiting rooms, 8 places of the global queue, 64 of the background
# queue, the server's case and its client (0 when idle or tidying), the units served or tidied, 64 charges, 64
# deadlines.
LAYOUT = struct.Struct('<BBHH?8s64s64s64H64s8Q8s64sBHI64I64I')


class Gate:
    """A gate, place by place, as the bytes have it."""

    def __init__(g, data):
        g.read(data)

    def read(g, data):
        f = list(LAYOUT.unpack(data))
        g.K, g.N, g.L, g.W, g.timed = f[0:5]
        g.sizes, g.kinds, g.homes = (list(b) for b in f[5:8])
        g.priorities = f[8:72]
        g.lines = [list(f[72][8 * k:8 * k + 8]) for k in range(8)]
        g.rooms = f[73:81]
        g.queue, g.background = list(f[81]), list(f[82])
        g.server, g.served, g.units = f[83:86]
        g.charges, g.deadlines = f[86:150], f[150:214]

    def data(g):
        return LAYOUT.pack(g.K, g.N, g.L, g.W, g.timed, bytes(g.sizes), bytes(g.kinds), bytes(g.homes), *g.priorities,
                           bytes(sum(g.lines, [])), *g.rooms, bytes(g.queue), bytes(g.background),
                           g.server, g.served, g.units, *g.charges, *g.deadlines)

    def copy(g):
        return Gate(g.data())


def fresh(K, N, L, W, timed, sizes, rows):
    """The fresh gate of a setup; a row is (kind, cluster, priority)."""
    g = Gate(bytes(LAYOUT.size))
    g.K, g.N, g.L, g.W, g.timed = K, N, L, W, timed
    g.sizes[:K] = sizes
    for c, (kind, home, priority) in enumerate(rows):
        g.kinds[c], g.homes[c], g.priorities[c] = kind, home, priority
    for places in g.lines + [g.queue, g.background]:
        places[:] = [UNUSED] * len(places)
    return g


# READING A GATE

def used(places):
    return [c for c in places if c != UNUSED]


def room(g, k):
    return [c for c in range(64) if g.rooms[k] >> c & 1] if g.rooms[k] else []


def waiting(g, k):
    """Who is in the line or waiting room of a cluster."""
    return used(g.lines[k]) + room(g, k)


def waits(g, c):
    """Whether a client waits: in a line, a waiting room or the background queue, or in service and not spent."""
    queued = any(c in waiting(g, k) for k in range(g.K)) or c in used(g.background)
    return queued or (g.server in (FRONT, BEST) and g.served == c)


def serves(g):
    """Whether some client is in service."""
    return g.server in (FRONT, BEST, SPENT)


def cap(g):
    """What the units may come to: W while the server tidies, else L."""
    return g.W if g.server == TIDYING else g.L


def is_spent(g, c):
    return g.server == SPENT and g.served == c


def is_blocked(g, k):
    return g.server == SPENT and g.homes[g.served] == k


def rank(g, c):
    """By its deadline or its priority, as the setup says; equal ones by client number. The smaller outranks."""
    return g.deadlines[c] if g.timed else g.priorities[c], c


def outranks(g, a, b):
    return rank(g, a) < rank(g, b)


# SOUND: the sentence of document 01 with what document 02 adds, part by part

def queues(g):
    return g.lines + [g.queue, g.background]


def used_first(places):
    return places[:len(used(places))] == used(places)


def lined(g):
    """Each client that stands in the line of a cluster, with that cluster."""
    return [(c, k) for k in range(8) for c in used(g.lines[k])]


def roomed(g):
    return [(c, k) for k in range(8) for c in room(g, k)]


def standing(g):
    """Who stands in a line, a room or the background queue, as often as it does."""
    return [c for c, k in lined(g) + roomed(g)] + used(g.background)


def due_fronts(g):
    """The fronts that are not in service and whose cluster isn't blocked."""
    fronts = [g.lines[k][0] for k in range(g.K) if used(g.lines[k]) and not is_blocked(g, k)]
    return [c for c in fronts if not (g.server == FRONT and g.served == c)]


SOUND = (
    ('K is 1 to 8', lambda g: 1 <= g.K <= 8),
    ('L is not 0', lambda g: g.L != 0),
    ('N is at most 64', lambda g: g.N <= 64),
    ('each size is 1 to 8', lambda g: all(1 <= m <= 8 for m in g.sizes[:g.K])),
    ('each kind is 0 or 1', lambda g: all(kind in (0, 1) for kind in g.kinds[:g.N])),
    ("each client's cluster is below K", lambda g: all(k < g.K for k in g.homes[:g.N])),
    ('sizes past K are zero', lambda g: not any(g.sizes[g.K:])),
    ('kinds past N are zero', lambda g: not any(g.kinds[g.N:])),
    ('clusters past N are zero', lambda g: not any(g.homes[g.N:])),
    ('priorities past N are zero', lambda g: not any(g.priorities[g.N:])),
    ('charges past N are zero', lambda g: not any(g.charges[g.N:])),
    ('deadlines past N are zero', lambda g: not any(g.deadlines[g.N:])),
    ('used places of a line come first', lambda g: all(used_first(line) for line in g.lines)),
    ('used places of the global queue come first', lambda g: used_first(g.queue)),
    ('used places of the background queue come first', lambda g: used_first(g.background)),
    ('used places hold numbers below N', lambda g: all(c < g.N for p in queues(g) for c in used(p))),
    ('rooms hold only such numbers', lambda g: all(c < g.N for c, k in roomed(g))),
    ('lines past K are empty', lambda g: all(k < g.K for c, k in lined(g))),
    ('rooms past K are empty', lambda g: all(k < g.K for c, k in roomed(g))),
    ('a line has at most m clients', lambda g: all(len(used(g.lines[k])) <= g.sizes[k] for k in range(g.K))),
    ('units served are 0 when idle', lambda g: g.server != IDLE or g.units == 0),
    ('units served are at most L', lambda g: g.server == TIDYING or g.units <= g.L),
    ('units tidied are at most W', lambda g: g.server != TIDYING or g.units <= g.W),
    ('the client in service is below N', lambda g: not serves(g) or g.served < g.N),
    ('a front in service is in its line', lambda g: g.server != FRONT or g.served in g.lines[g.homes[g.served]]),
    ('a front in service is not behind another there',
     lambda g: g.server != FRONT or g.served not in g.lines[g.homes[g.served]][1:]),
    ('a best-effort client in service is one', lambda g: g.server != BEST or g.kinds[g.served] == 1),
    ('a spent client is real-time', lambda g: g.server != SPENT or g.kinds[g.served] == 0),
    ('no client stands in two places', lambda g: len(standing(g)) == len(set(standing(g)))),
    ('a best-effort client in service stands in none', lambda g: g.server != BEST or g.served not in standing(g)),
    ('a spent client stands in none', lambda g: g.server != SPENT or g.served not in standing(g)),
    ('every client in a line is real-time', lambda g: all(g.kinds[c] == 0 for c, k in lined(g))),
    ('every client in a line is of that cluster', lambda g: all(g.homes[c] == k for c, k in lined(g))),
    ('every client in a room is real-time', lambda g: all(g.kinds[c] == 0 for c, k in roomed(g))),
    ('every client in a room is of that cluster', lambda g: all(g.homes[c] == k for c, k in roomed(g))),
    ('only best-effort clients are in the background queue',
     lambda g: all(g.kinds[c] == 1 for c in used(g.background))),
    ('a waiting room is empty unless its line is full',
     lambda g: all(len(used(g.lines[k])) == g.sizes[k] for k in range(g.K) if g.rooms[k])),
    ('the global queue holds no others than the fronts due', lambda g: set(used(g.queue)) <= set(due_fronts(g))),
    ('the global queue holds all the fronts due', lambda g: set(used(g.queue)) >= set(due_fronts(g))),
    ('the global queue holds them once each', lambda g: len(used(g.queue)) == len(set(used(g.queue)))),
    ('an idle server means that no real-time client waits', lambda g: g.server != IDLE or lined(g) + roomed(g) == []),
    ('an idle server means that no best-effort client waits', lambda g: g.server != IDLE or used(g.background) == []),
    ('best-effort charges are 0', lambda g: not any(g.charges[c] for c in range(g.N) if g.kinds[c] == 1)),
    ('no charge is over 33,554,431', lambda g: all(x <= LIMIT for x in g.charges)),
    ('the deadline of a client that does not wait is 0',
     lambda g: all(waits(g, c) or is_spent(g, c) for c in range(g.N) if g.deadlines[c])),
    ('the deadline of a spent client is 0', lambda g: g.server != SPENT or g.deadlines[g.served] == 0),
    ('best-effort deadlines are 0', lambda g: not any(g.deadlines[c] for c in range(g.N) if g.kinds[c] == 1)),
    ('all deadlines are 0 under priorities', lambda g: g.timed or not any(g.deadlines)),
)


def holds(g, part):
    """Whether a part holds. One that can't be asked, as of a client past the rows, does not."""
    try:
        return part[1](g)
    except IndexError:
        return False


def broken(g):
    return [part for part in SOUND if not holds(g, part)]


def sound(g):
    return broken(g) == []


# THE FIVE EVENTS

def join(places, c):
    places[places.index(UNUSED)] = c


def leave(places, c):
    """Others keep their order."""
    places.remove(c)
    places.append(UNUSED)


def refill(g, k):
    """If the line has room and the waiting room isn't empty, the highest in rank moves to the line's end."""
    if len(used(g.lines[k])) < g.sizes[k] and room(g, k):
        c = min(room(g, k), key=lambda a: rank(g, a))
        g.rooms[k] &= ~(1 << c)
        join(g.lines[k], c)


def pick(g):
    g.units = 0
    if used(g.queue):
        g.server, g.served = FRONT, g.queue[0]
        leave(g.queue, g.served)
    elif used(g.background):
        g.server, g.served = BEST, g.background[0]
        leave(g.background, g.served)
    else:
        g.server, g.served = IDLE, 0


def join_front(g, k):
    """The front of a line, if any, joins the end of the global queue."""
    if used(g.lines[k]):
        join(g.queue, g.lines[k][0])


def invoke(g, c, deadline):
    if c >= g.N:
        return 10
    if waits(g, c) or is_spent(g, c):
        return 11
    k = g.homes[c]
    if g.kinds[c] == 1:
        join(g.background, c)
    else:
        g.charges[c], g.deadlines[c] = 0, deadline
        if len(used(g.lines[k])) < g.sizes[k]:
            join(g.lines[k], c)
            if g.lines[k][0] == c and not is_blocked(g, k):
                join(g.queue, c)
        else:
            g.rooms[k] |= 1 << c
    if g.server == IDLE:
        pick(g)
    return 0


def charged(g):
    """Each real-time client in a line or room that fewer than m clients there outrank."""
    return [c for k in range(g.K) for c in waiting(g, k)
            if sum(outranks(g, a, c) for a in waiting(g, k)) < g.sizes[k]]


def run(g, n):
    if n == 0:
        return 13
    if g.server == IDLE:
        return 12
    if g.units + n > cap(g):
        return 14
    if any(g.charges[c] + n > LIMIT for c in charged(g)):
        return 19
    g.units += n
    for c in charged(g):
        g.charges[c] += n
    return 0


def reply(g):
    if not serves(g):
        return 12
    was, c, k = g.server, g.served, g.homes[g.served]
    g.server, g.served, g.units = TIDYING, 0, 0
    if was == FRONT:
        g.deadlines[c] = 0
        leave(g.lines[k], c)
        refill(g, k)
    if was in (FRONT, SPENT):
        join_front(g, k)
    return 0


def ready(g):
    """The event that document 02 calls wait."""
    if g.server != TIDYING:
        return 26
    pick(g)
    return 0


def abort(g, c):
    if c >= g.N:
        return 10
    if g.kinds[c] == 1:
        return 16
    if not waits(g, c) and not is_spent(g, c):
        return 15
    if is_spent(g, c):
        return 17
    k = g.homes[c]
    g.deadlines[c] = 0
    if c in room(g, k):
        g.rooms[k] &= ~(1 << c)
        return 0
    was_front = g.lines[k][0] == c
    leave(g.lines[k], c)
    refill(g, k)
    if was_front and g.server == FRONT and g.served == c:
        g.server = SPENT
    elif was_front and not is_blocked(g, k):
        leave(g.queue, c)
        join_front(g, k)
    return 0


def has_form(g, code, argument, deadline):
    """A reply and a ready have no argument; a deadline is an invoke's, and only where clients go by deadlines."""
    if code not in (1, 2, 3, 4, 5) or (code in (3, 5) and argument != 0):
        return False
    return deadline == 0 or (code == 1 and g.timed)


def step_sound(g, code, argument, deadline=0):
    """The answer to a record and the gate after it; the same gate where it is refused."""
    if not has_form(g, code, argument, deadline):
        return 18, g
    after = g.copy()
    event = {1: lambda: invoke(after, argument, deadline), 2: lambda: run(after, argument), 3: lambda: reply(after),
             4: lambda: abort(after, argument), 5: lambda: ready(after)}
    answer = event[code]()
    return answer, after if answer == 0 else g


def step(g, code, argument, deadline):
    """The same for any gate."""
    return step_sound(g, code, argument, deadline) if sound(g) else (19, g)
