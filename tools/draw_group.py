# Draws events of a group of servers, and what the program `group` is to say of them, by the rules in Python:
#   python3 tools/draw_group.py SEED COUNT IN OUT
# The stored input and output of `group` are `2 400`: every number but 19 is answered there. For an odd seed the last line
# is malformed.
import random
import sys

CONTEXTS, SERVERS, TICKETS, DEPTH = 8, 16, 4, 8


class Group:
    """The queue, first come first: context -> (time, tickets, stack)."""

    def __init__(self):
        self.queue, self.last = {}, None

    def blockers(self, c):
        time, tickets, _ = self.queue[c]
        return [
            b
            for b, (t, other, _) in self.queue.items()
            if t < time and any(x and y for x, y in zip(tickets, other))
        ]

    def entry(self, c, time, first, tickets):
        if c >= CONTEXTS or first >= SERVERS:
            return 40
        if c in self.queue:
            return 41
        if max(tickets) > TICKETS:
            return 42
        if not tickets[first]:
            return 43
        if self.last is not None and time <= self.last:
            return 44
        self.queue[c], self.last = (time, list(tickets), [first]), time
        return 0

    def serves(self, c):
        if c not in self.queue:
            return 45
        return 46 if self.blockers(c) else 0

    def call(self, c, s):
        if c >= CONTEXTS or s >= SERVERS:
            return 40
        refusal = self.serves(c)
        if refusal:
            return refusal
        _, tickets, stack = self.queue[c]
        if not tickets[s]:
            return 47
        if s in stack:
            return 48
        if len(stack) == DEPTH:
            return 49
        stack.append(s)
        return 0

    def reply(self, c):
        if c >= CONTEXTS:
            return 40
        refusal = self.serves(c)
        if refusal:
            return refusal
        _, tickets, stack = self.queue[c]
        tickets[stack.pop()] -= 1
        if not stack:
            del self.queue[c]
        return 0

    def field(self, c):
        if c not in self.queue:
            return "."
        blockers = self.blockers(c)
        if not blockers:
            return "+%d" % self.queue[c][2][-1]
        return "<%d" % max(blockers, key=lambda b: self.queue[b][0])


def draw_entry(draw, group):
    free = [c for c in range(CONTEXTS) if c not in group.queue]
    c = draw.choice(free * 4 + [draw.randrange(CONTEXTS), draw.choice([8, 255])])
    last = -1 if group.last is None else group.last
    time = max(0, last + draw.choice([1, 1, 1, 2, 2, 7, 7, 9, 1 << 33, 0, -1]))
    count = draw.choice([1, 1, 2, 2, 3, 12])
    tickets = [0] * SERVERS
    for s in draw.sample(range(SERVERS), count):
        tickets[s] = draw.choice([1, 1, 2, 4])
    if draw.random() < 0.05:
        tickets[draw.randrange(SERVERS)] = draw.choice([5, 255])
    held = [s for s in range(SERVERS) if tickets[s]]
    first = draw.choice(held * 8 + [draw.randrange(SERVERS), 16, 255])
    return ("entry", c, time, first, *tickets), (c, time, first, tickets)


def draw_event(draw, group):
    kind = draw.choice(["entry", "call", "call", "call", "reply"])
    if kind == "entry":
        words, given = draw_entry(draw, group)
        return words, group.entry(*given)
    going = [c for c in group.queue if not group.blockers(c)]
    c = draw.choice(going * 9 + list(group.queue) + [draw.randrange(CONTEXTS), draw.randrange(10)])
    if kind == "reply":
        return ("reply", c), group.reply(c)
    _, tickets, stack = group.queue.get(c, (0, [0] * SERVERS, []))
    fresh = [s for s in range(SERVERS) if tickets[s] and s not in stack]
    s = draw.choice(fresh * 9 + stack + [draw.randrange(SERVERS), draw.choice([15, 16, 255])])
    return ("call", c, s), group.call(c, s)


def main():
    seed, count, given, expected = int(sys.argv[1]), int(sys.argv[2]), sys.argv[3], sys.argv[4]
    draw = random.Random(seed)
    group, lines, told = Group(), [], []
    for index in range(count):
        words, answer = draw_event(draw, group)
        lines.append(" ".join(map(str, words)) + "\n")
        told.append("%d %d %s\n" % (index, answer, " ".join(group.field(c) for c in range(CONTEXTS))))
    if seed % 2:
        line, _ = draw_event(draw, group)
        good = " ".join(map(str, line))
        spaced = good.replace(" ", "  ", 1)
        lines.append(draw.choice([good, "\n", good + " \n", good + "\r\n", spaced + "\n", good + " 1\n", "Reply 1\n"]))
        told.append("malformed %d\n" % (count + 1))
        if lines[-1].endswith("\n"):
            lines.append("reply 0\n")
    with open(given, "w", newline="") as f:
        f.write("".join(lines))
    with open(expected, "w", newline="") as f:
        f.write("".join(told))


main()
