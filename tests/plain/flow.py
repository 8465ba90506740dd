"""Does a right plan meet a whole number? By a maximum flow, for larger orders.

Document 01: "each job gets its full time on processors whose memory suffices"
(as document 00 says it); "The planner cuts time at the distinct ends into
stretches, the first from minute 0."

Minutes flow from the jobs through the stretches to the processors. Inside a
stretch a job takes at most the stretch's length, and so does a processor.
Processors are ranked by falling memory; a job enters at the last one that it
fits and its minutes may move on to a larger memory. A plan exists exactly when
all minutes of all jobs arrive.
"""

from collections import namedtuple

import orders

NO_LIMIT = 1 << 60

# A stretch of time and the memories of the processors on hand in it.
Stretch = namedtuple("Stretch", "begin end memories")


class Network:
    """A network with room on its edges. An edge is [to, room, its twin's place]."""

    def __init__(self, nodes):
        self.edges = [[] for _ in range(nodes)]

    def add(self, start, to, room):
        edge = [to, room, len(self.edges[to])]
        self.edges[to].append([start, 0, len(self.edges[start])])
        self.edges[start].append(edge)
        return edge

    def levels(self, source):
        """The fewest edges with room from the source to each node."""
        level = [None] * len(self.edges)
        level[source], waiting = 0, [source]
        for node in waiting:
            for to, room, _ in self.edges[node]:
                if room and level[to] is None:
                    level[to] = level[node] + 1
                    waiting.append(to)
        return level

    def push(self, node, sink, amount, level, tried):
        """Push up to this amount one level on; gives what arrived."""
        if node == sink:
            return amount
        while tried[node] < len(self.edges[node]):
            edge = self.edges[node][tried[node]]
            to, room, twin = edge
            if room and level[to] == level[node] + 1:
                arrived = self.push(to, sink, min(amount, room), level, tried)
                if arrived:
                    edge[1] -= arrived
                    self.edges[to][twin][1] += arrived
                    return arrived
            tried[node] += 1
        return 0

    def most(self, source, sink):
        """The maximum flow, by levels (Dinitz)."""
        total = 0
        while True:
            level = self.levels(source)
            if level[sink] is None:
                return total
            tried = [0] * len(self.edges)
            while True:
                arrived = self.push(source, sink, NO_LIMIT, level, tried)
                if not arrived:
                    break
                total += arrived


def stretch_ends(order, bound, parts):
    """The distinct ends after minute 0, where time is cut."""
    return sorted({orders.end(job, bound, parts) for job in order.jobs
                   if orders.end(job, bound) > 0})


def stretches(order, bound, parts):
    """The stretches up to the last end; every processor is on hand in each."""
    cuts = stretch_ends(order, bound, parts)
    return [Stretch(begin, end, order.memories)
            for begin, end in zip([0] + cuts, cuts)]


def build(order, stretches, may_run, parts):
    """The network, and its edges from job to stretch as {(job, stretch): edge};
    `may_run` says whether a job (from 0) may get minutes of a stretch."""
    network = Network(2 + order.n + len(stretches) * order.m)
    source, sink = 0, 1
    shares = {}
    for job, one in enumerate(order.jobs):
        network.add(source, 2 + job, parts * one.time)
        for place, stretch in enumerate(stretches):
            fit = [memory for memory in stretch.memories if memory >= one.need]
            if fit and may_run(job, stretch):
                node = 2 + order.n + place * order.m + len(fit) - 1
                shares[job, place] = network.add(
                    2 + job, node, stretch.end - stretch.begin)
    for place, stretch in enumerate(stretches):
        for rank in range(len(stretch.memories)):
            node = 2 + order.n + place * order.m + rank
            network.add(node, sink, stretch.end - stretch.begin)
            if rank:
                network.add(node, node - 1, NO_LIMIT)
    return network, shares


def arriving(order, stretches, may_run, parts):
    """What each job gets in each stretch, as {(job, stretch): amount} with both
    from 0 and no amount of 0; None if not all minutes of all jobs arrive."""
    network, shares = build(order, stretches, may_run, parts)
    if network.most(0, 1) != parts * sum(job.time for job in order.jobs):
        return None
    given = {}
    for key, (to, _, twin) in shares.items():
        amount = network.edges[to][twin][1]
        if amount:
            given[key] = amount
    return given


def amounts(order, bound, parts=1):
    """What each job gets in each stretch; None if no right plan meets the bound."""
    return arriving(
        order, stretches(order, bound, parts),
        lambda job, stretch: stretch.end <= orders.end(order.jobs[job], bound, parts),
        parts)


def meets(order, bound, parts=1):
    return amounts(order, bound, parts) is not None
