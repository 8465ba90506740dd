"""The first overfull staircase of a larger order.

Document 01: "There are too many to try each." What a class adds to a staircase
depends on its own time alone, so the most that classes c to k can add below a
given time is found from the last class backwards; then the earliest time that
still lets the whole be overfull is taken, class by class.
"""

import orders
import reason


def excess(order, bound, times):
    """For each class and each time: minutes owed less minutes on hand."""
    memories = reason.class_memories(order)
    members = [[] for _ in memories]
    for job in order.jobs:
        members[reason.class_of(order, job)].append(job)
    return [[sum(reason.owed(job, bound, time) for job in jobs)
             - time * order.memories.count(memory) for time in times]
            for memory, jobs in zip(memories, members)]


def best_from(gains, k):
    """best[c][i]: the most that classes c to k - 1 (from 0) add if the time of
    class c is at place i."""
    best = [None] * k + [[0] * len(gains[0])]
    for c in range(k - 1, -1, -1):
        best[c] = []
        most = None
        for gain, rest in zip(gains[c], best[c + 1]):
            most = rest if most is None else max(most, rest)
            best[c].append(gain + most)
    return best


def earliest(gains, k):
    """The places of the times of the first overfull staircase of k classes."""
    best = best_from(gains, k)
    places, so_far, highest = [], 0, len(gains[0]) - 1
    for c in range(k):
        place = next((i for i in range(highest + 1)
                      if so_far + best[c][i] > 0), None)
        if place is None:
            return None
        places.append(place)
        so_far += gains[c][place]
        highest = place
    return places


def first_overfull(order, bound):
    """The due times of the first overfull staircase, else None."""
    times = sorted({orders.end(job, bound) for job in order.jobs})
    gains = excess(order, bound, times)
    for k in range(1, len(gains) + 1):
        places = earliest(gains, k)
        if places:
            return tuple(orders.due_at(times[place], bound) for place in places)
    return None
