"""Is there more than one choice of amounts?

Document 01: "One freedom is granted: which amounts a job gets in which stretch. Of them
it holds that the rows written are their layout and a right plan." Where a bound leaves
one choice alone, the rows are settled too.
"""

import functools

import flow
import orders


def fewer(order, bound, share, most):
    """Is there a plan in which the job of this share (job and stretch, from 0) gets at
    most so many minutes there?"""
    network, shares = flow.build(
        order, flow.stretches(order, bound, 1),
        lambda job, stretch: stretch.end <= orders.end(order.jobs[job], bound), 1)
    shares[share][1] = most
    return network.most(0, 1) == sum(job.time for job in order.jobs)


@functools.cache
def forced(order, bound):
    """Two choices differ in some amount, so that one of them has less there: with one
    choice alone, no amount can be less."""
    return not any(fewer(order, bound, share, amount - 1)
                   for share, amount in flow.amounts(order, bound).items())
