"""The least lateness, by trying whole numbers.

Document 00: "the least lateness answered is the smallest whole number that some
right plan meets". Document 01: "The least lateness is signed and may be
negative." "Here it is rounded up, also below zero": a whole number is met or
not, so trying whole numbers needs no rounding.
"""

import flow
import orders

STEPS_MOST = 200


def floor(order):
    """No right plan meets less: a job's rows lie between minute 0 and its end
    and do not overlap, so its time is at most its end."""
    return max(job.time - orders.end(job, 0) for job in order.jobs)


def upwards(order, meets):
    """One whole number after another, from the lowest that could be met."""
    number = floor(order)
    while not meets(order, number):
        number += 1
    return number


def by_halving(order, meets):
    """For large times: a plan that meets a number meets every larger one, and
    one job after another on the largest memory meets the highest tried here."""
    short = floor(order) - 1
    enough = (sum(job.time for job in order.jobs)
              - min(orders.end(job, 0) for job in order.jobs))
    while enough - short > 1:
        middle = (short + enough) // 2
        if meets(order, middle):
            enough = middle
        else:
            short = middle
    return enough


def least(order):
    """The least lateness of an accepted order."""
    if sum(job.time for job in order.jobs) <= STEPS_MOST:
        return upwards(order, flow.meets)
    return by_halving(order, flow.meets)
