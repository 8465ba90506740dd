"""The classes of an order with their processors, also after each processor passed.

Document 01: "Sort the distinct memories downwards: class 1 is the largest." A
staircase sums "(processors in class × time)".
Document 02, §6: "However distinct memories and the processors of each are counted
now, one pass over the sorted list shall do both. After each processor passed, classes
and counts are those of the processors passed so far. The listing of classes and their
counts is the former one for every order."

A listing has the classes of some memories, class 1 first, each with its memory and
its processors. Here nothing is found in one pass: memories and processors are counted
one after the other, of an order's processors as of those passed so far.
"""

from collections import namedtuple

import answers
import orders

Class = namedtuple("Class", "memory processors")


def distinct(memories):
    """Each of the memories once, downwards."""
    return sorted(set(memories), reverse=True)


def processors(memories, memory):
    """How many of the processors have this memory."""
    return sum(1 for one in memories if one == memory)


def listing(memories):
    """The classes of processors with these memories."""
    return [Class(memory, processors(memories, memory))
            for memory in distinct(memories)]


def sorted_list(memories):
    """The memory of each processor, downwards."""
    return sorted(memories, reverse=True)


def listings(memories):
    """The classes of the processors passed so far, after each one passed of the
    sorted list."""
    in_order = sorted_list(memories)
    return [listing(in_order[:count]) for count in range(1, len(in_order) + 1)]


def answer(order):
    """Refusals 1 to 6, 13 and 7, those of an order in their order, else the listing."""
    refused = orders.refusal(order)
    if refused:
        return refused
    return listing(order.memories)


def told(order):
    """The answer as the line of the expected outputs."""
    found = answer(order)
    if isinstance(found, orders.Refusal):
        return answers.refused(found)
    return [" ".join(["classes", *(f"{memory} {count}" for memory, count in found)])]
