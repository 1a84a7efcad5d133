"""Which instances clash.

Two different instances clash at a word that lies in a region of each and in a write region of at
least one, if they are of one task, or of two of which neither comes before the other by
dependencies and which aren't exclusive branches.  The first clash is the least by the two tasks,
then the two instances, then the word, with the lesser instance first.

It's sought in two ways: pair by pair in this order, which says the rule but is slow, and word by
word.  If the pairs are few both are taken, and they must agree.
"""

import itertools

from . import maps

FEW_PAIRS = 20000


def may_clash(task_map):
    """The pairs t <= u of tasks whose instances clash if they meet, in order."""
    before = maps.predecessors(task_map)
    needs = maps.needs(task_map)
    count = len(task_map.tasks)
    return [(t, u) for t in range(count) for u in range(t, count)
            if t == u or not (t in before[u] or u in before[t] or maps.exclusive(needs, t, u))]


def words_of(task, k, mode):
    """The words of instance k in regions of a mode, or in all regions if the mode is None."""
    return {word for region in task.regions if mode in (None, region.mode)
            for word in region.words(k)}


def pair_by_pair(task_map):
    """The first clash as (t, u, k, l, word), or None."""
    for t, u in may_clash(task_map):
        one, other = task_map.tasks[t], task_map.tasks[u]
        for k in range(one.quota):
            for l in range(k + 1 if t == u else 0, other.quota):
                met = (words_of(one, k, None) & words_of(other, l, "write") |
                       words_of(one, k, "write") & words_of(other, l, None))
                if met:
                    return t, u, k, l, min(met)
    return None


def by_word(task_map):
    """For each word and task the instances that may access it, and those that may write it."""
    found = {}
    for t, task in enumerate(task_map.tasks):
        for region in task.regions:
            for k in range(task.quota):
                for word in region.words(k):
                    all_of, writers = found.setdefault(word, {}).setdefault(t, (set(), set()))
                    all_of.add(k)
                    if region.mode == "write":
                        writers.add(k)
    return found


def least(instances):
    """The least two of them: a first clash at a word is among these and the two least writers."""
    return sorted(instances)[:2]


def word_by_word(task_map):
    pairs = set(may_clash(task_map))
    clashes = []
    for word, who in by_word(task_map).items():
        for t, u in pairs & set(itertools.product(who, who)):
            (all_t, writers_t), (all_u, writers_u) = who[t], who[u]
            for k in least(all_t) + least(writers_t):
                for l in least(all_u) + least(writers_u):
                    is_ordered = k < l if t == u else True
                    if is_ordered and (k in writers_t or l in writers_u):
                        clashes.append((t, u, k, l, word))
    return min(clashes, default=None)


def first_clash(task_map):
    """The first clash as (t, u, k, l, word), or None."""
    found = word_by_word(task_map)
    if sum(task.quota for task in task_map.tasks) ** 2 <= FEW_PAIRS:
        assert found == pair_by_pair(task_map), "the two ways to seek a clash differ"
    return found
