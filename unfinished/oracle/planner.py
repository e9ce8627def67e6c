#!/usr/bin/env python3
# Writes crates/vectors_planner/data/planner.txt: lists of times with the fewest steps over every order and every choice of resets, and proposed
# plans with their verdict. A model of its own, over exact fractions: it knows the words of the request and none of the planner's order.
import itertools
import random
import struct
from collections import Counter
from fractions import Fraction

LIMIT = 720 * 2**20
SEED = 20260


def word(x):
    return struct.pack('>d', x).hex().upper()


def negative(x):
    return struct.pack('>d', x)[0] >= 128


def steps_in(t):
    return abs(Fraction(t)) // 720


# the state is (goes back, steps); None where an ask at t would be refused 7 or 21
def ask(state, t):
    back, k = state
    if k > 0 and (back != negative(t) or abs(Fraction(t)) < 720 * k):
        return None
    j = steps_in(t)
    return (negative(t), j), j - k


FRESH = (False, 0)


# every order of the times, each with or without a reset: (steps, resets) of those that run
def brute(times):
    best, free = None, False

    def walk(left, state, steps, resets):
        nonlocal best, free
        if not left:
            best = steps if best is None else min(best, steps)
            free = free or resets == 0
            return
        for i, t in enumerate(left):
            for reset in (0, 1):
                got = ask(FRESH if reset else state, t)
                if got is not None:
                    walk(left[:i] + left[i + 1:], got[0], steps + got[1], resets + reset)

    walk(tuple(times), FRESH, 0, 0)
    return best, free


def accepted(times, plan, resets):
    if len(plan) != len(resets) or Counter(map(word, times)) != Counter(map(word, plan)):
        return False
    state = FRESH
    for t, r in zip(plan, resets):
        got = ask(FRESH if r else state, t)
        if got is None:
            return False
        state = got[0]
    return True


def number(times):
    if len(times) > 64:
        return 24
    if any(t != t or abs(t) == float('inf') for t in times):
        return 1
    if any(abs(Fraction(t)) > LIMIT for t in times):
        return 2
    return 0


def plan_line(times, room):
    n = number(times) or (19 if room < len(times) else 0)
    steps, free = brute(times) if n == 0 else (0, True)
    return ' '.join(['plan', f'{n:02}', f'{len(times):02}', f'{room:02}', word(float(720 * steps)), '00' if free else '01'] + [word(t) for t in times])


def check_line(times, plan, resets):
    n = number(times)
    yes = n == 0 and accepted(times, plan, resets)
    return ' '.join(['check', f'{n:02}', '01' if yes else '00', f'{len(times):02}', f'{len(plan):02}', f'{len(resets):02}']
                    + [word(t) for t in times] + [word(t) for t in plan] + [f'{r:02}' for r in resets])


def below(x):
    return struct.unpack('>d', (int.from_bytes(struct.pack('>d', x), 'big') - 1).to_bytes(8, 'big'))[0]


SIZES = [0.0, 1.5, 719.99, below(720.0), 720.0, 720.01, below(1440.0), 1440.0, 1441.0, 2880.0, 2890.25, 7200.0, 100000.5, 525600.0, below(754974720.0), 754974720.0]


def draw(rng):
    if rng.random() < 0.75:
        x = rng.choice(SIZES)
    else:
        x = rng.uniform(0, rng.choice([800.0, 5000.0, 754974720.0]))
    return -x if rng.random() < 0.5 else x


def draw_list(rng, n):
    times = [draw(rng) for _ in range(n)]
    if n > 1 and rng.random() < 0.3:
        times[rng.randrange(n)] = times[rng.randrange(n)]
    if rng.random() < 0.2:
        times = [abs(t) for t in times]
    return times


# a plan of the list, or something near one
def propose(rng, times):
    plan = times[:]
    rng.shuffle(plan)
    resets = [int(rng.random() < 0.4) for _ in plan]
    if rng.random() < 0.5:
        order = sorted(range(len(plan)), key=lambda i: (negative(plan[i]) and steps_in(plan[i]) > 0, abs(plan[i])))
        plan = [plan[i] for i in order]
    what = rng.randrange(8)
    if what == 0 and plan:
        del plan[0], resets[0]
    elif what == 1 and plan:
        plan[rng.randrange(len(plan))] = rng.choice(plan)
    elif what == 2 and plan:
        i = rng.randrange(len(plan))
        plan[i] = -plan[i]
    elif what == 3:
        plan.append(draw(rng))
        resets.append(1)
    elif what == 4:
        resets.append(1)
    return plan, resets


def main():
    rng = random.Random(SEED)
    lines = [
        '# made by oracle/planner.py, a model over exact fractions, seed %d' % SEED,
        '# plan NUMBER count room MINUTES reset times: the fewest steps, times 720, and whether every accepted plan has a reset',
        '# check NUMBER accepted count times resets: a list, a proposed plan and its verdict',
    ]
    inf, nan = float('inf'), float('nan')
    lines.append('# the refusals in their order')
    for times, room in [([], 0), ([0.0, -0.0], 2), ([1.0] * 65, 72), ([nan] * 65, 72), ([1e9, nan], 2), ([inf], 0), ([-inf, 1e9], 0), ([754974720.5], 0), ([-754974720.5], 1), ([1.0, 2.0], 1), ([1.0], 0)]:
        lines.append(plan_line(times, room))
        lines.append(check_line(times, times[:3], [0] * len(times[:3])))
    lines.append('# every pair of the sizes near 0, 720 and 1440')
    few = [s * x for x in (0.0, 719.99, 720.0, below(1440.0), 1440.0) for s in (1.0, -1.0)]
    for a, b in itertools.product(few, few):
        lines.append(plan_line([a, b], 2))
        for r in (0, 1):
            lines.append(check_line([a, b], [b, a], [0, r]))
    lines.append('# drawn lists')
    for n, count in [(1, 20), (2, 40), (3, 100), (4, 100), (5, 80), (6, 60)]:
        for _ in range(count):
            times = draw_list(rng, n)
            lines.append(plan_line(times, rng.randrange(n, 72)))
            for _ in range(3):
                lines.append(check_line(times, *propose(rng, times)))
    print('\n'.join(lines))


main()
