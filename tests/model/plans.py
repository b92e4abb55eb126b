"""plans.py: plans that split an advertisement (brothladder_check_plan, brothladder_plan, brothladder_plan_message), from docs/RULES.md (area Z). The
fewest messages are found a second time, by a look at every plan that there is."""
import struct

import walk

ACCEPTED, NOT_ACCEPTED, PLANNED, BEFORE = 22, 23, 24, 16
_part = struct.Struct("<48sQQ").pack
_planned = struct.Struct("<48sQ").pack
tried = {"lists": 0, "plans": 0}  # how many lists had all their plans looked at, and how many plans these were


def numbers(buffer, count):
    return struct.unpack(f"<{count}I", buffer[:4 * count])


def accepted(sizes, limit, plan):
    """Whether a plan is accepted for options of these sizes."""
    if not sizes:
        return len(plan) == 1 and plan[0] == 0 and BEFORE <= limit
    if 0 in plan or sum(plan) != len(sizes):
        return False
    at = 0
    for count in plan:
        if BEFORE + sum(sizes[at:at + count]) > limit:
            return False
        at += count
    return True


def filled(sizes, limit):
    """The plan that fills each message before it begins the next, or None where no plan can be accepted."""
    if limit < BEFORE or any(size > limit - BEFORE for size in sizes):
        return None
    plan, room = [0], limit - BEFORE
    for size in sizes:
        if size > room:
            plan.append(0)
            room = limit - BEFORE
        plan[-1] += 1
        room -= size
    return plan


def every_plan(count):
    """Every way to part so many options into messages with an option each."""
    for cuts in range(1 << (count - 1)):
        plan = [1]
        for i in range(count - 1):
            if cuts >> i & 1:
                plan.append(1)
            else:
                plan[-1] += 1
        yield plan


def fewest(sizes, limit):
    """How many messages the shortest accepted plan has, by a look at every plan; None where none is accepted."""
    plans = list(every_plan(len(sizes))) if sizes else [[0]]
    tried["lists"] += 1
    tried["plans"] += len(plans)
    return min((len(plan) for plan in plans if accepted(sizes, limit, plan)), default=None)


def sizes_of(edition, lengths, buffers):
    options, refusal = walk.walk(buffers[0], 0, lengths[0], 0, edition == 2)
    return [length for _, _, length in options], refusal


def check(edition, n, lengths, buffers):
    sizes, refusal = sizes_of(edition, lengths, buffers)
    if refusal:
        return walk.refused(refusal, 48), str(refusal[0])
    if accepted(sizes, n[0], numbers(buffers[1], lengths[1])):
        return walk.answer(ACCEPTED), "accepted"
    return walk.answer(NOT_ACCEPTED), "not accepted"


def make(edition, n, lengths, buffers):
    sizes, refusal = sizes_of(edition, lengths, buffers)
    if not refusal:
        plan = filled(sizes, n[0])
        if len(sizes) <= 5 or n[3] and len(sizes) <= 12:
            if fewest(sizes, n[0]) != (plan and len(plan)):
                raise AssertionError(f"the model's own plan {plan} for {sizes} within {n[0]} is not of the fewest messages")
        if plan is None:
            refusal = (21,)
        elif lengths[1] < len(plan):
            refusal = (9, 4 * len(plan))
    if refusal:
        return walk.refused(refusal, 56), str(refusal[0])
    after = struct.pack(f"<{len(plan)}I", *plan) + buffers[1][4 * len(plan):]
    return _planned(walk.answer(PLANNED), len(plan)), "planned", {1: after}


def message(edition, n, lengths, buffers):
    sizes, refusal = sizes_of(edition, lengths, buffers)
    if refusal:
        return walk.refused(refusal, 64), str(refusal[0])
    plan, i = numbers(buffers[1], lengths[1]), n[1]
    if not accepted(sizes, n[0], plan):
        return walk.answer(NOT_ACCEPTED) + bytes(16), "not accepted"
    if i >= len(plan):
        return walk.answer(NOT_ACCEPTED) + bytes(16), "no such message"
    begin = sum(plan[:i])
    return _part(walk.answer(ACCEPTED), sum(sizes[:begin]), sum(sizes[begin:begin + plan[i]])), "accepted"


CALLS = {6: ("check_plan", check), 7: ("plan", make), 8: ("plan_message", message)}
OWN = {str(r) for r in (5, 6, 7, 18, 22)}
NAMED = {"check_plan": OWN | {"accepted", "not accepted"}, "plan": OWN | {"planned", "21", "9"},
         "plan_message": OWN | {"accepted", "not accepted", "no such message"}}
