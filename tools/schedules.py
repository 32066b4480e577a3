#!/usr/bin/env python3
"""Runs random schedules of the table's model and checks the theorems' clauses after each event, or at a schedule's end.

    tools/schedules.py                      a clause that fails is printed with its schedule; under five minutes
    tools/schedules.py --short              the same on fewer schedules; under 20 seconds
    tools/schedules.py --wrong              tries each wrong body in turn: some clause must fail for it
    tools/schedules.py --wrong --short      the same on fewer schedules
    tools/schedules.py --names              says which names of the scripts aren't in the specs or the theorems
    tools/schedules.py --pins               lists for each word of the theorems the clauses that pin it, by their texts; the
                                            status is 1 where a word has one side alone and needs both
    tools/schedules.py --show 7             prints a schedule as a table, a line for each event
    tools/schedules.py --buckets 4 --seed 7 --runs 2000 --events 120

The definitions stand in table_model.py, under the names of the specs, and a function here tries each clause, under
its name. `--names` compares both with the sources. Nothing is proved: this finds a clause that is false, or that says
too little, before a proof is tried. The runs take one processor.
"""

import argparse
import glob
import os
import random
import re
import sys
from dataclasses import dataclass, replace

sys.dont_write_bytecode = True  # a run leaves no folder beside the tools

import pins
import table_model as model
from table_model import Core, Slot, View, bucket_of, held_count, is_held, is_reserved, least, live_local, live_walk, new_core, new_sheet


@dataclass
class Moment:
    """An event of a schedule, with what was counted along it."""

    capacity: int  # that the table was made with
    before: Core
    event: tuple
    after: Core
    most: int  # the greatest number of ids held at once since the table was made or cleared
    publishings: int  # how many values were published since then, or since it was drained
    moves: tuple  # the takes, gives and publishings since the table was made or cleared
    told: bool  # no rewrite and no drain came since then
    bound: int  # each take so far came while fewer ids than this were held


def tries(theorem, *clauses):
    """Says which clauses of a theorem a function tries, where its name alone doesn't."""

    def marked(it):
        it.tried = [(theorem, clause) for clause in clauses] + getattr(it, "tried", [])
        return it

    return marked


# ---- clauses on every event ----------------------------------------------------------------------------


def live(core):
    return [(n, it) for n, it in enumerate(core.locals) if it is not None]


def walking(core):
    return [(n, it) for n, it in enumerate(core.walks) if it is not None]


def is_granted_take(m):
    return model.is_granted_take(m.before, m.event)


def is_clear(m):
    return m.event == ("Owner", ("ClearTable",)) and model.is_enabled(m.before, m.event)


def is_drain(m):
    return m.event == ("Owner", ("DrainTable",)) and model.is_enabled(m.before, m.event)


def clause_moves(m):
    return model.shadow(m.after) == model.moved_by(model.shadow(m.before), model.move_of(m.before, m.event))


def clause_allowed(m):
    return model.is_move_allowed(model.shadow(m.before), model.move_of(m.before, m.event))


def clause_idle(m):
    return model.is_enabled(m.before, m.event) or m.after == m.before


def clause_ended(m):
    return not m.before.ended or m.after == m.before


def clause_least(m):
    """A granted take makes a Local with the least id that isn't held, and with no call behind it."""
    if not is_granted_take(m):
        return True
    made = model.newcomer(m.before, m.event)
    return made is not None and made.id == least(model.shadow(m.before).held) and made.calls == () and made.answers == ()


def clause_history(m):
    """The held ids are those that the history leaves held."""
    return model.shadow(m.after).held == model.held_from((), m.moves)


def clause_as_published(m):
    """The values are those that the history says, if no rewrite and no drain came."""
    return not m.told or all(model.published_in(m.moves, k) == v for k, v in enumerate(model.shadow(m.after).values))


def clause_least_after(m):
    """A new Local gets the least id that the history before it leaves free."""
    made = model.newcomer(m.before, m.event) if is_granted_take(m) else None
    return made is None or made.id == least(model.held_from((), m.moves[:-1]))


@tries("every_schedule", "unshared", "held")
def clause_unshared(m):
    ids = [it.id for _, it in live(m.after)]
    return len(ids) == len(set(ids)) and all(is_held(model.shadow(m.after).held, k) for k in ids)


def clause_first_values_stay(m):
    old, new = model.shadow(m.before).values, model.shadow(m.after).values
    return model.is_exclusive(m.event) or all(a is None or a == b for a, b in zip(old, new))


def clause_owner_walk(m):
    return model.owner_walk(m.after.table) == model.walk(model.shadow(m.after).values)


def clause_flagged(m):
    return all(not it.flag or it.written is not None for named in m.after.table.pointers if named for it in named.slots)


def clause_answers(m):
    return all(it.answers == model.answers(it.start, it.calls) for _, it in live(m.after))


def clause_start(m):
    if not is_granted_take(m):
        return True
    made, sheet = model.newcomer(m.before, m.event), model.shadow(m.before)
    value = sheet.values[made.id]
    return made.start == View(value, is_reserved(sheet.capacity, made.id) or value is not None)


def clause_step_keeps(m):
    for n, it in live(m.before):
        then = live_local(m.after, n)
        if then is not None:
            if (then.id, then.start) != (it.id, it.start):
                return False
            if then.calls != it.calls and then.calls[:-1] != it.calls:
                return False
    return True


@tries("every_schedule", "others")
def clause_others(m):
    """Only a Local's own events change it."""
    return all(model.is_of(n, m.event) or live_local(m.after, n) == it for n, it in live(m.before))


@tries("every_schedule", "into_iter_ends", "drop_ends", "stays_open")
def clause_into_iter_ends(m):
    ends = model.ends_table(m.event) and model.is_enabled(m.before, m.event)
    return m.after.ended == (m.before.ended or ends)


@tries("every_schedule", "drained")
def clause_drained(m):
    """A drain leaves no value, and the held ids and the capacity as they are."""
    sheet = model.shadow(m.before)
    return not is_drain(m) or model.shadow(m.after) == replace(sheet, values=(None,) * model.IDS)


def clause_drained_core(m):
    """A drain changes the table and nothing else."""
    return not is_drain(m) or m.after == replace(m.before, table=model.drained(m.before.table))


@tries("events_say", "drained_stands", "drained_slots")
def clause_drained_stands(m):
    """A drain leaves every bucket standing, the same one, with empty slots."""
    old, new = m.before.table, m.after.table
    same = all(model.number_at(new, b) == model.number_at(old, b) for b in range(model.BUCKETS))
    return not is_drain(m) or (same and new.made == old.made and all(model.slot_at(new, k) == Slot() for k in range(model.IDS)))


@tries("every_schedule", "cleared")
def clause_cleared(m):
    return not is_clear(m) or model.shadow(m.after) == replace(new_sheet(), capacity=model.shadow(m.before).capacity)


def clause_cleared_stands(m):
    digits = model.binary_digits(m.before.capacity)
    return not is_clear(m) or all(model.bucket_stands(m.after.table, b) == (b < digits) for b in range(model.BUCKETS))


def clause_cleared_slots(m):
    return not is_clear(m) or all(model.slot_at(m.after.table, k) == Slot() for k in range(model.IDS))


def clause_slots_of_cleared(m):
    return not is_clear(m) or model.slots(m.after.table) == model.reserved_slots(m.capacity)


def clause_after_clear(m):
    if not is_clear(m) or not model.none_taken(m.after, ()):
        return True
    made = live_local(model.happens(m.after, ("TakeId", False, 0)), len(m.after.locals))
    return made is not None and made.id == 0 and made.start == View(None, is_reserved(m.capacity, 0))


def clause_capacity(m):
    return model.shadow(m.after).capacity == m.capacity


def clause_peak(m):
    return len(m.after.held) == m.most


def clause_below_peak(m):
    return all(it.id < len(m.after.held) for _, it in live(m.after))


def clause_room(m):
    return len(m.after.held) <= m.after.room


@tries("every_schedule", "slots_of_capacity", "slots_of_new", "no_slots")
def clause_slots_of_capacity(m):
    return model.slots(m.after.table) <= max(2 * max(m.capacity, len(m.after.held)) - 1, 0)


def clause_private_slots(m):
    return all(model.private_slots(it.id, it.doing) <= len(m.after.held) for _, it in live(m.after))


def clause_values(m):
    return len(model.walk(model.shadow(m.after).values)) <= len(m.after.held)


@tries("every_schedule", "publishings", "few_publishings")
def clause_publishings(m):
    return m.publishings == len(model.walk(model.shadow(m.after).values)) <= len(m.after.held)


def clause_refused_take(m):
    """A take is refused only where no room is left and memory was refused, or where no id is left."""
    if m.event[0] != "TakeId" or not model.is_refused(m.before, m.event):
        return True
    core = m.before
    return held_count(core.held) == model.IDS or (all(core.held) and len(core.held) == core.room and m.event[1])


def clause_within_capacity(m):
    sheet = model.shadow(m.before)
    return not (m.event[0] == "TakeId" and held_count(sheet.held) < sheet.capacity and model.is_refused(m.before, m.event))


@tries("every_schedule", "reserved_publishes", "reserved_answers")
def clause_reserved_publishes(m):
    if m.event[0] == "OfLocal" and model.is_refused(m.before, m.event):
        return not is_reserved(model.shadow(m.before).capacity, m.before.locals[m.event[1]].id)
    return all(("Refused",) not in it.answers for _, it in live(m.after) if is_reserved(model.shadow(m.after).capacity, it.id))


def clause_memory_refused(m):
    """Out of memory is answered by the step that was refused memory, and by no other."""
    for n, it in live(m.before):
        then = live_local(m.after, n)
        told = then is not None and then.answers != it.answers and then.answers[-1] == ("Refused",)
        if told != (m.event[0] == "OfLocal" and m.event[1] == n and model.is_refused(m.before, m.event)):
            return False
    return True


@tries("headline", "slots")
def clause_slots(m):
    return m.capacity != 0 or model.slots(m.after.table) <= max(2 * m.bound - 1, 0)


def clause_refuses_nothing(m):
    return m.bound > m.capacity or not model.is_refused(m.before, m.event)


def clause_bucket_stays(m):
    """A bucket that stands is the same one until a clear."""
    old, new = m.before.table.pointers, m.after.table.pointers
    return is_clear(m) or all(a is None or (b is not None and a.number == b.number) for a, b in zip(old, new))


def clause_reserved_stays(m):
    """A reserved bucket is the same one for good."""
    digits = model.binary_digits(m.capacity)
    old, new = m.before.table.pointers[:digits], m.after.table.pointers[:digits]
    return all(a is None or (b is not None and a.number == b.number) for a, b in zip(old, new))


@tries("every_walk", "complete")
def clause_walk_complete(m):
    for _, it in walking(m.after):
        if model.is_complete(it) and any(v is not None and (k, v) not in it.given for k, v in enumerate(it.first)):
            return False
    return True


@tries("every_walk", "published")
def clause_walk_published(m):
    values = model.shadow(m.after).values
    return all(values[k] == v for _, it in walking(m.after) for k, v in it.given)


@tries("every_walk", "ascending")
def clause_walk_ascending(m):
    return all(a > b for _, it in walking(m.after) for (a, _), (b, _) in zip(it.given, it.given[1:]))


@tries("every_walk", "reads_once")
def clause_walk_reads_once(m):
    return all(a > b for _, it in walking(m.after) for a, b in zip(it.read, it.read[1:]))


@tries("every_walk", "loads", "loads_announced")
def clause_walk_loads(m):
    """A walk loads at most as many pointers as there are buckets, and a complete one those that were announced."""
    most = all(it.loads <= model.BUCKETS for _, it in walking(m.after))
    return most and all(it.loads == model.buckets_among(it.announced) for _, it in walking(m.after) if model.is_complete(it))


def stepped_walk(m, name):
    """The walk before and after its step of that name, or None where the event is another or isn't enabled."""
    if m.event[0] != "OfWalk" or m.event[2] != name or not model.is_enabled(m.before, m.event):
        return None
    return live_walk(m.before, m.event[1]), live_walk(m.after, m.event[1])


def added(it):
    """What steps of a walk add to: what it saw as it began stays."""
    return it.announced, it.first, it.given, it.read, it.loads


@tries("every_walk", "pass_adds", "load_adds")
def clause_pass_adds(m):
    """A pass and a load read no slot, and a load is counted."""
    passed, loaded = stepped_walk(m, "Pass"), stepped_walk(m, "Load")
    if passed is not None:
        return added(passed[1]) == added(passed[0])
    return loaded is None or added(loaded[1]) == added(replace(loaded[0], loads=loaded[0].loads + 1))


def clause_look_adds(m):
    """A look reads the slot at the cursor, and gives the value that it shows."""
    walks = stepped_walk(m, "Look")
    if walks is None:
        return True
    it, then = walks
    here = model.cursor_id(it)
    value = model.published(m.before.table, here)
    given = it.given if value is None else ((here, value),) + it.given
    return added(then) == added(replace(it, given=given, read=(here,) + it.read))


# ---- clauses on who may do what, on calls, numbers and walks ---------------------------------------------


def is_by_itself(core):
    return not live(core) and not walking(core)


def under_way(doing):
    """The calls of a Local that are under way: how many gets, and what the closure of a publishing call would answer."""
    match doing:
        case ("Gets", count):
            return count, None
        case ("Started", create) | ("Private", create, _) | ("Filled", create, _, _):
            return 0, create
        case ("Written", value, _):
            return 0, ("Ok", value)


def has_no_call(local):
    return local is not None and under_way(local.doing) == (0, None)


@tries("every_schedule", "takes")
def clause_takes(m):
    return m.after.ended or all(model.is_enabled(m.after, ("TakeId", refused, 0)) for refused in (False, True))


def clause_walks_begin(m):
    return m.after.ended or model.is_enabled(m.after, ("BeginWalk",))


@tries("every_schedule", "alone", "owners_call")
def clause_alone(m):
    calls = [("RewriteTable", Rewriter(0)), ("Slots",), ("DrainTable",), ("ClearTable",), ("IntoIter",), ("DropTable",)]
    may = not m.after.ended and is_by_itself(m.after)
    return all(model.is_enabled(m.after, ("Owner", it)) == may for it in calls)


@tries("every_schedule", "may_leave", "gives_back", "forgets")
def clause_may_leave(m):
    """A Local may give its id back, or be forgotten, just where no call of it is under way."""
    numbers = range(len(m.after.locals) + 1)
    return all(
        model.is_enabled(m.after, (name, n)) == (not m.after.ended and has_no_call(live_local(m.after, n)))
        for n in numbers
        for name in ("GiveBack", "Forget")
    )


@tries("every_schedule", "given_back", "forgotten", "still_held")
def clause_given_back(m):
    """After either it lives no longer, and after a forget its id is held still."""
    if m.event[0] not in ("GiveBack", "Forget") or not model.is_enabled(m.before, m.event):
        return True
    local = live_local(m.before, m.event[1])
    held = m.event[0] == "GiveBack" or is_held(model.shadow(m.after).held, local.id)
    return live_local(m.after, m.event[1]) is None and held


def clause_refusal(m):
    return m.event[0] != "TakeId" or not model.is_refused(m.before, m.event) or m.after == m.before


def clause_cleared_core(m):
    """A clear changes the held ids and the table, and nothing else."""
    return not is_clear(m) or m.after == replace(m.before, held=(), table=m.after.table)


def clause_comes(m):
    """A Local comes by a granted take and by nothing else, under the next number."""
    new = [n for n, _ in live(m.after) if live_local(m.before, n) is None]
    return new == ([len(m.before.locals)] if is_granted_take(m) else [])


def calls_go(step, before, after):
    """What each step does to the calls of its Local: one begins, none begins or ends, or one ends and is recorded."""
    gets, create = under_way(before.doing)
    now, record = under_way(after.doing), after.calls[len(before.calls) :]
    if after.calls[: len(before.calls)] != before.calls:
        return False
    if step[0] == "BeginGet":
        return now == (gets + 1, create) and record == ()
    if step[0] == "BeginGetOr":
        return create is None and now == (gets, step[1]) and record == ()
    goes_on = now == (gets, create) and record == ()
    get_ends = gets > 0 and now == (gets - 1, create) and record == (("Get",),)
    refused = step == ("MakeBucket", True)
    offer_ends = create is not None and now == (gets, None) and record == (("GetOr", create, refused),)
    told = after.answers[len(before.answers) :] == (("Refused",),)
    match step[0]:
        case "MakeBucket":
            return offer_ends and told if refused else goes_on
        case "LoadPointer" | "LookAtFlag" | "FillBucket" | "AnnounceBucket":
            return goes_on
        case "InstallBucket" | "WriteValue":
            return goes_on or offer_ends
        case "SetFlag":
            return offer_ends
        case "Reply":
            return get_ends or offer_ends


@tries("every_schedule", "goes_on")
@tries("words_say", "step_keeps", "get_begins", "publishing_begins", "calls_stay", "install_goes", "writes", "sets_flag", "replies")
def clause_goes_on(m):
    if m.event[0] != "OfLocal" or not model.is_enabled(m.before, m.event):
        return True
    before, after = live_local(m.before, m.event[1]), live_local(m.after, m.event[1])
    return after is not None and (after.id, after.start) == (before.id, before.start) and calls_go(m.event[2], before, after)


@tries("every_schedule", "at_one_place", "stands_nowhere", "one_call")
def clause_at_one_place(m):
    """No bucket stands at two places, and one of a call's own stands nowhere and is of no other call."""
    standing = [it for it in (model.number_at(m.after.table, b) for b in range(model.BUCKETS)) if it is not None]
    own = [it for it in (model.own_number(local.doing) for _, local in live(m.after)) if it is not None]
    return len(set(standing + own)) == len(standing + own)


def clause_ids(m):
    return all(it.id < model.IDS for _, it in live(m.after))


@tries("every_walk", "comes", "begins")
def clause_walk_comes(m):
    """A walk begins with what is announced and published, and comes by its beginning alone."""
    begins = model.begins_walk(m.event) and model.is_enabled(m.before, m.event)
    new = [(n, it) for n, it in walking(m.after) if live_walk(m.before, n) is None]
    return new == ([(len(m.before.walks), model.begun_walk(m.before.table))] if begins else [])


@tries("every_walk", "others", "ends")
def clause_walk_others(m):
    """No event but a walk's own steps and its end changes it; after its end it is under way no longer."""
    ended = m.event[0] != "EndWalk" or live_walk(m.after, m.event[1]) is None
    return ended and all(model.is_of_walk(n, m.event) or live_walk(m.after, n) == it for n, it in walking(m.before))


@tries("every_walk", "goes_on")
def clause_walk_goes_on(m):
    """A walk that isn't complete has a step that is enabled, and goes on after it."""
    enabled = all(
        model.is_complete(it) or model.is_enabled(m.after, ("OfWalk", n, model.next_step(it))) for n, it in walking(m.after)
    )
    stepped = m.event[0] == "OfWalk" and live_walk(m.before, m.event[1]) is not None
    return enabled and (not stepped or live_walk(m.after, m.event[1]) is not None)


@tries("every_walk", "may_end")
def clause_walk_may_end(m):
    return all(model.is_enabled(m.after, ("EndWalk", n)) for n, _ in walking(m.after))


# ---- clauses on what every event needs and does ------------------------------------------------------------


def changed(m):
    """The Locals that this event made or changed: what they may do next depends on nothing that another does."""
    return [(n, it) for n, it in live(m.after) if live_local(m.before, n) is not it]


def stepped(m, name):
    """The Local before and after its step of that name, or None where the event is another or isn't enabled."""
    if m.event[0] != "OfLocal" or m.event[2][0] != name or not model.is_enabled(m.before, m.event):
        return None
    return live_local(m.before, m.event[1]), live_local(m.after, m.event[1])


def clause_made_open(m):
    return not model.made_core(m.capacity, 0).ended


def clause_made_room(m):
    """A new table has room for its capacity and for as many ids more as is chosen."""
    return all(model.made_core(m.capacity, extra).room == m.capacity + extra for extra in (0, 3))


def clause_made_new(m):
    return model.new_core() == model.made_core(0, 0)


@tries("events_say", "lives", "walks", "ends")
def clause_lives(m):
    """Only a Local makes steps of a Local, and only a walk under way goes on and ends."""
    family = {"OfLocal": live_local, "OfWalk": live_walk, "EndWalk": live_walk}.get(m.event[0])
    return family is None or not model.is_enabled(m.before, m.event) or family(m.before, m.event[1]) is not None


@tries("events_say", "ends")
def clause_walk_ends(m):
    numbers = range(len(m.after.walks) + 1)
    return all(live_walk(m.after, n) is not None or not model.is_enabled(m.after, ("EndWalk", n)) for n in numbers)


# What each step needs, both ways: it is enabled there, and nowhere else.


def needs(step, local):
    """Whether a step of this Local can happen, by what it does and has learnt."""
    doing, learnt = local.doing[0], local.learnt[0]
    looks = doing in ("Gets", "Started")
    match step[0]:
        case "BeginGet":
            return doing == "Gets"
        case "BeginGetOr":
            return local.doing == ("Gets", 0)
        case "LoadPointer":
            return looks and learnt in ("Unknown", "Missing")
        case "LookAtFlag":
            return looks and learnt == "Standing"
        case "MakeBucket":
            return doing == "Started" and learnt == "Missing"
        case "FillBucket":
            return doing == "Private"
        case "AnnounceBucket":
            return doing in ("Filled", "Written") and not local.doing[-1]
        case "InstallBucket":
            return doing == "Filled" and local.doing[3]
        case "WriteValue":
            return doing == "Started" and learnt == "Vacant"
        case "SetFlag":
            return doing == "Written" and local.doing[2]
        case "Reply":
            got = doing == "Gets" and local.doing[1] > 0 and learnt in ("Missing", "Vacant", "Holding")
            return got or (doing == "Started" and learnt == "Holding")


def as_needed(m, *step):
    """The step is enabled for just those Locals that may make it."""
    others_too = m.after.table is not m.before.table  # what another did may not matter
    locals_ = live(m.after) if others_too else changed(m)
    return m.after.ended or all(model.is_enabled(m.after, ("OfLocal", n, step)) == needs(step, it) for n, it in locals_)


@tries("steps_happen", "get_begins")
def clause_get_begins(m):
    return as_needed(m, "BeginGet")


def clause_get_or_begins(m):
    return as_needed(m, "BeginGetOr", ("Ok", "any"))


@tries("steps_happen", "loads")
def clause_step_loads(m):
    """A Local may load its pointer until its bucket is known to stand, in a call or where none is under way."""
    return as_needed(m, "LoadPointer")


@tries("steps_happen", "looks")
def clause_step_looks(m):
    return as_needed(m, "LookAtFlag")


@tries("steps_happen", "asks")
def clause_step_asks(m):
    """A call that found its bucket missing may ask for memory, whatever stands by now."""
    return as_needed(m, "MakeBucket", False) and as_needed(m, "MakeBucket", True)


@tries("steps_happen", "fills")
def clause_step_fills(m):
    return as_needed(m, "FillBucket")


@tries("steps_happen", "announces")
def clause_step_announces(m):
    return as_needed(m, "AnnounceBucket")


@tries("steps_happen", "installs")
def clause_step_installs(m):
    return as_needed(m, "InstallBucket")


@tries("steps_happen", "writes")
def clause_step_writes(m):
    return as_needed(m, "WriteValue")


@tries("steps_happen", "sets")
def clause_step_sets(m):
    return as_needed(m, "SetFlag")


@tries("steps_happen", "replies")
def clause_step_replies(m):
    return as_needed(m, "Reply")


@tries("steps_happen", "walk_looks", "walk_loads", "walk_passes")
def clause_walk_looks(m):
    """A walk looks where its cursor says so. Else it loads the pointer of a bucket that was announced, and passes another."""

    def may(it, name):
        return it.looks if name == "Look" else not it.looks and it.bucket < model.BUCKETS and it.announced[it.bucket] == (name == "Load")

    new = [(n, it) for n, it in walking(m.after) if live_walk(m.before, n) is not it]
    steps = [(n, it, name) for n, it in new for name in ("Pass", "Load", "Look")]
    return m.after.ended or all(model.is_enabled(m.after, ("OfWalk", n, name)) == may(it, name) for n, it, name in steps)


# What each event changes of the sheet, the buckets and the slots, and what it leaves.


def own_stands(core, local):
    """Whether the bucket of a Local's id stands."""
    return model.bucket_stands(core.table, bucket_of(local.id))


def installs_a_value(core, local):
    """Whether the bucket that a Local installs has a value, and none stands."""
    return local.doing[1][0] == "Ok" and not own_stands(core, local)


def numbers_of(sheet):
    """The held ids of a sheet."""
    return {k for k, it in enumerate(sheet.held) if it}


@tries("events_change", "sheet_stays", "takes", "gives_back", "publishes", "installs_value", "installs_nothing", "installs_beside", "rewrites")
def clause_sheet_stays(m):
    """A take holds the least free id, a give back frees its Local's, a flag and an install publish a value; all else stays."""
    before, after = model.shadow(m.before), model.shadow(m.after)
    held, values = numbers_of(before), list(before.values)
    match m.event if model.is_enabled(m.before, m.event) else None:
        case ("TakeId", _, _) if is_granted_take(m):
            held |= {next(k for k in range(model.IDS + 1) if k not in held)}
        case ("GiveBack", n):
            held -= {live_local(m.before, n).id}
        case ("OfLocal", n, ("SetFlag",)):
            values[live_local(m.before, n).id] = live_local(m.before, n).doing[1]
        case ("OfLocal", n, ("InstallBucket",)) if installs_a_value(m.before, live_local(m.before, n)):
            values[live_local(m.before, n).id] = live_local(m.before, n).doing[1][1]
        case ("Owner", ("RewriteTable", others)):
            values = [None if v is None else others(k, v) for k, v in enumerate(values)]
        case ("Owner", ("DrainTable",)):
            values = [None] * model.IDS
        case ("Owner", ("ClearTable",)):
            held, values = set(), [None] * model.IDS
    return (numbers_of(after), after.values) == (held, tuple(values))


def clause_shows(m):
    """A value is published where it is written and its flag is set, and only there."""
    table, values = m.after.table, model.shadow(m.after).values
    if table is m.before.table:
        return True
    slots = [(k, model.slot_at(table, k)) for k in range(model.IDS)]
    return all(values[k] == (it.written if it.flag else None) for k, it in slots)


@tries("events_change", "writes", "sets_flag")
def clause_writes(m):
    """A value is written in the slot of the Local's id, and then its flag is set; no other slot changes meanwhile."""
    old, new = m.before.table, m.after.table
    writes, sets, installs = stepped(m, "WriteValue"), stepped(m, "SetFlag"), stepped(m, "InstallBucket")
    if new is old and writes is None and sets is None and installs is None:
        return True
    slots = {k: model.slot_at(old, k) for k in range(model.IDS)}
    if writes is not None and writes[0].doing[1][0] == "Ok":
        slots[writes[0].id] = replace(slots[writes[0].id], written=writes[0].doing[1][1])
    if sets is not None:
        slots[sets[0].id] = replace(slots[sets[0].id], flag=True)
    if installs is not None:
        if installs_a_value(m.before, installs[0]):
            slots[installs[0].id] = Slot(installs[0].doing[1][1], True)
    return model.is_exclusive(m.event) or all(model.slot_at(new, k) == it for k, it in slots.items())


@tries("events_change", "makes", "fills", "fill_stays", "wrote", "announces", "announced", "announced_beside")
def clause_makes(m):
    """A call makes its bucket empty, fills it unseen or writes beside, and announces it where it doesn't know that, and no other."""
    made, fills, announced = stepped(m, "MakeBucket"), stepped(m, "FillBucket"), stepped(m, "AnnounceBucket")
    table, wrote = m.before.table, stepped(m, "WriteValue")
    if made is not None and m.event[2] == ("MakeBucket", False):
        return made[1].doing == ("Private", made[0].doing[1], table.made)
    if fills is not None:
        (_, create, number), own = fills[0].doing, bucket_of(fills[0].id)
        return fills[1].doing == ("Filled", create, number, table.announced[own]) and m.after.table == table
    if wrote is not None and wrote[0].doing[1][0] == "Ok":
        return wrote[1].doing == ("Written", wrote[0].doing[1][1], table.announced[bucket_of(wrote[0].id)])
    if announced is None:
        return True
    own = bucket_of(announced[0].id)
    only = all(m.after.table.announced[b] == (b == own or table.announced[b]) for b in range(model.BUCKETS))
    return only and announced[1].doing == (*announced[0].doing[:-1], True)


@tries("events_change", "installs_own", "installs")
def clause_installs_own(m):
    """An install makes the bucket of its Local's id stand, and no other: where none stood, the one that the call has made."""
    it = stepped(m, "InstallBucket")
    if it is None:
        return True
    old, new, own = m.before.table, m.after.table, bucket_of(it[0].id)
    kept = all(model.number_at(new, b) == model.number_at(old, b) for b in range(model.BUCKETS) if b != own)
    number = model.number_at(old, own)
    return kept and model.number_at(new, own) == (model.own_number(it[0].doing) if number is None else number)


@tries("events_change", "holds", "installed", "installed_empty")
def clause_holds(m):
    """After an install and after the flag is set the slot is known to hold the value; beside another's bucket or without a value, to be empty."""
    installed, sets = stepped(m, "InstallBucket"), stepped(m, "SetFlag")
    if installed is not None:
        (kind, value), learnt, doing = installed[0].doing[1], installed[1].learnt, installed[1].doing
        empty = kind == "Err" or own_stands(m.before, installed[0])
        return (learnt, doing) == ((("Vacant",), ("Started", (kind, value))) if empty else (("Holding", value), ("Gets", 0)))
    return sets is None or sets[1].learnt == ("Holding", sets[0].doing[1])


@tries("every_walk", "pass_moves", "load_moves", "look_moves")
def clause_pass_moves(m):
    """A pass leads to the next bucket, a load there or to the first slot, and a look to the next slot or bucket."""
    if m.event[0] != "OfWalk" or not model.is_enabled(m.before, m.event):
        return True
    it, then = live_walk(m.before, m.event[1]), live_walk(m.after, m.event[1])
    index = it.index + (m.event[2] == "Look")
    if m.event[2] == "Pass" or index == 2**it.bucket or not model.bucket_stands(m.before.table, it.bucket):
        place = (it.bucket + 1, 0, False)
    else:
        place = (it.bucket, index, True)
    return (then.bucket, then.index, then.looks) == place


def clause_begun(m):
    """A walk begins at the first slot, with what is announced and published, and has loaded, read and given nothing."""
    new = [it for n, it in walking(m.after) if live_walk(m.before, n) is None]
    table, values = m.before.table, model.shadow(m.before).values
    return all(it == model.SharedWalk(0, 0, False, table.announced, values, (), (), 0) for it in new)


@tries("words_say", "one_among", "none_among")
def clause_one_among(m):
    """The buckets among some are counted one by one."""
    announced = m.after.table.announced
    return all(model.buckets_among(announced[: b + 1]) == model.buckets_among(announced[:b]) + it for b, it in enumerate(announced))


@tries("words_say", "no_moves", "take_moves", "give_moves", "publish_moves", "install_moves", "empty_moves", "beside_moves")
@tries("words_say", "rewrite_moves", "drain_moves", "clear_moves")
def clause_no_moves(m):
    """Which move each event is."""
    move = model.move_of(m.before, m.event)
    match m.event if model.is_enabled(m.before, m.event) else None:
        case ("TakeId", _, _) if is_granted_take(m):
            return move == ("Take",)
        case ("GiveBack", n):
            return move == ("Give", live_local(m.before, n).id)
        case ("OfLocal", n, ("SetFlag",)):
            return move == ("Publish", live_local(m.before, n).id, live_local(m.before, n).doing[1])
        case ("OfLocal", n, ("InstallBucket",)) if installs_a_value(m.before, live_local(m.before, n)):
            return move == ("Publish", live_local(m.before, n).id, live_local(m.before, n).doing[1][1])
        case ("Owner", (name, *others)) if name in ("RewriteTable", "DrainTable", "ClearTable"):
            return move == (name[: -len("Table")], *others)
    return move == ("Stay",)


def clause_answers_more(m):
    """Calls are answered one after another, each by the view that the one before leaves."""
    for _, it in changed(m):
        view, told = it.start, []
        for call in it.calls:
            told.append(model.answer(view, call))
            view = model.view_after(view, call)
        if model.answers(it.start, it.calls) != tuple(told):
            return False
    return True


@tries("calls_answer_by_their_view", "created", "failed", "refused", "held", "get")
def clause_created(m):
    """A get finds what is known, and a publishing call answers the value there, or else what its closure would."""

    def told(view, call):
        if call == ("Get",):
            return ("Found", view.value), view
        if view.value is not None:
            return ("Answered", view.value), view
        if call[2] and not view.known:
            return ("Refused",), view
        value = call[1][1]
        return (("Answered", value), View(value, True)) if call[1][0] == "Ok" else (("Failed", value), View(None, True))

    views = [View(value, known) for value in (None, "there") for known in (False, True)]
    calls = [("Get",)] + [("GetOr", (kind, "any"), refused) for kind in ("Ok", "Err") for refused in (False, True)]
    return not is_clear(m) or all((model.answer(view, call), model.view_after(view, call)) == told(view, call) for view in views for call in calls)


def clause_begins_get(m):
    return m.after.ended or all(under_way(it.doing)[1] or model.is_enabled(m.after, ("OfLocal", n, ("BeginGet",))) for n, it in changed(m))


def clause_begins_get_or(m):
    begin = ("BeginGetOr", ("Ok", "any"))
    return m.after.ended or all(not has_no_call(it) or model.is_enabled(m.after, ("OfLocal", n, begin)) for n, it in changed(m))


def clause_newcomers(m):
    """A Local comes with no call under way, and has learnt nothing."""
    if not is_granted_take(m):
        return True
    made = model.newcomer(m.before, m.event)
    return has_no_call(made) and made.learnt == ("Unknown",)


def goes_down(core, after, number):
    """Whether the calls of a Local have fewer steps left afterwards."""
    return model.steps_left_on(after.table, live_local(after, number)) < model.steps_left_on(core.table, live_local(core, number))


@tries("events_say", "goes_on")
def clause_call_goes_on(m):
    """A call under way has a step that is enabled and brings it nearer to its end."""
    steps = [("LoadPointer",), ("LookAtFlag",), ("MakeBucket", False), ("MakeBucket", True)]
    steps += [("FillBucket",), ("AnnounceBucket",), ("InstallBucket",), ("WriteValue",), ("SetFlag",), ("Reply",)]

    def goes_on(n):
        after = [model.step(m.after, ("OfLocal", n, step)) for step in steps]
        return any(then is not None and goes_down(m.after, then, n) for then in after)

    return m.after.ended or all(has_no_call(it) or goes_on(n) for n, it in changed(m))


@tries("events_say", "few_steps", "announced_fewer")
def clause_few_steps(m):
    """No call has many steps left, and none has more where its bucket is announced."""
    left = [(it, model.steps_left(True, it), model.steps_left(False, it)) for _, it in live(m.after)]
    return all(fewer <= more <= under_way(it.doing)[0] + 7 for it, fewer, more in left)


@tries("events_say", "loads")
def clause_loads(m):
    locals_ = stepped(m, "LoadPointer")
    if locals_ is None:
        return True
    stands = model.bucket_stands(m.before.table, bucket_of(locals_[0].id))
    return locals_[1].learnt == (("Standing",) if stands else ("Missing",))


@tries("events_say", "looks")
def clause_looks(m):
    locals_ = stepped(m, "LookAtFlag")
    if locals_ is None:
        return True
    shown = model.shadow(m.before).values[locals_[0].id]
    return locals_[1].learnt == (("Vacant",) if shown is None else ("Holding", shown))


@tries("events_say", "asks")
def clause_asks(m):
    """Memory is asked for only where the bucket was missing."""
    locals_ = stepped(m, "MakeBucket")
    return locals_ is None or locals_[0].learnt == ("Missing",)


@tries("events_say", "installs")
def clause_installs(m):
    """Only an install makes a bucket stand, that of its Local's id."""
    old, new = m.before.table, m.after.table
    come = [b for b in range(model.BUCKETS) if model.bucket_stands(new, b) and not model.bucket_stands(old, b)]
    locals_ = stepped(m, "InstallBucket")
    return not come or (locals_ is not None and come == [bucket_of(locals_[0].id)])


@tries("events_say", "announces", "stays_announced", "announced_before", "announced_first")
def clause_announces(m):
    """A bucket is announced by the step for it alone, before it comes to stand and before a value is published in it, and stays so."""
    old, new = m.before.table, m.after.table
    come = [b for b in range(model.BUCKETS) if new.announced[b] and not old.announced[b]]
    locals_ = stepped(m, "AnnounceBucket")
    by_step = not come or (locals_ is not None and come == [bucket_of(locals_[0].id)])
    stands = [b for b in range(model.BUCKETS) if model.bucket_stands(new, b) and not model.bucket_stands(old, b)]
    stays = all(b >= a for a, b in zip(old.announced, new.announced))
    values = zip(model.shadow(m.before).values, model.shadow(m.after).values)
    filled = [bucket_of(k) for k, (a, b) in enumerate(values) if a is None and b is not None]
    return by_step and stays and all(old.announced[b] for b in stands + filled)


@tries("every_schedule", "announced", "standing_announced", "first_announced")
def clause_announced(m):
    """The bucket of each published value is announced, and so is each that stands and isn't reserved, and the first always."""
    table, reserved = m.after.table, model.binary_digits(m.after.capacity)
    buckets = [b for b in range(model.BUCKETS) if b < model.ANNOUNCED_AT_FIRST or (b >= reserved and model.bucket_stands(table, b))]
    buckets += [bucket_of(k) for k, value in enumerate(model.shadow(m.after).values) if value is not None]
    return all(table.announced[b] for b in buckets)


@tries("made_cores_fit", "announced")
def clause_made_announced(m):
    """The first buckets of a new table are announced, and no others."""
    announced = model.made_core(m.capacity, 0).table.announced
    return all(it == (b < model.ANNOUNCED_AT_FIRST) for b, it in enumerate(announced))


@tries("a_clear_keeps_the_reserved", "announced")
@tries("a_drain_keeps_every_bucket", "announced")
def clause_owners_announced(m):
    """An owner's call leaves which buckets are announced."""
    return not model.is_exclusive(m.event) or m.after.table.announced == m.before.table.announced


@tries("events_say", "fails")
def clause_fails(m):
    """The closure's error is handed on where the slot is vacant."""
    for n, it in changed(m):
        create = under_way(it.doing)[1]
        if m.after.ended or create is None or create[0] != "Err" or it.learnt != ("Vacant",):
            continue
        after = model.step(m.after, ("OfLocal", n, ("WriteValue",)))
        then = None if after is None else live_local(after, n)
        if not has_no_call(then) or then.answers != it.answers + (("Failed", create[1]),) or then.learnt != it.learnt:
            return False
    return True


@tries("events_say", "slots")
def clause_owner_slots(m):
    """An owner's count changes nothing."""
    return m.event != ("Owner", ("Slots",)) or m.after == m.before


@tries("events_say", "rewrites")
def clause_rewrites(m):
    """An owner's writes change the table and nothing else."""
    if m.event[0] != "Owner" or m.event[1][0] != "RewriteTable" or not model.is_enabled(m.before, m.event):
        return True
    return m.after == replace(m.before, table=model.rewritten(m.before.table, m.event[1][1]))


def clause_out_of_memory(m):
    """A call that is out of memory ends in a refusal."""
    out = m.event[0] == "OfLocal" and m.event[2] == ("MakeBucket", True) and model.is_enabled(m.before, m.event)
    return not out or model.is_refused(m.before, m.event)


def clause_room_stays(m):
    return model.is_take(m.event) or m.after.room == m.before.room


def clause_room_grows(m):
    return m.before.room <= m.after.room


def clause_room_of_take(m):
    """A take makes room for the peak, and for as many ids more as is chosen."""
    return not is_granted_take(m) or m.after.room == max(m.before.room, len(m.after.held)) + m.event[2]


def clause_memory_is_chosen(m):
    """A call that may ask for memory may get it and may be refused, and comes nearer to its end by either."""

    def goes_on(n, refused):
        after = model.step(m.after, ("OfLocal", n, ("MakeBucket", refused)))
        return after is not None and goes_down(m.after, after, n)

    def asks(n):
        return any(model.is_enabled(m.after, ("OfLocal", n, ("MakeBucket", refused))) for refused in (False, True))

    return all(not asks(n) or all(goes_on(n, refused) for refused in (False, True)) for n, _ in changed(m))


def clause_takes_need_memory(m):
    """A take for which no room is left is refused exactly where memory is, while an id is left."""
    core = m.after
    if core.ended or not all(core.held) or not len(core.held) == core.room < model.IDS:
        return True
    return all(model.is_refused(core, ("TakeId", refused, 0)) == refused for refused in (False, True))


@tries("calls_answer_by_their_view", "known")
def clause_known(m):
    """Where the bucket is known, a call answers, and leaves the view, as if memory weren't refused."""

    def told(view, create, memory):
        call = ("GetOr", create, memory)
        return model.answer(view, call), model.view_after(view, call)

    views = [View(value, True) for _, it in changed(m) for value in (it.start.value, None)]
    return all(told(view, it, True) == told(view, it, False) for view in views for it in (("Ok", "any"), ("Err", "any")))


# ---- clauses on what the words say -------------------------------------------------------------------------


@tries("words_say", "installed")
def clause_installed(m):
    return model.slots(m.after.table) == sum(2**b for b in range(model.BUCKETS) if model.bucket_stands(m.after.table, b))


def offering(m):
    """The Locals whose calls have made a bucket and not yet offered it."""
    return [it for _, it in live(m.after) if it.doing[0] in ("Private", "Filled")]


@tries("words_say", "own", "own_filled")
def clause_own(m):
    return all(model.own_number(it.doing) == it.doing[2] for it in offering(m))


@tries("words_say", "own_slots", "filled_slots")
def clause_own_slots(m):
    return all(model.private_slots(it.id, it.doing) == 2 ** bucket_of(it.id) for it in offering(m))


def clause_number_at(m):
    return all(model.number_at(m.after.table, b) == (it and it.number) for b, it in enumerate(m.after.table.pointers))


def clause_take(m):
    return not model.is_take(m.event) or m.event[0] == "TakeId"


def clause_owners(m):
    return not model.is_exclusive(m.event) or m.event[0] == "Owner"


def clause_of_local(m):
    """What is called an event of a Local is a step of it, its drop, or its being forgotten."""
    numbers = range(len(m.after.locals))
    return all(not model.is_of(n, m.event) or (m.event[0] in ("OfLocal", "GiveBack", "Forget") and m.event[1] == n) for n in numbers)


def clause_of_walk(m):
    numbers = range(len(m.after.walks))
    return all(not model.is_of_walk(n, m.event) or (m.event[0] in ("OfWalk", "EndWalk") and m.event[1] == n) for n in numbers)


def clause_walk_begins(m):
    return not model.begins_walk(m.event) or m.event == ("BeginWalk",)


def clause_values_change(m):
    return not model.changes_values(m.event) or m.event[0] == "Owner" and m.event[1][0] in ("RewriteTable", "DrainTable", "ClearTable")


def clause_table_ends(m):
    return not model.ends_table(m.event) or m.event in (("Owner", ("IntoIter",)), ("Owner", ("DropTable",)))


def clause_ungranted(m):
    """A take that is enabled is granted or refused."""
    enabled = m.event[0] == "TakeId" and model.is_enabled(m.before, m.event)
    return not enabled or model.is_granted_take(m.before, m.event) or model.is_refused(m.before, m.event)


def clause_made(m):
    """A bucket that gets its memory isn't refused."""
    return m.event[0] != "OfLocal" or m.event[2] != ("MakeBucket", False) or not model.is_refused(m.before, m.event)


def clause_newcomer(m):
    """The Local that comes is the newcomer."""
    return all(live_local(m.before, n) is not None or model.newcomer(m.before, m.event) == it for n, it in live(m.after))


def clause_no_event(m):
    return model.none_taken(m.after, ())


def clause_none_taken(m):
    return model.is_granted_take(m.before, m.event) or model.none_taken(m.before, (m.event,))


def clause_no_take(m):
    return model.takes_below(0, m.after, ())


@dataclass
class Schedule:
    """A whole schedule, with what was counted along it."""

    first: Core
    events: list
    bound: int  # each take came while fewer ids than this were held
    refusals: int
    most: int  # the greatest number of ids held at once since the table was made or cleared
    publishings: int  # how many values were published since then, or since it was drained
    moves: tuple  # the takes, gives and publishings since the table was made or cleared
    told: bool  # no rewrite and no drain came since then


def whole_nothing(s):
    """A schedule refuses nothing where each of its events is refused nothing, and only there."""
    return model.nothing_refused(s.first, s.events) == (s.refusals == 0)


@tries("words_say", "takes")
def whole_takes(s):
    """The takes come below the bound, and below no smaller one."""
    return model.takes_below(s.bound, s.first, s.events) and (s.bound == 0 or not model.takes_below(s.bound - 1, s.first, s.events))


@tries("words_say", "most_later", "most_at_first", "most_cleared")
def whole_most_later(s):
    return model.most_held(s.first, s.events) == s.most


@tries("words_say", "one_published", "none_published", "published_anew", "drained_anew", "as_many_published")
def whole_one_published(s):
    return model.publishings(s.first, s.events) == s.publishings


@tries("words_say", "one_take", "one_give", "one_publish", "history_anew", "no_history", "no_more_noted")
def whole_one_take(s):
    """A granted take, a give back and a publishing are noted, a clear begins anew, and nothing else is noted."""
    return model.history(s.first, s.events) == s.moves


@tries("words_say", "rewritten", "drained", "cleared", "published_at_first", "published_as_before")
def whole_rewritten(s):
    """A rewrite and a drain change what was published, a clear begins anew, and nothing else counts."""
    return model.is_as_published(s.first, s.events) == s.told


@tries("every_schedule", "published_since")
def whole_published_since(s):
    """Since the values were last changed, each slot has kept its value, or got what the history since then says."""
    last = max((k + 1 for k, it in enumerate(s.events) if model.changes_values(it)), default=0)
    core, later = model.run(s.first, s.events[:last]), s.events[last:]
    there, now, moves = model.shadow(core).values, model.shadow(model.run(core, later)).values, model.history(core, later)
    return all(v == model.or_else(there[k], model.published_in(moves, k)) for k, v in enumerate(now))


# For each clause the function that tries it, by the name that it has in a theorem.
CLAUSES = {name[len("clause_") :]: it for name, it in list(globals().items()) if name.startswith("clause_")}
WHOLE = {name[len("whole_") :]: it for name, it in list(globals().items()) if name.startswith("whole_")}


# ---- the story -----------------------------------------------------------------------------------------


def story():
    """The story of the four Locals, in which the first seven buckets are announced, as in the specs."""
    kept, model.ANNOUNCED_AT_FIRST = model.ANNOUNCED_AT_FIRST, 7
    try:
        return story_of_four()
    finally:
        model.ANNOUNCED_AT_FIRST = kept


def story_of_four():
    """Four Locals publish in a new table, a walk gives the four, and the next Local finds the first again.

    Returns the part that breaks, if one does. It wants a table with room for four.
    """
    if model.IDS < 4:
        return None
    four = ["a", "b", "c", "d"]
    parts = [
        (model.after_publishing, model.four_publish(four)),
        (model.after_walking, model.whole_walk()),
        (model.after_next, model.four_give_back() + model.next_calls("b")),
        (model.after_all, [("GiveBack", 4)]),
    ]
    core = new_core()
    for part, events in parts:
        core = model.run(core, events)
        if part(four) != core:
            return "each core is reached"
    core = model.after_publishing(four)
    if model.walk(model.shadow(core).values) != four or model.shadow(core).values[:4] != tuple(four):
        return "four values"
    if model.slots(core.table) != 7:
        return "seven slots"
    it = live_walk(model.after_walking(four), 0)
    if it is None or not model.is_complete(it) or list(reversed(it.given)) != list(enumerate(four)):
        return "the walk gives the four"
    it = live_local(model.after_next(four), 4)
    if it is None or it.id != 0 or it.start.value != "a" or it.answers != (("Found", "a"), ("Answered", "a")):
        return "the next finds the first value"
    core = model.after_all(four)
    if not model.is_enabled(core, ("Owner", ("RewriteTable", Rewriter(0)))) or model.owner_walk(core.table) != four:
        return "the owner's walk gives the four"
    core = model.happens(core, ("Owner", ("ClearTable",)))
    return None if model.shadow(core) == new_sheet() else "clear leaves the sheet of new"


# ---- random schedules ----------------------------------------------------------------------------------


class Rewriter:
    """What an owner writes: another value at each id."""

    def __init__(self, mark):
        self.mark = mark

    def __call__(self, identity, value):
        return f"{value}/{self.mark}"

    def __repr__(self):
        return f"Rewriter({self.mark})"


def any_step(chance, mark):
    create = ("Ok", f"v{mark}") if chance.random() < 0.75 else ("Err", f"e{mark}")
    begins = [("BeginGet",), ("BeginGetOr", create), ("BeginGetOr", create)]
    goes_on = [("LoadPointer",), ("LookAtFlag",), ("FillBucket",), ("AnnounceBucket",), ("InstallBucket",), ("WriteValue",)]
    goes_on += [("SetFlag",), ("Reply",)]
    return chance.choice(begins + goes_on * 2 + [("MakeBucket", chance.random() < 0.3)] * 2)


def random_event(chance, core, mark):
    """An event of any kind, of a Local or a walk that lives if there is one."""
    numbers, walks = [n for n, _ in live(core)], [n for n, _ in walking(core)]
    number = chance.choice(numbers) if numbers and chance.random() < 0.97 else chance.randrange(len(core.locals) + 1)
    walk_number = chance.choice(walks) if walks else chance.randrange(len(core.walks) + 1)
    kind = chance.random()
    if kind < 0.06:
        return ("TakeId", chance.random() < 0.4, chance.choice([0, 0, 1, 2]))
    if kind < 0.70:
        return ("OfLocal", number, any_step(chance, mark))
    if kind < 0.74:
        return ("GiveBack", number)
    if kind < 0.745:
        return ("Forget", number)
    if kind < 0.76:
        return ("BeginWalk",)
    if kind < 0.955:
        return ("OfWalk", walk_number, chance.choice(["Pass", "Load", "Look"]))
    if kind < 0.96:
        return ("EndWalk", walk_number)
    return ("Owner", owner_call(chance, mark))


def owner_call(chance, mark):
    if chance.random() < 0.05:
        return (chance.choice(["IntoIter", "DropTable"]),)
    return chance.choice([("RewriteTable", Rewriter(mark)), ("Slots",), ("DrainTable",), ("ClearTable",)])


def quiet_events(chance, core):
    """Events that let every Local and walk end, so that exclusive calls get their turn."""
    steps = [("LoadPointer",), ("LookAtFlag",), ("MakeBucket", False), ("FillBucket",), ("AnnounceBucket",), ("InstallBucket",)]
    steps += [("WriteValue",), ("SetFlag",), ("Reply",)]
    events = []
    for n, _ in live(core):
        events += [("OfLocal", n, it) for _ in range(7) for it in steps]
        events.append(("GiveBack", n) if chance.random() < 0.9 else ("Forget", n))
    for n, _ in walking(core):
        events += [("OfWalk", n, name) for _ in range(chance.choice([0, 40])) for name in ("Pass", "Load", "Look")] + [("EndWalk", n)]
    return events + [("Owner", owner_call(chance, "quiet")) for _ in range(chance.randrange(4))]


def kind_of(event):
    last = event[-1]
    return event[0] + (":" + (last if isinstance(last, str) else last[0]) if event[0] in ("OfLocal", "OfWalk", "Owner") else "")


def refuses(core, event):
    """Whether an enabled event is refused memory or an id, as the event itself says."""
    if event[0] == "TakeId":
        return model.happens(core, event) == core
    return event[0] == "OfLocal" and event[2] == ("MakeBucket", True)


def first_failed(clauses, it):
    for name, clause in clauses.items():
        try:
            if not clause(it):
                return name
        except Exception as error:  # a wrong body may leave a state that a clause can't read
            return f"{name} ({type(error).__name__}: {error})"
    return None


def one_schedule(seed, length, seen):
    """Runs one schedule and returns the first clause that fails, with the events up to there."""
    chance = random.Random(seed)
    capacity = min(chance.choice([0, 0, 0, 1, 2, 3, 4, model.IDS]), model.IDS)
    first = core = model.made_core(capacity, chance.choice([0, 0, 1, 3]))
    most, bound, publishings, refusals, moves, told, events, waiting = 0, 0, 0, 0, (), True, [], []
    for mark in range(length):
        if not waiting and chance.random() < 0.02:
            waiting = quiet_events(chance, core)
        while waiting and not model.is_enabled(core, waiting[0]):
            waiting.pop(0)
        event = waiting.pop(0) if waiting else random_event(chance, core, mark)
        for _ in range(3):  # mostly an event that is enabled
            if not model.is_enabled(core, event) and not waiting and chance.random() < 0.9:
                event = random_event(chance, core, mark)
        events.append(event)
        if event[0] == "TakeId":
            bound = max(bound, held_count(core.held) + 1)
        after = model.happens(core, event)
        if model.is_enabled(core, event):
            refused = refuses(core, event)
            refusals += refused
            name = ("refused " if refused else "") + kind_of(event)
            seen[name] = seen.get(name, 0) + 1
            if event == ("Owner", ("ClearTable",)):
                most, publishings, moves, told = 0, 0, (), True
            if event == ("Owner", ("DrainTable",)):
                publishings, told = 0, False
            if event[0] == "TakeId" and not refused:
                moves += (("Take",),)
            if event[0] == "GiveBack":
                moves += (("Give", core.locals[event[1]].id),)
            if model.move_of(core, event)[0] == "Publish":
                publishings += 1
                moves += (model.move_of(core, event),)
            if event[0] == "Owner" and event[1][0] == "RewriteTable":
                told = False
        most = max(most, held_count(after.held))
        moment = Moment(capacity, core, event, after, most, publishings, moves, told, bound)
        failed = first_failed(CLAUSES, moment)
        if failed:
            return failed, events
        core = after
        if core.ended and chance.random() < 0.2:
            break
    return first_failed(WHOLE, Schedule(first, events, bound, refusals, most, publishings, moves, told)), events


def try_runs(seed, runs, length):
    seen = {}
    for k in range(runs):
        failed, events = one_schedule(seed * 1_000_003 + k, length, seen)
        if failed:
            return failed, events, seen, k + 1
    return None, [], seen, runs


# ---- wrong bodies --------------------------------------------------------------------------------------


def wrong_bodies():
    """For each wrong body the definitions that it replaces."""
    right = {name: getattr(model, name) for name in ("take_id", "write_value", "install_bucket", "reply", "walk_load")}

    def fresh_id(core, refused, growth):
        identity = len(core.held)
        if not model.is_granted(core, refused) or identity >= model.IDS:
            return core
        after = right["take_id"](replace(core, held=(True,) * identity), refused, growth)
        return replace(after, held=core.held + (True,))

    def loser_stores(table, local):
        if local.doing[0] == "Filled":
            b = bucket_of(local.id)
            return right["install_bucket"](model.with_pointer(table, b, None), local)

    def installs_empty(table, local):
        after = right["install_bucket"](table, local)
        b = bucket_of(local.id)
        if after is None or model.bucket_stands(table, b):
            return after
        return model.with_pointer(table, b, model.fresh_bucket(b, local.doing[2])), after[1]

    def loses_value(table, local):
        after = right["install_bucket"](table, local)
        if after is None or local.doing[1][0] == "Err" or not model.bucket_stands(table, bucket_of(local.id)):
            return after
        value = local.doing[1][1]
        return table, model.after_call(local, ("GetOr", ("Ok", value), False), ("Answered", value), ("Holding", value), ("Gets", 0))

    def error_installs_nothing(table, local):
        after = right["install_bucket"](table, local)
        return after if after is None or local.doing[1][0] == "Ok" else (table, after[1])

    def flag_first(table, local):
        after = right["write_value"](table, local)
        if after is not None and after[1].doing[0] == "Written":
            return model.with_table_slot(table, local.id, Slot(None, True)), after[1]
        return after

    def write_last(table, local):
        if local.doing[0] == "Written" and local.doing[2]:
            value = local.doing[1]
            told = model.after_call(local, ("GetOr", ("Ok", value), False), ("Answered", value), ("Holding", value), ("Gets", 0))
            return model.with_table_slot(table, local.id, Slot(value, True)), told

    def overwrites(table, local):
        after = right["reply"](table, local)
        if after is not None and local.doing[0] == "Started" and local.doing[1][0] == "Ok":
            return model.with_table_slot(table, local.id, Slot(local.doing[1][1], True)), after[1]
        return after

    def stops_early(table, it):
        after = right["walk_load"](table, it)
        return after if after is None or model.bucket_stands(table, it.bucket) else replace(after, bucket=model.BUCKETS)

    def installs_two(table, local):
        after = right["install_bucket"](table, local)
        b = bucket_of(local.id) + 1
        if after is not None and b < model.BUCKETS and not model.bucket_stands(table, b):
            return model.with_pointer(after[0], b, model.fresh_bucket(b, table.made)), after[1]
        return after

    def empties_slot(core, refused, growth):
        after = right["take_id"](core, refused, growth)
        return after if after is core else replace(after, table=model.with_table_slot(after.table, least(core.held), Slot()))

    def error_publishes(table, local):
        after = right["write_value"](table, local)
        if after is not None and local.doing[1][0] == "Err":
            return model.with_table_slot(table, local.id, Slot(local.doing[1][1], True)), after[1]
        return after

    def leaves_last(table):
        return [model.value_of(it) for named in table.pointers[: model.BUCKETS - 1] if named for it in named.slots if it.flag]

    def keeps_held(core, number):
        return model.forget(core, number)

    def never(*_):
        return None

    def steps(**it):
        return {"LOCAL_STEPS": {**model.LOCAL_STEPS, **it}}

    return {
        "take gives a fresh id": {"take_id": fresh_id},
        "the loser stores its bucket over the winner's": steps(InstallBucket=loser_stores),
        "an install publishes nothing": steps(InstallBucket=installs_empty),
        "an install that comes second loses its value": steps(InstallBucket=loses_value),
        "a closure's error installs no bucket": steps(InstallBucket=error_installs_nothing),
        "the flag is set before the write": steps(WriteValue=flag_first, SetFlag=write_last),
        "give back doesn't free the id": {"give_back": keeps_held},
        "publishing is never enabled": steps(SetFlag=never),
        "give back is never enabled": {"give_back": never},
        "no walk is ever enabled": {"begin_walk": never},
        "no exclusive call is ever enabled": {"is_alone": lambda core: False},
        "a publishing where a value stands overwrites it": steps(Reply=overwrites),
        "get answers nothing": {"known_value": lambda learnt: (None,) if learnt[0] in ("Missing", "Vacant", "Holding") else None},
        "the walk stops at the first null pointer": {"WALK_STEPS": {**model.WALK_STEPS, "Load": stops_early}},
        "take refuses below the room": {"is_granted": lambda core, refused: not (model.is_exhausted(core) or refused)},
        "install installs the next bucket too": steps(InstallBucket=installs_two),
        "clear keeps values": {"cleared_core": lambda core: replace(core, held=())},
        "a reused id's slot is emptied by the take": {"take_id": empties_slot},
        "the closure's error publishes": steps(WriteValue=error_publishes),
        "the exclusive walk leaves out the last bucket": {"owner_walk": leaves_last},
    }


def more_wrong_bodies():
    """Wrong bodies on who may do what, on calls, numbers and walks."""
    right = {name: getattr(model, name) for name in ("take_id", "step", "local_step", "forget", "end_walk", "begin_walk", "owner_call", "cleared_core")}

    def gives_back_early(core, number):
        local = live_local(core, number)
        return None if local is None else model.with_local(replace(core, held=model.without(core.held, local.id)), number, None)

    def forgets_early(core, number):
        return None if live_local(core, number) is None else model.with_local(core, number, None)

    def forgets_nothing(core, number):
        return None if right["forget"](core, number) is None else core

    def owner_beside(names, beside):
        def owner_call(core, call):
            alone = beside(core) if call[0] in names else model.is_alone(core)
            kept, model.is_alone = model.is_alone, lambda _: alone
            try:
                return right["owner_call"](core, call)
            finally:
                model.is_alone = kept

        return {"owner_call": owner_call}

    def beside_walks(core):
        return not live(core)

    def beside_locals(core):
        return not walking(core)

    def leaves_open(core, call):
        after = right["owner_call"](core, call)
        return core if after is not None and call == ("IntoIter",) else after

    def restarts_walks(core, number, step):
        after = right["local_step"](core, number, step)
        return after if after is None else replace(after, walks=tuple(it and model.begun_walk(after.table) for it in after.walks))

    def ends_table(core, number, step):
        after = right["local_step"](core, number, step)
        return after if after is None else replace(after, ended=True)

    def begins_complete(core):
        begun = model.begun_walk(core.table)
        return replace(core, walks=core.walks + (replace(begun, bucket=model.BUCKETS) if core.walks else begun,))

    def ends_all(core, number):
        after = right["end_walk"](core, number)
        return after if after is None else replace(after, walks=(None,) * len(after.walks))

    def takes_where(may):
        return {"take_id": lambda core, refused, growth: right["take_id"](core, refused, growth) if may(core) else None}

    def grows_room(core, refused, growth):
        after = right["take_id"](core, refused, growth)
        return replace(core, room=core.room + 1) if after is core else after

    def drops_room(core):
        return replace(right["cleared_core"](core), room=core.capacity)

    def frees_reserved(core):
        return replace(right["cleared_core"](core), table=model.cleared(core.table, 0))

    def keeps_flag(core):
        after = right["cleared_core"](core)
        return replace(after, table=model.with_table_slot(after.table, 0, Slot(None, model.slot_at(core.table, 0).flag)))

    def keeps_ids(core):
        return replace(right["cleared_core"](core), held=core.held)

    def renames_reserved(core):
        fresh = model.made_core(core.capacity, 0).table
        pointers = tuple(it and replace(it, number=it.number + core.table.made) for it in fresh.pointers)
        return replace(right["cleared_core"](core), table=model.Table(pointers, core.table.announced, core.table.made + fresh.made))

    def forgets_capacity(core):
        return replace(new_core(), room=core.room)

    def offers_over_gets(table, local, create):
        return (table, replace(local, doing=("Started", create))) if local.doing[0] == "Gets" else None

    def gets_over_offer(table, local):
        count = local.doing[1] if local.doing[0] == "Gets" else 0
        return table, replace(local, doing=("Gets", count + 1))

    def unrecorded(name, kind):
        """The step of that name ends a call of that kind with no record."""
        it = model.LOCAL_STEPS[name]

        def ends(table, local, *chosen):
            after = it(table, local, *chosen)
            if after is None or after[1].calls == local.calls or after[1].calls[-1][0] != kind:
                return after
            return after[0], replace(after[1], calls=local.calls, answers=local.answers)

        return steps(**{name: ends})

    def others_answer(table, local):
        after = model.reply(table, local)
        if after is None or local.doing[0] != "Started":
            return after
        return after[0], replace(after[1], calls=local.calls + (("GetOr", ("Ok", local.learnt[1]), False),))

    def refused_unasked(table, local):
        after = model.write_value(table, local)
        if after is None or after[1].calls == local.calls:
            return after
        return after[0], replace(after[1], calls=local.calls + (("GetOr", local.doing[1], True),))

    def shares_number(table, local, refused):
        after = model.make_bucket(table, local, refused)
        return after if after is None else (replace(after[0], made=table.made), after[1])

    def steps(**it):
        return {"LOCAL_STEPS": {**model.LOCAL_STEPS, **it}}

    def load_waits(table, it):
        return None if it.loads > 1 else model.walk_load(table, it)

    return {
        "give back comes in the middle of a call": {"give_back": gives_back_early},
        "forget comes in the middle of a call": {"forget": forgets_early},
        "forget leaves the Local living": {"forget": forgets_nothing},
        "into_iter comes while a walk runs": owner_beside(["IntoIter"], beside_walks),
        "clear comes while a walk runs": owner_beside(["ClearTable"], beside_walks),
        "clear comes while Locals live": owner_beside(["ClearTable"], beside_locals),
        "a rewrite and the drop come while Locals live": owner_beside(["RewriteTable", "DropTable"], beside_locals),
        "a drain comes while a walk runs": owner_beside(["DrainTable"], beside_walks),
        "a drain comes while Locals live": owner_beside(["DrainTable"], beside_locals),
        "into_iter leaves the table open": {"owner_call": leaves_open},
        "a Local's step restarts every walk": {"local_step": restarts_walks},
        "a Local's step ends the table": {"local_step": ends_table},
        "later walks begin complete": {"begin_walk": begins_complete},
        "one walk's end ends all": {"end_walk": ends_all},
        "a walk stands still after two loads": {"WALK_STEPS": {**model.WALK_STEPS, "Load": load_waits}},
        "no take while a walk runs": takes_where(lambda core: not walking(core)),
        "no take while five are held": takes_where(lambda core: held_count(core.held) < 5),
        "a refused take grows room": {"take_id": grows_room},
        "clear lets the room go": {"cleared_core": drops_room},
        "clear frees the reserved buckets": {"cleared_core": frees_reserved},
        "clear leaves a flag set in a reserved bucket": {"cleared_core": keeps_flag},
        "clear keeps ids held": {"cleared_core": keeps_ids},
        "clear frees the reserved buckets and makes them again": {"cleared_core": renames_reserved},
        "clear forgets the capacity": {"cleared_core": forgets_capacity},
        "a publishing call begins over gets, which vanish": steps(BeginGetOr=offers_over_gets),
        "a get begins over a publishing call": steps(BeginGet=gets_over_offer),
        "a get ends with no record": unrecorded("Reply", "Get"),
        "a publishing call that finds a value ends with no record": unrecorded("Reply", "GetOr"),
        "a refused publishing call ends with no record": unrecorded("MakeBucket", "GetOr"),
        "a failed publishing call ends with no record": unrecorded("WriteValue", "GetOr"),
        "a publishing call that installs ends with no record": unrecorded("InstallBucket", "GetOr"),
        "a call ends with another closure's answer": steps(Reply=others_answer),
        "a call that was refused nothing is recorded as refused": steps(WriteValue=refused_unasked),
        "buckets share one number": steps(MakeBucket=shares_number),
    }


def wrong_effects():
    """Wrong bodies that do more than they say, or whose words say less."""
    right = {
        name: getattr(model, name)
        for name in (
            "made_core",
            "take_id",
            "local_step",
            "give_back",
            "forget",
            "end_walk",
            "owner_call",
            "cleared_core",
            "is_refused",
            "slots",
            "after_all",
        )
    }

    def ends_made(capacity, extra):
        return replace(right["made_core"](capacity, extra), ended=capacity != 0)

    def grows(name, where=lambda core, *it: True):
        """What that event leaves, with room for one id more."""

        def it(core, *chosen):
            after = right[name](core, *chosen)
            return after if after is None or not where(core, *chosen) else replace(after, room=after.room + 1)

        return {name: it}

    def is_call(name):
        return lambda core, call: call[0] == name

    def frees_empty(core, call):
        after = right["owner_call"](core, call)
        if after is None or call[0] != "RewriteTable":
            return after
        digits, pointers = model.binary_digits(core.capacity), after.table.pointers
        kept = tuple(it if it is None or b < digits or any(s.flag for s in it.slots) else None for b, it in enumerate(pointers))
        return replace(after, table=replace(after.table, pointers=kept))

    def room_begins_again(core, refused, growth):
        after = right["take_id"](core, refused, growth)
        return after if after is core else replace(after, room=max(core.capacity, len(after.held)) + growth)

    def begins_walk(core, number):
        after = right["forget"](core, number)
        return after if after is None else replace(after, walks=after.walks + (model.begun_walk(after.table),))

    def ends_any(core, number):
        return core if live_walk(core, number) is None else right["end_walk"](core, number)

    def steps_anyway(core, number, step):
        return core if live_local(core, number) is None else right["local_step"](core, number, step)

    def frees_nothing(core):
        pointers = tuple(it and model.fresh_bucket(b, it.number) for b, it in enumerate(core.table.pointers))
        return replace(right["cleared_core"](core), table=replace(core.table, pointers=pointers))

    def with_values(table):
        return sum(2**b for b, it in enumerate(table.pointers) if it is not None and any(s.flag for s in it.slots))

    def installs_given(core, number):
        local, after = live_local(core, number), right["give_back"](core, number)
        if after is None or model.bucket_stands(core.table, bucket_of(local.id)):
            return after
        b = bucket_of(local.id)
        fresh = model.fresh_bucket(b, core.table.made)
        return replace(after, table=replace(model.with_pointer(core.table, b, fresh), made=core.table.made + 1))

    def takes_with_get(core, refused, growth):
        after = right["take_id"](core, refused, growth)
        n = len(core.locals)
        return after if after is core else model.with_local(after, n, replace(after.locals[n], doing=("Gets", 1)))

    def takes_with_look(core, refused, growth):
        after = right["take_id"](core, refused, growth)
        n = len(core.locals)
        if after is core or not model.bucket_stands(core.table, bucket_of(after.locals[n].id)):
            return after
        return model.with_local(after, n, replace(after.locals[n], learnt=("Standing",)))

    def one_get(table, local):
        return (table, replace(local, doing=("Gets", 1))) if local.doing == ("Gets", 0) else None

    def published_below(table, local):
        return model.set_flag(table, local) if local.id < 4 else None

    def loads_once(table, local):
        after = model.load_pointer(table, local)
        return (table, local) if after is not None and local.learnt == ("Missing",) else after

    def looks_in_vain(table, local):
        after = model.look_at_flag(table, local)
        return (table, local) if after is not None and after[1].learnt == ("Vacant",) else after

    def asks_beside(table, local, refused):
        if refused and local.doing[0] == "Started" and local.learnt == ("Vacant",):
            return table, model.after_call(local, ("GetOr", local.doing[1], False), ("Refused",), ("Vacant",), ("Gets", 0))
        return model.make_bucket(table, local, refused)

    def fails_at_first(table, local):
        stuck = local.doing[0] == "Started" and local.doing[1][0] == "Err" and local.id != 0
        return None if stuck else model.write_value(table, local)

    def made_with_room(capacity, extra):
        return right["made_core"](capacity, extra + 1)

    def asks_where(may):
        """The request for memory is enabled only where the id and the answer are such."""
        return steps(MakeBucket=lambda table, local, refused: model.make_bucket(table, local, refused) if may(local.id, refused) else None)

    def loses_memory(table, local, refused):
        after = model.make_bucket(table, local, refused)
        return (table, local) if after is not None and not refused and local.id == 5 else after

    def takes_with_room(core, refused, growth):
        return right["take_id"](core, refused, growth + 1)

    def leaves_get(name):
        """The step of that name ends a publishing call with a get under way that nobody began."""
        it = model.LOCAL_STEPS[name]

        def ends(table, local):
            after = it(table, local)
            if after is None or local.doing[0] not in ("Started", "Private", "Filled") or after[1].calls == local.calls:
                return after
            return after[0], replace(after[1], doing=("Gets", 1))

        return steps(**{name: ends})

    def made_up_core(four):
        return replace(right["after_all"](four), walks=(None,) * 9)

    def refuses_takes_alone(core, event):
        return event[0] == "TakeId" and right["is_refused"](core, event)

    def forgets_known(view, call):
        if call[0] == "GetOr" and view.value is None and call[2]:
            return view
        return kept_view(view, call)

    def reads_nothing(table, it):
        after = model.walk_look(table, it)
        return after if after is None else replace(after, read=it.read)

    def never_taken(core, event):
        return event[0] == "TakeId" and model.is_enabled(core, event) and model.is_granted(core, event[1])

    def made_up(core, event):
        identity = least(core.held)
        return model.Local(identity, ("Unknown",), ("Gets", 0), model.first_view(model.shadow(core), identity))

    def takes_another_view(core, refused, growth):
        after = right["take_id"](core, refused, growth)
        n = len(core.locals)
        return after if after is core else model.with_local(after, n, replace(after.locals[n], start=View("another", True)))

    kept_view, kept_below, kept_nothing = model.view_after, model.takes_below, model.nothing_refused
    def counts_on(core, events):
        moves = [model.move_of(model.run(core, events[:k]), it)[0] for k, it in enumerate(events)]
        return moves.count("Publish")

    def counts_on_drains(core, events):
        count = 0
        for event in events:
            move = model.move_of(core, event)[0]
            count = 0 if move == "Clear" else count + (move == "Publish")
            core = model.happens(core, event)
        return count

    def keeps_first(table):
        return replace(table, pointers=table.pointers[:1] + kept_drained(table).pointers[1:])

    def makes_anew(table):
        pointers = tuple(it and replace(it, number=it.number + table.made) for it in kept_drained(table).pointers)
        return model.Table(pointers, table.announced, 2 * table.made)

    def owners_drain(also):
        def owner_call(core, call):
            after = right["owner_call"](core, call)
            return after if after is None or call != ("DrainTable",) else also(after)

        return {"owner_call": owner_call}

    def notes_refused(core, events):
        moves = ()
        for event in events:
            take = event[0] == "TakeId" and model.is_enabled(core, event)
            moves = model.history_with(moves, ("Take",) if take else model.move_of(core, event))
            core = model.happens(core, event)
        return moves

    def notes(noted):
        return {"history_with": lambda moves, move: noted(moves, move) if move[0] in ("Take", "Give", "Publish") else kept_noted(moves, move)}

    kept_drained, kept_noted, kept_told = model.drained, model.history_with, model.as_published_with
    kept_of, kept_of_walk, kept_ends, kept_begins = model.is_of, model.is_of_walk, model.ends_table, model.begins_walk

    def steps(**it):
        return {"LOCAL_STEPS": {**model.LOCAL_STEPS, **it}}

    return {
        "a table made with a capacity has ended": {"made_core": ends_made},
        "slots grows room": grows("owner_call", is_call("Slots")),
        "a rewrite grows room": grows("owner_call", is_call("RewriteTable")),
        "a rewrite frees empty buckets that aren't reserved": {"owner_call": frees_empty},
        "a take's room begins again at the capacity": {"take_id": room_begins_again},
        "a Local's step grows room": grows("local_step"),
        "give back grows room": grows("give_back"),
        "forget begins a walk": {"forget": begins_walk},
        "a walk's end is enabled where no walk is": {"end_walk": ends_any},
        "a step is enabled where no Local is": {"local_step": steps_anyway},
        "clear frees nothing": {"cleared_core": frees_nothing},
        "only buckets with a value count as installed": {"slots": with_values},
        "a bucket of a call's own has no slots": {"private_slots": lambda identity, doing: 0},
        "give back installs its bucket": {"give_back": installs_given},
        "a newcomer has a get under way": {"take_id": takes_with_get},
        "a newcomer knows its bucket": {"take_id": takes_with_look},
        "at most one get is under way": steps(BeginGet=one_get),
        "two gets under way are stuck": {"may_look": lambda doing: doing[0] == "Started" or doing in (("Gets", 0), ("Gets", 1))},
        "a Local looks in a call alone": {"may_look": lambda doing: doing[0] == "Started" or (doing[0] == "Gets" and doing[1] > 0)},
        "a drain keeps the values of the first bucket": {"drained": keeps_first},
        "a drain frees every bucket": {"drained": lambda table: replace(table, pointers=(None,) * model.BUCKETS)},
        "a drain makes its buckets anew": {"drained": makes_anew},
        "a drain takes the ids back": owners_drain(lambda core: replace(core, held=())),
        "a drain lets the room go": owners_drain(lambda core: replace(core, room=len(core.held))),
        "a refused take is noted": {"history": notes_refused},
        "a take is noted twice": notes(lambda moves, move: moves + (move,) * (2 if move == ("Take",) else 1)),
        "a give isn't noted": notes(lambda moves, move: moves if move[0] == "Give" else moves + (move,)),
        "a publishing isn't noted": notes(lambda moves, move: moves if move[0] == "Publish" else moves + (move,)),
        "a clear doesn't begin the history anew": {"history_with": lambda moves, move: moves + (move,) * (move[0] in ("Take", "Give", "Publish"))},
        "a drain begins the history anew": {"history_with": lambda moves, move: () if move == ("Drain",) else kept_noted(moves, move)},
        "a drain leaves the values as published": {"as_published_with": lambda before, move: before if move == ("Drain",) else kept_told(before, move)},
        "publishings are counted across a drain": {"publishings": counts_on_drains},
        "only the ids below 4 publish": steps(SetFlag=published_below),
        "a second load teaches nothing": steps(LoadPointer=loads_once),
        "a look at an empty slot teaches nothing": steps(LookAtFlag=looks_in_vain),
        "memory is asked for after a look": steps(MakeBucket=asks_beside),
        "an error ends a call at id 0 alone": steps(WriteValue=fails_at_first),
        "no publishing is said to be refused": {"is_refused": refuses_takes_alone},
        "a refused call leaves a known view": {"view_after": forgets_known},
        "a look of a walk reads nothing": {"WALK_STEPS": {**model.WALK_STEPS, "Look": reads_nothing}},
        "takes below a bound may meet it": {"takes_below": lambda bound, core, events: kept_below(bound + 1, core, events)},
        "takes below a bound come below a lower one": {"takes_below": lambda bound, core, events: kept_below(bound - 1, core, events)},
        "nothing refused is said of the first event": {"nothing_refused": lambda core, events: kept_nothing(core, events[:1])},
        "takes below a bound are none, not even of no event": {"takes_below": lambda bound, core, events: False},
        "every event is exclusive": {"is_exclusive": lambda event: True},
        "every event is a take": {"is_take": lambda event: True},
        "a take is never said to be refused": {
            "is_refused": lambda core, event: event[0] != "TakeId" and right["is_refused"](core, event),
            "is_granted_take": never_taken,
        },
        "a newcomer is made up, and another one comes": {"newcomer": made_up, "take_id": takes_another_view},
        "each give back is of every Local": {"is_of": lambda n, event: event[0] == "GiveBack" or kept_of(n, event)},
        "each walk's end is of every walk": {"is_of_walk": lambda n, event: event[0] == "EndWalk" or kept_of_walk(n, event)},
        "a take is said to end a table": {"ends_table": lambda event: event[0] == "TakeId" or kept_ends(event)},
        "a forget is said to begin a walk": {"begins_walk": lambda event: event[0] == "Forget" or kept_begins(event)},
        "none is taken by no event alone": {"none_taken": lambda core, events: not events},
        "none is never taken": {"none_taken": lambda core, events: False},
        "a made core has room beyond its capacity": {"made_core": made_with_room},
        "a new table has room already": {"new_core": lambda: right["made_core"](0, 4)},
        "memory is refused at id 0 alone": asks_where(lambda identity, refused: not refused or identity == 0),
        "memory is only refused at id 5": asks_where(lambda identity, refused: refused or identity != 5),
        "memory that comes is lost at id 5": steps(MakeBucket=loses_memory),
        "no take is refused memory": {"is_granted": lambda core, refused: not model.is_exhausted(core)},
        "a take grows room by more than it says": {"take_id": takes_with_room},
        "a failing call leaves a get under way": leaves_get("WriteValue"),
        "a call that installs leaves a get under way": leaves_get("InstallBucket"),
        "a call that replies leaves a get under way": leaves_get("Reply"),
        "the most held is what is held at last": {"most_held": lambda core, events: held_count(model.run(core, events).held)},
        "publishings are counted across a clear": {"publishings": counts_on},
        "a core of the example is made up": {"after_all": made_up_core},
        "a bucket that stands has no number": {"number_at": lambda table, bucket: None},
        "a bucket of a call's own has no number": {"own_number": lambda doing: None},
    }


def wrong_for_some():
    """Wrong bodies that are right for most ids, Locals, buckets or moments."""
    names = ("give_back", "move_of", "answers", "is_alone", "at_announced", "cleared", "made_core")
    right = {name: getattr(model, name) for name in names}

    def steps(**it):
        return {"LOCAL_STEPS": {**model.LOCAL_STEPS, **it}}

    def walks(**it):
        return {"WALK_STEPS": {**model.WALK_STEPS, **it}}

    def keeps_sixth(core, number):
        after = right["give_back"](core, number)
        return after if after is None or number < 5 else replace(after, held=core.held)

    def moves_none_of_sixth(core, event):
        return ("Stay",) if event[0] == "GiveBack" and event[1] >= 5 else right["move_of"](core, event)

    def answers_few(view, calls):
        told = right["answers"](view, calls)
        return tuple(("Found", None) if k > 2 and it[0] == "Found" else it for k, it in enumerate(told))

    def replies_few(table, local):
        after = model.reply(table, local)
        if after is None or len(local.calls) < 3 or after[1].calls[-1] != ("Get",):
            return after
        return after[0], replace(after[1], answers=local.answers + (("Found", None),))

    def asks_where_missing(table, local, refused):
        return None if model.bucket_stands(table, bucket_of(local.id)) else model.make_bucket(table, local, refused)

    def loads_once(table, local):
        return None if local.learnt == ("Missing",) else model.load_pointer(table, local)

    def passes_by(table, it):
        after = model.walk_look(table, it)
        new = after is not None and after.given != it.given and it.first[model.cursor_id(it)] is None
        return model.at_place(replace(after, given=it.given)) if new else after

    def publishes_below(table, local):
        after = model.set_flag(table, local)
        return after if after is None or local.id < 4 else (table, after[1])

    def moves_below(core, event):
        move = right["move_of"](core, event)
        return ("Stay",) if move[0] == "Publish" and move[1] >= 4 else move

    def shows_written(slot):
        return slot.written

    def all_written(table):
        rows = [(Slot(),) * 2**b if it is None else it.slots for b, it in enumerate(table.pointers)]
        return tuple(it.written for row in rows for it in row)

    def installs_next(table, local):
        after = model.install_bucket(table, local)
        own = bucket_of(local.id)
        if after is None or model.bucket_stands(table, own) or own + 1 >= model.BUCKETS or model.bucket_stands(table, own + 1):
            return after
        return model.with_pointer(table, own + 1, model.fresh_bucket(own + 1, local.doing[2])), after[1]

    def installs_few(table, local):
        after = model.install_bucket(table, local)
        return after if after is None or bucket_of(local.id) < 2 else (table, after[1])

    def learns_nothing(table, local):
        after = model.set_flag(table, local)
        return after if after is None else (after[0], replace(after[1], learnt=("Vacant",)))

    def installs_unknown(table, local):
        unknown = local.doing[0] == "Filled" and not local.doing[3]
        return model.install_bucket(table, replace(local, doing=(*local.doing[:3], True)) if unknown else local)

    def announces_all(table, local):
        after = model.announce_bucket(table, local)
        return after if after is None else (replace(table, announced=(True,) * model.BUCKETS), after[1])

    def announces_nothing(table, local):
        after = model.announce_bucket(table, local)
        return after if after is None else (table, after[1])

    def announces_below(table, local):
        after, own = model.announce_bucket(table, local), bucket_of(local.id)
        return after if after is None else (replace(table, announced=(True,) * (own + 1) + table.announced[own + 1 :]), after[1])

    def announces_filled(table, local):
        after = model.announce_bucket(table, local)
        return after if after is None or local.doing[0] == "Filled" else (table, after[1])

    def knows(name, announced):
        """What the step of that name leaves, where its call knows the bucket to be announced, or not, whatever is so."""
        it = model.LOCAL_STEPS[name]

        def step(table, local):
            after = it(table, local)
            if after is None or after[1].doing[0] not in ("Filled", "Written"):
                return after
            return after[0], replace(after[1], doing=(*after[1].doing[:-1], announced))

        return steps(**{name: step})

    def sets_unknown(table, local):
        unknown = local.doing[0] == "Written" and not local.doing[2]
        return model.set_flag(table, replace(local, doing=(*local.doing[:2], True)) if unknown else local)

    def sets_first(table, local):
        after = sets_unknown(table, local)
        return after if after is None else (model.with_announced(after[0], bucket_of(local.id)), after[1])

    def error_announces(table, local):
        after = model.write_value(table, local)
        if after is None or local.doing[1][0] == "Ok":
            return after
        return model.with_announced(table, bucket_of(local.id)), after[1]

    def announces_reserved(capacity, extra):
        core, digits = right["made_core"](capacity, extra), model.binary_digits(capacity)
        announced = tuple(it or b < digits for b, it in enumerate(core.table.announced))
        return replace(core, table=replace(core.table, announced=announced))

    def loads_word(table, it):
        after = model.walk_load(table, it)
        return after if after is None else replace(after, announced=table.announced)

    def counts_passed(table, it):
        after = model.walk_pass(table, it)
        return after if after is None else replace(after, loads=it.loads + 1)

    def clears_announced(table, capacity):
        return replace(right["cleared"](table, capacity), announced=model.made_core(capacity, 0).table.announced)

    def begins_with_load(core):
        return replace(core, walks=core.walks + (replace(model.begun_walk(core.table), loads=1),))

    return {
        "an owner calls only while the peak is below five": {"is_alone": lambda core: right["is_alone"](core) and len(core.held) < 5},
        "a sixth Local gives no id back": {"give_back": keeps_sixth, "move_of": moves_none_of_sixth},
        "a get answers nothing from the fourth call on": {"answers": answers_few, **steps(Reply=replies_few)},
        "a missing bucket is never looked for again": steps(LoadPointer=loads_once),
        "memory is asked for only where the bucket is missing by now": steps(MakeBucket=asks_where_missing),
        "a walk begins with one load counted": {"begin_walk": begins_with_load},
        "a walk passes by what wasn't published when it began": walks(Look=passes_by),
        "a value is shown when it is written": {"value_of": shows_written, "all_published": all_written},
        "a call at ids from four on publishes nothing": {"move_of": moves_below, **steps(SetFlag=publishes_below)},
        "an install needs no announcement": steps(InstallBucket=installs_unknown),
        "an announcement announces every bucket": steps(AnnounceBucket=announces_all),
        "an announcement announces nothing": steps(AnnounceBucket=announces_nothing),
        "an announcement announces the buckets below too": steps(AnnounceBucket=announces_below),
        "a call that has written a value announces nothing": steps(AnnounceBucket=announces_filled),
        "no call knows its bucket to be announced before it announces it": knows("FillBucket", False),
        "no call that writes knows its bucket to be announced before it announces it": knows("WriteValue", False),
        "a filled bucket counts as announced": knows("FillBucket", True),
        "the bucket of a written value counts as announced": knows("WriteValue", True),
        "a flag needs no announcement": steps(SetFlag=sets_unknown),
        "a flag is set first, and its bucket announced then": steps(SetFlag=sets_first),
        "a closure's error announces the bucket": steps(WriteValue=error_announces),
        "a new table announces what it reserves": {"made_core": announces_reserved},
        "a walk skips the third bucket": {"at_announced": lambda it: it.bucket != 2 and right["at_announced"](it)},
        "a walk may skip an announced bucket": walks(Pass=lambda table, it: model.at_next_bucket(it) if model.may_load(it) else None),
        "a walk loads every pointer": {"at_announced": lambda it: True},
        "a walk loads what is announced again": walks(Load=loads_word),
        "a pass is counted as a load": walks(Pass=counts_passed),
        "a clear begins what is announced anew": {"cleared": clears_announced},
        "an install installs the next bucket": steps(InstallBucket=installs_next),
        "an install from bucket two on installs nothing": steps(InstallBucket=installs_few),
        "a publishing call forgets what it has published": steps(SetFlag=learns_nothing),
    }


def try_wrong_bodies(seed, runs, length):
    """Says for each wrong body which clauses fail first, and whether the story breaks. Returns those that nothing refuses."""
    left = []
    for name, body in {**wrong_bodies(), **more_wrong_bodies(), **wrong_effects(), **wrong_for_some()}.items():
        kept = {key: getattr(model, key) for key in body}
        for key, it in body.items():
            setattr(model, key, it)
        try:
            told = story()
            failed, _, _, count = try_runs(seed, runs, length)
        finally:
            for key, it in kept.items():
                setattr(model, key, it)
        by = ([f"clause {failed}, schedule {count}"] if failed else []) + ([f"the story: {told}"] if told else [])
        print(f"{name}: " + ("refused by " + " and by ".join(by) if by else "NOT REFUSED"))
        left += [] if by else [name]
    return left


# ---- names -----------------------------------------------------------------------------------------------

CRATES = ("thread_local_base", "thread_local_schedule")


def sources(pattern):
    top = os.path.dirname(os.path.dirname(os.path.abspath(__file__)))
    for crate in CRATES:
        for path in sorted(glob.glob(f"{top}/crates/{crate}/{pattern}")):
            with open(path, encoding="utf-8") as file:
                yield file.read()


def theorem_clauses():
    """The clauses of each theorem."""
    found, theorem = {}, None
    for text in sources("src/*.rt"):
        for line in text.split("\n"):
            if it := re.match(r"pub fn (\w+)", line):
                theorem = it[1]
            elif it := re.match(r"\s+ensures (\w+) \{", line):
                found.setdefault(theorem, set()).add(it[1])
    return found


def spec_names():
    """What the specs define: functions, types, constructors."""
    head = re.compile(r"^(?:abbrev |unfoldable )?(?:pub )?(?:record |data )?(\w+)(?: [{(][^:]*:[^})]*[})])* :|^  (?:pub )?(\w+) :", re.M)
    return {one or other for text in sources("specs/*.antt") for one, other in head.findall(text)}


def foreign_names():
    """The names of these scripts that no theorem and no spec has."""
    theorems, specs, left = theorem_clauses(), spec_names(), []
    anywhere = {it for clauses in theorems.values() for it in clauses}
    for name, it in {**CLAUSES, **WHOLE}.items():
        tried = getattr(it, "tried", [])
        left += [f"clause {name}: no {theorem}::{clause}" for theorem, clause in tried if clause not in theorems.get(theorem, ())]
        if not (any(name == clause or name.endswith("_" + clause) for _, clause in tried[:1]) if tried else name in anywhere):
            left.append(f"clause {name}: its name is no clause's that it tries")
    for name in sorted(model.OWN & specs):
        left.append(f"{name} is in OWN, and in the specs")
    defined = {name for name, it in vars(model).items() if getattr(it, "__module__", "") == model.__name__}
    for name in sorted(defined - model.OWN):
        if name not in specs and name.title().replace("_", "") not in specs:
            left.append(f"{name}: no spec has it")
    return left + [f"step {name}: no spec has it" for name in (*model.LOCAL_STEPS, *model.WALK_STEPS) if name not in specs]


def compare_names():
    left = foreign_names()
    for it in left:
        print(it)
    tried = {one for name, it in {**CLAUSES, **WHOLE}.items() for one in getattr(it, "tried", [(None, name)])}
    print(f"{len(tried)} clauses are tried; {len(left)} names of the scripts are in no spec and no theorem")
    return 1 if left else 0


# ---- a schedule to look at ------------------------------------------------------------------------------


def step_text(step):
    name = step[0]
    if name == "BeginGetOr":
        return f"BeginGetOr {step[1][1]}"
    return name + (" refused" if step == ("MakeBucket", True) else "")


def event_text(event):
    match event:
        case ("TakeId", refused, _):
            return "TakeId"
        case ("OfLocal", number, it):
            return f"Local {number}: {step_text(it)}"
        case ("OfWalk", number, name):
            return f"walk {number}: {name}"
        case ("BeginWalk",):
            return "BeginWalk"
        case (name, number):
            return f"{name} {number}"


def answer_text(told):
    return told[0] if told == ("Refused",) else f"{told[0]} {told[1]}"


def local_change(before, after):
    """What a step made of a Local: what it has learnt, what it does, and what it answered."""
    if before == after:
        return ""
    if before is None:
        return f"id {after.id}"
    if after is None:
        return "lives no longer"
    said = []
    if after.learnt != before.learnt:
        said.append(" ".join(str(it) for it in after.learnt))
    if after.doing != before.doing:
        gets, create = under_way(after.doing)
        said += {
            "Private": [f"own bucket {it}" for it in after.doing[2:3]],
            "Filled": ["knows it to be announced" if before.doing[0] == "Filled" else "has filled it"],
            "Written": ["knows its bucket to be announced" if before.doing[0] == "Written" else "has written"],
            "Started": [f"publishing {create and create[1]}"],
            "Gets": [f"{gets} gets"] if gets else [],
        }[after.doing[0]]
    return ", ".join(said + ["answers " + answer_text(it) for it in after.answers[len(before.answers) :]])


def walk_change(before, after):
    """What a step made of a walk: where it is, and what it gave."""
    if before == after:
        return ""
    if after is None:
        return "ended"
    gave = "" if before is None or after.given == before.given else f"gives {after.given[0][1]}, "
    if model.is_complete(after):
        return gave + "complete"
    return gave + (f"looks at id {model.cursor_id(after)} next" if after.looks else f"at pointer {after.bucket}")


def slot_text(slot):
    return ("flag set" if slot.flag else "written") if slot.written is not None else "empty"


def table_change(before, after):
    """What a step changed of the table that threads share."""
    said = [f"bucket {b} is announced" for b, it in enumerate(after.announced) if it and not before.announced[b]]
    for bucket, (old, new) in enumerate(zip(before.pointers, after.pointers)):
        if old is None and new is not None:
            said.append(f"pointer {bucket} leads to bucket {new.number}")
            said += [f"slot {model.id_at(bucket, k)}: {slot_text(it)}" for k, it in enumerate(new.slots) if it != Slot()]
        elif old is not None and new is not None:
            changed = [k for k, (a, b) in enumerate(zip(old.slots, new.slots)) if a != b]
            said += [f"slot {model.id_at(bucket, k)}: {slot_text(new.slots[k])}" for k in changed]
    return ", ".join(said)


def offer_text(core, event):
    """What a call finds that comes second: the pointer leads to the first one's bucket and goes on leading to it."""
    if event[0] != "OfLocal" or event[2] != ("InstallBucket",):
        return ""
    bucket = bucket_of(live_local(core, event[1]).id)
    named = core.table.pointers[bucket]
    return "" if named is None else f"pointer {bucket} leads to bucket {named.number} still"


def sheet_text(sheet):
    held = " ".join(str(k) for k, it in enumerate(sheet.held) if it)
    values = " ".join(f"{k}:{v}" for k, v in enumerate(sheet.values) if v is not None)
    return f"held {held or 'none'}; " + (f"published {values}" if values else "nothing published")


def race(seed):
    """Three Locals are taken, the last two publish at ids of one bucket, and a walk passes: the events in some order."""
    chance, core, begun = random.Random(seed), new_core(), set()
    events = [("TakeId", False, 0)] * 3
    core = model.run(core, events)
    steps = [("LoadPointer",), ("LookAtFlag",), ("MakeBucket", False), ("FillBucket",), ("AnnounceBucket",), ("InstallBucket",)]
    steps += [("WriteValue",), ("SetFlag",), ("Reply",)]
    while True:
        menu = []
        for n in (1, 2):
            if n not in begun:
                menu.append(("OfLocal", n, ("BeginGetOr", ("Ok", "-ab"[n]))))
            else:
                missing = live_local(core, n).learnt == ("Missing",)  # to load such a pointer again teaches nothing
                menu += [it for it in (("OfLocal", n, step) for step in steps[missing:]) if model.is_enabled(core, it)]
        it = live_walk(core, 0)
        if not core.walks:
            menu.append(("BeginWalk",))
        elif it is not None:
            menu.append(("EndWalk", 0) if model.is_complete(it) else ("OfWalk", 0, model.next_step(it)))
        if not menu:
            return events
        event = chance.choice(menu)
        if event[0] == "OfLocal" and event[2][0] == "BeginGetOr":
            begun.add(event[1])
        events.append(event)
        core = model.happens(core, event)



def show(seed):
    """Prints a schedule as a table: a line for each event, with what it made of each Local, the walk and the table, and the sheet."""
    core, rows = new_core(), [["event", "Local 0", "Local 1", "Local 2", "walk 0", "the table", "the sheet after it"]]
    for event in race(seed):
        after = model.happens(core, event)
        locals_ = [local_change(live_local(core, n), live_local(after, n)) for n in range(3)]
        it = walk_change(live_walk(core, 0), live_walk(after, 0))
        changed = offer_text(core, event) or table_change(core.table, after.table)
        rows.append([event_text(event), *locals_, it, changed, sheet_text(model.shadow(after))])
        core = after
    widths = [max(len(row[k]) for row in rows) for k in range(len(rows[0]))]
    rows.insert(1, ["-" * it for it in widths])
    for row in rows:
        print("| " + " | ".join(it.ljust(width) for it, width in zip(row, widths)) + " |")


def main():
    options = argparse.ArgumentParser(description=__doc__.splitlines()[0])
    options.add_argument("--seed", type=int, default=1)
    options.add_argument("--runs", type=int, help="how many schedules: 1500 (under five minutes), or 100 with --short")
    options.add_argument("--short", action="store_true", help="fewer schedules: under 20 seconds")
    options.add_argument("--events", type=int, default=250)
    options.add_argument("--buckets", type=int, default=3)
    options.add_argument("--wrong", action="store_true", help="tries each wrong body in turn")
    options.add_argument("--names", action="store_true", help="says which names of the scripts aren't in the specs or the theorems")
    options.add_argument("--pins", action="store_true", help="lists for each word of the theorems the clauses that pin it")
    options.add_argument("--show", type=int, metavar="SEED", help="print a schedule in which two Locals race for one bucket")
    given = options.parse_args()
    if given.pins:
        sys.exit(pins.main())
    if given.names:
        sys.exit(compare_names())
    if given.show is not None:
        model.set_buckets(2)
        return show(given.show)
    runs = given.runs or (100 if given.short else 1500)
    model.set_buckets(given.buckets)
    if given.wrong:
        sys.exit(1 if try_wrong_bodies(given.seed, runs, given.events) else 0)
    failed, events, seen, count = try_runs(given.seed, runs, given.events)
    for name in sorted(seen):
        print(f"  {seen[name]:8} {name}")
    if failed:
        print(f"clause {failed} fails in schedule {count}, after:")
        for event in events:
            print("   ", event)
    elif story():
        print(f"the story fails: {story()}")
    else:
        print(f"{count} schedules of up to {given.events} events: all {len(CLAUSES) + len(WHOLE)} clauses and the story hold")
    sys.exit(1 if failed or story() else 0)


if __name__ == "__main__":
    main()
