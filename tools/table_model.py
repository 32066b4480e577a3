"""The table's model, under the names of the specs, with few buckets so that all ids can be held.

Each event of a schedule is a tuple: ("TakeId", refused, growth), ("OfLocal", number, step), ("GiveBack", number),
("Forget", number), ("BeginWalk",), ("OfWalk", number, step), ("EndWalk", number), ("Owner", call).
"""

from dataclasses import dataclass, replace

BUCKETS = 3
IDS = 2**BUCKETS - 1
ANNOUNCED_AT_FIRST = 1  # 7 in the specs: with few buckets too some have to be announced

# The names that are these scripts' own; all others stand in the specs, where a type such as `IsAlone` may be a `is_alone` here.
OWN = {"set_buckets", "with_pointer", "all_published", "known_value", "live_local", "live_walk", "with_local", "cleared_core"}


def set_buckets(buckets):
    global BUCKETS, IDS
    BUCKETS, IDS = buckets, 2**buckets - 1


# ---- places, held ids, capacity ------------------------------------------------------------------------


def bucket_of(identity):
    return (identity + 1).bit_length() - 1


def index_of(identity):
    return identity - (2 ** bucket_of(identity) - 1)


def id_at(bucket, index):
    return index + (2**bucket - 1)


def is_held(held, identity):
    return identity < len(held) and held[identity]


def least(held):
    return next((k for k, it in enumerate(held) if not it), len(held))


def with_least(held):
    k = least(held)
    return held[:k] + (True,) + held[k + 1 :]


def without(held, identity):
    return tuple(it and k != identity for k, it in enumerate(held))


def held_count(held):
    return sum(held)


def binary_digits(n):
    return 0 if n == 0 else bucket_of(n - 1) + 1


def reserved_slots(capacity):
    return 2 ** binary_digits(capacity) - 1


def is_reserved(capacity, identity):
    return identity < reserved_slots(capacity)


# ---- sheet and moves -----------------------------------------------------------------------------------


@dataclass(frozen=True)
class Sheet:
    held: tuple
    values: tuple  # by id, None where there is no value
    capacity: int


def new_sheet():
    return Sheet((), (None,) * IDS, 0)


def moved_by(sheet, move):
    """The sheet after a move of the table: one of the sheet, a drain, or none, which is ("Stay",)."""
    match move:
        case ("Take",):
            return replace(sheet, held=with_least(sheet.held))
        case ("Give", identity):
            return replace(sheet, held=without(sheet.held, identity))
        case ("Publish", identity, value):
            return replace(sheet, values=with_value(sheet.values, identity, value))
        case ("Rewrite", others):
            return replace(sheet, values=tuple(others(k, v) if v is not None else None for k, v in enumerate(sheet.values)))
        case ("Clear",):
            return replace(new_sheet(), capacity=sheet.capacity)
        case ("Drain",):
            return replace(sheet, values=(None,) * IDS)
        case ("Stay",):
            return sheet


def is_move_allowed(sheet, move):
    match move:
        case ("Give", identity):
            return is_held(sheet.held, identity)
        case ("Publish", identity, _):
            return is_held(sheet.held, identity) and sheet.values[identity] is None
    return True


def with_value(values, identity, value):
    return values[:identity] + (value,) + values[identity + 1 :]


def walk(values):
    return [v for v in values if v is not None]


# ---- views and answers ---------------------------------------------------------------------------------


@dataclass(frozen=True)
class View:
    value: object
    known: bool


def answer(view, call):
    """A call is ("Get",) or ("GetOr", create, refused), where create is ("Ok", value) or ("Err", error)."""
    if call[0] == "Get":
        return ("Found", view.value)
    _, create, refused = call
    if view.value is not None:
        return ("Answered", view.value)
    if refused and not view.known:
        return ("Refused",)
    return ("Answered", create[1]) if create[0] == "Ok" else ("Failed", create[1])


def view_after(view, call):
    if call[0] == "Get" or view.value is not None:
        return view
    _, create, refused = call
    if refused and not view.known:
        return view
    return View(create[1] if create[0] == "Ok" else None, True)


def answers(view, calls):
    given = []
    for call in calls:
        given.append(answer(view, call))
        view = view_after(view, call)
    return tuple(given)


# ---- the core ------------------------------------------------------------------------------------------


@dataclass(frozen=True)
class Slot:
    written: object = None
    flag: bool = False


@dataclass(frozen=True)
class Bucket:
    number: int
    slots: tuple


def fresh_bucket(bucket, number):
    return Bucket(number, (Slot(),) * 2**bucket)


@dataclass(frozen=True)
class Table:
    pointers: tuple  # for each bucket None, or the bucket that its pointer leads to
    announced: tuple  # for each bucket whether it is
    made: int


def slot_of(pointer, index):
    return pointer.slots[index] if pointer is not None else Slot()


def value_of(slot):
    return slot.written if slot.flag else None


def slot_at(table, identity):
    return slot_of(table.pointers[bucket_of(identity)], index_of(identity))


def published(table, identity):
    return value_of(slot_at(table, identity))


def bucket_stands(table, bucket):
    return table.pointers[bucket] is not None


def with_pointer(table, bucket, named):
    return replace(table, pointers=table.pointers[:bucket] + (named,) + table.pointers[bucket + 1 :])


def with_announced(table, bucket):
    return replace(table, announced=table.announced[:bucket] + (True,) + table.announced[bucket + 1 :])


def with_table_slot(table, identity, slot):
    b, i = bucket_of(identity), index_of(identity)
    named = table.pointers[b]
    if named is None:
        return table
    return with_pointer(table, b, replace(named, slots=named.slots[:i] + (slot,) + named.slots[i + 1 :]))


def with_filled_bucket(table, identity, number, value):
    b = bucket_of(identity)
    return with_table_slot(with_pointer(table, b, fresh_bucket(b, number)), identity, Slot(value, True))


def slots(table):
    return sum(2**b for b in range(BUCKETS) if bucket_stands(table, b))


@dataclass(frozen=True)
class Local:
    id: int
    learnt: tuple  # Unknown, Missing, Standing, Vacant, Holding value
    doing: tuple  # Gets count, Started create, Private create number, Filled create number announced, Written value announced
    start: View
    calls: tuple = ()
    answers: tuple = ()


@dataclass(frozen=True)
class SharedWalk:
    bucket: int
    index: int
    looks: bool
    announced: tuple  # for each bucket whether it was when the walk began
    first: tuple  # what was published then, by id
    given: tuple = ()  # newest first, pairs of id and value
    read: tuple = ()
    loads: int = 0


@dataclass(frozen=True)
class Core:
    held: tuple
    room: int
    capacity: int
    table: Table
    locals: tuple = ()
    walks: tuple = ()
    ended: bool = False


def made_core(capacity, extra):
    digits = binary_digits(capacity)
    pointers = tuple(fresh_bucket(b, b) if b < digits else None for b in range(BUCKETS))
    announced = tuple(b < ANNOUNCED_AT_FIRST for b in range(BUCKETS))
    return Core((), capacity + extra, capacity, Table(pointers, announced, digits))


def new_core():
    return made_core(0, 0)


def all_published(table):
    """The published values by ascending id: the buckets' slots, one bucket after another."""
    rows = [(Slot(),) * 2**b if named is None else named.slots for b, named in enumerate(table.pointers)]
    return tuple(it.written if it.flag else None for row in rows for it in row)


def shadow(core):
    return Sheet(core.held, all_published(core.table), core.capacity)


# ---- events --------------------------------------------------------------------------------------------
# Each step answers None where it isn't enabled.


def is_full(core):
    """Every id below the peak is held, and the peak is all the room that there is."""
    return least(core.held) == core.room


def is_exhausted(core):
    return least(core.held) == IDS


def is_granted(core, refused):
    return not (is_exhausted(core) or (is_full(core) and refused))


def first_view(sheet, identity):
    value = sheet.values[identity]
    return View(value, is_reserved(sheet.capacity, identity) or value is not None)


def take_id(core, refused, growth):
    if not is_granted(core, refused):
        return core
    identity = least(core.held)
    held = with_least(core.held)
    fresh = Local(identity, ("Unknown",), ("Gets", 0), first_view(shadow(core), identity))
    return replace(core, held=held, room=max(core.room, len(held)) + growth, locals=core.locals + (fresh,))


def after_call(local, call, told, learnt, doing):
    return replace(local, calls=local.calls + (call,), answers=local.answers + (told,), learnt=learnt, doing=doing)


def may_look(doing):
    """Whether a Local may load its pointer and look at its flag, in a call or where none is under way."""
    return doing[0] in ("Started", "Gets")


def begin_get(table, local):
    match local.doing:
        case ("Gets", count):
            return table, replace(local, doing=("Gets", count + 1))


def begin_get_or(table, local, create):
    match local.doing:
        case ("Gets", 0):
            return table, replace(local, doing=("Started", create))


def load_pointer(table, local):
    if may_look(local.doing) and local.learnt[0] in ("Unknown", "Missing"):
        return table, replace(local, learnt=("Standing",) if bucket_stands(table, bucket_of(local.id)) else ("Missing",))


def look_at_flag(table, local):
    if may_look(local.doing) and local.learnt[0] == "Standing":
        value = published(table, local.id)
        return table, replace(local, learnt=("Vacant",) if value is None else ("Holding", value))


def make_bucket(table, local, refused):
    match local.doing, local.learnt:
        case ("Started", create), ("Missing",):
            if refused:
                return table, after_call(local, ("GetOr", create, True), ("Refused",), ("Missing",), ("Gets", 0))
            return replace(table, made=table.made + 1), replace(local, doing=("Private", create, table.made))


def fill_bucket(table, local):
    match local.doing:
        case ("Private", create, number):
            return table, replace(local, doing=("Filled", create, number, table.announced[bucket_of(local.id)]))


def announce_bucket(table, local):
    match local.doing:
        case ("Filled", create, number, False):
            return with_announced(table, bucket_of(local.id)), replace(local, doing=("Filled", create, number, True))
        case ("Written", value, False):
            return with_announced(table, bucket_of(local.id)), replace(local, doing=("Written", value, True))


def install_bucket(table, local):
    match local.doing, local.learnt:
        case ("Filled", (kind, value), number, True), ("Missing",):
            b, goes_on = bucket_of(local.id), replace(local, learnt=("Vacant",), doing=("Started", (kind, value)))
            if bucket_stands(table, b):
                return table, goes_on
            if kind == "Err":
                return with_pointer(table, b, fresh_bucket(b, number)), goes_on
            call = ("GetOr", ("Ok", value), False)
            return with_filled_bucket(table, local.id, number, value), after_call(local, call, ("Answered", value), ("Holding", value), ("Gets", 0))


def write_value(table, local):
    match local.doing, local.learnt:
        case ("Started", ("Ok", value)), ("Vacant",):
            slot = replace(slot_at(table, local.id), written=value)
            return with_table_slot(table, local.id, slot), replace(local, doing=("Written", value, table.announced[bucket_of(local.id)]))
        case ("Started", ("Err", error)), ("Vacant",):
            return table, after_call(local, ("GetOr", ("Err", error), False), ("Failed", error), ("Vacant",), ("Gets", 0))


def set_flag(table, local):
    match local.doing, local.learnt:
        case ("Written", value, True), ("Vacant",):
            slot = replace(slot_at(table, local.id), flag=True)
            call = ("GetOr", ("Ok", value), False)
            return with_table_slot(table, local.id, slot), after_call(local, call, ("Answered", value), ("Holding", value), ("Gets", 0))


def known_value(learnt):
    match learnt:
        case ("Missing",) | ("Vacant",):
            return (None,)
        case ("Holding", value):
            return (value,)


def reply(table, local):
    match local.doing:
        case ("Gets", count) if count > 0 and known_value(local.learnt) is not None:
            return table, after_call(local, ("Get",), ("Found", known_value(local.learnt)[0]), local.learnt, ("Gets", count - 1))
        case ("Started", create) if local.learnt[0] == "Holding":
            value = local.learnt[1]
            return table, after_call(local, ("GetOr", create, False), ("Answered", value), local.learnt, ("Gets", 0))


LOCAL_STEPS = {
    "BeginGet": begin_get,
    "BeginGetOr": begin_get_or,
    "LoadPointer": load_pointer,
    "LookAtFlag": look_at_flag,
    "MakeBucket": make_bucket,
    "FillBucket": fill_bucket,
    "AnnounceBucket": announce_bucket,
    "InstallBucket": install_bucket,
    "WriteValue": write_value,
    "SetFlag": set_flag,
    "Reply": reply,
}


def live_local(core, number):
    return core.locals[number] if number < len(core.locals) else None


def with_local(core, number, local):
    return replace(core, locals=core.locals[:number] + (local,) + core.locals[number + 1 :])


def local_step(core, number, step):
    local = live_local(core, number)
    if local is None:
        return None
    after = LOCAL_STEPS[step[0]](core.table, local, *step[1:])
    if after is None:
        return None
    return with_local(replace(core, table=after[0]), number, after[1])


def announces_left(announced):
    """How many steps a publishing call makes to announce its bucket."""
    return 0 if announced else 1


def steps_left(announced, local):
    """How many steps the calls under way still make until all have ended, if each makes no step twice: fewer where the bucket is announced."""
    more = announces_left(announced)
    match local.doing:
        case ("Gets", 0):
            return 0
        case ("Gets", count):
            return count + {"Unknown": 2, "Standing": 1}.get(local.learnt[0], 0)
        case ("Started", _):
            return {"Unknown": 6 + more, "Missing": 5 + more, "Standing": 3 + more, "Vacant": 2 + more, "Holding": 1}[local.learnt[0]]
        case ("Private", _, _):
            return 4 + more
        case ("Filled", _, _, known):
            return 3 + more if known else 4
        case ("Written", _, known):
            return 1 if known else 2


def steps_left_on(table, local):
    return steps_left(table.announced[bucket_of(local.id)], local)


def private_slots(identity, doing):
    """How many slots the bucket has that a call has made and not yet offered."""
    return 2 ** bucket_of(identity) if doing[0] in ("Private", "Filled") else 0


def is_idle(doing):
    return doing == ("Gets", 0)


def give_back(core, number):
    local = live_local(core, number)
    if local is not None and is_idle(local.doing):
        return with_local(replace(core, held=without(core.held, local.id)), number, None)


def forget(core, number):
    local = live_local(core, number)
    if local is not None and is_idle(local.doing):
        return with_local(core, number, None)


def cursor_id(walking):
    return id_at(walking.bucket, walking.index)


def is_complete(walking):
    return walking.bucket >= BUCKETS


def at_next_bucket(walking):
    return replace(walking, bucket=walking.bucket + 1, index=0, looks=False)


def at_place(walking):
    """At the end of the bucket the walk goes on with the next, else it looks."""
    return at_next_bucket(walking) if walking.index == 2**walking.bucket else replace(walking, looks=True)


def may_load(walking):
    return not walking.looks and not is_complete(walking)


def at_announced(walking):
    """Whether the bucket at the walk's cursor was announced when the walk began."""
    return walking.announced[walking.bucket]


def walk_pass(table, walking):
    return at_next_bucket(walking) if may_load(walking) and not at_announced(walking) else None


def walk_load(table, walking):
    if not may_load(walking) or not at_announced(walking):
        return None
    loaded = replace(walking, loads=walking.loads + 1)
    return at_place(loaded) if bucket_stands(table, walking.bucket) else at_next_bucket(loaded)


def walk_look(table, walking):
    if not walking.looks:
        return None
    here = cursor_id(walking)
    value = value_of(slot_of(table.pointers[walking.bucket], walking.index))
    given = walking.given if value is None else ((here, value),) + walking.given
    return at_place(replace(walking, read=(here,) + walking.read, given=given, index=walking.index + 1))


WALK_STEPS = {"Pass": walk_pass, "Load": walk_load, "Look": walk_look}


def next_step(walking):
    return "Look" if walking.looks else "Load" if at_announced(walking) else "Pass"


def buckets_among(these):
    """How many buckets are among these."""
    return sum(these)


def begun_walk(table):
    return SharedWalk(0, 0, False, table.announced, all_published(table))


def live_walk(core, number):
    return core.walks[number] if number < len(core.walks) else None


def with_walk(core, number, walking):
    return replace(core, walks=core.walks[:number] + (walking,) + core.walks[number + 1 :])


def begin_walk(core):
    return replace(core, walks=core.walks + (begun_walk(core.table),))


def walk_step(core, number, step):
    walking = live_walk(core, number)
    if walking is None:
        return None
    after = WALK_STEPS[step](core.table, walking)
    return None if after is None else with_walk(core, number, after)


def end_walk(core, number):
    return None if live_walk(core, number) is None else with_walk(core, number, None)


def is_alone(core):
    return all(it is None for it in core.locals) and all(it is None for it in core.walks)


def owner_walk(table):
    given = []
    for b in range(BUCKETS):
        if bucket_stands(table, b):
            given += [value_of(it) for it in table.pointers[b].slots if it.flag]
    return given


def rewritten(table, others):
    pointers = tuple(
        None
        if named is None
        else replace(
            named,
            slots=tuple(replace(it, written=others(id_at(b, i), it.written)) if it.flag else it for i, it in enumerate(named.slots)),
        )
        for b, named in enumerate(table.pointers)
    )
    return replace(table, pointers=pointers)


def drained(table):
    """The same buckets, with empty slots."""
    pointers = tuple(named and fresh_bucket(b, named.number) for b, named in enumerate(table.pointers))
    return replace(table, pointers=pointers)


def cleared(table, capacity):
    digits = binary_digits(capacity)
    pointers = tuple(
        None if b >= digits or named is None else fresh_bucket(b, named.number)
        for b, named in enumerate(table.pointers)
    )
    return replace(table, pointers=pointers)


def cleared_core(core):
    return replace(core, held=(), table=cleared(core.table, core.capacity))


def owner_call(core, call):
    if not is_alone(core):
        return None
    match call:
        case ("RewriteTable", others):
            return replace(core, table=rewritten(core.table, others))
        case ("DrainTable",):
            return replace(core, table=drained(core.table))
        case ("Slots",):
            return core
        case ("ClearTable",):
            return cleared_core(core)
        case ("IntoIter",) | ("DropTable",):
            return replace(core, ended=True)


def step(core, event):
    """The core after an event that is enabled, else None."""
    if core.ended:
        return None
    match event:
        case ("TakeId", refused, growth):
            return take_id(core, refused, growth)
        case ("OfLocal", number, it):
            return local_step(core, number, it)
        case ("GiveBack", number):
            return give_back(core, number)
        case ("Forget", number):
            return forget(core, number)
        case ("BeginWalk",):
            return begin_walk(core)
        case ("OfWalk", number, it):
            return walk_step(core, number, it)
        case ("EndWalk", number):
            return end_walk(core, number)
        case ("Owner", call):
            return owner_call(core, call)


def happens(core, event):
    after = step(core, event)
    return core if after is None else after


def is_enabled(core, event):
    return step(core, event) is not None


def run(core, events):
    for event in events:
        core = happens(core, event)
    return core


# ---- one schedule in parts -----------------------------------------------------------------------------


def steps_of(number, steps):
    return [("OfLocal", number, it) for it in steps]


def publishes_first(number, value):
    """The steps of a Local's first publishing call, where its bucket is missing."""
    steps = [("BeginGetOr", ("Ok", value)), ("LoadPointer",), ("MakeBucket", False), ("FillBucket",), ("InstallBucket",)]
    return steps_of(number, steps)


def publishes_beside(number, value):
    """The same where its bucket stands."""
    return steps_of(number, [("BeginGetOr", ("Ok", value)), ("LoadPointer",), ("LookAtFlag",), ("WriteValue",), ("SetFlag",)])


def four_publish(four):
    """Four Locals are made, and then publish one after another."""
    events = [("TakeId", False, 0)] * 4
    for k, value in enumerate(four):
        events += publishes_first(k, value) if k in (0, 1, 3) else publishes_beside(k, value)
    return events


def whole_walk():
    return [("BeginWalk",)] + [("OfWalk", 0, name) for _ in range(70) for name in ("Pass", "Load", "Look")]


def four_give_back():
    return [("EndWalk", 0)] + [("GiveBack", k) for k in range(4)]


def next_calls(other):
    """The next Local is taken, and gets a value and publishes another."""
    calls = [("BeginGet",), ("LoadPointer",), ("LookAtFlag",), ("Reply",), ("BeginGetOr", ("Ok", other)), ("Reply",)]
    return [("TakeId", False, 0)] + steps_of(4, calls)


def after_publishing(four):
    return run(new_core(), four_publish(four))


def after_walking(four):
    return run(after_publishing(four), whole_walk())


def after_next(four):
    return run(after_walking(four), four_give_back() + next_calls(four[1]))


def after_all(four):
    return run(after_next(four), [("GiveBack", 4)])


def is_exclusive(event):
    return event[0] == "Owner"


def is_take(event):
    return event[0] == "TakeId"


def is_of(number, event):
    """A step of this Local, its drop, or its being forgotten."""
    return event[0] in ("OfLocal", "GiveBack", "Forget") and event[1] == number


def is_of_walk(number, event):
    """A step or the end of this walk."""
    return event[0] in ("OfWalk", "EndWalk") and event[1] == number


def begins_walk(event):
    return event == ("BeginWalk",)


def ends_table(event):
    return event in (("Owner", ("IntoIter",)), ("Owner", ("DropTable",)))


def is_granted_take(core, event):
    """A take that is enabled and isn't refused."""
    return is_take(event) and is_enabled(core, event) and not is_refused(core, event)


def newcomer(core, event):
    """The Local that a granted take makes."""
    return live_local(happens(core, event), len(core.locals))


def none_taken(core, events):
    """No event of a schedule gives an id to a Local."""
    for event in events:
        if is_granted_take(core, event):
            return False
        core = happens(core, event)
    return True


def number_at(table, bucket):
    """The number of the bucket that stands here, if one does."""
    return None if table.pointers[bucket] is None else table.pointers[bucket].number


def own_number(doing):
    """The number of the bucket that a call has made and not yet offered."""
    return doing[2] if doing[0] in ("Private", "Filled") else None


def nothing_refused(core, events):
    """No event of a schedule ends in a refusal."""
    for event in events:
        if is_refused(core, event):
            return False
        core = happens(core, event)
    return True


def takes_below(bound, core, events):
    """Each take of a schedule comes while fewer than this many ids are held."""
    for event in events:
        if is_take(event) and not held_count(core.held) < bound:
            return False
        core = happens(core, event)
    return True


def most_held(core, events):
    """The most ids held at once since the table was made, or cleared by these events."""
    most = 0
    for event in events:
        cleared = event == ("Owner", ("ClearTable",)) and is_enabled(core, event)
        core = happens(core, event)
        most = 0 if cleared else max(most, held_count(core.held))
    return most


def publishings(core, events):
    """How many values were published since the table was made, or cleared or drained by these events."""
    count = 0
    for event in events:
        move = move_of(core, event)[0]
        count = 0 if move in ("Clear", "Drain") else count + (move == "Publish")
        core = happens(core, event)
    return count


def history(core, events):
    """The takes, gives and publishings since the table was made, or cleared by these events."""
    moves = ()
    for event in events:
        moves = history_with(moves, move_of(core, event))
        core = happens(core, event)
    return moves


def history_with(moves, move):
    """A take, a give and a publishing are noted, and a clear begins anew."""
    if move[0] in ("Take", "Give", "Publish"):
        return moves + (move,)
    return () if move == ("Clear",) else moves


def held_from(held, moves):
    """The ids that these moves leave held, where these were held before."""
    for move in moves:
        if move == ("Take",):
            held = with_least(held)
        elif move[0] == "Give":
            held = without(held, move[1])
    return held


def published_in(moves, identity):
    """What these moves published at an id: the first value."""
    return next((it[2] for it in moves if it[0] == "Publish" and it[1] == identity), None)


def or_else(there, value):
    """The value of a slot where one was there before, and another is published."""
    return value if there is None else there


def is_as_published(core, events):
    """Whether no rewrite and no drain came since the table was made, or cleared by these events."""
    told = True
    for event in events:
        told = as_published_with(told, move_of(core, event))
        core = happens(core, event)
    return told


def as_published_with(before, move):
    """A rewrite and a drain end that, and a clear begins anew."""
    if move[0] in ("Rewrite", "Drain"):
        return False
    return move == ("Clear",) or before


def changes_values(event):
    return event[0] == "Owner" and event[1][0] in ("RewriteTable", "DrainTable", "ClearTable")


def is_refused(core, event):
    """The event is refused memory or an id."""
    if not is_enabled(core, event):
        return False
    match event:
        case ("TakeId", refused, _):
            return not is_granted(core, refused)
        case ("OfLocal", _, ("MakeBucket", refused)):
            return refused
    return False


def move_of(core, event):
    """The move that an event is."""
    if not is_enabled(core, event):
        return ("Stay",)
    match event:
        case ("TakeId", refused, _):
            return ("Take",) if is_granted(core, refused) else ("Stay",)
        case ("OfLocal", number, ("SetFlag",)):
            local = core.locals[number]
            return ("Publish", local.id, local.doing[1])
        case ("OfLocal", number, ("InstallBucket",)) if not bucket_stands(core.table, bucket_of(core.locals[number].id)):
            local = core.locals[number]
            kind, value = local.doing[1]
            return ("Publish", local.id, value) if kind == "Ok" else ("Stay",)
        case ("GiveBack", number):
            return ("Give", core.locals[number].id)
        case ("Owner", ("RewriteTable", others)):
            return ("Rewrite", others)
        case ("Owner", ("DrainTable",)):
            return ("Drain",)
        case ("Owner", ("ClearTable",)):
            return ("Clear",)
    return ("Stay",)
