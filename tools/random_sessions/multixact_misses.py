"""Near misses on multixacts: logs of which one record breaks a clause on them. The first fault of each is that clause; where
tuples then show another deleter than they did, further ones may be broken behind it."""
from .definitions import is_update, lock_only, updater_among
from .legal import MADE_BEFORE, MADE_ONCE, NO_ID_0, ONE_UPDATER
from .pages import marked_mask
from .transaction_misses import Missed


def made(log):
    """The numbers of the records that make multixacts."""
    return [number for number, record in enumerate(log.records) if record.kind == "multixact"]


def shown(log):
    """{id: the number of the first record that gives a row of a described table this multixact as its deleter}"""
    out, known = {}, {table.rel for table in log.tables}
    for number, record in enumerate(log.records):
        bits = getattr(record, "bits", 0)
        if bits & 1 and not lock_only(marked_mask(0, bits)) and record.blocks[0].rel in known:
            out.setdefault(record.xmax, number)
    return out


def missed(log, d, number):
    one = Missed(log, d, number)
    one.record.members = list(getattr(one.record, "members", []))
    return one


def seen(one, what, clause, at, xids):
    """Scans that are opened behind the record at fault, and just before the ends of these transactions."""
    ends = {one.d.finished_from.get(xid, len(one.records)) for xid in xids if xid is not None}
    miss = one.seen(what, {(at + 1, at + 1)} | {(end, end + 1) for end in ends} | {(end + 1, end + 1) for end in ends})
    miss.first = at, clause
    return miss


def unmade(draw, log, d):
    """A row is given a multixact that is made later, or never."""
    uses = list(shown(log).items())
    if not uses:
        return None
    id, number = draw.choice(uses)
    record = log.records[number]
    later = [log.records[n].id for n in made(log) if n > number]
    one = missed(log, d, number)
    one.record.xmax = draw.choice(later) if later and draw.random() < 0.8 else (id + 77) % (1 << 32) or 1
    if d.updaters(one.record.xmax, number):
        return None
    return seen(one, "multixact unmade", MADE_BEFORE, number, [record.xid])


def made_twice(draw, log, d):
    """A multixact has the id of one that was made before; mostly of one that a row shows, and with another updater."""
    pairs = [(a, b) for b in made(log) for a in made(log) if a < b]
    uses = shown(log)
    updaters = {number: updater_among(log.records[number].members) for number in made(log)}
    ways = [(a, b) for a, b in pairs if log.records[a].id in uses and log.records[b].id not in uses]
    ways = [(a, b) for a, b in ways if updaters[a] != updaters[b]] or ways
    if not pairs:
        return None
    first, number = draw.choice(ways or pairs)
    one = missed(log, d, number)
    one.record.id = log.records[first].id
    return seen(one, "multixact twice", MADE_ONCE, number, [updaters[first], updaters[number]])


def two_updaters(draw, log, d):
    """A member that locks becomes an updater beside the one that is there, mostly before it."""
    uses = shown(log)
    pairs = [(number, at) for number in made(log) for members in [log.records[number].members]
             if updater_among(members) is not None for at, (_, status) in enumerate(members) if not is_update(status)]
    ways = [(number, at) for number, at in pairs if log.records[number].id in uses
            and not any(is_update(status) for _, status in log.records[number].members[:at])]
    if not pairs:
        return None
    number, at = draw.choice(ways if ways and draw.random() < 0.8 else pairs)
    one = missed(log, d, number)
    xids = [one.record.members[at][0], updater_among(one.record.members)]
    one.record.members[at] = xids[0], draw.choice([4, 5])
    return seen(one, "multixact of two updaters", ONE_UPDATER, number, xids)


def of_id_0(draw, log, d):
    """A multixact has the id 0; mostly it is one that a row shows."""
    uses = shown(log)
    ways = [number for number in made(log) if log.records[number].id in uses]
    if not made(log):
        return None
    number = draw.choice(ways or made(log))
    one = missed(log, d, number)
    one.record.id = 0
    return seen(one, "multixact of id 0", NO_ID_0, number, [updater_among(one.record.members)])


KINDS = unmade, made_twice, two_updaters, of_id_0
