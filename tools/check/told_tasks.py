"""Runs of `pysalvage --tasks` on hostile memories of which docs/USAGE.md tells the answer: chains of what awaits what that join, close,
break off and are cut, coroutines of states and types that are none, and tasks over them."""

from random import Random
from typing import Dict, List, Optional, Sequence, Set, Tuple

from made_tasks import CANCEL, CORO, LOOP, NAME, STATE, WAITER, Made
from rows_salvage import named
from rows_tasks import tree_of
from salvage_text import Tree, json_of, text_of
from told import WORDS, Told, nowhere
from told_coroutines import FLAWS, FORMS, STANDINGS, Between, Member, Place, lost

KINDS = (("coroutine", "coroutine"), ("generator", "generator"), ("async_generator", "async generator"))

STATES = {0: "pending", 1: "cancelled", 2: "finished"}

MEMBERS, MEMBERS_IN_ALL = 2 ** 14, 2 ** 20
"""The most members of a chain, and of all chains."""

COUNTS = (1, 2, 3, 7, 40, 150)
"""How many coroutines there are."""


class Memory:
    """Coroutines that await one another, and what they await in the end."""

    def __init__(self, random: Random, count: int, is_ring: bool = False) -> None:
        form = random.choice(FORMS)
        self.random, self.made, self.members = random, Made(form.layout), {}  # type: Random, Made, Dict[int, Member]
        self.odd, self.gone = 0 if is_ring else random.choice((0, 0.05, 0.2, 0.5)), nowhere(random)
        self.form = form(random, self.made, self.gone)
        self.namesake = self.made.type_of("coroutine", 0)
        self.klass = self.made.objects.group("object")["klass"]
        flaw = lambda: random.choice(FLAWS) if random.random() < self.odd else ""
        self.between = [Between(self.form, random, flaw()) for _ in range(random.choice((0, 2, 20)) if self.odd else 0)]
        found = [self.form.laid("f0", 1)]
        # (where all is one ring they have one code, so that there is room for many)
        found += [self.form.laid(f"f{at}", at + 1, found[0].code if is_ring else 0) for at in range(1, count)]
        self.heads = [it.at for it in found]
        self.ends = [self.made.future, self.made.thing, self.gone, self.made.none]
        for number, place in enumerate(found):
            self.stand(number, place, {"filename": "a.py", "line": 1 if is_ring else number + 1, "name": "f0" if is_ring else f"f{number}"})
        self.undescribed = [it.group for it in self.between if random.random() < self.odd / 4]
        for it in self.between:
            self.members[it.at] = it.member(self.held_by(it), {} if it.group in self.undescribed else self.made.types)

    def any_one(self) -> int:
        """An object that may be awaited: a coroutine, one that stands between, or what a chain ends at."""
        between = [it.at for it in self.between] or self.heads
        return self.random.choice(self.random.choice((self.heads, self.ends, between, between)))

    def held_by(self, between: Between) -> int:
        """An object that one which stands between holds: mostly one that it may hold."""
        random, wanted = self.random, self.made.types.get(between.wants)
        fitting = [it for it in self.heads if self.form.word_at(it + self.klass) == wanted]
        return random.choice(fitting) if fitting and random.random() < 0.7 else random.choice((self.any_one(), 0))

    def records(self) -> bytes:
        """The records, less the groups of those that aren't described."""
        return b"".join(line for line in self.form.records.splitlines(True) if line.split(b" ")[0] not in self.undescribed)

    def stand(self, number: int, place: Place, shown: Tree) -> None:
        """Has a coroutine stand in some way, whose frame shows this."""
        objects, random = self.made.objects, self.random
        kind, word = random.choice(KINDS)
        objects.word(place.at + self.klass, self.made.types[kind])
        # (most await the next one, so that chains are long; where none is odd all are one ring)
        near = self.heads[(number + 1) % len(self.heads)]
        it = self.form.await_(place, self.any_one() if random.random() < max(self.odd, 0.5 if self.between else 0) else near)
        told: Tree = {"address": hex(it.at), "frame": shown, "kind": word}
        way = random.choice(STANDINGS) if random.random() < self.odd else "awaits"
        self.members[it.at] = self.form.stood(way, it, told) or self.named(way, it, told)

    def named(self, way: str, it: Place, told: Tree) -> Member:
        """What is told of those whose type or name isn't what it has to be, or that await."""
        objects = self.made.objects
        if way == "a type of its name":
            objects.word(it.at + self.klass, self.namesake)
            return Member(None, 0, {"address": hex(it.at), "kind": "object"})
        if way == "a type that is gone":
            objects.word(it.at + self.klass, self.gone)
            return Member(None, 0, lost(self.gone + objects.group("klass")["flags"], 8))
        if way == "a name that is gone":
            objects.word(it.code + objects.group("code")["name"], self.gone)
            return Member({**told, "frame": {**told["frame"], "name": None}}, it.awaited)
        return Member(told, it.awaited)

    def standing(self, at: int) -> Member:
        """What stands at an address."""
        if at in self.members:
            return self.members[at]
        if at == self.gone:
            return Member(None, 0, lost(at + self.klass, 8))
        return Member(None, 0, {"address": hex(at), "kind": "future" if at == self.made.future else "object"})

    def chain(self, head: int, limit: int) -> Tree:
        """The chain from an object on, none of whose members is there twice, and of which so many are met; the last one stands first."""
        met: Set[int] = set()
        at, found = head, []  # type: int, List[Tree]
        while at not in met and len(met) < limit:
            member = self.standing(at)
            found += [member.told] if member.told else []
            if member.end:
                return {"end": member.end, "members": found[::-1]}
            met.add(at)
            at = member.awaited
        return {"end": {"address": hex(at), "kind": "cycle" if at in met else "cut"}, "members": found[::-1]}


def task(memory: Memory, number: int, limit: int) -> Tuple[int, Tree]:
    """A task over these chains, of which so many members are met: where it stands, and what is told of it."""
    random, made = memory.random, memory.made
    at = made.instance("_asyncio.Task", bytes(184))
    state, waiter = random.choice((0, 0, 0, 1, 2, 7)), random.choice((0, made.future, made.future, made.thing, memory.gone))
    head, cancel, has_name = memory.any_one() if random.random() < 0.3 else random.choice(memory.heads), random.random() < 0.3, random.random() < 0.8
    words = ((LOOP, made.loop), (STATE, state), (WAITER, waiter), (CORO, head), (NAME, made.text(f"t{number}") if has_name else memory.gone))
    for place, word in words:
        made.objects.word(at + place, word)
    made.objects.write(at + CANCEL, bytes((cancel,)))
    chain = memory.chain(head, limit)
    told = waiter_of(memory, waiter)
    return at, {"address": hex(at), "chain": chain, "condition": condition(state, chain["end"]["kind"], told), "kind": "task", "loop": hex(made.loop),
                "must_cancel": cancel, "name": f"t{number}" if has_name else None, "state": STATES.get(state, "unknown"), "thread_id": None, "waiter": told}


def waiter_of(memory: Memory, waiter: int) -> Optional[Tree]:
    """What is told of what a task waits for."""
    made = memory.made
    state = made.objects.data[made.future + STATE - made.objects.start]
    known = {made.future: ("_asyncio.Future", STATES.get(state, "unknown")), made.thing: ("T", None)}
    kind, own = known.get(waiter, (None, None))
    return {"address": hex(waiter), "state": own, "type": kind} if waiter else None


def condition(state: int, end: str, waiter: Optional[Tree]) -> str:
    """What a task does, by its state, the end of its chain, and what it waits for."""
    if state != 0:
        return "done"
    if end in ("running", "created"):
        return "running" if end == "running" else "not started"
    return "ready" if waiter is None or waiter["state"] in ("cancelled", "finished") else "waiting"


def missing(memory: Memory, at: int) -> Tuple[int, Tree]:
    """A registered object that isn't in memory."""
    return at, {"address": hex(at), "fault": lost(at + memory.klass, 8), "kind": "lost"}


def entries(memory: Memory) -> Sequence[Tuple[int, Tree]]:
    """What is registered: tasks, an object that is none, and one that isn't in memory."""
    made = memory.made
    found = [task(memory, number, MEMBERS) for number in range(memory.random.choice((1, 2, 3, 6)))]
    found.append((made.thing, {"address": hex(made.thing), "kind": "other", "type": "T"}))
    found.append(missing(memory, memory.gone))
    return memory.random.sample(found, memory.random.randrange(1, len(found) + 1))


def many_entries(memory: Memory, count: int) -> Sequence[Tuple[int, Tree]]:
    """So many registered objects, of which one or two are tasks: their chains have fewer members then."""
    limit = MEMBERS if count <= MEMBERS_IN_ALL // MEMBERS else MEMBERS_IN_ALL // count
    found = [task(memory, number, limit) for number in range(min(count, memory.random.choice((1, 2))))]
    found += [missing(memory, memory.gone + 16 * number) for number in range(count - len(found))]
    return memory.random.sample(found, len(found))


def told_of(memory: Memory, found: Sequence[Tuple[int, Tree]]) -> Told:
    """A run over a memory in which these objects are registered."""
    made, random = memory.made, memory.random
    made.set_to(*(made.reference_to(at) for at, _ in found))
    tree = tree_of({"entries": [it for _, it in found], "kind": "read"})
    is_json = random.random() < 0.5
    out = json_of(tree) if is_json else text_of(tree, "core", ("--tasks",))
    words = (*WORDS["pysalvage"], "--records", "records", "--tasks", *(("-j",) if is_json else ()))
    files = {**named(made.objects), "layouts": memory.form.layout.encode(), "records": memory.records()}
    return Told(words, files, 0, out=out.encode())


def tasks(random: Random, command: str) -> Told:
    """Tasks whose coroutines await one another at random."""
    if random.random() < 0.03:
        return cut_tasks(random, command)
    memory = Memory(random, random.choice(COUNTS))
    memory.made.objects.word(memory.made.future + STATE, random.choice((0, 0, 1, 2, 9)))
    return told_of(memory, entries(memory))


def cut_tasks(random: Random, command: str) -> Told:
    """Tasks whose coroutines are a ring of about as many members as are met, by how many objects are registered."""
    count = random.choice((1, 64, 65, 1000, 4000))
    limit = MEMBERS if count <= MEMBERS_IN_ALL // MEMBERS else MEMBERS_IN_ALL // count
    memory = Memory(random, limit + random.choice((-1, 0, 1, 2)), True)
    return told_of(memory, many_entries(memory, count))
