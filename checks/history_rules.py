"""The rules of the history in plain words, for judging what a program answers.

A World keeps what the definitions of docs/MODEL.md speak of, and nothing that the program keeps: of each key the events put since it
was last unwanted and its commits, of each agent and key the items given since the last BEGIN. What an answer to a TAKE may be
follows from these: World.take raises Wrong, which names the rule, where it is not so."""
import collections

TX_PENDING, REMOVE, BEGIN, END, SNIP, MODE = 0x01, 0x02, 0x04, 0x08, 0x10, 0x40

Event = collections.namedtuple('Event', 'index flags cells')
Item = collections.namedtuple('Item', 'event at')
Shown = collections.namedtuple('Shown', 'floor snipped entries')
Commit = collections.namedtuple('Commit', 'number events shown')
Floor = collections.namedtuple('Floor', 'index by_snip')


class Wrong(Exception):
    """A rule that an answer does not follow."""


def require(holds, rule):
    if not holds:
        raise Wrong(rule)


def ends(event):
    return bool(event.flags & (END | SNIP))


def since_begin(events):
    """The events from the last BEGIN on; none where there is no BEGIN."""
    for place in range(len(events) - 1, -1, -1):
        if events[place].flags & BEGIN:
            return events[place:]
    return []


def shown(events):
    """What the events show where they are a commit place, None elsewhere."""
    events = since_begin(events)
    end = next(filter(ends, events), None)
    if end is None or events[-1].flags & TX_PENDING:
        return None
    entries = {}
    for event in events:
        if event.index >= end.index:
            entries.pop(event.index, None)
            if not event.flags & REMOVE:
                entries[event.index] = event.cells
    return Shown(end.index, bool(end.flags & SNIP), entries)


def cut(entries, floor):
    return {index: cells for index, cells in entries.items() if index >= floor}


def share(commit, floor):
    """The commit's events at or above the agent's floor as they are passed on; the last one has the commit's number."""
    passed = [e for e in commit.events if e.index >= floor]
    items = [Item(Event(e.index, TX_PENDING | e.flags & REMOVE, e.cells), None) for e in passed[:-1]]
    return items + [Item(Event(e.index, e.flags & REMOVE, e.cells), commit.number) for e in passed[-1:]]


class Source:
    """The events put for a key since it was last unwanted, and its commits since ever; the last one stands for what is shown now."""

    def __init__(self):
        self.events, self.commits, self.last = [], [], None
        # The events after the last commit place.
        self.after = []

    def forget(self):
        self.events, self.after, self.last = [], [], None

    def put(self, event, number):
        """Tells the commit that the event makes, None where it makes none."""
        self.events.append(event)
        self.after.append(event)
        state = shown(self.events)
        if state is None:
            return None
        self.last = Commit(number, self.after, state)
        self.commits.append(self.last)
        self.after = []
        return self.last

    def width(self):
        return len(since_begin(self.events)[0].cells)


class Pair:
    """What an agent was given of a key since the last BEGIN, and what came since."""

    def __init__(self):
        self.limit = self.due_since = None
        self.begin_given = self.overflowed = False
        self.snapshot, self.highest, self.filled = [], 0, 0
        # At the last BEGIN: the number of all commits, and the key's last commit.
        self.begin_count = self.begin_last = 0

    def begun(self):
        return self.limit is not None and self.begin_given

    def end_place(self):
        return next((place for place, item in enumerate(self.snapshot) if ends(item.event)), None)

    def ended(self):
        return self.begun() and self.end_place() is not None

    def settled(self):
        return self.ended() and not self.overflowed


class World:
    """A stripe of the history, as its calls tell of it. `seen` counts what came up."""

    def __init__(self, hcap, agents, keys):
        self.hcap, self.agents, self.keys = hcap, agents, keys
        # How many commits and how many acts there were.
        self.count = self.act = 0
        self.sources = {key: Source() for key in keys}
        self.pairs = {(agent, key): Pair() for agent in agents for key in keys}
        self.seen = collections.Counter()

    def of_agent(self, agent):
        return [(key, self.pairs[agent, key]) for key in self.keys]

    def of_key(self, key):
        return [(agent, self.pairs[agent, key]) for agent in self.agents if self.pairs[agent, key].limit is not None]

    def floor(self, agent, key):
        """The agent's floor, None where the pair does not fit."""
        limit, last = self.pairs[agent, key].limit, self.sources[key].last
        if limit is None or last is None:
            return None
        if last.shown.floor <= limit:
            return Floor(limit, False)
        return Floor(last.shown.floor, True) if last.shown.snipped else None

    def shares_after(self, agent, key, number):
        floor = self.floor(agent, key).index
        return [item for commit in self.sources[key].commits if commit.number > number for item in share(commit, floor)]

    def owed(self, agent, key):
        """Of a pair whose snapshot is ended: the shares of the commits after the one shown at the end, less what was given since."""
        pair = self.pairs[agent, key]
        place = pair.end_place()
        return self.shares_after(agent, key, pair.snapshot[place].at)[len(pair.snapshot) - place - 1:]

    def behind(self, agent, key):
        pair = self.pairs[agent, key]
        if pair.ended():
            return len(self.owed(agent, key))
        return len(self.shares_after(agent, key, pair.begin_count)) if pair.begun() else 0

    def is_due(self, agent, key):
        pair = self.pairs[agent, key]
        return self.floor(agent, key) is not None and not (pair.ended() and self.behind(agent, key) == 0)

    def acted(self, key):
        """One act about a key is done: pairs that it made due are due from it on."""
        self.act += 1
        for agent in self.agents:
            pair = self.pairs[agent, key]
            if not self.is_due(agent, key):
                pair.due_since = None
            elif pair.due_since is None:
                pair.due_since = self.act

    def due_keys(self, agent):
        """By the later of the act since which each is due and the last Take that was filled with its items."""
        due = [(max(pair.due_since, pair.filled), key) for key, pair in self.of_agent(agent) if pair.due_since is not None]
        return [key for _, key in sorted(due)]

    def add(self, agent, key, limit):
        pair = self.pairs[agent, key]
        self.seen['a limit is changed'] += pair.limit not in (None, limit)
        pair.limit, pair.begin_given = limit, False
        self.acted(key)

    def remove(self, agent, key):
        self.pairs[agent, key].limit = None
        if not self.of_key(key):
            self.seen['a key is dropped'] += bool(self.sources[key].commits)
            self.sources[key].forget()
        self.acted(key)

    def put(self, key, event):
        agents = self.of_key(key)
        # How far an agent is behind, and whether it is settled, counts just before the event.
        behind = {agent: sum(self.behind(agent, k) for k in self.keys) for agent, _ in agents}
        settled = {agent: all(other.settled() for _, other in self.of_agent(agent) if other.begun()) for agent, _ in agents}
        commit = self.sources[key].put(event, self.count + 1) if agents else None
        if commit is not None:
            self.count += 1
            for agent, pair in agents:
                self.commit(agent, key, pair, commit, behind[agent], settled[agent])
        self.acted(key)

    def commit(self, agent, key, pair, commit, behind, settled):
        """What a commit is for a subscribed agent: a restart, or a share to be given, which may be too much."""
        if not pair.begun():
            return
        if any(event.flags & BEGIN for event in commit.events):
            self.seen['a snapshot commit restarts'] += 1
            pair.begin_given = False
            return
        events = len(share(commit, self.floor(agent, key).index))
        self.seen['a commit comes inside a snapshot'] += events > 0 and not pair.ended()
        if events and behind + events > self.hcap:
            pair.overflowed = True
            if settled:
                self.seen['a sure overflow restarts'] += 1
                pair.begin_given = False

    def give(self, agent, key, event):
        """Judges an item at its place."""
        pair, floor = self.pairs[agent, key], self.floor(agent, key)
        require(floor is not None, 'an item of a pair that does not fit')
        require(pair.begun() or event.flags & BEGIN, 'the first item after a restart is no BEGIN')
        if event.flags & BEGIN:
            require(not pair.begun() or pair.overflowed, 'a snapshot is begun anew without a restart')
            self.seen['a possible overflow begins anew'] += pair.begun()
            pair.snapshot, pair.begin_given = [], True
            pair.begin_count, pair.begin_last = self.count, self.sources[key].last.number
        if pair.ended():
            owed = self.owed(agent, key)
            require(owed and owed[0].event == event, f'not the next event owed, {owed[:1]}')
            at = owed[0].at
            self.seen['an update'] += 1
            self.seen['an event of a transaction'] += bool(event.flags & TX_PENDING)
        else:
            self.judge_snapshot(agent, key, pair, floor, event)
            at = self.sources[key].last.number if ends(event) else None
        pair.snapshot.append(Item(event, at))
        pair.overflowed = False
        self.judge_state(key, pair, floor, at)
        self.acted(key)

    def judge_snapshot(self, agent, key, pair, floor, event):
        """An item from a BEGIN to the end of the snapshot."""
        source, bare = self.sources[key], event.flags & ~(BEGIN | END | SNIP)
        shares = [item.event for item in self.shares_after(agent, key, pair.begin_count)]
        kept = bare == 0 and any(c.shown.entries.get(event.index) == event.cells for c in source.commits if c.number >= pair.begin_last)
        shared = event._replace(flags=bare) in shares
        marker = (bare == REMOVE and ends(event) and event.index not in source.last.shown.entries
                  and event.cells == (0,) * source.width())
        require(kept or shared or marker, 'no kept entry, no event of a share and no marker')
        require(event.index >= floor.index, "an index below the agent's floor")
        if ends(event):
            require(event.index == floor.index, "the end is not at the agent's floor")
            require(event.flags & (END | SNIP | TX_PENDING) == (SNIP if floor.by_snip else END), 'the wrong flag at the end')
            self.seen['a snapshot is snipped' if floor.by_snip else 'a snapshot is ended'] += 1
            self.seen['a marker'] += marker
        times = collections.Counter(e.index for e in shares)
        given = collections.Counter(item.event.index for item in pair.snapshot)
        require(given[event.index] <= times[event.index], 'an index is given too often')
        require(times[event.index] or not any(i <= event.index and not times[i] for i in given), 'the indexes do not fall')
        require(ends(event) or times[event.index] or event.index > floor.index, "a snapshot goes on from the agent's floor")

    def judge_state(self, key, pair, floor, at):
        """What was given shows whole exactly where a number is told, and then it is that commit, cut at the floor."""
        state = shown([item.event for item in pair.snapshot])
        require((state is None) == (at is None), 'a whole state comes too early, or not at the end of a commit')
        if state is None:
            return
        commit = next(c for c in self.sources[key].commits if c.number == at)
        require(at >= pair.highest, 'the number of the commit shown falls')
        require(state.floor == floor.index, "the floor shown is not the agent's")
        require(state.entries == cut(commit.shown.entries, floor.index), 'the map shown is not that of the commit')
        pair.highest = at

    def take(self, agent, most, items):
        """Judges an answer: its items in order, the keys in their order, and that it is full where more is due."""
        require(len(items) <= most, 'more items than asked for')
        due, turns = self.due_keys(agent), []
        for key, event in items:
            if turns[-1:] != [key]:
                require(not turns or not self.is_due(agent, turns[-1]), 'a key is left though it is due')
                turns.append(key)
            self.give(agent, key, event)
        require(turns == due[:len(turns)], f'keys {turns} are served where {due} are due')
        self.act += 1
        if len(items) == most:
            self.pairs[agent, turns[-1]].filled = self.act
            self.seen['a Take is filled'] += 1
            return
        require(not self.due_keys(agent), 'fewer items than asked for though more is due')
        for key, pair in self.of_agent(agent):
            if self.floor(agent, key) is not None:
                require(pair.snapshot[-1].at is not None and pair.settled(), 'nothing is due, and no whole state is shown')
