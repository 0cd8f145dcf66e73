"""The rules of the ticker and of the stream, and how a script becomes calls, as README.md and docs/MODEL.md say them: a plain
program that tells exactly what `replay` has to print, for judging what another one prints. Scripts with lines of the history are
judged by history_rules.py, since there several answers are lawful."""
import collections
import text_rules

GROUP, KEYS, PAIRS, LINKS, MOST_LOST = 4096, 16_384, 262_144, 127, 2**64 - 1

Given = collections.namedtuple('Given', 'message key line count')


class Refused(Exception):
    """A limit that a call meets."""


def judge_room(held, agent, keys):
    """Whether these keys may be subscribed to where these pairs are held."""
    new = {(agent, key) for key in keys}
    if len({key for _, key in held} | set(keys)) > KEYS:
        raise Refused('TooManyKeys')
    if len(held | new) > PAIRS:
        raise Refused('TooManySubs')


class Ticker:
    """The last record of each wanted key; what is pending for each agent, in the order in which it became so."""

    def __init__(self):
        self.agents = collections.defaultdict(dict)     # key -> the agents that are subscribed
        self.last, self.pending = {}, collections.defaultdict(dict)

    def add(self, agent, items):
        keys = [item.key for item in items]
        judge_room({(who, key) for key, all_of_it in self.agents.items() for who in all_of_it}, agent, keys)
        for key in keys:
            if agent not in self.agents[key]:
                self.agents[key][agent] = True
                if key in self.last:
                    self.pending[agent][key] = True

    def remove(self, agent, items):
        for key in (item.key for item in items):
            self.agents[key].pop(agent, None)
            self.pending[agent].pop(key, None)
            if not self.agents[key]:
                del self.agents[key]
                self.last.pop(key, None)

    def put(self, items):
        for item in items:
            for agent in self.agents.get(item.key, ()):
                self.last[item.key] = item
                self.pending[agent].setdefault(item.key, True)

    def take(self, agent, most):
        keys = list(self.pending[agent])[:most]
        for key in keys:
            del self.pending[agent][key]
        return [self.last[key] for key in keys]


class Stream:
    """What waits for each agent, in order, and the losses that it was not told of yet."""

    def __init__(self, cap):
        self.cap, self.agents = cap, collections.defaultdict(dict)
        self.waiting, self.losses = collections.defaultdict(collections.deque), collections.defaultdict(dict)

    def held(self):
        pairs = {(agent, key) for key, all_of_it in self.agents.items() for agent in all_of_it}
        pairs |= {(agent, item.key) for agent, items in self.waiting.items() for item in items}
        return pairs | {(agent, key) for agent, counts in self.losses.items() for key in counts}

    def add(self, agent, items):
        keys = [item.key for item in items]
        judge_room(self.held(), agent, keys)
        for key in keys:
            self.agents[key][agent] = True

    def remove(self, agent, items):
        for item in items:
            self.agents[item.key].pop(agent, None)

    def put(self, items):
        for item in items:
            for agent in self.agents.get(item.key, ()):
                waiting, losses = self.waiting[agent], self.losses[agent]
                if len(waiting) == self.cap:
                    oldest = waiting.popleft()
                    losses[oldest.key] = min(losses.get(oldest.key, 0) + oldest.count, MOST_LOST)
                waiting.append(item)

    def take(self, agent, most):
        losses, waiting = self.losses[agent], self.waiting[agent]
        told = list(losses)[:most]
        found = [Given('STREAM_LOST', key, '\t'.join([*key, str(losses.pop(key))]), None) for key in told]
        while waiting and len(found) < most:
            found.append(waiting.popleft())
        return found


def printed(items):
    """The lines of a reply: a head wherever the message changes, and a heartbeat at the end."""
    lines, message = [], None
    for item in items:
        if item.message != message:
            message = item.message
            lines.append(f'=={message}')
        lines.append(item.line)
    return lines + ['==HEARTBEAT']


class Replay:
    """A script while it runs."""

    def __init__(self, cap):
        self.collectors = {'TICKER': Ticker(), 'STREAM': Stream(cap)}
        self.link, self.group, self.message, self.out = 0, [], None, []

    def call(self):
        """The group that ends makes one call."""
        items, self.group = self.group, []
        if not items:
            return
        kind, what = self.message.split('_', 1)
        collector = self.collectors[kind]
        if what == 'ADD_SUBSCRIPTION':
            collector.add(self.link, items)
        elif what == 'REMOVE_SUBSCRIPTION':
            collector.remove(self.link, items)
        else:
            collector.put(items)

    def step(self, item):
        """Does what an item of the script asks for; Refused where it may not."""
        if isinstance(item.what, tuple):
            key, numbers = item.what
            self.message = item.kind
            self.group.append(Given(item.kind, key, item.line, numbers[0] if item.kind == 'STREAM_LOST' else 1))
            if len(self.group) == GROUP:
                self.call()
            return
        if item.kind == 'description':
            return
        self.call()
        if item.kind in ('PROTOCOL', 'END'):
            self.out.append(item.line)
        elif item.kind == 'LINK':
            if item.what[0] > LINKS:
                raise Refused('BadStep')
            self.link = item.what[0]
        elif item.kind == 'TAKE':
            kind, most = item.what
            if not 1 <= most <= GROUP:
                raise Refused('BadStep')
            self.out += [f'#LINK\t{self.link}\t{kind}', *printed(self.collectors[kind].take(self.link, most))]
        elif item.kind in ('NODE', 'AT', 'PUMP', 'MOVE'):
            raise Refused('BadStep')


def replayed(text, cap=1024, definitions=text_rules.BUILTIN):
    """What `replay` answers to a script without lines of the history."""
    replay, told, status = Replay(cap), b'', 0
    for line, item, fault in text_rules.items_of(text, definitions):
        if item is None:
            told, status = fault, 1
            break
        try:
            replay.step(item)
        except Refused as refused:
            told, status = text_rules.told(line, text_rules.Fault(str(refused))), 1
            break
    return status, ''.join(line + '\n' for line in replay.out).encode(), told
