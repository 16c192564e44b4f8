#!/usr/bin/env python3
"""Try every interleaving of the protocol by which K frontiers share a crawl over Redis.

The protocol is that of `clients/python/mercator_cluster.py`. The sites are small: a few URLs, each
with its part and its links. Every reachable state is tried: each step of each part, crashes,
entries that arrive twice, commands of dead clients that arrive late or never, and losses of data in
Redis, by a restart or while it runs.

    own     no URL is lost: in no state does the crawl look complete, or is recorded as complete, or
            is a gate closed before all URLs are fetched; and from each state, ordinary steps lead
            to the end
    bugs    each of the bugs that are planted in the protocol is found
    loss    like `own`, while Redis restarts without its last entries or with none, or loses all
            keys while it runs
    naive   a single counter of pending URLs, in three variants, fails in each; prints short traces

Without --all, the script takes about two minutes. The last line is `N passed, M failed`.

The model does not include two pages in progress in one part, a log that loses its end, and a client
that forgets that it sent a URL. Steps that change only the memory of a client happen together with
the step before, because a crash before such a step has the same effect as a crash after it.
"""

from __future__ import annotations

import argparse
import hashlib
import marshal
import sys
import time
from array import array
from typing import Any, Dict, Iterator, List, NamedTuple, Optional, Protocol, Tuple

Urls = Tuple[int, ...]
# The URLs that are to be sent, by part.
Outbox = Tuple[Tuple[int, Urls], ...]
# The description of a step, its kind (step, crash, double, late, loss), and the state after it.
Step = Tuple[str, str, Any]


class Web(NamedTuple):
    """The part and the links of each URL, the seeds of each part, and the room of a frontier."""

    name: str
    names: Tuple[str, ...]
    part: Urls
    links: Tuple[Urls, ...]
    seeds: Tuple[Urls, ...]
    room: Optional[int]

    def reached(self) -> int:
        """Return the URLs that have to be fetched, as bits."""
        found: Dict[int, None] = {}
        rest = [url for seeds in self.seeds for url in seeds]
        while rest:
            url = rest.pop()
            if url not in found:
                found[url] = None
                rest.extend(self.links[url])
        return sum(1 << url for url in found)


def web(name: str, links: str, seeds: str, room: Optional[int] = None) -> Web:
    """Return a site from texts such as "a0:b0,a1 b0: a1:a0" for links and "a:a0" for seeds.

    The letter of a URL is its part.
    """
    pages = [item.partition(":") for item in links.split()]
    names = tuple(page for page, _, _ in pages)
    linked = tuple(tuple(names.index(url) for url in to.split(",") if url) for _, _, to in pages)
    part = tuple(ord(url[0]) - ord("a") for url in names)
    given: List[List[int]] = [[] for _ in range(max(part) + 1)]
    for item in seeds.split():
        to, _, url = item.partition(":")
        given[ord(to) - ord("a")].append(names.index(url))
    return Web(name, names, part, linked, tuple(map(tuple, given)), room)


# ---------------------------------------------------------------- the frontier of one part


class Frontier(NamedTuple):
    """The state that a log describes. Each request is one step, and first goes to the log."""

    queue: Urls = ()  # the URLs that wait
    hand: int = -1  # the URL in progress, or -1
    done: int = 0  # as bits
    seen: int = 0  # as bits
    # The URLs that were offered here, and so are in the log, but that only Redis has: of other
    # parts, and those that there was no room for. As bits.
    sent: int = 0
    ended: int = 0  # whether `endseeds` was requested

    def is_quiet(self) -> bool:
        """Return whether `next` is answered by `pending 1`, or by `closed` after `endseeds`."""
        return not self.queue and self.hand < 0

    def is_closed(self) -> bool:
        return bool(self.ended) and self.is_quiet()

    def offer(self, of: Web, me: int, url: int) -> Tuple[str, Frontier]:
        if of.part[url] != me:
            return "elsewhere", self._replace(sent=self.sent | 1 << url)
        if self.is_closed():
            return "closed", self
        if of.room is not None and len(self.queue) + (self.hand >= 0) >= of.room:
            return "full", self._replace(sent=self.sent | 1 << url)
        if self.seen >> url & 1:
            return "seen", self
        return "accepted", self._replace(seen=self.seen | 1 << url, queue=self.queue + (url,))


class Lost(Exception):
    """Raised when a closed gate refuses a URL that was never accepted."""


def put(outbox: Outbox, to: int, url: int) -> Outbox:
    by_part = dict(outbox)
    if url not in by_part.get(to, ()):
        by_part[to] = by_part.get(to, ()) + (url,)
    return tuple(sorted(by_part.items()))


def without(outbox: Outbox, to: int, urls: Urls) -> Outbox:
    """Return what is left after one entry has sent these URLs, for all that waited for them."""
    left = ((part, tuple(u for u in some if part != to or u not in urls)) for part, some in outbox)
    return tuple((part, some) for part, some in left if some)


# ---------------------------------------------------------------- the protocol


class Client(NamedTuple):
    """The memory of a client, which a crash loses."""

    cursor: int = 0  # the last id that was read
    begun: int = 0  # whether it has sent its seeds, and the URLs in its log for other parts
    reading: Tuple[Any, ...] = ()  # an entry: its id, the URLs to offer, the URLs to send
    offered: Urls = ()  # the ids of finished entries that are not yet removed
    page: Tuple[Any, ...] = ()  # the links to offer, and the URLs to send
    wire: Urls = ()  # the ids whose removal was sent and not yet executed
    sent: int = 0  # the URLs that it has sent, as bits: they are not sent again
    stale: int = 0  # whether Redis has lost its keys since this client was started
    looked: int = 0  # for a planted bug: the number of streams that were found empty
    aside: Tuple[Any, ...] = ()  # for a planted bug: the entry that was being read


class Part(NamedTuple):
    frontier: Frontier
    client: Optional[Client]  # None: the part is down


class State(NamedTuple):
    streams: Tuple[Tuple[Tuple[int, Urls], ...], ...]  # by part, entries with their ids
    ready: int  # as bits
    complete: int
    parts: Tuple[Part, ...]
    late: Tuple[Tuple[int, Tuple[Any, ...]], ...]  # commands of dead clients
    crashes: int  # how many may still happen
    doubles: int
    losses: int


class Tried(Protocol):
    """A protocol that the search can try."""

    def first(self) -> Any: ...

    def next(self, state: Any) -> List[Step]: ...

    def bad(self, state: Any) -> Optional[str]: ...

    def is_end(self, state: Any) -> bool: ...


class Own:
    """The protocol, with or without a planted bug."""

    def __init__(
        self, of: Web, crashes: int = 1, doubles: int = 1, losses: int = 0,
        bug: Optional[str] = None, to_the_close: bool = False,
    ) -> None:
        self.web, self.count = of, len(of.seeds)
        self.all, self.everyone = of.reached(), (1 << self.count) - 1
        self.bug, self.to_the_close = bug, to_the_close
        self.crashes, self.doubles, self.losses = crashes, doubles, losses
        self.linked = [sum(1 << link for link in set(links)) for links in of.links]

    def first(self) -> State:
        parts = tuple(Part(Frontier(), Client()) for _ in range(self.count))
        streams: Any = ((),) * self.count
        return State(streams, 0, 0, parts, (), self.crashes, self.doubles, self.losses)

    def started(self, frontier: Frontier) -> Client:
        """Return the memory of a client at its start, which has the answer to `again`."""
        sent = frontier.sent if self.bug == "assumes that the URLs in its log were sent" else 0
        page = (self.web.links[frontier.hand], ()) if frontier.hand >= 0 else ()
        return Client(page=page, sent=sent)

    # ---- what must hold

    def is_complete(self, state: State) -> bool:
        """Return whether a transaction finds the crawl complete."""
        return state.ready == self.everyone and not any(state.streams)

    def bad(self, state: State) -> Optional[str]:
        done = 0
        for part in state.parts:
            done |= part.frontier.done
        if done & ~self.all:
            return "a URL was fetched that nothing links to"
        if done == self.all:
            return None
        if state.complete:
            return "recorded as complete before all URLs were fetched"
        if self.is_complete(state) and self.bug != "looks at the streams one by one":
            return "looks complete before all URLs were fetched"
        if any(part.frontier.is_closed() for part in state.parts):
            return "a gate closed before all URLs were fetched"
        return None

    def is_end(self, state: State) -> bool:
        if self.to_the_close:
            return all(part.frontier.is_closed() for part in state.parts)
        return bool(state.complete)

    # ---- Redis

    @staticmethod
    def add(state: State, to: int, urls: Urls) -> State:
        """XADD: the new id is greater than all ids of this stream that anyone remembers."""
        ids = [entry[0] for entry in state.streams[to]] + [0]
        for part, command in state.late:
            if part == to and command[0] == "del":
                ids.extend(command[1])
        client = state.parts[to].client
        if client is not None:
            ids.extend((client.cursor, *client.offered, *client.wire))
        stream = state.streams[to] + ((max(ids) + 1, urls),)
        return state._replace(streams=state.streams[:to] + (stream,) + state.streams[to + 1:])

    @staticmethod
    def remove(state: State, part: int, ids: Urls) -> State:
        """XDEL."""
        kept = tuple(entry for entry in state.streams[part] if entry[0] not in ids)
        return state._replace(streams=state.streams[:part] + (kept,) + state.streams[part + 1:])

    def begin(self, state: State, me: int, sent: int) -> State:
        """Send the URLs in the log that only Redis had, and the seeds to the own stream."""
        for to in range(self.count):
            its = (url for url, part in enumerate(self.web.part) if part == to)
            urls = tuple(url for url in its if sent >> url & 1)
            if urls:
                state = self.add(state, to, urls)
        return self.add(state, me, self.web.seeds[me]) if self.web.seeds[me] else state

    def has_to_send(self, me: int, frontier: Frontier, client: Client) -> bool:
        return not client.begun and bool(self.web.seeds[me] or frontier.sent)

    def make_ready(self, state: State, me: int) -> State:
        """One transaction: an entry without URLs, and SADD."""
        return self.add(state, me, ())._replace(ready=state.ready | 1 << me)

    def complete(self, state: State) -> State:
        """One transaction: SET, and an entry without URLs that wakes each part."""
        if self.to_the_close:
            for part in range(self.count):
                state = self.add(state, part, ())
        return state._replace(complete=1)

    def execute(self, state: State, part: int, command: Tuple[Any, ...]) -> State:
        """Execute a command of a dead client."""
        if command[0] == "del":
            return self.remove(state, part, command[1])
        if command[0] == "add":
            return self.add(state, command[1], command[2])
        if command[0] == "begin":
            return self.begin(state, part, command[1])
        return self.make_ready(state, part)

    # ---- steps

    def next(self, state: State) -> List[Step]:
        out: List[Step] = []
        if state.complete and not self.to_the_close:
            return out
        for me, (frontier, client) in enumerate(state.parts):
            if client is None:
                if frontier.ended and self.bug == STAYS_ENDED:
                    continue
                after = self.with_part(state, me, frontier, self.started(frontier))
                out.append((f"part {me} starts again", "step", after))
                continue
            if client.stale and self.bug != "does not notice that Redis lost its keys":
                after = self.with_part(state, me, frontier, None)
                out.append((f"part {me} notices that Redis lost its keys", "step", after))
            self.reader_steps(state, me, frontier, client, out)
            self.fetcher_steps(state, me, frontier, client, out)
            self.end_steps(state, me, frontier, client, out)
            if state.crashes and not frontier.is_closed():
                out.append(self.crash(state, me, frontier, client))
        for place, (part, command) in enumerate(state.late):
            rest = state._replace(late=state.late[:place] + state.late[place + 1:])
            what = f"late, of the dead client {part}: {command}"
            out.append((what, "late", self.execute(rest, part, command)))
        if state.losses:
            out.extend(self.loss(state))
            out.append(self.flush(state))
        return [(what, kind, self.tidy(self.at_once(after))) for what, kind, after in out]

    @staticmethod
    def with_part(state: State, me: int, frontier: Frontier, client: Optional[Client]) -> State:
        parts = state.parts[:me] + (Part(frontier, client),) + state.parts[me + 1:]
        return state._replace(parts=parts)

    def names(self, urls: Urls) -> str:
        return "+".join(self.web.names[url] for url in urls) or "no URL"

    def ask(self, me: int, frontier: Frontier, url: int) -> Tuple[str, Frontier]:
        answer, after = frontier.offer(self.web, me, url)
        if answer == "closed" and not frontier.seen >> url & 1:
            raise Lost(f"part {me}: offer {self.names((url,))} -> refused closed")
        if not self.losses:
            after = after._replace(sent=0)  # it is in the log, but will not be needed
        return answer, after

    def is_for_memory(self, me: int, frontier: Frontier, url: int) -> bool:
        """Return whether an offer changes nothing in the frontier."""
        if self.web.room is not None:
            return False
        return bool(frontier.seen >> url & 1) if self.web.part[url] == me else not self.losses

    def brought(self, outbox: Outbox, me: int, client: Client, url: int) -> Outbox:
        """Add this URL to the outbox, if it belongs to another part and was not sent before."""
        to = self.web.part[url]
        return outbox if to == me or client.sent >> url & 1 else put(outbox, to, url)

    def at_once(self, state: State) -> State:
        """Read the entries that are there, and make the offers that change no frontier."""
        for me, (frontier, client) in enumerate(state.parts):
            if client is None:
                continue
            after = self.read_at_once(state, me, frontier, client)
            if after.page:
                links, outbox = after.page
                while links and self.is_for_memory(me, frontier, links[0]):
                    outbox, links = self.brought(outbox, me, after, links[0]), links[1:]
                after = after._replace(page=(links, outbox))
            if after is not client:
                state = self.with_part(state, me, frontier, after)
        return state

    def read_at_once(self, state: State, me: int, frontier: Frontier, client: Client) -> Client:
        while True:
            if not client.reading:
                entry = next((e for e in state.streams[me] if e[0] > client.cursor), None)
                if entry is None:
                    return client
                client = client._replace(cursor=entry[0], reading=(entry[0], entry[1], ()))
            number, urls, outbox = client.reading
            while urls and self.is_for_memory(me, frontier, urls[0]):
                outbox, urls = self.brought(outbox, me, client, urls[0]), urls[1:]
            if urls or outbox:
                return client._replace(reading=(number, urls, outbox))
            offered = client.offered
            if number not in offered:
                offered += (number,)
            client = client._replace(reading=(), offered=offered)

    def reader_steps(
        self, state: State, me: int, frontier: Frontier, client: Client, out: List[Step]
    ) -> None:
        def go(
            what: str, f: Frontier = frontier, c: Client = client, s: State = state,
            kind: str = "step",
        ) -> None:
            out.append((f"part {me}: {what}", kind, self.with_part(s, me, f, c)))

        is_ready = state.ready >> me & 1
        is_early = self.bug == "is ready before it sends its seeds"
        has_to_send = self.has_to_send(me, frontier, client)
        if has_to_send and (is_early and not frontier.seen if is_ready else not is_early):
            again = 0 if self.bug == "sends nothing again" else frontier.sent
            if self.bug == "sends no refused URL again":
                again &= sum(1 << url for url, part in enumerate(self.web.part) if part != me)
            go("sends its seeds", c=client._replace(begun=1), s=self.begin(state, me, again))
        elif not is_ready and (not client.stale or self.bug == HAS_NO_EPOCH):
            go("is ready", s=self.make_ready(state, me))
        if state.doubles and client.cursor:
            go("reads its stream from the start once more", c=client._replace(cursor=0, reading=()),
               s=state._replace(doubles=state.doubles - 1), kind="double")
        if self.bug == "offers entries out of order":
            if client.reading and not client.aside:
                go(f"sets entry {client.reading[0]} aside",
                   c=client._replace(reading=(), aside=client.reading))
            if client.aside and not client.reading:
                go(f"resumes entry {client.aside[0]}",
                   c=client._replace(reading=client.aside, aside=()))
        if client.reading:
            number, urls, outbox = client.reading
            if urls:
                answer, after = self.ask(me, frontier, urls[0])
                if answer != "full" or self.bug == "drops refused URLs":
                    outbox = self.brought(outbox, me, client, urls[0])
                    go(f"offer {self.names(urls[:1])} -> {answer} (entry {number})", f=after,
                       c=client._replace(reading=(number, urls[1:], outbox)))
            else:
                to, sent = outbox[0]
                after_sending = self.has_sent(client, to, sent)
                go(f"XADD {self.names(sent)} to part {to} (entry {number})", c=after_sending,
                   s=self.add(state, to, sent))
                finishes_early = self.bug == "finishes an entry before its URLs are sent on"
                if finishes_early and not client.page:
                    offered = client.offered + (number,)
                    go(f"is done with entry {number}",
                       c=client._replace(reading=(), offered=offered, page=((), outbox)))
        self.removal_steps(state, me, frontier, client, out)

    @staticmethod
    def has_sent(client: Client, to: int, sent: Urls) -> Client:
        """Record that these URLs were sent, for both the entry and the page that wait for them."""
        all_sent = client.sent
        for url in sent:
            all_sent |= 1 << url
        reading, page = client.reading, client.page
        if reading:
            reading = (*reading[:2], without(reading[2], to, sent))
        if page:
            page = (page[0], without(page[1], to, sent))
        return client._replace(sent=all_sent, reading=reading, page=page)

    def removal_steps(
        self, state: State, me: int, frontier: Frontier, client: Client, out: List[Step]
    ) -> None:
        """Remove finished entries, except the one with the greatest id; this one only if quiet."""
        def go(what: str, c: Client, s: State = state) -> None:
            out.append((f"part {me}: {what}", "step", self.with_part(s, me, frontier, c)))

        kept = max(client.offered, default=0)
        if self.bug == "keeps the entry that was read last":
            kept = client.offered[-1] if client.offered else 0
        for number in client.offered:
            if number != kept or self.bug == "keeps no entry":
                rest = tuple(other for other in client.offered if other != number)
                go(f"XDEL entry {number}", client._replace(offered=rest),
                   self.remove(state, me, (number,)))
        if self.is_quiet(frontier, client) and client.offered and not client.wire:
            go(f"is quiet: sends XDEL of {client.offered}",
               client._replace(offered=(), wire=client.offered))
        if client.wire:
            go(f"XDEL of {client.wire} is executed", client._replace(wire=()),
               self.remove(state, me, client.wire))

    def is_quiet(self, frontier: Frontier, client: Client) -> bool:
        if self.bug == "is quiet while it fetches":
            return not frontier.queue
        return frontier.is_quiet() and not client.page

    def fetcher_steps(
        self, state: State, me: int, frontier: Frontier, client: Client, out: List[Step]
    ) -> None:
        def go(
            what: str, f: Frontier = frontier, c: Client = client, s: State = state,
            kind: str = "step",
        ) -> None:
            out.append((f"part {me}: {what}", kind, self.with_part(s, me, f, c)))

        if not client.page:
            if frontier.hand < 0 and frontier.queue:
                url = frontier.queue[0]
                assert not frontier.done >> url & 1, "a URL is given out twice"
                go(f"next -> taken {self.names((url,))}",
                   f=frontier._replace(queue=frontier.queue[1:], hand=url),
                   c=client._replace(page=(self.web.links[url], ())))
            return
        links, outbox = client.page
        if links:
            url = links[0]
            answer, after = self.ask(me, frontier, url)
            outbox = self.brought(outbox, me, client, url)
            if answer == "full" and self.bug != "drops refused URLs":
                outbox = put(outbox, me, url)
            go(f"offer {self.names((url,))} -> {answer} (a link of {self.names((frontier.hand,))})",
               f=after, c=client._replace(page=(links[1:], outbox)))
        elif outbox:
            to, sent = outbox[0]
            after_sending, after_adding = self.has_sent(client, to, sent), self.add(state, to, sent)
            go(f"XADD {self.names(sent)} to part {to}", c=after_sending, s=after_adding)
            if state.doubles:
                twice = self.add(after_adding, to, sent)._replace(doubles=state.doubles - 1)
                go(f"XADD {self.names(sent)} to part {to}, twice", c=after_sending, s=twice,
                   kind="double")
        early = self.bug == "done before its links are sent"
        if not links and frontier.hand >= 0 and (not outbox or early):
            done = frontier._replace(hand=-1, done=frontier.done | 1 << frontier.hand)
            go(f"done ({self.names((frontier.hand,))})", f=done,
               c=client._replace(page=((), outbox) if outbox else ()))
        elif not links and frontier.hand < 0 and not outbox:
            go("has sent them", c=client._replace(page=()))

    def end_steps(
        self, state: State, me: int, frontier: Frontier, client: Client, out: List[Step]
    ) -> None:
        def go(what: str, f: Frontier = frontier, c: Client = client, s: State = state) -> None:
            out.append((f"part {me}: {what}", "step", self.with_part(s, me, f, c)))

        if frontier.ended:
            if frontier.is_closed() and not state.complete and self.bug is None:
                go("SET complete, since its log has `endseeds`", s=self.complete(state))
            return
        if self.bug == "ends its seeds when it is quiet":
            if state.ready >> me & 1 and self.is_quiet(frontier, client) and not client.reading:
                go("endseeds", f=frontier._replace(ended=1))
        elif self.bug == "looks at the streams one by one":
            looked = client.looked
            if state.ready == self.everyone and looked < self.count and not state.streams[looked]:
                go(f"finds the stream of part {looked} empty", c=client._replace(looked=looked + 1))
            if looked == self.count:
                go("SET complete", s=self.complete(state))
        elif not state.complete and self.is_complete(state) and not client.stale:
            go("sees all ready and all streams empty; SET complete", s=self.complete(state))
        if state.complete:
            go("finds `complete`; endseeds", f=frontier._replace(ended=1))

    # ---- failures

    def crash(self, state: State, me: int, frontier: Frontier, client: Client) -> Step:
        """Lose the client's memory. The commands that it had sent may arrive late or never."""
        late: List[Tuple[int, Tuple[Any, ...]]] = []
        if client.wire:
            late.append((me, ("del", client.wire)))
        elif self.is_quiet(frontier, client) and client.offered:
            late.append((me, ("del", client.offered)))
        elif len(client.offered) > 1:
            kept = max(client.offered)
            late.append((me, ("del", tuple(number for number in client.offered if number != kept))))
        if not state.ready >> me & 1:
            if self.has_to_send(me, frontier, client):
                late.append((me, ("begin", frontier.sent)))
            elif not client.stale:
                late.append((me, ("ready",)))
        if client.reading and not client.reading[1] and client.reading[2]:
            late.append((me, ("add", *client.reading[2][0])))
        if client.page and not client.page[0] and client.page[1]:
            late.append((me, ("add", *client.page[1][0])))
        after = state._replace(late=state.late + tuple(late), crashes=state.crashes - 1)
        under_way = f", {late} under way" if late else ""
        return (f"part {me} CRASHES{under_way}", "crash", self.with_part(after, me, frontier, None))

    def loss(self, state: State) -> Iterator[Step]:
        """Restart Redis without its last entries, or with none; all connections are lost."""
        parts = tuple(Part(part.frontier, None) for part in state.parts)
        ready = state.ready if self.bug == "stays ready when Redis restarts" else 0
        whole = sum(map(len, state.streams))
        for streams in beginnings(state.streams):
            for complete in {0, state.complete}:
                lost = whole - sum(map(len, streams))
                yield (
                    f"Redis RESTARTS without {lost} of the last entries", "loss",
                    state._replace(streams=streams, ready=ready, complete=complete, parts=parts,
                                   late=(), losses=state.losses - 1),
                )

    def flush(self, state: State) -> Step:
        """Empty Redis while it runs: the connections stay, and so do commands under way.

        A part that becomes ready after that is ready in an epoch that nobody looks at.
        """
        parts, late = list(state.parts), list(state.late)
        for me, (frontier, client) in enumerate(parts):
            if client is not None:
                begun = client.begun or state.ready >> me & 1
                parts[me] = Part(frontier, client._replace(stale=1, begun=begun))
        if self.bug != HAS_NO_EPOCH:
            late = [(me, ("add", me, ()) if c[0] == "ready" else c) for me, c in late]
        return (
            "Redis LOSES its keys", "loss",
            state._replace(streams=((),) * self.count, ready=0, complete=0, parts=tuple(parts),
                           late=tuple(late), losses=state.losses - 1),
        )

    def tidy(self, state: State) -> State:
        """Return the same state in a normal form.

        The ids of each stream begin with 1, since only their order matters. Late commands that can
        have no effect, and memory of clients that is not used any more, are removed.
        """
        state = self.forgotten(state)
        late = []
        for part, command in state.late:
            if command[0] == "del":
                there = (entry[0] for entry in state.streams[part])
                command = ("del", tuple(number for number in there if number in command[1]))
            is_start = command[0] in ("begin", "ready")
            if command[1:] != ((),) and not (is_start and state.complete):
                late.append((part, command))
        streams, parts = list(state.streams), list(state.parts)
        for me in range(self.count):
            client = parts[me].client
            new = numbered(streams[me], [c for part, c in late if part == me], client)
            if len(new) - 1 == max(new):
                continue
            streams[me] = tuple((new[number], urls) for number, urls in streams[me])
            late = [
                (part, ("del", tuple(new[i] for i in c[1])) if part == me and c[0] == "del" else c)
                for part, c in late
            ]
            if client is not None:
                parts[me] = parts[me]._replace(client=renumbered(client, new))
        return state._replace(streams=tuple(streams), parts=tuple(parts), late=tuple(sorted(late)))

    def forgotten(self, state: State) -> State:
        """Forget that a ready part has begun, and the sent URLs that no page links to."""
        for me, (frontier, client) in enumerate(state.parts):
            if client is None or not (client.begun or client.sent):
                continue
            needed = sum(1 << url for url in set(self.web.seeds[me]))
            for url, part in enumerate(self.web.part):
                if part == me and not frontier.done >> url & 1:
                    needed |= self.linked[url]
            begun = client.begun and not state.ready >> me & 1
            if (client.begun, client.sent) != (begun, client.sent & needed):
                client = client._replace(begun=int(begun), sent=client.sent & needed)
                state = self.with_part(state, me, frontier, client)
        return state


def beginnings(streams: Tuple[Any, ...]) -> Iterator[Tuple[Any, ...]]:
    """Yield all combinations of beginnings of the streams."""
    if not streams:
        yield ()
        return
    for rest in beginnings(streams[1:]):
        for length in range(len(streams[0]) + 1):
            yield (streams[0][:length],) + rest


def numbered(
    stream: Tuple[Any, ...], late: List[Tuple[Any, ...]], client: Optional[Client]
) -> Dict[int, int]:
    """Return new ids for all ids that anyone remembers, in the same order."""
    ids = {entry[0] for entry in stream}
    for command in late:
        if command[0] == "del":
            ids.update(command[1])
    if client is not None:
        ids.update(client.offered + client.wire)
        ids.add(client.cursor)
        ids.update(reading[0] for reading in (client.reading, client.aside) if reading)
    ids.discard(0)
    return {0: 0, **{number: place for place, number in enumerate(sorted(ids), 1)}}


def renumbered(client: Client, new: Dict[int, int]) -> Client:
    reading, aside = client.reading, client.aside
    return client._replace(
        cursor=new[client.cursor],
        reading=(new[reading[0]], *reading[1:]) if reading else (),
        aside=(new[aside[0]], *aside[1:]) if aside else (),
        offered=tuple(new[number] for number in client.offered),
        wire=tuple(new[number] for number in client.wire),
    )


# ---------------------------------------------------------------- one counter


class CounterClient(NamedTuple):
    reading: Tuple[Any, ...] = ()  # a URL that was read, and the next step for it
    # The links that are left, the next step for the current link ("", offer, send, lower, or
    # lowered before `done`), and this link.
    page: Tuple[Any, ...] = ()
    owes: int = 0  # whether the page is done, and the counter still has to be decreased


class CounterState(NamedTuple):
    units: int
    streams: Tuple[Urls, ...]
    parts: Tuple[Tuple[Frontier, Optional[CounterClient]], ...]
    fetched: int  # pages whose links were all sent or accepted, as bits, only for the test
    crashes: int


class Counter:
    """A protocol with one counter in Redis of all pending URLs, in three variants.

    passed  an accepted message passes its unit to the URL; if the URL was seen, the message and its
            unit are removed in one transaction; `done` comes before the counter is decreased
    anew    the counter is decreased with the acknowledgement of each message, and increased before
            each offer; `done` comes before the counter is decreased
    early   like `anew`, but the counter is decreased before `done`
    """

    def __init__(self, of: Web, reading: str, crashes: int = 1) -> None:
        self.web, self.how, self.crashes = of, reading, crashes
        self.all = of.reached()

    def first(self) -> CounterState:
        streams: List[Urls] = [() for _ in self.web.seeds]
        for seeds in self.web.seeds:
            for url in seeds:
                streams[self.web.part[url]] += (url,)
        parts = tuple((Frontier(), CounterClient()) for _ in self.web.seeds)
        return CounterState(sum(map(len, streams)), tuple(streams), parts, 0, self.crashes)

    def bad(self, state: CounterState) -> Optional[str]:
        if state.fetched != self.all and state.units <= 0:
            return f"the counter is {state.units} before all URLs were fetched"
        if state.fetched != self.all and any(frontier.is_closed() for frontier, _ in state.parts):
            return "a gate closed before all URLs were fetched"
        return None

    def is_end(self, state: CounterState) -> bool:
        return all(frontier.is_closed() for frontier, _ in state.parts)

    def next(self, state: CounterState) -> List[Step]:
        out: List[Step] = []
        for me, (frontier, client) in enumerate(state.parts):
            move = _Move(self, state, me, out)
            if client is None:
                hand = frontier.hand
                page = (self.web.links[hand], "", -1) if hand >= 0 else ()
                move.go("starts again", c=CounterClient(page=page))
                continue
            if state.crashes and not frontier.is_closed():
                move.go("CRASHES", c=None, kind="crash", crashes=state.crashes - 1)
            if client.owes:
                move.go("decreases the counter, since the page is done", c=client._replace(owes=0),
                        units=state.units - 1)
                continue
            move.read()
            move.fetch()
            if state.units == 0 and not frontier.ended:
                move.go("finds the counter 0; endseeds", f=frontier._replace(ended=1))
        return out


class _Move:
    """The steps of one part in a protocol with a counter."""

    def __init__(self, of: Counter, state: CounterState, me: int, out: List[Step]) -> None:
        self.of, self.state, self.me, self.out = of, state, me, out
        self.frontier, self.client = state.parts[me]
        self.names = of.web.names

    def go(self, what: str, kind: str = "step", **changes: Any) -> None:
        state, me = self.state, self.me
        part = (changes.pop("f", self.frontier), changes.pop("c", self.client))
        after = state._replace(parts=state.parts[:me] + (part,) + state.parts[me + 1:], **changes)
        self.out.append((f"part {me}: {what}; the counter is {after.units}", kind, after))

    def streams_with(self, part: int, stream: Urls) -> Tuple[Urls, ...]:
        streams = self.state.streams
        return streams[:part] + (stream,) + streams[part + 1:]

    def read(self) -> None:
        """Read and handle one message."""
        client, mine, units = self.client, self.state.streams[self.me], self.state.units
        assert client is not None
        is_passed = self.of.how == "passed"
        if not client.reading:
            if mine:
                stage = "offer" if is_passed else "raise"
                self.go(f"reads the message {self.names[mine[0]]}",
                        c=client._replace(reading=(mine[0], stage)))
            return
        url, stage = client.reading
        name, rest = self.names[url], self.streams_with(self.me, mine[1:])
        over = client._replace(reading=())
        if stage == "raise":
            self.go(f"increases the counter for {name}", c=client._replace(reading=(url, "offer")),
                    units=units + 1)
        elif stage == "offer":
            answer, after = self.frontier.offer(self.of.web, self.me, url)
            stage = "lower" if answer == "seen" else "ack"
            self.go(f"offer {name} -> {answer}", f=after, c=client._replace(reading=(url, stage)))
        elif stage == "lower" and is_passed:
            self.go(f"acknowledges {name} and decreases the counter, in one transaction", c=over,
                    units=units - 1, streams=rest)
        elif stage == "lower":
            self.go(f"decreases the counter, since {name} was seen",
                    c=client._replace(reading=(url, "ack")), units=units - 1)
        elif is_passed:
            self.go(f"acknowledges {name}", c=over, streams=rest)
        else:
            self.go(f"acknowledges {name} and decreases the counter, in one transaction", c=over,
                    units=units - 1, streams=rest)

    def fetch(self) -> None:
        frontier, client = self.frontier, self.client
        assert client is not None
        if client.page:
            self.of_page(client, *client.page)
        elif frontier.hand < 0 and frontier.queue:
            url = frontier.queue[0]
            self.go(f"next -> taken {self.names[url]}",
                    f=frontier._replace(queue=frontier.queue[1:], hand=url),
                    c=client._replace(page=(self.of.web.links[url], "", -1)))

    def of_page(self, client: CounterClient, links: Urls, stage: str, url: int) -> None:
        units, frontier, part = self.state.units, self.frontier, self.of.web.part
        name = self.names[url] if url >= 0 else ""
        over = client._replace(page=(links, "", -1))
        if stage == "" and links:
            self.go(f"increases the counter for the link {self.names[links[0]]}",
                    c=client._replace(page=(links[1:], "offer", links[0])), units=units + 1)
        elif stage == "offer":
            answer, after = frontier.offer(self.of.web, self.me, url)
            stage = {"elsewhere": "send", "accepted": ""}.get(answer, "lower")
            self.go(f"offer {name} -> {answer}", f=after,
                    c=client._replace(page=(links, stage, url)) if stage else over)
        elif stage == "send":
            streams = self.streams_with(part[url], self.state.streams[part[url]] + (url,))
            self.go(f"sends {name} to part {part[url]}", c=over, streams=streams)
        elif stage == "lower":
            self.go(f"decreases the counter, since {name} was seen", c=over, units=units - 1)
        else:
            self.finish(client, stage)

    def finish(self, client: CounterClient, stage: str) -> None:
        """Call `done` and decrease the counter, in the order of this variant."""
        hand, fetched = self.frontier.hand, self.state.fetched | 1 << self.frontier.hand
        if stage == "lowered" or self.of.how != "early":
            done = self.frontier._replace(hand=-1, done=self.frontier.done | 1 << hand)
            owes = 0 if stage == "lowered" else 1
            self.go(f"done ({self.names[hand]})", f=done, c=client._replace(page=(), owes=owes),
                    fetched=fetched)
        else:
            self.go(f"decreases the counter, since {self.names[hand]} is fetched",
                    c=client._replace(page=((), "lowered", -1)), units=self.state.units - 1,
                    fetched=fetched)


# ---------------------------------------------------------------- the search


class Found(NamedTuple):
    """The result of a search, with the shortest trace to a bad state, if there is one."""

    states: int
    steps: int
    why: Optional[str] = None
    trace: Tuple[str, ...] = ()


def key(state: Any) -> bytes:
    """Return a key that is different for each state. `marshal` does not accept named tuples."""
    parts = [(tuple(frontier), client and tuple(client)) for frontier, client in state.parts]
    rest = tuple(state._replace(parts=()))
    return hashlib.blake2b(marshal.dumps((rest, parts), 2), digest_size=12).digest()


class Search:
    """A breadth-first search of all states."""

    def __init__(self, tried: Tried) -> None:
        self.tried = tried
        first = tried.first()
        self.index = {key(first): 0}
        self.parent, self.choice = array("i", [-1]), array("i", [-1])
        self.heads, self.tails = array("i"), array("i")  # of ordinary steps
        self.ends: List[int] = []
        self.steps, self.at = 0, 0
        self.level = [(0, first)]
        self.why = tried.bad(first)

    def run(self) -> Found:
        while self.level and self.why is None:
            level, self.level = self.level, []
            for number, state in level:
                self.expand(number, state)
                if self.why is not None:
                    break
        if self.why is None:
            at = first_stuck(len(self.parent), self.heads, self.tails, self.ends)
            if at is None:
                return Found(len(self.parent), self.steps)
            self.why, self.at = "from here the end cannot be reached", at
        return Found(len(self.parent), self.steps, self.why, self.trace())

    def expand(self, number: int, state: Any) -> None:
        if self.tried.is_end(state):
            self.ends.append(number)
        try:
            following = self.tried.next(state)
        except Lost as lost:
            self.why, self.at = f"lost: {lost}", number
            return
        for choice, (_, kind, after) in enumerate(following):
            self.steps += 1
            name = key(after)
            known = self.index.get(name)
            if known is None:
                known = self.index[name] = len(self.parent)
                self.parent.append(number)
                self.choice.append(choice)
                self.why = self.tried.bad(after)
                if self.why is not None:
                    self.at = known
                    return
                self.level.append((known, after))
            if kind == "step":
                self.heads.append(number)
                self.tails.append(known)

    def trace(self) -> Tuple[str, ...]:
        path, at = [], self.at
        while at > 0:
            path.append(self.choice[at])
            at = self.parent[at]
        state, lines = self.tried.first(), []
        for choice in reversed(path):
            what, _, state = self.tried.next(state)[choice]
            lines.append(what)
        return tuple(lines)


def first_stuck(count: int, heads: array[int], tails: array[int], ends: List[int]) -> Optional[int]:
    """Return the first state from which no ordinary steps lead to an end, or None."""
    start = array("i", bytes(4 * (count + 1)))
    for tail in tails:
        start[tail + 1] += 1
    for number in range(count):
        start[number + 1] += start[number]
    into, place = array("i", bytes(4 * len(tails))), array("i", start)
    for head, tail in zip(heads, tails):
        into[place[tail]] = head
        place[tail] += 1
    good = bytearray(count)
    for number in ends:
        good[number] = 1
    rest = list(ends)
    while rest:
        number = rest.pop()
        for step in range(start[number], start[number + 1]):
            if not good[into[step]]:
                good[into[step]] = 1
                rest.append(into[step])
    at = good.find(0)
    return None if at < 0 else at


# ---------------------------------------------------------------- the sites and bugs to try

ONE = web("one page a part", "a0:b0 b0:", "a:a0")
RING = web("ring of 2 parts", "a0:b0 a1:b0 b0:a0,a1", "a:a0")
CROSS = web("cross of 2 parts", "a0:b0,b1 a1:b0 b0:a1,a0 b1:a1", "a:a0")
WRONG = web("seeds at the wrong parts", "a0:a1 a1: b0:a1", "a:b0 b:a0")
STRAY = web("a seed of the other part", "a0: b0:", "a:b0")
SPLIT = web("5 URLs, 2 parts", "a0:b0,a1 a1:b1 a2:b0 b0:a2 b1:a0", "a:a0")
THREE = web("ring of 3 parts", "a0:b0,c0 b0:c0 c0:a0", "a:a0")
FOUR = web("3 parts, 4 URLs", "a0:b0 a1:b0 b0:c0,a0 c0:a1", "a:a0")
FULL = web("ring, at most 1 pending", "a0:b0,a1 a1:b0 b0:a1", "a:a0", 1)
TIGHT = web("1 part, at most 1 pending", "a0:a1,a2 a1: a2:", "a:a0", 1)
FULLER = web("4 URLs, at most 1 pending", "a0:a1,b0,b1 a1: b0:b1,a1 b1:a0", "a:a0", 1)

# A site, and the numbers of crashes, doubles and losses.
Row = Tuple[Web, int, int, int]
OWN: Tuple[Row, ...] = (
    (ONE, 1, 1, 0), (STRAY, 1, 0, 0), (RING, 0, 1, 0), (RING, 1, 0, 0), (WRONG, 0, 0, 0),
    (FULL, 0, 0, 0), (THREE, 0, 0, 0),
)
OWN_ALL: Tuple[Row, ...] = (
    (STRAY, 1, 1, 0), (ONE, 2, 0, 0), (ONE, 2, 1, 0), (WRONG, 0, 1, 0), (WRONG, 1, 0, 0),
    (FULL, 1, 0, 0), (CROSS, 1, 0, 0), (FULLER, 1, 0, 0), (SPLIT, 1, 0, 0), (FOUR, 0, 0, 0),
    (THREE, 0, 1, 0), (RING, 1, 1, 0), (RING, 2, 0, 0), (FULL, 1, 1, 0), (WRONG, 1, 1, 0),
    (THREE, 1, 0, 0), (RING, 2, 1, 0),
)
LOSS: Tuple[Row, ...] = ((ONE, 0, 0, 1), (TIGHT, 0, 0, 2))
LOSS_ALL: Tuple[Row, ...] = ((ONE, 0, 1, 1), (ONE, 0, 0, 2), (ONE, 1, 0, 1), (RING, 0, 0, 1))
# A mistake of the operator: the other parts wait.
STAYS_ENDED = "is not started again after it had finished"
HAS_NO_EPOCH = "is ready although Redis lost what it had sent"
BUGS: Tuple[Tuple[str, Row], ...] = (
    ("done before its links are sent", (ONE, 1, 0, 0)), ("keeps no entry", (ONE, 0, 0, 0)),
    ("keeps the entry that was read last", (RING, 1, 1, 0)),
    ("offers entries out of order", (RING, 1, 0, 0)),
    ("is quiet while it fetches", (ONE, 0, 0, 0)),
    ("is ready before it sends its seeds", (ONE, 0, 0, 0)),
    ("assumes that the URLs in its log were sent", (ONE, 1, 0, 1)),
    ("finishes an entry before its URLs are sent on", (STRAY, 1, 0, 0)),
    ("looks at the streams one by one", (RING, 0, 0, 0)),
    ("ends its seeds when it is quiet", (ONE, 0, 0, 0)), ("drops refused URLs", (FULL, 0, 0, 0)),
    ("sends nothing again", (ONE, 0, 0, 1)),
    ("stays ready when Redis restarts", (ONE, 0, 0, 1)), (STAYS_ENDED, (ONE, 0, 0, 1)),
    ("does not notice that Redis lost its keys", (ONE, 0, 0, 1)), (HAS_NO_EPOCH, (ONE, 0, 0, 1)),
    ("sends no refused URL again", (TIGHT, 0, 0, 1)),
)


class Totals:
    """Runs searches, and counts the expected and the unexpected results."""

    def __init__(self, is_verbose: bool) -> None:
        self.is_verbose = is_verbose
        self.passed = self.failed = 0

    def run(self, head: str, tried: Tried, holds: bool) -> None:
        begun = time.process_time()
        found = Search(tried).run()
        is_so = (found.why is None) == holds
        self.passed += is_so
        self.failed += not is_so
        print(
            f"{head:<66} {found.states:>9,} states {found.steps:>10,} steps"
            f" {time.process_time() - begun:6.1f} s  {found.why or 'holds'}"
            + ("" if is_so else "  WRONG"), flush=True
        )
        if not is_so or (found.why and self.is_verbose):
            for number, line in enumerate(found.trace, 1):
                print(f"    {number:2}. {line}")

    def row(self, row: Row, to_the_close: bool = False) -> None:
        of, crashes, doubles, losses = row
        head = f"{of.name}: {crashes} crashes, {doubles} doubles, {losses} losses"
        head += ", to every gate's close" if to_the_close else ""
        self.run(head, Own(of, crashes, doubles, losses, None, to_the_close), holds=True)


def own(totals: Totals, is_all: bool) -> None:
    totals.row((ONE, 1, 0, 0), to_the_close=True)
    for row in OWN:
        totals.row(row)
    if is_all:
        totals.row((ONE, 2, 1, 0), to_the_close=True)
        for row in OWN_ALL:
            totals.row(row)


def bugs(totals: Totals, is_all: bool) -> None:
    for bug, (of, crashes, doubles, losses) in BUGS:
        to_the_close = bug in ("ends its seeds when it is quiet", STAYS_ENDED)
        tried = Own(of, crashes, doubles, losses, bug, to_the_close)
        totals.run(f"bug: {bug} ({of.name})", tried, holds=False)


def loss(totals: Totals, is_all: bool) -> None:
    for row in LOSS + (LOSS_ALL if is_all else ()):
        totals.row(row)
    totals.row((ONE, 0, 0, 1), to_the_close=True)


def naive(totals: Totals, is_all: bool) -> None:
    """A counter fails after one crash; without a crash it works."""
    for reading in ("passed", "anew", "early"):
        totals.run(f"a counter, {reading}: 1 crash", Counter(ONE, reading), holds=False)
        of = CROSS if is_all else RING
        totals.run(f"a counter, {reading}: no crash", Counter(of, reading, crashes=0), holds=True)


def main() -> None:
    parser = argparse.ArgumentParser(
        description=__doc__, formatter_class=argparse.RawDescriptionHelpFormatter
    )
    parts = {"own": own, "bugs": bugs, "loss": loss, "naive": naive}
    parser.add_argument("what", nargs="*", metavar="|".join(parts),
                        help="groups to try (default: all)")
    parser.add_argument("--all", action="store_true",
                        help="also try larger sites, with millions of states: takes hours and"
                        " gigabytes of memory")
    parser.add_argument("-v", action="store_true", help="print the traces of planted bugs")
    options = parser.parse_args()
    if set(options.what) - set(parts):
        parser.error(f"unknown group: {' '.join(sorted(set(options.what) - set(parts)))}")
    totals = Totals(options.v)
    for name, part in parts.items():
        if not options.what or name in options.what:
            part(totals, options.all)
    print(f"{totals.passed} passed, {totals.failed} failed")
    sys.exit(1 if totals.failed else 0)


if __name__ == "__main__":
    main()
