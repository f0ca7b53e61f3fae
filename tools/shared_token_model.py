"""A model of a fleet of renewals that share one token, for tools/compare-shared-tokens. It was written from two pages alone: README.md of
oauth2_shared_token, and the format of the runs, which src/fleets.rt of oauth2_shared_tests has.
As a script it reads runs from standard input, one a line, and prints their outputs, one a line."""
import re
import sys
from collections import namedtuple

NUMBER = "(0|[1-9][0-9]*)"
WORD = re.compile("([lndxast])%s|(o)%s[.]%s|([iwgq])" % (NUMBER, NUMBER, NUMBER))
ITEM = re.compile("(?:%s:([a-z]+(?:[.][0-9]+)*)[|])?%s=(?:-|%s(?:[*]%s)?)" % (NUMBER, NUMBER, NUMBER, NUMBER))
# What is stored under a version: a token (None after a logout), and the renewal that marked it (None if at rest).
Value = namedtuple("Value", "token mark")
# What the store is asked for: if it has this version, to put this value under the next version.
Request = namedtuple("Request", "version value")
# A renewal: its step, the two numbers shown with it, its last request, and whether nothing shall be sent any more.
Renewal = namedtuple("Renewal", "step first second asked stopped", defaults=(None, None, None, False))
TOLD = {"look": "lons", "mark": "dxns", "send": "ans", "keep": "dxns", "back": "dxns", "repeat": "dxns"}  # By step.


def after_load(own, name, version, value):
    """Return what a renewal becomes when a load shows it this value under this version."""
    if value.mark == name:  # Its own mark, so it was taken: it sends, or takes the mark off if it shall not send.
        if own.stopped:
            return Renewal("back", version - 1, value.token, Request(version, Value(value.token, None)))
        return Renewal("send", version - 1, value.token)
    if own.asked is not None:  # It asks once only, and loads on while its mark may still be taken.
        return own if version <= own.asked.version else Renewal("end")  # Whatever else a later version shows.
    if value.token is None:
        return Renewal("out")
    if value.mark is not None:
        return Renewal("use", value.mark, value.token)
    return Renewal("mark", version, value.token, Request(version, Value(value.token, name)))


def after_nothing(own, stop):
    """Return what a renewal becomes when it is told nothing, or (`stop`) only that nothing shall be sent any more."""
    if own.step in ("look", "mark") and (own.asked is not None or not stop):
        return Renewal("look", asked=own.asked, stopped=own.stopped or stop)  # If it has asked, its mark may come yet.
    if own.step in ("keep", "back", "repeat") and not stop:
        return Renewal("repeat", asked=own.asked)
    return Renewal("end")  # It has asked for no mark, so none can stay; or it is in a later step, and its mark may stay.


class Fleet:
    """Renewals over one store. A renewal that no word spoke of yet is there all the same, and about to look."""

    def __init__(self):
        self.values = (Value(0, None),)  # All that was ever stored: the place is the version, the last is stored now.
        self.requests = ()  # All that the store was ever asked for.
        self.renewals = {}  # The renewals by name, without those that are as at the beginning.
        self.next_token = 1

    def copy(self):
        """Return a fleet in the same state, which goes its own way from here."""
        other = Fleet()
        vars(other).update(vars(self), renewals=dict(self.renewals))
        return other

    def state(self):
        """Return a tuple of all that matters for what can happen from here."""
        return self.values, self.requests, tuple(sorted(self.renewals.items())), self.next_token

    def take(self, request):
        """Let the store take a request if it has the version, and return whether it did."""
        has = request.version == len(self.values) - 1
        self.values += (request.value,) if has else ()
        return has

    def new_token(self):
        """Return the next token, which the server gives or a login brings."""
        self.next_token += 1
        return self.next_token - 1

    def next_of(self, letter, name, old):
        """Let a word about a renewal happen, and return what the renewal becomes; None if the word cannot happen."""
        own, version = self.renewals.get(name, Renewal("look")), old if letter == "o" else len(self.values) - 1
        if letter not in TOLD.get(own.step, "") or version >= len(self.values):
            return None
        if letter in "lo":
            return after_load(own, name, version, self.values[version])
        if letter == "a":
            token = self.new_token()
            return Renewal("keep", own.first, token, Request(own.first + 1, Value(token, None)))
        if letter in "dx" and self.take(own.asked) and letter == "d":
            return Renewal("send", own.first, own.second) if own.step == "mark" else Renewal("end")
        return after_nothing(own, letter == "s")

    def apply(self, word):
        """Let happen what a word says, and return its item: "?" if it cannot happen (then nothing changes)."""
        found = WORD.fullmatch(word)
        if found is None:
            return "?"
        letter, number, old = found[1] or found[3] or found[6], int(found[2] or found[4] or 0), int(found[5] or 0)
        stored, item = self.values[-1], ""
        if letter == "t" and number < len(self.requests):
            self.take(self.requests[number])
        elif letter in ("qg" if stored.mark is None else "qiw"):
            token = None if letter == "q" else stored.token if letter == "w" else self.new_token()
            self.values += (Value(token, None),)
        else:  # A word about a renewal, or one that cannot happen.
            new = self.next_of(letter, number, old)
            if new is None:
                return "?"
            self.requests += (new.asked,) if new.step in ("mark", "keep", "back") else ()
            if new != Renewal("look"):
                self.renewals[number] = new
            item = "%d:%s|" % (number, new.step if new.first is None else "%s.%d.%d" % new[:3])
        stored = self.values[-1]
        item += "%d=%s" % (len(self.values) - 1, "-" if stored.token is None else stored.token)
        return item if stored.mark is None else "%s*%d" % (item, stored.mark)

    def words(self, renewals):
        """Return all words that can happen now, of the renewals 0, 1, .. up to this number of them."""
        found = list("qg" if self.values[-1].mark is None else "qiw") + ["t%d" % late for late in range(len(self.requests))]
        for name in range(renewals):
            for letter in TOLD.get(self.renewals.get(name, Renewal("look")).step, ""):
                ends = [".%d" % old for old in range(len(self.values))] if letter == "o" else [""]
                found += ["%s%d%s" % (letter, name, end) for end in ends]
        return found


class Judge:
    """Watches a run, its words and items, and says which laws it breaks. It knows nothing of how a renewal decides."""

    def __init__(self):
        self.store, self.next_token = (0, 0, None), 1  # Version, token and mark that are stored now; the next token.
        self.steps, self.requests = {}, frozenset()  # The step of each renewal; what each asked the store for.
        self.sent, self.stored = {}, {0: 1}  # How often each token was sent; how often it came to be stored.
        self.given, self.answered = frozenset(), frozenset()  # (renewal, token) not found lost; renewals answered for.

    def copy(self):
        """Return a judge that knows the same, and goes its own way from here."""
        other = Judge()
        vars(other).update((name, dict(known) if isinstance(known, dict) else known) for name, known in vars(self).items())
        return other

    def state(self):
        """Return a tuple of all that this judge knows."""
        return tuple(tuple(sorted(known.items())) if isinstance(known, dict) else known for known in vars(self).values())

    def watch(self, word, item):
        """Watch one word and its item, and return the list of the laws that are broken by it."""
        if item == "?":
            return []
        found, letter, broken = ITEM.fullmatch(item), word[0], []
        if found is None:
            raise ValueError("this is no item: " + item)
        name, *now = (None if found[place] is None else int(found[place]) for place in (1, 3, 4, 5))
        (version, token, mark), now, new = self.store, tuple(now), self.next_token
        self.next_token += letter in "aig"
        # What is stored is what was put there by the last word that may put it there.
        may = {"i": new, "g": new, "w": token, "q": None}
        right, came = {(version + 1, may[letter], None)} if letter in may else {self.store}, letter in "iwg"
        if letter in "dxt":  # The store may take what was asked of it; it is a new token if it is not the old one.
            right |= {(asked + 1,) + put for who, asked, put in self.requests if asked == version and name in (who, None)}
            came = now[1] not in (token, None)
        if now not in right:
            broken.append("WhatIsStoredIsTheNewest")
        if came:
            self.stored[now[1]] = self.stored.get(now[1], 0) + 1
        self.answered |= {mark} if letter in "iwq" and mark is not None else frozenset()
        self.store = now
        # A renewal that comes to a step sends a token, or asks the store for something.
        if name is not None and self.steps.get(name) != found[2]:
            self.steps[name] = found[2]
            step, first, second = found[2].split(".")[0], *map(int, (found[2].split(".") + [0, 0])[1:3])
            if step == "send":
                self.sent[second] = self.sent.get(second, 0) + 1
                if self.sent[second] > self.stored.get(second, 0):
                    broken.append("EachSendingWasStored")
            elif step in ("mark", "keep", "back"):
                self.requests |= {(name, first, (second, name)) if step == "mark" else (name, first + 1, (second, None))}
        # A token that the server gave is kept, or marked, or answered for, or held by a renewal that still goes on.
        self.given |= {(name, new)} if letter == "a" else frozenset()
        for who, gift in self.given:
            goes_on = self.steps[who].split(".")[0] in ("keep", "repeat")
            if not (gift in self.stored or now[2] == who or who in self.answered or goes_on):
                broken.append("NoneIsLostUntold")
                self.given -= {(who, gift)}
        return broken


def broken_laws(line, output):
    """Return the sorted names of the laws that a run breaks, from its line of words and its line of items."""
    judge, words, items = Judge(), line.split(), output.split()
    if len(words) != len(items):
        raise ValueError("%d words, but %d items" % (len(words), len(items)))
    return sorted({law for word, item in zip(words, items) for law in judge.watch(word, item)})


def run(line):
    """Return the output line of an input line."""
    return " ".join(map(Fleet().apply, line.split()))


if __name__ == "__main__":
    for text in sys.stdin:
        print(run(text))
