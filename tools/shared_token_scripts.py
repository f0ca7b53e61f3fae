"""Runs of a fleet of renewals as scripts of the command `shared_keeper`, and what the program has to write of them by the model in
`shared_token_model.py`; for tools/compare-shared-tokens."""
import json

import shared_token_model as model

ENDED = {'use': 'in_use', 'out': 'logged_out', 'end': 'over'}
FATES = {'l': None, 'd': None, 'a': None, 'x': 'reply_lost', 's': 'stopped'}  # of the words but `n`, which says that nothing is told
REQUEST = ('request POST https://example.com/token', 'authorization none', 'body "grant_type=refresh_token&refresh_token=r%d&client_id=aaa"',
           'basic none', 'pair "grant_type" "refresh_token"', 'pair "refresh_token" "r%d"', 'pair "client_id" "aaa"')
CLIENT = {'id': 'aaa', 'token_url': 'https://example.com/token'}


class Run:
    """A run that becomes a script: its words are those of the model about renewals. The renewals of keeper K among N are K, K + N, .."""

    def __init__(self, keepers):
        self.fleet, self.keepers = model.Fleet(), keepers
        self.steps, self.replies, self.lines, self.is_fault = [], [], [], False
        self.begun, self.current = {}, {}  # the place where each renewal began; the renewal of each keeper

    def named(self, name):
        return self.begun[name]

    def held(self, value):
        """What a version holds, as the program shows it."""
        mark = '' if value.mark is None else '%d ' % self.named(value.mark)
        return '%s %s"r%d"' % ('rest' if value.mark is None else 'mark', mark, value.token)

    def step(self, keeper, fate, text):
        self.steps.append({'keeper': keeper, **({'fate': fate} if fate else {})})
        self.lines.append('keeper %d %s' % (keeper, text))

    def begins(self, keeper, name):
        """Goes on with this renewal: one that is not over yet is killed."""
        last = self.current.get(keeper)
        if last == name:
            return
        if last is not None and self.fleet.renewals.get(last, model.Renewal('look')).step not in ENDED:
            self.step(keeper, 'killed', 'killed')
        self.current[keeper], self.begun[name] = name, len(self.steps)

    def add(self, word):
        """Lets happen what a word says; whether it can happen."""
        letter, name = word[0], int(word[1:])
        keeper, own = name % self.keepers, self.fleet.renewals.get(name, model.Renewal('look'))
        after = self.fleet.copy()
        if after.apply(word) == '?':
            return False
        self.begins(keeper, name)
        fate = FATES.get(letter) if letter != 'n' else ('reply_lost', 'request_lost')[len(self.steps) % 2 or own.step not in ('look', 'send')]
        if letter == 's':
            self.step(keeper, fate, 'stopped')
        elif own.step == 'look':
            values = self.fleet.values
            self.step(keeper, fate, 'load %d %s' % (len(values) - 1, self.held(values[-1])) if letter == 'l' else 'load lost')
        elif own.step == 'send':
            self.sends(keeper, fate, own.second, after)
        else:
            taken = own.asked.version == len(self.fleet.values) - 1
            outcome = 'lost' if fate else 'done' if taken else 'refused'
            self.step(keeper, fate, 'replace %d %s %s' % (own.asked.version, self.held(own.asked.value), outcome))
        self.fleet = after
        self.ends(keeper, after.renewals.get(name))
        return True

    def sends(self, keeper, fate, token, after):
        """The refresh token of this token is sent, unless it is lost on its way."""
        if fate == 'request_lost':
            self.step(keeper, fate, 'refresh "r%d" lost' % token)
            return
        self.step(keeper, fate, 'refresh "r%d"' % token)
        self.lines += [line % token if '%d' in line else line for line in REQUEST]
        given = '{"access_token":"t","refresh_token":"r%d","token_type":"bearer"}' % (after.next_token - 1)
        self.replies.append({'status': 200, 'body': given})
        self.is_fault |= fate is not None
        self.lines.append('answer fault "Request failed"' if fate else 'answer ok ' + given)

    def ends(self, keeper, own):
        if own is not None and own.step in ENDED:
            what = ENDED[own.step]
            shown = ' %d "r%d"' % (self.named(own.first), own.second) if own.step == 'use' else ''
            self.lines.append('keeper %d %s%s' % (keeper, what, shown))

    def script(self):
        return json.dumps({'client': CLIENT, 'command': 'shared_keeper', 'params': {'refresh_token': 'r0', 'steps': self.steps},
                           'replies': self.replies}, separators=(',', ':'))

    def output(self):
        """The lines that the program has to print of it, and then its status."""
        return [*self.lines, 'exit %d' % self.is_fault]


def run_of(words, keepers):
    """The run of these words, without those that cannot happen."""
    run = Run(keepers)
    for word in words:
        run.add(word)
    return run
