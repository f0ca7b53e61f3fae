"""Stands in for the module redis, with values in the folder of FAKE_REDIS that several processes share; for the tests
of a shared cache.

A file `faults` there says what comes of the next calls, a word a line: `lost` does what it is asked and raises, `gone`
only raises, `no` is an error that the server answers, and `ok` does what it is asked. What is behind `then` holds for
all later calls.
"""
import fcntl
import json
import os
import sys
import types


class RedisError(Exception):
    pass


class ConnectionError(RedisError):
    pass


class ResponseError(RedisError):
    pass


class AuthenticationError(ConnectionError):
    pass


def module(name, **members):
    found = types.ModuleType(name)
    vars(found).update(members)
    sys.modules[name] = found


module('redis.backoff', NoBackoff=lambda: None)
module('redis.retry', Retry=lambda backoff, retries: retries)
backoff, retry = (sys.modules['redis.' + it] for it in ('backoff', 'retry'))


class Redis:
    def __init__(self, **settings):
        self.folder, self.settings = os.environ['FAKE_REDIS'], settings
        with open(os.path.join(self.folder, 'settings'), 'w') as f:
            json.dump({name: value for name, value in settings.items() if name != 'retry'}, f)

    def path(self, name):
        return os.path.join(self.folder, name.replace(':', '_'))

    def fault(self):
        """What comes of this call."""
        try:
            with open(self.path('faults')) as f:
                words = f.read().split()
        except FileNotFoundError:
            return 'ok'
        if words[:1] == ['then']:
            return words[1]
        with open(self.path('faults'), 'w') as f:
            f.write('\n'.join(words[1:]))
        return words[0] if words else 'ok'

    def done(self, work):
        with open(self.path('lock'), 'a') as f:
            fcntl.flock(f, fcntl.LOCK_EX)
            fault = self.fault()
            if fault == 'no':
                raise ResponseError('NOPERM no permission')
            if fault != 'gone':
                found = work()
            if fault in ('gone', 'lost'):
                raise ConnectionError('the connection is %s' % fault)
            return found

    def value(self, name):
        try:
            with open(self.path(name)) as f:
                return f.read()
        except FileNotFoundError:
            return None

    def get(self, name):
        return self.done(lambda: self.value(name))

    def config_get(self, name):
        """The setting of FAKE_REDIS_CONFIG, which is a JSON object; without one this is not allowed."""
        if 'FAKE_REDIS_CONFIG' not in os.environ:
            raise ResponseError('NOPERM no permission')
        return {it: value for it, value in json.loads(os.environ['FAKE_REDIS_CONFIG']).items() if it == name}

    def eval(self, script, number, *words):
        """What the script of tools/shared_stores.py does, without a history."""
        assert number == 1 and "redis.call('SET'" in script
        name, version, line = words

        def replaced():
            if (self.value(name) or '0').partition(' ')[0] != version:
                return 0
            with open(self.path(name), 'w') as f:
                f.write(line)
            return 1
        return self.done(replaced)
