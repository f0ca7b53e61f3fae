"""Tests of the rows of tools/refusals that programs run by their names, and of how a run that ran out of memory is judged."""
import sys
import unittest

import tool

sys.path.insert(0, tool.TOOLS)
import program
refusals = tool.load('refusals')

AS_BEFORE = 'client as before'


def lines_of(crate, file):
    return program.stored(crate, file).decode().splitlines()


def undisturbed(name):
    """The lines that the row of this name has to print, of whichever program it is."""
    for crate in program.BY_NAMES:
        if name in lines_of(crate, 'stdin'):
            lines = lines_of(crate, 'stdout')
            lines = lines[lines.index('row ' + name):]
            return lines[:next((at for at, line in enumerate(lines[1:], 1) if line.startswith('row ')), len(lines))]
    raise KeyError(name)


def end(name, *lines, status=1):
    """How a run of this row is judged that wrote these lines after its name."""
    whole, shown = ('\n'.join([*more, '']).encode() for more in (undisturbed(name), ['row ' + name, *lines]))
    return refusals.of_a_name(lambda _: (0, whole), b'', (status, shown))


class NamedRows(unittest.TestCase):
    def test_names(self):
        """Each line of the programs' inputs is a row, and no two rows have one name."""
        named = [row[:3] for row in refusals.ROWS if row[0] in program.BY_NAMES]
        self.assertEqual(named, [(it, name, name.encode() + b'\n') for it in program.BY_NAMES for name in lines_of(it, 'stdin')])
        names = [row[1] for row in refusals.ROWS]
        self.assertEqual(len(names), len(set(names)))
        self.assertLessEqual({*refusals.TAKE_NONE}, {*names})

    def test_undisturbed(self):
        for crate in program.BY_NAMES:
            for name in lines_of(crate, 'stdin'):
                self.assertEqual(end(name, *undisturbed(name)[1:], status=0), 'undisturbed')
                self.assertIsNone(end(name, *undisturbed(name)[1:]))

    def test_type_of_the_error(self):
        self.assertEqual(end('openid_token', 'memory IdTokenReadError'), 'out of memory in IdTokenReadError')
        for line in 'memory TokenReadError', 'memory IdTokenReadError { sent: true }', 'memory RequestTokenError', 'memory':
            self.assertIsNone(end('openid_token', line))

    def test_sent(self):
        body = undisturbed('openid_login')[2]
        for name, error, sent, other, *lines in (('openid_login', 'OpenIdLoginError', 'true', 'false', 'calls 1', body),
                                                 ('no_target', 'RequestTokenError', 'false', 'true', 'calls 0', AS_BEFORE),
                                                 ('created_status', 'RequestTokenError', 'true', 'false', 'calls 1', AS_BEFORE)):
            memory = 'memory ' + error + ' { sent: %s }'
            self.assertEqual(end(name, *lines, memory % sent), 'out of memory in ' + error)
            self.assertIsNone(end(name, *lines, memory % other))
            self.assertIsNone(end(name, *lines, memory % sent, status=0))

    def test_client_that_changed(self):
        self.assertEqual(end('response_type', AS_BEFORE, 'memory Row'), 'out of memory in Row')
        self.assertIsNone(end('response_type', 'client changed', 'memory Row'))


if __name__ == '__main__':
    unittest.main()
