"""Tests of tools/standards: what of a page is wrong, and how its tables are laid out."""
import os
import sys
import unittest

sys.dont_write_bytecode = True
sys.path.insert(0, os.path.dirname(os.path.abspath(__file__)))
sys.path.insert(0, os.path.dirname(os.path.dirname(os.path.abspath(__file__))))
import tool

standards = tool.load('standards')
HEAD = "| section | the client's duty, in our words | kept by | wrong body |\n|---|---|---|---|\n"
GOOD = '| 3.2 | ask by POST | `wire::Request::prepare`: `ok`, `IsRequestOf` | `wire/get_sent` |'


class Sources:
    """A function with a clause and a definition, a word, and a wrong body."""

    @staticmethod
    def names(function):
        return {'wire::Request::prepare': {'ok', 'IsRequestOf'}}.get(function)

    @staticmethod
    def words():
        return {'set_method'}

    @staticmethod
    def has_body(name):
        return name == 'wire/get_sent'


def faults(*rows):
    """What is wrong with a table of these rows, without the lines."""
    return [it.partition(': ')[2] for it in standards.faults_of('# Page\n\n' + HEAD + ''.join(row + '\n' for row in rows), Sources)]


class Rows(unittest.TestCase):
    def test_three_kinds(self):
        self.assertEqual(faults(GOOD, '| 4 | one | left to the HTTP client: `set_method` | |', '| 4.1 | two | not held: no keys | |'), [])

    def test_row_that_goes_on(self):
        self.assertEqual(faults('| 3.2 | ask | `wire::Request::prepare`: `ok`, | `wire/get_sent` |', '| | by POST | `IsRequestOf` | |'), [])

    def test_names_that_went(self):
        for kept, wanted in [
            ('`wire::Request::made`: `ok`', ['no function `wire::Request::made`']),
            ('`wire::Request::prepare`: `err`', ['`wire::Request::prepare` has no clause and rests on no definition `err`']),
            ('`wire::Request::prepare`', ['no clause or definition of `wire::Request::prepare`']),
            ('`wire::Request::prepare`: `ok`; `set_host` too', ['no `set_host` in the sources']),
        ]:
            with self.subTest(kept):
                self.assertEqual(faults('| 3.2 | ask | %s | `wire/get_sent` |' % kept), wanted)

    def test_names_of_other_kinds(self):
        self.assertEqual(faults('| 3.2 | ask | not held: `wire::made` of `set_host` | |'),
                         ['no function `wire::made`', 'no `set_host` in the sources'])

    def test_kind(self):
        wanted = ['neither a contract, nor left to somebody, nor not held']
        for kept in ('', 'kept by the client', 'left to the server', 'not held:'):
            with self.subTest(kept):
                self.assertEqual(faults('| 3.2 | ask | %s | |' % kept), wanted)

    def test_wrong_bodies(self):
        self.assertEqual(faults(GOOD.replace('get_sent', 'put_sent')), ['no wrong body `wire/put_sent`'])
        self.assertEqual(faults(GOOD.replace('`wire/get_sent`', '')), ['a contract, and no wrong body'])
        self.assertEqual(faults('| 3.2 | ask | left to the user | `wire/get_sent` |'), ['a wrong body, and no contract'])

    def test_sections(self):
        for sections, wanted in [
            (('2', '3.1.3.7, 2', '3.1.3.7, 11', '15.5.2', 'B', 'B.1'), []),
            (('3.',), ['`3.` is no section']),
            (('3.10', '3.9'), ['section 3.9 is out of order']),
            (('2, 11', '2, 9'), ['section 2, 9 is out of order']),
        ]:
            with self.subTest(sections):
                self.assertEqual(faults(*['| %s | ask | left to the user | |' % it for it in sections]), wanted)

    def test_shape(self):
        self.assertEqual(faults('| 3.2 | | left to the user | |'), ['no duty'])
        self.assertEqual(faults('| 3.2 | ask | left to the user |'), ['3 cells, and not 4'])
        self.assertEqual(standards.faults_of('| a | b |\n|---|---|\n', Sources)[0][:32], 'docs/STANDARDS.md:1: the head of')
        self.assertEqual(standards.faults_of('x' * 141, Sources), ['docs/STANDARDS.md:1: 141 columns'])


class Layout(unittest.TestCase):
    def test_short_rows(self):
        page = HEAD + GOOD + '\n'
        self.assertEqual(standards.written(page), page)

    def test_long_rows(self):
        kept = '`wire::Request::prepare`: `ok`, `IsRequestOf`, and so each other request'
        cells = ['3.2', 'ask for each token by POST and not by GET ' * 3, kept, '`wire/get_sent` ' * 4]
        page = standards.written(HEAD + '| %s |\n' % ' | '.join(cells))
        self.assertLessEqual(max(map(len, page.split('\n'))), standards.WIDTH)
        (_, [row]), = standards.tables_of(page.split('\n'))
        self.assertEqual(row.cells, [it.strip() for it in cells])
        self.assertEqual(standards.written(page), page)


class Page(unittest.TestCase):
    def test_a_contract_of_the_repository(self):
        sources = standards.Sources()
        self.assertLessEqual({'end', 'EndsLogin', 'read_by_name'}, sources.names('oauth2_redirect::Login::finish'))
        self.assertIsNone(sources.names('oauth2_redirect::Login::begin'))
        self.assertTrue(sources.has_body('oauth2_wire/sent_again'))
        self.assertFalse(sources.has_body('oauth2_wire/sent_at_last'))


if __name__ == '__main__':
    unittest.main()
