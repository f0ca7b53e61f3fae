"""Tests of tools/crate-pages: which names and paths of a page are missing in the sources, which crate declares a name, when crates.txt is
out of order, and where docs/ARCHITECTURE.md differs from it."""
import os
import sys
import unittest

sys.dont_write_bytecode = True
sys.path.insert(0, os.path.dirname(os.path.abspath(__file__)))
sys.path.insert(0, os.path.dirname(os.path.dirname(os.path.abspath(__file__))))
import tool

crate_pages = tool.load('crate-pages')
WORDS = {'append_pair', 'form', 'ok', 'IsRequestOf'}


def faults(page):
    return crate_pages.faults_of(page, WORDS, lambda path: path == 'specs/Pairs.antt')


class Pages(unittest.TestCase):
    def test_names_of_the_sources(self):
        self.assertEqual(faults('`append_pair` appends a pair (`ok`, `specs/Pairs.antt`), `append_pair(form)` too; `{:#?}`.\n'), [])

    def test_a_name_that_went(self):
        self.assertEqual(faults('`append_pear`, twice `append_pear`, and form without backticks\n'), ['no `append_pear` in src/ or specs/'])

    def test_a_path_that_went(self):
        self.assertEqual(faults('`specs/Pears.antt`\n'), ['no file or folder `specs/Pears.antt`'])

    def test_code_of_the_page(self):
        page = 'Here:\n\n    let pairs = Pairs::of(%s)?; // not::looked at\n    const ROWS: u8 = 1; pairs.len(ROWS, "Text")\n\n- `x`\n    Wrapped\n'
        self.assertEqual(crate_pages.faults_of_code(page % 'form(1)', {'Pairs', 'of', 'form', 'len'}), [])
        found = crate_pages.faults_of_code(page % 'from(1)', {'Pairs', 'of', 'form', 'len'})
        self.assertEqual(found, ['no `from` of its code in the crates'])

    def test_a_long_page(self):
        self.assertEqual(faults('a line\n' * 61), ['61 lines, and not at most 60'])


class Order(unittest.TestCase):
    def test_lowest_first_under_headings(self):
        self.assertEqual(crate_pages.faults_of_order('# Low\none: url\ntwo: one  # why\n\n# High\nthree: two one\n'), [])

    def test_a_crate_above_one_that_it_uses(self):
        self.assertEqual(crate_pages.faults_of_order('# Low\ntwo: one\none: url\n'), ['two is above one, which it uses'])

    def test_a_crate_without_a_heading(self):
        self.assertEqual(crate_pages.faults_of_order('one: url\n# High\ntwo: one\n'), ['one is under no heading'])


class Kit(unittest.TestCase):
    def test_crates_of_the_kit(self):
        rows = {'one': 'one: url', 'two': 'two: one json'}
        page = '`json`\n## What is not proved\n\n- trusted: `url`%s\n\n## Test it\n\n`json`\n'
        self.assertEqual(crate_pages.faults_of_kit(page % ', `json`', rows), [])
        self.assertEqual(crate_pages.faults_of_kit(page % '', rows), ['the crate json of the kit is not among what is trusted'])


class Layers(unittest.TestCase):
    PAGE = '# A\n\n## The crates\n\n### Low\n\nText.\n\n- [`one`](../crates/one/README.md): `two` uses it\n  → no `three`: text\n' \
           '\n### High\n\n- `two` and\n  `three`: tests\n\n## More\n\n- `four`: text\n'

    def faults(self, text):
        return crate_pages.faults_of_layers(crate_pages.repository.layers_of(text), crate_pages.layers_on(self.PAGE))

    def test_the_same_layers(self):
        self.assertEqual(self.faults('# Low\none:\n\n# High\nthree: one\ntwo: one\n'), [])

    def test_a_crate_that_the_page_lacks(self):
        self.assertEqual(self.faults('# Low\none:\nfive:\n# High\ntwo:\nthree:\n'), ['five is not under Low'])

    def test_a_crate_under_another_heading(self):
        self.assertEqual(self.faults('# Low\none:\ntwo:\n# High\nthree:\n'), ['two is not under Low'])

    def test_a_crate_that_went(self):
        self.assertEqual(self.faults('# Low\none:\n# High\nthree:\n'), ['two is no crate'])

    def test_headings_in_another_order(self):
        self.assertEqual(self.faults('# High\ntwo:\nthree:\n# Low\none:\n'), ['the layers are Low, High, and not High, Low'])


class Names(unittest.TestCase):
    """Names on the pages of docs/ and beside them."""

    def faults(self, page, words=('append_pair', 'take_claims', 'Here'), others=('gh',)):
        return crate_pages.faults_of_names([('docs/A.md', page + ' `gh`')], set(words), others)

    def test_names_of_sources_and_of_others(self):
        self.assertEqual(self.faults('`append_pair(take_..)`, `docs/NONE.md`, `3f17f65b` and none\n```\n`no`\n```\n<!-- `no` -->\n'), [])

    def test_a_name_that_is_nowhere(self):
        self.assertEqual(self.faults('`append_pear`\n'), ['docs/A.md: no `append_pear` in the crates or tools, nor in tools/names.txt'])

    def test_a_name_of_others_on_no_page(self):
        self.assertEqual(self.faults('', others=('gh', 'curl')), ['tools/names.txt: curl is on no page'])
        self.assertEqual(crate_pages.faults_of_names([], set(), ('curl',), ['curl']), [])

    def test_columns_of_another_library(self):
        table = '| Theirs | Here | Why |\n|---|---|---|\n| `pear(\\|x\\|)` | `append_pair` | %s |\n'
        self.assertEqual(self.faults(table % 'so'), [])
        self.assertEqual(len(self.faults(table % '`pear`')), 1)
        self.assertEqual(len(self.faults('| Theirs | Ours |\n|---|---|\n| `pear` | `append_pair` |\n')), 1)


class Owners(unittest.TestCase):
    """Names of which a page says that a crate has them."""
    DECLARED = {'low': {'form', 'AsksOnce'}, 'high': {'pairs'}}

    def faults(self, page):
        return crate_pages.faults_of_owners(page, self.DECLARED, self.DECLARED.get)

    def test_names_of_their_crates(self):
        self.assertEqual(self.faults("`form` of `low`, `x::pairs(form)` of\n`high`, `low`'s `AsksOnce`, `max` of `Vec`\n"), [])

    def test_a_name_of_another_crate(self):
        self.assertEqual(self.faults('(`AsksOnce` of `high`)'), ['no `AsksOnce` of `high`'])
        self.assertEqual(self.faults("the crate `low`'s `pairs`"), ['no `pairs` of `low`'])

    def test_names_in_the_items_of_a_list(self):
        page = '## The crates\n\n- `low`: a `form`, and `high` uses it\n  → `pairs` of `high`\n- `high`: text\n  → `%s`\n\n`form`\n'
        self.assertEqual(crate_pages.faults_of_items(page % 'pairs', self.DECLARED, self.DECLARED.get), [])
        found = crate_pages.faults_of_items(page % 'form', self.DECLARED, self.DECLARED.get)
        self.assertEqual(found, ['no `form` of the crate of its item'])

    def test_what_a_crate_declares(self):
        text = 'use low::Import;\npub enum One {\n    Two(u8),\n}\nfn three()\n    ensures four { five }\n{\n    six();\n}\n'
        names = {name for names in crate_pages.DECLARED.findall(text) for name in names}
        self.assertLessEqual({'One', 'Two', 'three', 'four'}, names)
        self.assertFalse(names & {'Import', 'five'})


if __name__ == '__main__':
    unittest.main()
