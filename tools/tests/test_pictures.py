"""Tests of tools/pictures: what the descriptions say, that the poll is the one of the program, that nothing is cut off or covered, and what
the pages have to have."""
import json
import os
import re
import sys
import unittest
import xml.etree.ElementTree as ElementTree

sys.dont_write_bytecode = True
sys.path.insert(0, os.path.dirname(os.path.abspath(__file__)))
sys.path.insert(0, os.path.dirname(os.path.dirname(os.path.abspath(__file__))))
import drawing
import picture_layers
import picture_poll
import picture_sequence
import picture_states
import repository
import stored_scripts
import tool

pictures = tool.load('pictures')
SVG = '{http://www.w3.org/2000/svg}'
CRATES = '# Low\none: url\n\n# Other\nfive:\n\n# Middle\ntwo: one\n\n# High\nthree: two one\nfour: three five\n'


def layers_of(text):
    return picture_layers.read(repository.layers_of(text), repository.rows_of(text))


class Texts(unittest.TestCase):
    def test_lines_fit(self):
        text = 'a call sends one request, by `refresh_token` if one is kept, else by `client_credentials`'
        for width in 160, 250, 400:
            lines = drawing.balanced(text, width, 12)
            self.assertEqual(' '.join(lines), text)
            self.assertEqual(len(lines), len(drawing.wrapped(text, width, 12)))
            self.assertLessEqual(max(drawing.width_of(it, 12) for it in lines if ' ' in it), width)

    def test_code_is_not_cut(self):
        self.assertEqual(drawing.wrapped('a `b c`, d', 1, 12), ['a', '`b c`,', 'd'])


class Layers(unittest.TestCase):
    def test_uses_that_follow_from_others(self):
        found = layers_of(CRATES)
        self.assertEqual(found.uses, {'Low': [], 'Other': [], 'Middle': ['Low'], 'High': ['Other', 'Middle']})
        self.assertEqual(picture_layers.as_text(found)[1:3], ['High         2  Other; Middle', 'Middle       1  Low'])

    def test_each_layer_is_above_what_it_uses(self):
        rows = picture_layers.rows_of(layers_of(CRATES))
        layers = [{it.heading for it in row if isinstance(it, picture_layers.Layer)} for row in rows]
        self.assertEqual(layers, [{'High'}, {'Middle'}, {'Low', 'Other'}])
        self.assertIn(picture_layers.Passing('High', 'Other'), rows[1])


class Polls(unittest.TestCase):
    SETTINGS = picture_poll.Settings(2, 10, 60)

    def test_times(self):
        poll = picture_poll.polled(self.SETTINGS, '', ['pending', 'failed', 'slow_down', 'token'])
        self.assertEqual([(it.at, it.sleep) for it in poll.rounds], [(0, 2), (2, 4), (6, 9), (15, None)])
        self.assertIsNone(poll.late)

    def test_polls_that_are_none(self):
        for answers in ['pending'], ['slow_down'] * 8 + ['token']:
            with self.subTest(answers), self.assertRaises(ValueError):
                picture_poll.polled(self.SETTINGS, '', answers)

    def test_sleeps_are_those_of_the_program(self):
        """The stored scripts of polls that wait longer, with what the proved program writes of them."""
        stored = [it for it in stored_scripts.all_stored() if it.heading == 'polls that wait longer after slow_down and failed calls']
        compared = 0
        for script, said in ((json.loads(it.script), it.run.out.decode()) for it in stored):
            interval, cap = script['params']['device']['interval'], script['params'].get('cap', 10)
            for reply, sleep in zip(script['replies'], re.findall(r'(?m)^sleep (\d+)\.', said)):
                answer = 'failed' if 'fail' in reply else json.loads(reply['body'])['error']
                interval = picture_poll.next_interval(cap, interval, answer.replace('authorization_', ''))
                if interval < 1 << 62:  # beyond, a `Duration` has an end
                    self.assertEqual(interval, int(sleep))
                    compared += 1
        self.assertGreater(compared, 10)


class Descriptions(unittest.TestCase):
    def test_sequence(self):
        found = picture_sequence.read(['actor a: an actor', 'actor bc: another', 'a -> bc: `x`', 'bc: thinks'])
        self.assertEqual(picture_sequence.as_text(found), [' 1  a  -> bc  x', ' 2  bc        thinks'])

    def test_states(self):
        found = picture_states.read(['state a: A: one', 'state b: B: two', 'a -> b: falls', 'b -> b: lies'])
        self.assertEqual(picture_states.as_text(found), ['A: one', '  -> B: falls', '', 'B: two', '  stays: lies'])

    def test_lines_that_are_none(self):
        for kind, lines in ((picture_sequence, ['a: thinks']), (picture_states, ['state a: A: one', 'a -> b: falls']),
                            (picture_states, ['state a: A: x', 'state b: B: x', 'state c: C: x', 'a -> c: falls'])):
            with self.subTest(lines), self.assertRaises(ValueError):
                kind.read(lines)

    def test_settings(self):
        for text in ('kind: sequence\n\nactor a: b\n', 'alt: A\n', 'kind: layers\nalt: A\n\nlayer a\n', 'kind: poll\ncap: 1\nalt: A\n'):
            with self.subTest(text), self.assertRaises(ValueError):
                pictures.made('a', text)


class Pages(unittest.TestCase):
    def test_blocks(self):
        page = '# A\n<!-- picture a -->\nold\n<!-- end -->\n<!-- definitions: b -->\nkept\n<!-- end -->\n'
        self.assertEqual(pictures.filled(page, {'a': ('', 'new\n')}), page.replace('old', 'new'))

    def test_places(self):
        one, two = '<!-- picture a -->\n<!-- end -->\n', '<!-- picture b -->\n<!-- end -->\n'
        self.assertEqual(pictures.faults_of_places([one], {'a': None}), [])
        self.assertEqual(pictures.faults_of_places([one + two], {'a': None}), ['docs/pictures: no description of b'])
        self.assertEqual(pictures.faults_of_places([one, one], {'a': None}), ['docs/pictures: a is on 2 pages, and not on one'])

    def test_text_form(self):
        _, block = pictures.made('a', '# why\nkind: sequence\nalt: What is seen.\n\nactor a: an actor\na: thinks\n')
        self.assertTrue(block.startswith('![What is seen.](pictures/a.svg)\n\n<details>\n'))
        self.assertIn('```\n 1  a       thinks\n```\n', block)


class Seen(unittest.TestCase):
    """The pictures of the repository: each text is on the card, no two texts cover each other, and no box covers another."""

    def test_nothing_is_cut_off_or_covered(self):
        for name, (picture, _) in pictures.described().items():
            with self.subTest(name):
                svg = ElementTree.fromstring(picture)
                width, height = float(svg.get('width')), float(svg.get('height'))
                texts = [self.place_of(it) for it in svg.iter(SVG + 'text')]
                boxes = [self.box_of(it) for it in svg.iter(SVG + 'rect') if it.get('class') == 'box']
                for left, top, right, bottom in texts + boxes:
                    self.assertTrue(0 <= left <= right <= width and 0 <= top <= bottom <= height)
                for some in texts, boxes:
                    self.assertEqual([(a, b) for at, a in enumerate(some) for b in some[:at] if self.covers(a, b)], [])

    @staticmethod
    def place_of(text):
        """The left, upper, right and lower edge of a text."""
        spans = (text.text or '') + ''.join('`%s`%s' % (it.text, it.tail or '') for it in text)
        x, y, size = (float(text.get(it)) for it in ('x', 'y', 'font-size'))
        width = drawing.width_of(spans, size)
        left = x - width * {'start': 0, 'middle': 0.5, 'end': 1}[text.get('text-anchor')]
        return left, y - 0.75 * size, left + width, y + 0.2 * size

    @staticmethod
    def box_of(rect):
        x, y, width, height = (float(rect.get(it)) for it in ('x', 'y', 'width', 'height'))
        return x, y, x + width, y + height

    @staticmethod
    def covers(one, other):
        return one[0] < other[2] and other[0] < one[2] and one[1] < other[3] and other[1] < one[3]


if __name__ == '__main__':
    unittest.main()
