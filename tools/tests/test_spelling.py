"""Tests of tools/spelling: what counts as code, which words are known, and the spelling of this repository's pages."""
import os
import shutil
import subprocess
import sys
import unittest

sys.dont_write_bytecode = True
sys.path.insert(0, os.path.dirname(os.path.abspath(__file__)))
sys.path.insert(0, os.path.dirname(os.path.dirname(os.path.abspath(__file__))))
import repository
import tool

spelling = tool.load('spelling')
PAGE = '''# A page

Wrods in `wrnog code`, in [a link](wrnog.md) and at https://wrnog.example.

    wrnog block

```rust
wrnog block
```

<!-- wrnog
comment -->
crates/wrnog/README.md, oauth2_wrnog, wrngoWord and serde's.
'''


class Pages(unittest.TestCase):
    def test_code_is_left_out(self):
        text = spelling.english(PAGE)
        self.assertNotIn('wrn', text)
        self.assertEqual(text.count('\n'), PAGE.count('\n'))

    def test_a_known_word_begins_a_sentence(self):
        self.assertTrue(spelling.is_known('Allocator', {'allocator'}))
        self.assertFalse(spelling.is_known('json', {'JSON'}))


@unittest.skipUnless(shutil.which('aspell'), 'there is no aspell')
class Words(unittest.TestCase):
    def test_an_unknown_word(self):
        self.assertEqual(list(spelling.faults([('page.md', PAGE)], {'serde'})), ['page.md:3: Wrods'])

    def test_this_repository(self):
        run = subprocess.run([os.path.join(repository.ROOT, 'tools', 'spelling')], capture_output=True, text=True)
        self.assertEqual((run.returncode, run.stdout), (0, ''), run.stdout)


if __name__ == '__main__':
    unittest.main()
