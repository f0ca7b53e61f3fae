"""Tests of tools/sources.py: the public names of a text."""
import os
import sys
import unittest

sys.dont_write_bytecode = True
sys.path.insert(0, os.path.dirname(os.path.dirname(os.path.abspath(__file__))))
import sources

TEXT = '''
//! pub fn in_a_comment() {}
#![tactic(auto)]
mod inner;
pub mod basic;
pub use inner::{One, two as Two, deep::{Three, Four}};
pub use oauth2_types::Five;
pub(crate) struct Hidden;
#[derive(Debug, Drop)]
pub struct Six { pub field: u8 }
pub const SEVEN: &str = "pub fn in_a_string() {}";
fn private() { pub_fn(); }

impl<T: Copy> Six {
    pub fn shown(&self) -> u8 { self.field }
    fn not_shown(&self) {}
}

impl Display for Six { fn fmt(&self) {} }

pub trait Eight { fn required(&self); }
'''


class Names(unittest.TestCase):
    def test_exports(self):
        self.assertEqual(sources.exports(TEXT), {
            'basic': None, 'One': 'inner::One', 'Two': 'inner::two', 'Three': 'inner::deep::Three', 'Four': 'inner::deep::Four',
            'Five': 'oauth2_types::Five', 'Six': None, 'SEVEN': None, 'Eight': None})

    def test_methods(self):
        self.assertEqual(sources.methods(TEXT), {('Six', 'shown'), ('Eight', 'required')})


if __name__ == '__main__':
    unittest.main()
