#!/usr/bin/env python3
"""Tests how `wrong-bodies/try` takes what `rt` says of a mutant."""
import importlib.machinery
import importlib.util
import os
import sys
import unittest

sys.dont_write_bytecode = True
PATH = os.path.join(os.path.dirname(os.path.abspath(__file__)), 'try')
LOADER = importlib.machinery.SourceFileLoader('try', PATH)
TRY = importlib.util.module_from_spec(importlib.util.spec_from_loader('try', LOADER))
LOADER.exec_module(TRY)


class Lines(unittest.TestCase):
    def refused_by(self, said):
        crate, name, text = TRY.LINE.search('rt: must-fail sky_val/null-in-a-key-taken.edit: ' + said).groups()
        self.assertEqual((crate, name), ('sky_val', 'null-in-a-key-taken'))
        return TRY.refused_by(text)

    def test_refused(self):
        self.assertEqual(self.refused_by('refused, as it must be: src/key.rt:31:9: error: the goal'), 'a contract')
        self.assertEqual(self.refused_by('refused, as it must be'), 'a contract')
        by_name = 'refused, as it must be (only because a proof file names what the edit took away, so this says little'
        self.assertEqual(self.refused_by(by_name), 'a name in a proof')
        by_limit = 'refused, as it must be (only by a limit of the prover, which gave no verdict, so this says less of'
        self.assertEqual(self.refused_by(by_limit), 'a limit')

    def test_not_refused(self):
        self.assertIsNone(self.refused_by('NOT REFUSED: the crate is still proved with this edit'))
        self.assertIsNone(self.refused_by('BAD EDIT: the prover cannot read the edited text'))
        self.assertIsNone(self.refused_by('NOT TRIED: its check was killed, most likely for memory'))


if __name__ == '__main__':
    unittest.main()
