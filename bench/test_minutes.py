#!/usr/bin/env python3
"""Tests which work `bench/minutes` takes a process of the prover for."""
import importlib.machinery
import importlib.util
import os
import sys
import unittest

sys.dont_write_bytecode = True

PATH = os.path.join(os.path.dirname(os.path.abspath(__file__)), 'minutes')
LOADER = importlib.machinery.SourceFileLoader('minutes', PATH)
MINUTES = importlib.util.module_from_spec(importlib.util.spec_from_loader('minutes', LOADER))
LOADER.exec_module(MINUTES)

CHECK = ['/opt/rattle/bin/rattle', 'check', '--crate-name', 'sky_val', 'src/lib.rt']


class Columns(unittest.TestCase):
    def found(self, words, folder):
        return MINUTES.row_and_column(CHECK + words, folder)

    def test_of_a_crate(self):
        self.assertEqual(self.found(['--jobs', '2'], '/work/main/crates/sky_val'), ('sky_val', 'proof'))
        self.assertEqual(self.found(['--test'], '/work/main/crates/sky_val'), ('sky_val', 'tests'))
        kept = ['--incremental', 'out/incremental']
        self.assertEqual(self.found(kept, '/work/main/crates/sky_val'), ('sky_val', 'proof'))

    def test_of_edits(self):
        seed = ['--incremental', '/tmp/rt-edits-3191-csu__v9w/seed']
        self.assertEqual(self.found(seed, '/tmp/rt-edit-3191-xjv3d_sg'), ('sky_val', 'check for the edits'))
        edit = ['--incremental', '/tmp/rt-edits-3191-csu__v9w/0']
        self.assertEqual(self.found(edit, '/tmp/rt-edit-3191-aaaaaaaa'), ('sky_val', 'edits'))

    def test_of_edits_of_an_older_kit(self):
        self.assertEqual(self.found(['--jobs', '1'], '/tmp/rt-edit-91-xjv3d_sg'), ('sky_val', 'edits'))
        self.assertEqual(self.found([], '/tmp/rt-edit-91-xjv3d_sg/crates/sky_val'), ('sky_val', 'edits'))

    def test_of_another_process(self):
        self.assertIsNone(MINUTES.row_and_column(['python3', '/usr/local/bin/rt', 'ci'], '/work/main'))


if __name__ == '__main__':
    unittest.main()
