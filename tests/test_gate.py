#!/usr/bin/env python3
"""The gate's own checks can fail: each is tried on a small repository that breaks it, with an `rt` that only plays."""
import contextlib
import io
import os
import pathlib
import tempfile
import unittest
from unittest import mock

import gate

# It says what is written down for the word that an edit puts into the definitions, and notes that it was asked.
RT = '''#!/bin/sh
[ "$1" != version ] || { cat "$TOLD/version"; exit; }
word=$(cat specs/Song.antt)
echo "$* $word" >>"$TOLD/asked"
[ -e "$TOLD/$word" ] || { echo 'logic=proved functions=4'; exit; }
cat "$TOLD/$word"
exit "$(cat "$TOLD/status")"
'''


class Gate(unittest.TestCase):
    def setUp(self):
        folder = tempfile.TemporaryDirectory()
        self.addCleanup(folder.cleanup)
        self.root = pathlib.Path(folder.name)
        (self.root / 'crates.txt').write_text('# side: a comment\nsong: io\n')
        for folder in ('src', 'specs', 'must-fail'):
            (self.root / 'crates/song' / folder).mkdir(parents=True)
        (self.root / 'crates/song/src/lib.rt').write_text(
            'pub fn add(n: u8) -> u8 {\n    n + 1\n}\n\nfn find(n: u8) -> u8 {\n    n\n}\n\npub fn all() -> u8 {\n    most(find(2))\n}\n\n'
            'fn most(n: u8) -> u8 {\n    n\n}\n')
        (self.root / 'crates/song/specs/Song.antt').write_text('right')
        self.told = self.root / 'told'
        self.told.mkdir()
        (self.told / 'rt').write_text(RT)
        (self.told / 'rt').chmod(0o755)
        (self.told / 'version').write_text('a kit')
        (self.told / 'status').write_text('1')
        path = mock.patch.dict(os.environ, PATH=f'{self.told}:{os.environ["PATH"]}', TOLD=str(self.told))
        path.start()
        self.addCleanup(path.stop)
        self.write('lost', 'add', 'find')
        self.write('moved', 'eleven')
        self.refuse('lost', './proofs/add/Proof.antt:3:1: error: `add_spec`: `search`: no proof of `x`',
                    './proofs/song/find/Answers.antt:3:1: error: `returns`: `omega`: the goal does not follow')
        self.refuse('moved', './proofs/Demands.antt:3:1: error: `eleven`: `simp`: no rule')

    def write(self, label, *names, folder='must-fail'):
        lines = [f'# in {name}: a song is lost\n' for name in names]
        edit = self.root / f'crates/song/{folder}/{label}.edit'
        edit.parent.mkdir(exist_ok=True)
        edit.write_text(''.join(lines) + f'file: specs/Song.antt\nold: right\nnew: {label}\n')

    def refuse(self, label, *errors, last='logic=not-proved'):
        (self.told / label).write_text('\n'.join(['a note', *errors, last, 'rt: a hint']) + '\n')

    def asked(self):
        """The words that `rt` was asked about since this was called last, in order of the alphabet."""
        asked = self.told / 'asked'
        lines = sorted(asked.read_text().splitlines()) if asked.exists() else []
        asked.unlink(missing_ok=True)
        return [line.removeprefix('check --jobs 1 ') for line in lines]

    def said(self, *words):
        """What the check prints, and that its exit status agrees."""
        with contextlib.redirect_stdout(io.StringIO()) as out, contextlib.redirect_stderr(io.StringIO()):
            status = gate.main([*words], self.root)
        self.assertEqual(status, 1 if out.getvalue() else 0)
        return out.getvalue()

    def test_a_sound_repository_passes(self):
        self.assertEqual(self.said('layout') + self.said('edits'), '')

    def test_an_unlisted_crate(self):
        (self.root / 'crates/side').mkdir()
        self.assertIn('crates/side has no line', self.said('layout'))

    def test_a_library_with_one_wrong_program(self):
        (self.root / 'crates/song/must-fail/lost.edit').unlink()
        self.assertIn('fewer than two', self.said('layout'))

    def test_an_edit_that_nothing_tries(self):
        (self.root / 'crates/song/must-fail/lost.edti').touch()
        self.assertIn('lost.edti is no edit', self.said('layout'))

    def test_an_edit_that_names_nothing(self):
        (self.root / 'crates/song/must-fail/moved.edit').write_text('# a song is moved\nold: 1\nnew: 2\n')
        self.assertIn('moved.edit names no wrong program', self.said('layout'))

    def test_two_wrong_programs_in_one_place(self):
        self.write('moved', 'eleven', 'eleven')
        self.assertIn('moved.edit has two wrong programs in one place', self.said('layout'))

    def test_wrong_programs_of_which_one_calls_the_other(self):
        self.write('moved', 'find', 'all')
        self.assertIn('moved.edit has wrong programs in all and in find, which it calls', self.said('layout'))

    def test_a_wrong_program_in_another_function(self):
        text = '# in find: a song is lost\nfile: src/lib.rt\nold:     n + 1\nnew:     n\n'
        (self.root / 'crates/song/must-fail/moved.edit').write_text(text)
        self.assertIn('moved.edit says find, and replaces what stands in add', self.said('layout'))

    def test_more_wrong_programs_are_looked_at_too(self):
        (self.root / 'crates/song/must-fail-more').mkdir()
        (self.root / 'crates/song/must-fail-more/lost.edti').touch()
        self.assertIn('must-fail-more/lost.edti is no edit', self.said('layout'))

    def ci(self, *lines):
        """What the check prints of what `rt ci` has printed."""
        with mock.patch('sys.stdin', io.StringIO('\n'.join(['== song', *lines, '1 passed, 0 failed', '']))):
            return self.said('ci')

    def test_what_rt_ci_says_of_the_edits(self):
        for said in ('2 refused; every proof and must-fail edit was done in this run', '2 refused, 0 bad; done in this run',
                     '2 refused, 1 of them only by a limit; done in this run'):
            self.assertEqual(self.ci(f'rt: ok; handles allowed: none; must-fail edits: {said}'), '')
        for said in ('1 refused, 1 bad; done in this run', '2 refused, 1 bad; done', '1 refused; done', '12 refused; done',
                     '2 refused, 1 of them only by a limit, 1 bad; done'):
            self.assertIn('there are 2 edits', self.ci(f'rt: ok; handles allowed: none; must-fail edits: {said}'))
        self.assertIn('there are 2 edits', self.ci('rt: ok; handles allowed: none; every proof was done in this run'))
        self.assertIn('rt ci does not say that all is well', self.ci('rt: note: must-fail edits: 2 refused'))

    def test_a_static_library_is_listed_by_its_name(self):
        (self.root / 'crates.txt').write_text('song staticlib: io\n')
        self.assertEqual(self.said('layout'), '')

    def test_a_wrong_program_that_only_misfits(self):
        self.refuse('lost', './proofs/add/Proof.antt:3:1: error: `add_spec`: this λ has 2 binders, but its type has room for only 1',
                    './proofs/song/find/Proof.antt:3:1: error: `find_spec`: `omega`: the goal does not follow')
        self.assertIn('song/lost in add was not refused for a fact', self.said('edits'))
        self.assertNotIn('find', self.said('edits'))

    def test_a_wrong_program_hidden_by_another(self):
        self.refuse('lost', './proofs/add/Proof.antt:3:1: error: `add_spec`: `search`: no proof of `x`',
                    './proofs/song/find/Proof.antt:3:1: error: `find_spec`: `close` was not admitted',
                    'fn song::find: not proved; it calls `song::add`, which is not proved')
        self.assertIn('song/lost in find was not refused for a fact', self.said('edits'))

    def test_a_function_without_proof_files(self):
        add = './proofs/add/Proof.antt:3:1: error: `add_spec`: `search`: no proof of `x`'
        self.refuse('lost', add, 'fn song::find: no proof: expected answers in ./proofs/find/Answers.antt; '
                                 '`search` did not prove `returns`')
        self.assertEqual(self.said('edits'), '')
        self.refuse('lost', add, 'fn song::find: no proof: expected invariants in ./proofs/find/Invariants.antt')
        (self.told / 'version').write_text('another kit')
        self.assertIn('song/lost in find was not refused for a fact', self.said('edits'))

    def test_an_edit_of_which_the_prover_says_nothing(self):
        self.refuse('lost', 'a note')
        self.assertIn('song/lost in add was not refused for a fact: no error', self.said('edits'))

    def test_an_edit_that_is_still_proved(self):
        (self.told / 'lost').unlink()
        self.assertIn('song/must-fail/lost.edit is not refused', self.said('edits'))

    def test_an_edit_that_is_not_judged(self):
        self.refuse('lost', './proofs/add/Proof.antt:3:1: error: `add_spec`: `search`: no proof of `x`',
                    './proofs/find/Proof.antt:3:1: error: `find_spec`: `search`: no proof of `x`', last='logic=unknown')
        self.assertIn('song/must-fail/lost.edit is not judged: rt check ends with 1', self.said('edits'))
        (self.told / 'status').write_text('3')
        self.assertIn('song/must-fail/lost.edit is not judged: rt check ends with 3', self.said('edits'))

    def test_an_edit_that_cannot_be_applied(self):
        for text in ('left', 'right right'):
            (self.root / 'crates/song/specs/Song.antt').write_text(text)
            self.assertIn('song/must-fail/lost.edit cannot be applied', self.said('edits'))
        self.assertEqual(self.asked(), [])

    def test_what_the_prover_said_is_kept_while_all_that_it_was_said_of_stays(self):
        self.assertEqual([self.said('edits'), self.asked(), self.said('edits'), self.asked()],
                         ['', ['lost', 'moved'], '', []])
        for changed, edits in (('told/version', ['lost', 'moved']), ('crates/song/src/lib.rt', ['lost', 'moved']),
                               ('crates/song/must-fail/lost.edit', ['lost'])):
            path = self.root / changed
            path.write_text(path.read_text() + '# song\n')
            self.assertEqual([changed, self.said('edits'), self.asked()], [changed, '', edits])
        (self.root / 'crates.txt').write_text('song: io std\n')
        self.assertEqual([self.said('edits'), self.asked()], ['', ['lost', 'moved']])

    def test_a_crate_below_has_changed(self):
        below = self.root / 'crates/note/src/lib.rt'
        below.parent.mkdir(parents=True)
        below.write_text('')
        (self.root / 'crates.txt').write_text('note: io\nsong: note io\n')
        self.assertEqual([self.said('edits'), self.asked()], ['', ['lost', 'moved']])
        below.write_text('// a note\n')
        self.assertEqual([self.said('edits'), self.asked()], ['', ['lost', 'moved']])

    def test_what_was_not_refused_is_tried_again(self):
        (self.told / 'lost').unlink()
        self.assertIn('lost.edit is not refused', self.said('edits'))
        self.asked()
        self.assertIn('lost.edit is not refused', self.said('edits'))
        self.assertEqual(self.asked(), ['lost'])

    def test_all_wrong_programs(self):
        self.write('more', 'find', folder='must-fail-more')
        self.refuse('more', './proofs/find/Proof.antt:3:1: error: `find_spec`: this λ has 2 binders')
        self.assertEqual([self.said('edits'), self.asked()], ['', ['lost', 'moved']])
        for words in (['all'], ['all', 'song']):
            self.assertIn('song/more in find was not refused for a fact', self.said(*words))
            self.assertEqual(self.asked(), ['more'])
        self.assertIn('tests/gate.py all [CRATE..]', self.said('all', 'sing'))


if __name__ == '__main__':
    unittest.main()
