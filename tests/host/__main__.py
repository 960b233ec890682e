#!/usr/bin/env python3
"""Runs the command tronalhet on files of other programs, at the borders of the rules, at full size and in trouble.

    python3 -m host     in tests/, after `host/build`

What it must print and write is worked out by tests/second/command.py, and where the fault of a refused file is by a
walk of tests/host/places.py. The largest files are made on the fly, in a folder with room for them that is removed
again. Permissions are tried as a user whom they stop. On another processor than x86-64 an emulator runs the command,
and memory and time have no bounds.
"""
import multiprocessing
import sys

from host.building import (built, built_again, changed_meanwhile, counted, handed_over, killed_build, not_built,
                           own_words, playing, two_builds)
from host.calls import called, called_wrongly, for_scripts, from_input, helps, json_page, names, no_numbers, slow_input
from host.faults import block_places, other_refusals, placed, wrong_files, wrong_songs
from host.files import checked, glanced, on_files, on_kept_sides, records
from host.full_size import full_size
from host.installed import compiled, completed, everything, installed_command, man_page, not_installed
from host.run import PROGRAM, attempted
from host.slips import (backups, closed_pipes, closed_streams, kept_twice, links_of_backups, meanwhile,
                        names_on_one_line, not_replaced, nothing_written, other_sounds, several_names)
from host.together import elsewhere, many_decodes, replaced_meanwhile, stuck_songs, ten_adds, ten_sides, waits
from host.titles import (carried, long_lists, no_place_for_titles, no_such_cue, old_files_kept, refused_files,
                         step_by_step, titles_as_long_as_they_may_be, titles_of_any_file, titles_of_others, titles_set)
from host.trouble import (devices, hidden_folder, links, modes, new_names, no_memory, not_allowed, not_read, not_shown,
                          not_written, same_file, shared, special_files, unfinished_names)
from host.wave import by_wave, demonstration, readme, story
from host.ways_out import three_lines, ways_out, ways_out_by_name, ways_to_side
from host.writing import flushed, full_disk, living_parts, no_parts, past_a_limit, really_full_disk
from trying import WRONG, expect, report

# Those that take longest come first, as the parts are run side by side.
PARTS = (full_size, on_files, two_builds, many_decodes, replaced_meanwhile, placed, glanced, on_kept_sides, records,
         titles_of_any_file, titles_of_others, titles_set, titles_as_long_as_they_may_be, no_such_cue, refused_files,
         old_files_kept, no_place_for_titles, carried, step_by_step, long_lists, checked, block_places, wrong_files,
         wrong_songs, other_refusals, ways_out, ways_to_side, ways_out_by_name, three_lines, names, for_scripts,
         from_input, slow_input, called_wrongly, no_numbers, called, helps, json_page, not_read, not_written,
         special_files, same_file, links, unfinished_names, new_names, modes, not_allowed, shared, devices,
         hidden_folder, not_shown, no_memory, full_disk, really_full_disk, past_a_limit, living_parts, no_parts,
         flushed, not_replaced, meanwhile, other_sounds, backups, kept_twice, links_of_backups, several_names,
         closed_streams, closed_pipes, names_on_one_line, nothing_written, stuck_songs, waits, elsewhere, ten_adds,
         ten_sides, handed_over, own_words, playing, built, built_again, changed_meanwhile, not_built, counted,
         killed_build, everything, not_installed, installed_command, compiled, man_page, completed, by_wave, story,
         demonstration, readme)


def alone(part):
    """What is wrong in one part."""
    WRONG.clear()
    attempted(part)
    return WRONG


def main():
    """Runs all parts, where the command is built."""
    expect('whether the command is there, which host/build makes', PROGRAM.exists(), True)
    with multiprocessing.Pool() as pool:
        found = pool.map(alone, PARTS if PROGRAM.exists() else (), chunksize=1)
    WRONG.extend(wrong for part in found for wrong in part)
    return report('tests/host')


if __name__ == '__main__':
    sys.exit(main())
