"""The words that `many.py` and `one.py` share, and the work that they ask for."""

import argparse
import os

import command
import gib_work
from gib_work import Work


def common_parser(about):
    """Takes the words that name a work."""
    parser = argparse.ArgumentParser(description=about, formatter_class=argparse.RawDescriptionHelpFormatter)
    parser.add_argument("source")
    parser.add_argument("folder")
    parser.add_argument("out")
    parser.add_argument("--keep", choices=gib_work.ENDINGS, default="text", help="keep results as text, or as packed files")
    parser.add_argument("--seconds", type=float, default=600, help="the longest that one call of gib may take")
    parser.add_argument("--run", default="", metavar="WORDS", help="options of gib's run, as --run='--depth 100000'")
    return parser


def work_of(given):
    """The work that the words name."""
    source, folder, out = map(os.path.abspath, (given.source, given.folder, given.out))
    return Work(command.gib_words(), source, folder, out, given.keep, tuple(given.run.split()), given.seconds)
