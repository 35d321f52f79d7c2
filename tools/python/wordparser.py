"""A parser of the words of a command line whose messages show no character that a terminal obeys."""
import argparse

from lines import visible


class Parser(argparse.ArgumentParser):
    """A parser that shows the words that it refuses as a terminal can show them."""

    def error(self, message):
        super().error(visible(message))
