"""Makes as many Deferreds as its first word says, each with a list of so many texts, of so many of a character, as the others say."""

import sys

from twisted.internet import defer

count, texts, length, character = map(int, sys.argv[1:])
for number in range(count):
    defer.succeed([chr(character) * length] * texts)
