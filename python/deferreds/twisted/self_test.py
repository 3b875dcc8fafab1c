"""The self-test of the instruments: what they log of a small script and of a small program.

Where another version of Twisted does something otherwise inside, an instrument may miss it, and lines are missing from the
journal. So both are run when the instruments are put in, and their lines are compared with those expected here.
"""

from __future__ import annotations

import functools
import itertools
from typing import List, Optional

from twisted.internet import defer
from twisted.internet.defer import Deferred

from .classes import BUILT_IN
from .known import UnknownTwisted, version
from .recording.reactor import VirtualReactor, in_place_of_the_real
from .running import Player, Teller, rendered
from .script import read
from .telling import Record, Stopped, lines_of

#: bodies that await, one of which is cancelled, and an object of each other kind
SCRIPT = b"""
{"version":1,"events":[
["deferred","a"],["inline","b",[["await","a"],["end",["plus",1]]]],["callback","a",1],
["deferred","c"],["inline","d",[["await","c"]]],
["addErrback","d",{"end":["trap",["CancelledError"],"cancelled"]}],["cancel","d"],
["maybe","e",{"end":["return",3]}],
["lock","f"],["runWith","g","f",{"end":["return",4]}],
["queue","h",null,null],["get","i","h"],["put","h",5],
["deferred","j"],["gather","k",["j"],[]],["callback","j",6],
["deferred","l"],["addTimeout","l",1],["addErrback","l",{"end":["trap",["TimeoutError"],"late"]}],
["loop","m","n",1,true,{"end":["return",7]}],
["cooperate","o",[{"end":["wait","l"]}]],["whenDone","p","o"],
["advance",1],["stopLoop","m"],["advance",1]]}
"""

#: what Twisted does in it, and then in the program. (`deferreds` has two lines of the script elsewhere, as docs/TWISTED.md says
#: of `cancelled-inline` and of `tick-scheduled-in-a-tick`.)
EXPECTED = """
new #0 a
new #1 b
await #1 #0
add #0
fire #0 ok 1
run #0
fire #1 ok 2
set #0 ok null
new #2 c
new #3 d
await #3 #2
add #2
add #3
cancel #3
cancel #2
fire #2 fail CancelledError ""
run #2
fire #3 fail CancelledError ""
set #2 ok null
run #3
set #3 ok "cancelled"
new #4 e
fire #4 ok 3
lock f
new #5 g
acquire f #5
fire #5 ok "f"
add #5
run #5
new #6 -
fire #6 ok 4
add #6
run #6
release f
set #6 ok 4
take #5 #6 ok 4
queue h none none
new #7 i
get h #7
put h 5
fire #7 ok 5
new #8 j
new #9 k
add #8
add #9
fire #8 ok 6
run #8
fire #9 ok [[true,6]]
run #9
set #9 ok [6]
set #8 ok 6
new #10 l
later timeout #10 1
add #10
add #10
add #10
new #11 n
loop m #11
turn m
new #12 -
fire #12 ok 7
add #12
run #12
later loop m 1
set #12 ok null
task o
later tick 1
new #13 p
whendone o #13
advance 1
timeout #10
cancel #10
fire #10 fail CancelledError ""
run #10
set #10 fail TimeoutError ""
run #10
set #10 fail TimeoutError ""
run #10
set #10 ok "late"
turn m
new #14 -
fire #14 ok 7
add #14
run #14
later loop m 2
set #14 ok null
tick
step o
hold o #10
add #10
run #10
resumetask o
later tick 2
set #10 ok null
stop m
fire #11 ok "m"
advance 2
tick
step o
end o ok "o"
fire #13 ok "o"
#0 a ok null
#1 b ok 2
#2 c ok null
#3 d ok "cancelled"
#4 e ok 3
#5 g ok 4
#6 - ok null
#7 i ok 5
#8 j ok 6
#9 k ok [6]
#10 l ok null
#11 n ok "m"
#12 - ok null
#13 p ok "o"
#14 - ok null
new #0 -
new #1 -
await #1 #0
add #0
fire #0 ok 1
run #0
fire #1 ok 1
set #0 ok null
new #2 -
fire #2 ok 2
add #2
run #2
set #2 ok "2"
"""


async def _awaiting(awaited: Deferred[int]) -> int:
    value: int = await awaited
    return value


def _program() -> None:
    """Does what scripts can't: a coroutine, and a Deferred that was made with its value."""
    awaited: Deferred[int] = Deferred()
    Deferred.fromCoroutine(_awaiting(awaited))
    awaited.callback(1)
    defer.succeed(2).addCallback(str)


class _Unnamed(Teller):
    """Logs a program whose Deferreds have no names."""

    def locate(self, record: Record, by_twisted: bool = False) -> None:
        """Names a Deferred."""
        record.name = "-"


def _logged() -> List[str]:
    """The lines of the script and of the program.

    A LoopingCall imports the reactor when it is made. Another one stands there meanwhile, so that the choice stays free.
    """
    with in_place_of_the_real(VirtualReactor()):
        ran = Player(read(SCRIPT, list(BUILT_IN))).run()
    teller = _Unnamed(2_000)
    with teller.watching():
        _program()
    return ran.output.splitlines() + [rendered(line, teller.records) for _, line in lines_of(teller.parts)]


def difference() -> Optional[str]:
    """The first line that differs from the expected one, if there is one."""
    try:
        lines = _logged()
    except (Exception, Stopped) as error:
        return f"{type(error).__name__} {error}".splitlines()[0]
    for logged, expected in itertools.zip_longest(lines, EXPECTED.strip().splitlines(), fillvalue="nothing"):
        if logged != expected:
            return f"`{logged}` is logged where `{expected}` has to be"
    return None


@functools.lru_cache(maxsize=None)
def check() -> None:
    """Raises UnknownTwisted where a line differs. Once all are as expected, later calls do nothing."""
    found = difference()
    if found is not None:
        raise UnknownTwisted(f"Twisted {version()} isn't known: {found}")
