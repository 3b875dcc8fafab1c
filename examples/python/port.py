#!/usr/bin/env python3
"""The beginning of a port: Deferreds that are made and fired. docs/PORTING.md tells how to go on."""

import json
import sys

script = json.load(sys.stdin)
numbers, deferreds = {}, []  # by its name the number of each Deferred; by its number its name and its state

for word, *rest in script["events"]:
    if word == "note":
        print("note", json.dumps(rest[0], ensure_ascii=False))
    elif word == "deferred":
        numbers[rest[0]] = len(deferreds)
        print(f"new #{len(deferreds)} {rest[0]}")
        deferreds.append([rest[0], "unfired"])
    elif rest[0] not in numbers:
        print("unhandled NameError", json.dumps(rest[0]))
    elif word == "callback":
        deferred = deferreds[numbers[rest[0]]]
        deferred[1] = "ok " + json.dumps(rest[1], ensure_ascii=False, separators=(",", ":"))
        print(f"fire #{numbers[rest[0]]} {deferred[1]}")
for number, (name, state) in enumerate(deferreds):
    print(f"#{number} {name} {state}")
