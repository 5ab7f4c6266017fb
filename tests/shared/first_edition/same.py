#!/usr/bin/env python3
"""same.py SHOWN FOUND: whether each line of FOUND says what that line of SHOWN does: the same text, or JSON with at
least the same members, of the same values. Prints the first that doesn't, and ends with status 1."""
import json
import sys


def within(due, found):
    if isinstance(due, dict):
        return isinstance(found, dict) and all(it in found and within(due[it], found[it]) for it in due)
    if isinstance(due, list):
        return isinstance(found, list) and len(due) == len(found) and all(map(within, due, found))
    return type(due) is type(found) and due == found


def says(due, found):
    if due == found:
        return True
    return due.startswith("{") and found.startswith("{") and within(json.loads(due), json.loads(found))


shown, found = (open(it, encoding="utf-8").read().split("\n") for it in sys.argv[1:])
if len(shown) != len(found):
    sys.exit(f"{len(found)} lines instead of {len(shown)}")
for pair in zip(shown, found):
    if not says(*pair):
        sys.exit("'%s' became '%s'" % pair)
