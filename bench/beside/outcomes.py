#!/usr/bin/env python3
"""Random transcripts of an independent model, and whether each final outcome over quiet lines is what the device's kind says.

  bench/beside/outcomes.py MODEL [--seed S] [--seconds T]

MODEL is the folder of the model, which is no part of this repository. Transcript number i, from S on, is of the profile at i in a list. From some of its
lines on, chosen at random, as long as lines are quiet (`is_quiet_line`), each command of a node whose device lists Supervision that has a final outcome is
judged by the text of `is_answered`: that is `EndsAsJudged` of `proof_ready`, which asks for no calm moment and no time. Each command with another outcome is
told at once, and every 20 transcripts, and at the end, how many were judged.
"""
import argparse
import collections
import os
import random
import sys
import time

sys.dont_write_bytecode = True
sys.path.insert(0, os.path.dirname(os.path.abspath(__file__)))
import scenarios  # noqa: E402
from laws_of_transcripts import devices  # noqa: E402
from laws_of_transcripts.by_text import stretches  # noqa: E402
from laws_of_transcripts.by_text.laws import NAMES, Reading, deep, transcript_of  # noqa: E402
from laws_of_transcripts.by_text.values import EMPTY, tuple_of  # noqa: E402
from laws_of_transcripts.judge import KEY  # noqa: E402

PROFILES = ("lossy", "restart", "security", "bulk", "dimmer", "mixed", "sleep", "keeper", "repeats", "many")
MOST_LINES, MOST_WATCHED, CHANCE, SUPERVISION = 40, 2, 0.3, 0x6C


def code(path):
    """A definition of the laws, as code."""
    return NAMES.get(path).code


def broken_in(watched, past):
    """How many commands had a final outcome in quiet lines, and those whose outcome is not the one that is due."""
    before, stood, all_devices, lines = watched
    stretches.STOOD.clear()
    stretches.STOOD.update({node: devices.Device(node, KEY) for node in range(2, 233)})
    stretches.STOOD.update({node: one for node, (one, _) in stood.items()})
    judged, found = 0, []
    for node in tuple_of(code(stretches.STRETCHES + "workers")(before, lines)):
        if SUPERVISION not in devices.listing_of(node):
            continue
        for number in tuple_of(code(stretches.STRETCHES + "commands_in")(before, lines, node)):
            if code("law_time.specs.Sessions.is_final")(code("zw_text.specs.Transcript.outcome")(number, past)):
                judged += 1
                if not code(stretches.VERDICTS + "is_answered")(all_devices, before, lines, node, number):
                    found.append((node, number, before.size))
    return judged, found


def judged_in(written, chance):
    """How many outcomes of a transcript were judged, and those that are not what is due."""
    transcript = transcript_of(written)
    array, stood = Reading(transcript, KEY).entries.items(), stretches.standing(transcript, KEY)
    past, watched, judged, found = EMPTY, [], 0, []
    for place in range(len(array) + 1):
        entry = array[place] if place < len(array) else None
        lines = tuple_of(code("zw_text.specs.Transcript.line_of")(entry)) if entry is not None and entry.name == "Entry.Said" else ()
        quiet = all(code(stretches.STRETCHES + "is_quiet_line")(line) for line in lines)
        if entry is None or not quiet:
            for one in watched:
                more, broken = broken_in(one, past)
                judged, found, watched = judged + more, found + broken, []
        if entry is None:
            return judged, found
        if lines and quiet and len(watched) < MOST_WATCHED and chance.random() < CHANCE:
            at = transcript.entries[place].at
            if at in stood:
                watched.append([past, stood[at], stretches.states(stood[at], KEY), EMPTY])
        for one in watched:
            one[3] = one[3].with_item(entry)
        past = past.with_item(entry)


def main():
    """Judges transcripts until the time is over."""
    words = argparse.ArgumentParser(description=__doc__.split("\n", 1)[0])
    words.add_argument("model")
    words.add_argument("--seed", type=int, default=1)
    words.add_argument("--seconds", type=float, default=60)
    options = words.parse_args()
    model, counts, seed = scenarios.Model(options.model, MOST_LINES), collections.Counter(), options.seed
    end = time.monotonic() + options.seconds
    while time.monotonic() < end:
        profile = PROFILES[seed % len(PROFILES)]
        written = model.scenario(profile, seed).finish()
        judged, found = deep(lambda: judged_in(written, random.Random(seed)))  # pylint: disable=cell-var-from-loop
        counts["transcripts"] += 1
        counts["outcomes"] += judged
        counts["broken"] += len(found)
        for node, number, before in found:
            print(f"{profile} {seed}: command {number} of node {node}, from entry {before} on", flush=True)
        if counts["transcripts"] % 20 == 0:
            print(dict(counts), flush=True)
        seed += 1
    print(dict(counts))
    return 1 if counts["broken"] else 0


if __name__ == "__main__":
    sys.exit(main())
