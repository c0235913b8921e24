"""The rules of the protocol in Python: the reference that the tools compare the program with, and into which the suite plants its faults.

    fields       the bytes of fields, and back
    messages     requests and replies
    limits, codes  limits and times; error codes and their texts
    assignors    range and uniform: which member owns which partition
    group        one group: heartbeats, ticks and commits
    node         the groups of a coordinator, frame by frame
    client       the client side: what a member asks, and what it makes of replies
    world        one coordinator, its clients, and pools of messages that are delivered in any order
    lines        the lines of scripts of worlds: what each asks for and prints, and why one can't be read
    reply_lines  the lines of `coord reply`, and random scripts of them
    run_scripts  random scripts of worlds
    frame_lines  what `coord frame` prints, and random frames
    decode       what lines ask and print, by field, for people
    ending       how a tool ends: with a line in place of a traceback
    compare      runs a program over scripts, compares what it prints, and cuts a script down that differs

The rules are those of KIP-848 and of the Kafka protocol guide, and this project's own where these leave a choice
(docs/MODEL.md). Nothing here is taken from the program.
"""

import sys

if sys.version_info < (3, 9):
    sys.exit(f"Python 3.9 or later is needed, and this is {sys.version.split()[0]}")
