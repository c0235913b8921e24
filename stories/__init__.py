"""Scripts of `coord run`, stories and recorded traffic, told as tables and drawn as pictures.

    names      names for error codes, refusals and topics, and sets of partitions in short
    reading    a script line by line, with what each prints: by a file, a program, or the rules in conformance/rules
    notation   stories as they are written, made into scripts, and told of scripts
    events     what happens in a line
    story      what happens in each line, and who holds what after it
    recording  the frames of recorded traffic: by the broker, or in a packet capture
    capture    recorded traffic as a story, and as lines for `coord reply`
    words      the words for what happens
    table      a story as a table of text
    svg        shapes and texts
    picture    a story as a picture: its messages, bars, lanes and legend
    command    the commands
    tests      what tools/check-pictures checks

Who holds what is what the clients themselves believe that they may read (docs/TWO-MEMBERS.md). It follows from the
replies that they take, by the rules for a client; where a script settles, from the rules for a whole world.
"""

import sys

if sys.version_info < (3, 9):
    sys.exit(f"Python 3.9 or later is needed, and this is {sys.version.split()[0]}")
