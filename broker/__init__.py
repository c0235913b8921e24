"""A Kafka broker for stock consumers, in Python: `python3 -m broker --help` says how to run it.

    fields, records                   primitive fields, and record batches
    versions, frames, call, codes     which APIs are spoken, a request's header, a request with its connection, and error codes
    topics, log, offsets              what a broker has: topics, their records, committed offsets
    cluster                           the brokers, and which of them coordinates a group
    apis                              a module for each API that is answered
    heartbeats, commits               the messages that the coordinator answers, as far as they are read here
    link, relay                       a coordinator in this process, and a client's connection
    rules, library                    the rules of the protocol in Python as a coordinator, and the C library
    acceptor, streams, room           the taking of connections in order, and bounds on how long streams may take and how much waits
    turns                             long work in pieces, so that nobody else waits for it
    output, record                    lines by a thread of their own, and the record of all frames
    partitions, groups, watch         what the frames tell of the groups
    words, metrics, report, status    the same in words and numbers, as JSON, and as a page
    etcd, lease, trouble              a client of etcd, a lease in it, and what goes wrong for a time
    batches, part, clock              a part's log in etcd, and a leader's time, which stands still with the log
    following, leading                a replica that applies the log, and a leadership, which appends to it
    snapshots, snapshotting           snapshots in etcd; how a leader writes them and cuts the log
    machine, newest, serving          the version of the state machine, a member's last connection, and when this broker has clients
    feed, measures                    the news of such a log, and counts
    settings, members, balance        a cluster over etcd: its settings, its brokers, and how they share the leaderships
    etcd_cluster                      the same as a cluster and a coordinator
    command_line, __main__            the program
"""

import sys

if sys.version_info < (3, 9):
    sys.exit(f"Python 3.9 or later is needed, and this is {sys.version.split()[0]}")
