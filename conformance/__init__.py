"""A conformance suite for group coordinators of KIP-848: `python3 -m conformance HOST:PORT` plays members against any broker.

    wire, messages      primitive fields, and the messages that are made of them
    connection, broker  a connection with an end to each wait, and what a broker offers
    story, watch        the events in words, and the checker that sees each message
    member, play        a member, and what a case may do
    verdict             how a case ends before its end
    case, cases         the cases: what each is about in cases.txt, and a module for each topic
    starter, runner     a broker that is started again if it ends, and the run of the cases
    report, table       the results: for people, JSON, JUnit's XML; and docs/CONFORMANCE.md
    planted             coordinators with a fault each, and which case finds it; and some without a fault, also a model of Kafka's
"""

import sys

if sys.version_info < (3, 9):
    sys.exit(f"Python 3.9 or later is needed, and this is {sys.version.split()[0]}")
