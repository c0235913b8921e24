"""A conformance suite for members of KIP-848's groups: `python3 -m conformance members -- COMMAND` judges any client by what it sends.

    apis.txt, codec     the requests and replies that are played, as a table
    record, faults      what is seen of a client; what is done to replies
    coordinator, stage  the coordinator (the rules in Python) and the broker around it
    program             the client: its command, its output, its end
    watch               the checker that goes over each request of each case
    play, case, cases   what a case may do, and the cases: a module for each topic
    runner, command     the run, side by side, and the command line
    consumer, planted   a consumer of our own, which passes; wrong ones, and others that do nothing wrong
    table               the section "Members" of docs/CONFORMANCE.md
"""
