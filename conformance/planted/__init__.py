"""Coordinators with a planted fault each: `python3 -m conformance.planted` shows by which cases the suite finds them.

    faults.txt    the faults, each an edit of the rules in Python (conformance/rules) and the case that has to find it
    variants.txt  what is no fault: no case that must hold may fail with it
    kafka         a model of Apache Kafka's coordinator, which is one of these
    found.json    by which cases each fault was found
    faults        reads them, and makes copies of the rules with one
    stand         starts the broker in Python with one
    __main__      the command
"""
