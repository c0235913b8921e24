"""Brokers over etcd under faults: what `tools/check-failover` is made of.

etcds        some etcd, and calls of their gateway
brokers      the brokers, and a relay before them
wires        what passes between brokers, etcd and clients, and whether it is late, lost, or done twice
packets      packets that are dropped, so that TCP sends them again
member       a consumer that is played
faults       the faults, as a table
latecomers   those by requests that come late
waits        how long programs had to wait for the machine
logs         the logs in etcd, run through the library, compared with the frames that passed
run          consumers in groups, the faults brought to them, and what must hold
speed        how fast brokers over etcd are

planted.txt has faults that are planted in brokers, and have to be found. The modules of tools/ that it uses are there if the tool starts it.
"""
