"""The C library, as it is compiled without proofs, and checks of it.

    unproved how tools/build-library --unproved makes it
    checks   what is checked, and how it is run
    reply.c  answers the lines of `coord reply` through the library, also with allocations refused, and times heartbeats
    edges.c  short bodies, short buffers, empty slots, faults of topics, snapshots
"""
