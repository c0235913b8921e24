"""When a broker of a cluster over etcd has clients.

A client asks one broker who coordinates its group, and asks no other one as long as that answers and stays connected. So a broker that isn't a
member of the cluster, and doesn't know who leads what, closes the connections of clients: they go to the others.
"""

from __future__ import annotations

import asyncio
import time
from typing import Callable

from broker.acceptor import Work, until_one_ends
from broker.lease import Lease
from broker.members import Members
from broker.output import say

# How long clients stay while there is no lease: longer than etcd takes to elect a leader, and much shorter than a session.
NO_LEASE_SECONDS = 5.0
LOOK_SECONDS = 0.1


async def serve_while_member(members: Members, lease: Lease, serve: Callable[[], Work], refuse: Callable[[], Work]) -> None:
    """Serves clients from when this broker is a member until it has had no lease for some time, again and again. Refuses them at other times."""
    while True:
        await until_one_ends([_is_member(members), refuse()])
        await until_one_ends([_has_no_lease(lease), serve()])
        say(f"clients' connections are closed, since this broker has had no lease in etcd for {NO_LEASE_SECONDS:g} s")


async def _is_member(members: Members) -> None:
    while not members.is_member():
        await asyncio.sleep(LOOK_SECONDS)


async def _has_no_lease(lease: Lease) -> None:
    held = time.monotonic()
    while time.monotonic() - held <= NO_LEASE_SECONDS:
        await asyncio.sleep(LOOK_SECONDS)
        if lease.is_held():
            held = time.monotonic()
