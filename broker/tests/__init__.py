"""Tests of the front end. `tools/check-broker [PROGRAM]` runs them."""

import logging

# Event loops of tests warn of each turn that takes a tenth of a second, as any does on a busy machine.
logging.getLogger("asyncio").setLevel(logging.ERROR)
