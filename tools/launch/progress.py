"""How long a build takes on this machine, by what it took elsewhere."""

from typing import Dict, List

from gate import crates

# The processor time of each crate's first proof on one machine, in seconds: by one job, and three tenths more, as several jobs take. It is their
# ratio that counts.
SECONDS: Dict[str, int] = dict(
    flex_wire=100, kip_msgs=330, group_types=145, topic_meta=80, range_assign=130, uniform_assign=320, group_target=35, group_reconcile=160,
    group_epochs=430, offset_guard=135, group_core=350, coord_node=200, coord_shards=350, member_core=180, link_futures=520, coord_server=550,
    world_sim=365, scenario_text=330, scenario_lines=500, scenario_cli=365, coord_c=90,
)  # fmt: skip
# What a crate is taken for that was never measured.
OTHERS = 200
# What part of the bound below a build takes, since a crate gets the processors that no other one waits for.
PACE = 0.5


class Progress:
    """What is left of a build, and how fast this machine is."""

    def __init__(self, tree: crates.Tree, names: List[str], lanes: int) -> None:
        self.tree, self.lanes = tree, lanes
        self.left = {it: SECONDS.get(it, OTHERS) for it in names}
        self.below = {it: {*tree.below(it)} for it in names}
        # The processor time of the crates that are done: here, and by `SECONDS`.
        self.spent = self.known = 0.0

    def chains(self) -> Dict[str, float]:
        """For each crate that is left, the time of the longest chain that begins with it, each crate resting on the one before."""
        found: Dict[str, float] = {}
        for crate in reversed(self.tree.lowest_first([*self.left])):
            behind = [time for it, time in found.items() if crate in self.below[it]]
            found[crate] = self.left[crate] + max(behind, default=0)
        return found

    def done(self, crate: str, processor: float) -> None:
        """Takes out a crate that took so much processor time."""
        self.known += self.left.pop(crate)
        self.spent += processor

    def time_left(self) -> str:
        """How long the rest takes where its crates are as fast or slow as those that are done: at least its longest chain."""
        bound = max([*self.chains().values(), sum(self.left.values()) / self.lanes])
        return about(PACE * bound * (self.spent / self.known if self.known else 1))


def about(seconds: float) -> str:
    return f"about {seconds / 60:.0f} min" if seconds >= 90 else f"about {max(round(seconds, -1), 10):.0f} s"
