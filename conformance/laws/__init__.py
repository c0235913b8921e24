"""The laws of the protocol over random runs of the rules in Python: `python3 -m conformance.laws` tells of each turned rule which law is false of it.

    steps           a group's state and one event with what came of it, as the laws see them
    of_group_types, of_group_core, of_coord_node, of_machine_laws, of_node_laws
                    the laws of these crates, each by the name that it has in the crate's src/laws.rt
    of_runs         laws that are looked at here alone: nothing proves them of the definitions
    runs            random runs of a coordinator, and which laws are false of them
    turned          the rules with one of them turned into a wrong one
    turned.txt      the turned rules, and who refuses each

A law here says what its name says in `crates/`, in words of its own: it takes no rule from `conformance/rules`. That it is false of a run shows that
the rule is wrong. That it holds of all runs proves nothing; the proof is the crate's.
"""
