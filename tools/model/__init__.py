"""Which definitions the public contracts reach.

definitions   the definitions of specs/, and what each of them uses
contracts     the public items of the crates, and the words of their clauses
"""
