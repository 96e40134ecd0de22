"""Training on many machines, none of them trusted (docs/use/CLUSTER.md). Outside the proved core.

A journal is a list of certificates, and a certificate holds wherever its cuts stand. So journals that were trained apart are joined by
renumbering, and the program's `check` proves the joined one, whoever found its records.
"""
