"""A second reading of how problems are trained on and stage programs answered, in plain whole numbers and with nothing tuned.

These modules share no code with the program. A program of columns and rows is answered along a chain (`ladder`), by a dual simplex in
numbers of 64 bits (`simplex`, `rays`, on a `table` in the scale of `scaling`), and where that is of no use by the same method in numbers
of 128 bits (`wide`). Duals become certificates in `settling`, and points become decisions that meet their rows in `mending`.

A problem's file is read in `problem`, and its stage programs are made in `stages`. Along paths that are drawn in `drawing`, `training`
makes cuts of certificates (`cuts`), for which realizations are solved in the order of `ordering`, and `journal` keeps them. `reports` has what is
printed of it, of scenarios and of the cost of a policy.
"""
