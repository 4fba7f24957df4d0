"""The commands over the proved program: `solve`, `minimize`, `core`, `hints`, `tidy`, `veripb`.

What is printed as a solution was tested by the program's `decode`, what is called an optimum was accepted by its `optimum`, and what is
said to have no solution was refuted by its `refute`. So nothing here, and no solver, need be believed. Each command is a function `main` of a module;
`python3 -m pbcnf.tools minimize OPB` runs it too.
"""

COMMANDS = {"cheapest": "minimize", "core": "core", "hints": "hints", "minimize": "minimize", "solve": "solve", "tidy": "tidy", "veripb": "veripb"}
"""The module of each command, by the command's name after `pbcnf-`. `cheapest` is the older name of `minimize`."""
