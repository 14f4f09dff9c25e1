"""`mds_trials`, which makes calls of the library that no command makes. A script that imports this ends here if there is no such program."""

from common.programs import program

TRIALS = program(2, "crates/mds_trials/out/mds_trials")
