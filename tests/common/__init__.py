"""What the scripts share: how they check and end, the programs that they run, and the services that they ask."""
