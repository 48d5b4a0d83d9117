"""The modules of bench/run and bench/hostile."""
