"""The modules of blackbox/simulate."""
