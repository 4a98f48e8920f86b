"""Random runs, graphs and derivations; the models say what is right."""
