"""Random sources, stimuli and scripts for the program, and the loop that compares."""
