"""Runs the definitions of the laws as they stand in the .antt files of crates/, on transcripts."""
