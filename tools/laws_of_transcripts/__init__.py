"""The laws of transcripts as checkers: what `tools/laws` runs."""
