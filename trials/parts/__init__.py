"""Trials of the scripts, a file each."""
