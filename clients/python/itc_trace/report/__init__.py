"""Tells what was found."""
