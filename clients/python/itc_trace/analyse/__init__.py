"""Finds the races of a trace, those that are possible, and those across parts, by questions to the collector, and
leaves out what a baseline or a comment silences."""
