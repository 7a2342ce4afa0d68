"""What a program calls by itself: tracing, and messages by hand."""
