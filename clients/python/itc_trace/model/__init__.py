"""What tasks do and touch, as values: nothing here starts a thread, asks the collector or changes the library."""
