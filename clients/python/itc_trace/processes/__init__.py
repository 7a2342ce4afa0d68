"""What goes on beside the process that is traced: children that are not traced, collectors for its
parts, and the relay."""
