"""Takes notes in the threads of the program, and reports them: the session, the order of tasks, traced
children, the journal, and parts of a run."""
