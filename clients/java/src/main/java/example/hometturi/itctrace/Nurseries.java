package example.hometturi.itctrace;

import example.hometturi.itctrace.Row.Site;
import java.io.IOException;
import java.util.function.Supplier;

/**
 * Starts tasks for those that have many. A task that starts a task halves what is left of its identity in the clock.
 * So the last ones of many have long identities, and long stamps. From some number of children on a task has nurseries:
 * tasks of which each starts some for it, and does nothing else. {@code docs/long-runs.md} has the proof that this
 * orders nothing else. All is done with the tracer's lock held.
 */
final class Nurseries {
    private static final String HINT = "itc_nursery";
    /** What a message to a nursery is called. */
    static final String MESSAGE = "place";

    /** From how many children on that nobody has joined a task has nurseries, and how many each of these starts. */
    record Width(int children, int places) {
        private static final Width OWN = new Width(32, 32);

        /** By two numbers, as in "2 3". */
        static Width of(String text) throws IOException {
            if (text.isEmpty()) {
                return OWN;
            }
            if (!text.matches("[0-9]{1,9} [1-9][0-9]{0,8}")) {
                String fault = " is " + text + ", which is not two numbers: set it to two as in \"32 32\"";
                throw new IOException(Environment.NURSERIES + fault);
            }
            String[] words = text.split(" ");
            return new Width(Integer.parseInt(words[0]), Integer.parseInt(words[1]));
        }
    }

    /** Reports an event of a task. */
    interface Reports {
        void tell(Task task, String kind, String name, Site site, String label);
    }

    /** What a task or a nursery knows of the tasks that it has started itself. */
    static class Offspring {
        /** How many of them nobody has joined yet. */
        int unjoined;
        /** The nursery that starts the next ones, if it is that of a task that has one with a place left. */
        private Nursery nursery;
    }

    private static final class Nursery extends Offspring {
        private final Task line;
        /** That of its task, to which it belongs itself. */
        private final Offspring of;
        private int started;
        /** How many events its task had when it was told last. It is 0 before. */
        private int told;
        /** How many of its tasks somebody may still join. */
        private int awaited;

        private boolean isOver;
        private Gone.Watched watched;

        private Nursery(Task line, Offspring of) {
            this.line = line;
            this.of = of;
        }
    }

    private final Width width;
    private final Names names;
    /** What the relay of a trace in parts is told. Null without one. */
    private final Gone gone;

    private final Reports reports;

    Nurseries(Width width, Names names, Gone gone, Reports reports) {
        this.width = width;
        this.names = names;
        this.gone = gone;
        this.reports = reports;
    }

    /** The parent, of which all is reported, starts the child. A nursery is told by a fresh message. */
    void start(Task parent, Task child, Site site, Supplier<String> freshMessage) {
        String label = "start " + child.name;
        if (parent.offspring.unjoined < width.children) {
            parent.offspring.unjoined++;
            child.starter = parent.offspring;
            reports.tell(parent, "spawn", child.name, site, label);
            return;
        }
        Nursery nursery = of(parent);
        tell(parent, nursery, site, label, freshMessage);
        nursery.started++;
        nursery.unjoined++;
        nursery.awaited++;
        child.starter = nursery;
        reports.tell(nursery.line, "spawn", child.name, site, label);
        if (nursery.started == width.places) {
            end(parent);
        }
    }

    /** The nursery of the task that has a place left. */
    private Nursery of(Task parent) {
        if (parent.offspring.nursery == null) {
            Nursery made = new Nursery(new Task(names.fresh(HINT)), parent.offspring);
            made.watched = gone == null ? null : gone.watch(made, made.line.name);
            parent.offspring.unjoined++;
            parent.offspring.nursery = made;
            reports.tell(parent, "spawn", made.line.name, Site.NONE, "start " + made.line.name);
        }
        return parent.offspring.nursery;
    }

    /** Has the nursery come after all that the parent has done. Nothing is told if it was told since. */
    private void tell(Task parent, Nursery nursery, Site site, String label, Supplier<String> freshMessage) {
        if (nursery.told == parent.events) {
            return;
        }
        String message = freshMessage.get();
        reports.tell(parent, "send", message, site, label);
        reports.tell(nursery.line, "recv", message, Site.NONE, label);
        nursery.told = parent.events;
        if (gone != null) {
            gone.received(message);
        }
    }

    /** Ends the nursery of the task that has a place left, if there is one. */
    void end(Task parent) {
        Nursery over = parent.offspring.nursery;
        if (over != null) {
            parent.offspring.nursery = null;
            over.isOver = true;
            reports.tell(over.line, "end", null, Site.NONE, "end");
        }
    }

    /** The same of a task that ends itself, so that nobody joins the nursery. */
    void leave(Task parent) {
        Nursery left = parent.offspring.nursery;
        end(parent);
        tellLeft(left);
    }

    /** The task has joined the other one, and joins its nursery too if that was the last one of its own nursery. */
    void joined(Task task, Task child) {
        Offspring starter = child.starter;
        child.starter = null;
        if (starter == null) {
            return;
        }
        starter.unjoined--;
        if (!(starter instanceof Nursery nursery)) {
            return;
        }
        nursery.awaited--;
        if (nursery.isOver && nursery.unjoined == 0 && nursery.of == task.offspring) {
            task.offspring.unjoined--;
            reports.tell(task, "join", nursery.line.name, Site.NONE, "join " + nursery.line.name);
            if (gone != null) {
                gone.forget(nursery.watched);
            }
        } else if (nursery.isOver && nursery.awaited == 0) {
            tellLeft(nursery);
        }
    }

    /** Nobody can join the task any more. */
    void left(Task child) {
        if (child.starter instanceof Nursery nursery && --nursery.awaited == 0 && nursery.isOver) {
            tellLeft(nursery);
        }
        child.starter = null;
    }

    private void tellLeft(Nursery nursery) {
        if (gone != null && nursery != null) {
            gone.leave(nursery.watched);
        }
    }
}
