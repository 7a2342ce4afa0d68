package example.hometturi.itctrace;

import example.hometturi.itctrace.Cell.Place;
import example.hometturi.itctrace.Row.Called;
import example.hometturi.itctrace.Tracer.Watching;

/** What is known of what an object has, which its views have, too: of its shape, and of each of its elements. */
final class Content {
    /** What an object has. */
    enum Form {
        /** Parts by numbers, and of these as many as it was made with. */
        ARRAY,
        /** Parts by numbers. */
        LIST,
        /** Values by keys. */
        MAP,
        /** What is in it or is not. Nothing takes the place of another thing. */
        BAG,
        /** Nobody knows. */
        WHOLE
    }

    private static final String SOME = "..";

    final Form form;
    /** The shape of a collection, or the whole object. Null of an array. */
    final Cell shape;
    /** Null of what has no elements that are told apart. */
    final Parts elements;
    /** Null of what has no keys. */
    final Keys keys;

    private final Called called;
    private final int length;
    private String thing;

    Content(Form form, Called called, int length, Keys keys) {
        this.form = form;
        this.called = called;
        this.length = length;
        this.keys = keys;
        shape = form == Form.ARRAY ? null : new Cell(called);
        elements = form == Form.ARRAY || form == Form.LIST || form == Form.MAP ? new Parts(this) : null;
    }

    boolean isKnown() {
        return form != Form.WHOLE;
    }

    /** How many elements there are at most. */
    int length() {
        return length;
    }

    /** What all elements are called that nobody tells apart. */
    Called calledAll() {
        String all = named(SOME);
        return new Called(all, all, called.made());
    }

    private String named(String element) {
        String name = called.name();
        int end = form == Form.ARRAY ? name.indexOf("[]") : -1;
        return end < 0 ? name + "[" + element + "]" : name.substring(0, end) + "[" + element + "]" + name.substring(end + 2);
    }

    /** What is told of a touch of the element. */
    synchronized Watching watching(int index, Place place) {
        if (thing == null) {
            thing = called.name() + " " + Cell.nextNumber();
        }
        Keys.Named key = keys == null ? new Keys.Named(Integer.toString(index), index) : keys.named(index, SOME);
        Called one = new Called(named(key.key()), named(SOME), called.made());
        return new Watching(thing + "[" + key.serial() + "]", one, place.kind());
    }
}
