package example.hometturi.itctrace;

import example.hometturi.itctrace.Cell.Place;
import example.hometturi.itctrace.Tracer.Watching;

/** Things of which it is known who has touched them. Each has a number. */
interface Touched {
    /** The two may race at the thing of this number. */
    void meet(Run before, Run after, int index);

    /** Too many have touched the thing, and this one is kept no more. */
    void forget(Run run, int index);

    /** Some of those that are kept no more may race with this one. */
    void meetForgotten(Run run, int index, boolean isWritten);

    /** The history that is like this one, if there is one already. */
    History known(History history);

    /** What is told of a touch. */
    Watching watching(int index, Place place);
}
