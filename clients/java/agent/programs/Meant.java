/** Programs with a race. Where a comment says that it is meant, it is silenced. A line that races all the same says so in a comment. */
public final class Meant {
    static int visits;
    static String said = "";

    static void both(Runnable act) throws InterruptedException {
        Thread alice = new Thread(act, "alice");
        Thread bob = new Thread(act, "bob");
        alice.start();
        bob.start();
        alice.join();
        bob.join();
    }

    static void counted() throws InterruptedException {
        both(
                () -> {
                    visits++; // itc: benign
                });
    }

    static void spelled() throws InterruptedException {
        both(
                () -> {
                    said = said + "// itc: benign"; // race: spelled
                    char quote = '"'; /* // itc: benign */
                    visits += quote; // race: spelled
                });
    }

    static void beside() throws InterruptedException {
        both(
                () -> {
                    // itc: benign
                    visits++; // race: beside
                });
    }

    private Meant() {}

    public static void main(String[] words) throws Exception {
        Meant.class.getDeclaredMethod(words[0]).invoke(null);
    }
}
