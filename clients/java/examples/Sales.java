import example.hometturi.itctrace.Traced;
import java.io.IOException;
import java.nio.file.Files;
import java.nio.file.Path;
import java.nio.file.StandardCopyOption;

/** The sales of the shop: see clients/shop/shop.py. Usage: java Sales FOLDER [fixed] */
public final class Sales {
    private static final int REST_MILLISECONDS = 10;

    /** Comes after what the store did, by the message in its file. */
    private static void waitFor(Path done) throws IOException, InterruptedException {
        while (!Files.exists(done)) {
            Thread.sleep(REST_MILLISECONDS);
        }
        Traced.incoming(Files.readString(done));
    }

    private static void handOn(Path folder) throws IOException {
        Path fresh = folder.resolve("sales.fresh");
        Files.writeString(fresh, Traced.outgoing().orElse("none"));
        Files.move(fresh, folder.resolve("sales.done"));
    }

    public static void main(String[] words) throws Exception {
        Path folder = Path.of(words[0]);
        boolean isFixed = words.length > 1;
        if (isFixed) {
            waitFor(folder.resolve("store.done"));
        }
        Traced.touchAcross("stock file", false); // race: shop
        int left = Integer.parseInt(Files.readString(folder.resolve("stock")));
        Traced.touchAcross("stock file", true); // race: shop
        Path written = Files.writeString(folder.resolve("sales.stock"), String.valueOf(left - 1));
        Files.move(written, folder.resolve("stock"), StandardCopyOption.REPLACE_EXISTING);
        if (isFixed) {
            handOn(folder);
        }
        System.out.println("the sales are 1");
    }
}
