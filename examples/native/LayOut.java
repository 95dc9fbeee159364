import java.io.IOException;
import java.nio.file.Files;
import java.nio.file.Paths;
import java.util.Collections;
import vindaesk.Vindaesk;

/** Lays out a compiled layout file in a window of 360 by 640 pixels, and prints the bounds of its views. */
public final class LayOut {
    public static void main(String[] words) throws Exception {
        if (words.length != 1) {
            fail("usage: java -Djava.library.path=. LayOut FILE");
        }
        byte[] file = null;
        try {
            file = Files.readAllBytes(Paths.get(words[0]));
        } catch (IOException error) {
            fail(words[0] + " cannot be read");
        }
        String script = "window 360 640\ninflate page.xml\nframe\nbounds\n";
        Vindaesk.Answer answer = Vindaesk.run(script, Collections.singletonMap("page.xml", file));
        System.out.print(answer);
        System.exit(answer.status);
    }

    private static void fail(String why) {
        System.err.println(why);
        System.exit(2);
    }
}
