import java.lang.reflect.InvocationTargetException;
import java.lang.reflect.Method;
import java.nio.file.Files;
import java.nio.file.Path;
import java.nio.file.Paths;
import java.util.Collections;
import java.util.Map;
import vindaesk.Vindaesk;

/**
 * Tests of screens, as JUnit runs them: each method whose name begins with {@code test} is one. The argument is the folder
 * with page.xml and app/resources.arsc.
 */
public final class ScreenTest {
    private static final String FRAME = "window 360 640\ninflate page.xml\nframe\nbounds\n";
    private final Path folder;

    private ScreenTest(Path folder) {
        this.folder = folder;
    }

    void testRootFillsTheWindow() throws Exception {
        assertHas("\nv1 0 0 360 640\n", Vindaesk.run(FRAME, page()));
    }

    void testStackOfWindows() {
        assertHas("v1\n", Vindaesk.stack("at 0 0 0\nin 0 window 9 9\nin 0 add root View 1 1\n", Collections.emptyMap()));
    }

    void testNoViewToTheLeft() {
        String script = "window 100 50\nadd root View 30 20\nframe\n";
        assertHas("\nfocus none\n", Vindaesk.focus(script, Vindaesk.Side.LEFT, "v1", Collections.emptyMap()));
    }

    void testPrintOfALayout() throws Exception {
        assertHas("start ", Vindaesk.dump("page.xml", page().get("page.xml")));
    }

    void testNameOfAnApp() throws Exception {
        byte[] table = Files.readAllBytes(folder.resolve("app").resolve("resources.arsc"));
        assertHas("7f020000", Vindaesk.lookup("resources.arsc", table, 0x7f020000));
    }

    void testLineThatIsRefused() {
        Vindaesk.Answer answer = Vindaesk.run("?\n");
        if (!answer.isRefused()) {
            throw new AssertionError("not refused: " + answer);
        }
    }

    private Map<String, byte[]> page() throws Exception {
        return Collections.singletonMap("page.xml", Files.readAllBytes(folder.resolve("page.xml")));
    }

    private static void assertHas(String part, Vindaesk.Answer answer) {
        if (!answer.toString().contains(part)) {
            throw new AssertionError("no '" + part + "' in: " + answer);
        }
    }

    public static void main(String[] words) throws Exception {
        int count = 0;
        int failures = 0;
        for (Method it : ScreenTest.class.getDeclaredMethods()) {
            if (it.getName().startsWith("test")) {
                count++;
                try {
                    it.invoke(new ScreenTest(Paths.get(words[0])));
                } catch (InvocationTargetException failed) {
                    failures++;
                    System.out.println(it.getName() + ": " + failed.getCause());
                }
            }
        }
        System.out.println(failures == 0 ? "OK (" + count + " tests)" : "Tests run: " + count + ", Failures: " + failures);
        System.exit(failures == 0 ? 0 : 1);
    }
}
