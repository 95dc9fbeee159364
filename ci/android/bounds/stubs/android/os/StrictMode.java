package android.os;

public class StrictMode {
    public static void noteResourceMismatch(Object value) {
        throw new IllegalStateException("a value of another type");
    }
}
