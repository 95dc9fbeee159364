package libcore.util;

public class Objects {
    public static boolean equal(Object one, Object other) {
        return java.util.Objects.equals(one, other);
    }
}
