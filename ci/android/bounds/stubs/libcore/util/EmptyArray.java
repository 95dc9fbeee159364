package libcore.util;

public class EmptyArray {
    public static final int[] INT = {};
    public static final long[] LONG = {};
    public static final Object[] OBJECT = {};
}
