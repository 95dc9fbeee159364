package vindaesk;

import java.nio.ByteBuffer;
import java.nio.ByteOrder;
import java.nio.charset.StandardCharsets;
import java.util.Collections;
import java.util.Locale;
import java.util.Map;

/**
 * Vindaesk in the process of the caller: scripts are carried out over bytes in memory.
 *
 * <p>Several threads may call at once. {@code include/vindaesk.h} says what a call does; the bytes of an answer are those
 * that the program writes. The library {@code vindaesk_jni} has to be on {@code java.library.path}.
 */
public final class Vindaesk {
    /** What a call returned. */
    public static final class Answer {
        /** All was carried out and nothing was refused: 0. A line, or the file, was refused: 1. */
        public final int status;

        private final byte[] page;

        private Answer(int status, byte[] page) {
            this.status = status;
            this.page = page;
        }

        /** Whether a line, or the file, was refused; the page says which and why. */
        public boolean isRefused() {
            return status == REFUSED;
        }

        /** The bytes of the page, a copy. */
        public byte[] bytes() {
            return page.clone();
        }

        /** The page as a text. */
        @Override
        public String toString() {
            return new String(page, StandardCharsets.UTF_8);
        }
    }

    private static final int ACCEPTED = 0;
    private static final int REFUSED = 1;
    private static final int USAGE = 2;
    private static final int NO_MEMORY = 5;
    private static final int LONG = 7;
    private static final int LENGTHS = 16;
    private static final byte[] NOTHING = {};
    private static final int[] NO_IDS = {};

    /** A function of the library, by its place; the shim has them in the same order. */
    private enum Function {
        RUN,
        STACK,
        FOCUS,
        DUMP,
        LOOKUP
    }

    /** A side of a view. */
    public enum Side {
        LEFT,
        RIGHT,
        UP,
        DOWN
    }

    static {
        System.loadLibrary("vindaesk_jni");
    }

    private Vindaesk() {}

    /** Carries out a script without layout files. */
    public static Answer run(String script) {
        return run(script, Collections.emptyMap());
    }

    /** Carries out a script; its lines {@code inflate} read these files, by their names. */
    public static Answer run(String script, Map<String, byte[]> files) {
        return answer(Function.RUN, bytes(script), NOTHING, NOTHING, files);
    }

    /** Carries out a script for a stack of windows. */
    public static Answer stack(String script, Map<String, byte[]> files) {
        return answer(Function.STACK, bytes(script), NOTHING, NOTHING, files);
    }

    /**
     * Carries out a script, and then says which view gets the focus next, from a view to a side of it. The view is named
     * as in a line of a script: {@code v2}, or {@code @7f010001}.
     */
    public static Answer focus(String script, Side side, String view, Map<String, byte[]> files) {
        byte[] word = bytes(side.name().toLowerCase(Locale.ROOT));
        return answer(Function.FOCUS, bytes(script), word, bytes(view), files);
    }

    /** Prints a compiled layout file. */
    public static Answer dump(String name, byte[] file) {
        return answer(Function.DUMP, bytes(name), NOTHING, NOTHING, Collections.singletonMap(name, file));
    }

    /** Prints what 1 to 64 resources hold in a compiled table of resources, one line each. */
    public static Answer lookup(String name, byte[] table, int... ids) {
        byte[][] given = {bytes(name), NOTHING, NOTHING, packed(Collections.singletonMap(name, table))};
        return answer(Function.LOOKUP, given, ids);
    }

    private static byte[] bytes(String text) {
        return text.getBytes(StandardCharsets.UTF_8);
    }

    private static Answer answer(Function function, byte[] first, byte[] side, byte[] view, Map<String, byte[]> files) {
        return answer(function, new byte[][] {first, side, view, packed(files)}, NO_IDS);
    }

    private static Answer answer(Function function, byte[][] given, int[] ids) {
        int[] status = new int[1];
        byte[] page = call(function.ordinal(), given, ids, status);
        switch (status[0]) {
            case ACCEPTED:
            case REFUSED:
                return new Answer(status[0], page);
            case USAGE:
                throw new IllegalArgumentException("no file or view can have this name, or there are no ids or too many");
            case LONG:
                throw new IllegalArgumentException("the script has more than 16777216 bytes");
            case NO_MEMORY:
                throw new OutOfMemoryError("Vindaesk");
            default:
                throw new IllegalStateException("status " + status[0]);
        }
    }

    /** The files in the form of {@code include/vindaesk.h}. */
    private static byte[] packed(Map<String, byte[]> files) {
        int size = 0;
        for (Map.Entry<String, byte[]> file : files.entrySet()) {
            size = Math.addExact(size, Math.addExact(LENGTHS + bytes(file.getKey()).length, file.getValue().length));
        }
        ByteBuffer buffer = ByteBuffer.allocate(size).order(ByteOrder.LITTLE_ENDIAN);
        for (Map.Entry<String, byte[]> file : files.entrySet()) {
            byte[] name = bytes(file.getKey());
            buffer.putLong(name.length).putLong(file.getValue().length).put(name).put(file.getValue());
        }
        return buffer.array();
    }

    /**
     * The page of a call, and its status in {@code status[0]}; null where there is no page. What is given: the script or
     * the name, the side, the view, and the buffer of files.
     */
    private static native byte[] call(int function, byte[][] given, int[] ids, int[] status);
}
