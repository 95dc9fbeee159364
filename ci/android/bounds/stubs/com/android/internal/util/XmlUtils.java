package com.android.internal.util;

public class XmlUtils {
    public static int convertValueToInt(CharSequence text, int otherwise) {
        throw new IllegalStateException("a text in the place of a number");
    }

    public static boolean convertValueToBoolean(CharSequence text, boolean otherwise) {
        throw new IllegalStateException("a text in the place of a boolean");
    }
}
