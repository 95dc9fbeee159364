package android.view;

import java.util.Arrays;
import java.util.Collections;
import java.util.HashSet;
import java.util.Set;

/** The known differences in which Android's classes do as the program does, for the tree that is laid out. */
public class Known {
    private static Set<String> names = Collections.emptySet();

    public static void set(String words) {
        names = new HashSet<>(Arrays.asList(words.split(",")));
    }

    public static boolean is(String name) {
        return names.contains(name);
    }
}
