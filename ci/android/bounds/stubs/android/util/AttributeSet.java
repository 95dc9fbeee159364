package android.util;

import java.util.HashMap;
import java.util.Map;

/** The attributes of one element by their names. */
public class AttributeSet {
    /** A value: its type and its word, as Android keeps them; and the text, where it is one. */
    public static class Value {
        public final int type;
        public final int data;
        public final String text;

        public Value(int type, int data, String text) {
            this.type = type;
            this.data = data;
            this.text = text;
        }
    }

    public final Map<String, Value> values = new HashMap<>();
}
