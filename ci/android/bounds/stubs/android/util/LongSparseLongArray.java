package android.util;

import java.util.ArrayList;
import java.util.List;

/** Numbers by numbers, as the sizes that were measured by what was asked for. */
public class LongSparseLongArray {
    private final List<Long> keys = new ArrayList<>();
    private final List<Long> values = new ArrayList<>();

    public LongSparseLongArray(int capacity) {
    }

    public int indexOfKey(long key) {
        return keys.indexOf(key);
    }

    public long valueAt(int place) {
        return values.get(place);
    }

    public void put(long key, long value) {
        int at = keys.indexOf(key);
        if (at < 0) {
            keys.add(key);
            values.add(value);
        } else {
            values.set(at, value);
        }
    }

    public void clear() {
        keys.clear();
        values.clear();
    }
}
