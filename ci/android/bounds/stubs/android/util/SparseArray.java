package android.util;

import java.util.ArrayList;
import java.util.List;
import java.util.Map;
import java.util.TreeMap;

/** Objects by whole numbers, in the order of these. */
public class SparseArray<E> {
    private final TreeMap<Integer, E> found = new TreeMap<>();

    public E get(int key) {
        return found.get(key);
    }

    public void put(int key, E value) {
        found.put(key, value);
    }

    public void remove(int key) {
        found.remove(key);
    }

    public void clear() {
        found.clear();
    }

    public int size() {
        return found.size();
    }

    public int keyAt(int place) {
        return entries().get(place).getKey();
    }

    public E valueAt(int place) {
        return entries().get(place).getValue();
    }

    private List<Map.Entry<Integer, E>> entries() {
        return new ArrayList<>(found.entrySet());
    }
}
