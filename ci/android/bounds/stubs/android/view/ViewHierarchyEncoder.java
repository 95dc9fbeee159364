package android.view;

public class ViewHierarchyEncoder {
    public void addProperty(String name, Object value) {
    }

    public void beginObject(Object object) {
    }

    public void endObject() {
    }
}
