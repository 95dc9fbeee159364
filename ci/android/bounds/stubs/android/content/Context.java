package android.content;

import android.content.res.Resources;
import android.content.res.TypedArray;
import android.util.AttributeSet;

/** Gives views their attributes, as a layout file alone has them: there is no theme and no style. */
public class Context {
    private final Resources resources;

    public Context(Resources resources) {
        this.resources = resources;
    }

    public Resources getResources() {
        return resources;
    }

    public ApplicationInfo getApplicationInfo() {
        return new ApplicationInfo();
    }

    public TypedArray obtainStyledAttributes(AttributeSet set, int[] wanted) {
        return new TypedArray(resources, set, wanted);
    }

    public TypedArray obtainStyledAttributes(AttributeSet set, int[] wanted, int style, int other) {
        return obtainStyledAttributes(set, wanted);
    }

    /** An app for API level 23 that supports both directions. */
    public static class ApplicationInfo {
        public final int targetSdkVersion = 23;

        public boolean hasRtlSupport() {
            return true;
        }
    }
}
