package android.content.res;

import android.util.DisplayMetrics;

/** The density of a screen. */
public class Resources {
    public final DisplayMetrics mMetrics = new DisplayMetrics();

    public Resources(int density) {
        mMetrics.density = density / 160f;
        mMetrics.scaledDensity = mMetrics.density;
        mMetrics.xdpi = density;
        mMetrics.ydpi = density;
    }

    public DisplayMetrics getDisplayMetrics() {
        return mMetrics;
    }
}
