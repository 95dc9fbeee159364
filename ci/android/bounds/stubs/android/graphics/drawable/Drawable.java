package android.graphics.drawable;

import android.graphics.Rect;

/** There are no drawables: the layouts that are compared have colours alone. */
public class Drawable {
    public int getIntrinsicWidth() {
        return -1;
    }

    public int getMinimumWidth() {
        return 0;
    }

    public int getMinimumHeight() {
        return 0;
    }

    public int getIntrinsicHeight() {
        return -1;
    }

    public boolean getPadding(Rect padding) {
        return false;
    }
}
