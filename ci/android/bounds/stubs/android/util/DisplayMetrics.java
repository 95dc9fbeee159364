package android.util;

public class DisplayMetrics {
    public float density;
    public float scaledDensity;
    public float xdpi;
    public float ydpi;
}
