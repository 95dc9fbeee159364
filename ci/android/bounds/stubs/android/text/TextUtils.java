package android.text;

public class TextUtils {
    public static int getLayoutDirectionFromLocale(java.util.Locale locale) {
        return 0;
    }
}
