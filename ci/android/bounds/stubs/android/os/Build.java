package android.os;

public class Build {
    public static class VERSION_CODES {
        public static final int HONEYCOMB = 11;
        public static final int JELLY_BEAN_MR1 = 17;
        public static final int JELLY_BEAN_MR2 = 18;
        public static final int KITKAT = 19;
        public static final int LOLLIPOP = 21;
        public static final int M = 23;
    }

    public static class VERSION {
        public static final int SDK_INT = 23;
    }
}
