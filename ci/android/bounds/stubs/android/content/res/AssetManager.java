package android.content.res;

/** How a TypedArray keeps its values. */
class AssetManager {
    static final int STYLE_NUM_ENTRIES = 2;
    static final int STYLE_TYPE = 0;
    static final int STYLE_DATA = 1;
    static final int STYLE_RESOURCE_ID = 1;
}
