package android.widget;

import android.content.Context;
import android.util.AttributeSet;
import android.view.View;

/** A text of cells of 6 by 8 pixels, by the rules of docs/LAYOUT.md. */
public class TextView extends View {
    private static final int CELL_WIDTH = 6;
    private static final int CELL_HEIGHT = 8;
    private final String[] lines;

    public TextView(Context context, AttributeSet attributes) {
        super(context, attributes, 0, 0);
        AttributeSet.Value text = attributes.values.get("text");
        lines = (text == null || text.text == null ? "" : text.text).split("\n", -1);
    }

    @Override
    protected void onMeasure(int widthSpec, int heightSpec) {
        int longest = 0;
        for (String it : lines) {
            longest = Math.max(longest, it.codePointCount(0, it.length()));
        }
        int wanted = longest * CELL_WIDTH + mPaddingLeft + mPaddingRight;
        int width = resolveSize(Math.max(wanted, getSuggestedMinimumWidth()), widthSpec);
        int inLine = Math.max((width - mPaddingLeft - mPaddingRight) / CELL_WIDTH, 1);
        int count = 0;
        for (String it : lines) {
            count += Math.max((it.codePointCount(0, it.length()) + inLine - 1) / inLine, 1);
        }
        int high = count * CELL_HEIGHT + mPaddingTop + mPaddingBottom;
        setMeasuredDimension(width, resolveSize(Math.max(high, getSuggestedMinimumHeight()), heightSpec));
    }
}
