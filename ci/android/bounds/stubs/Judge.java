import android.content.Context;
import android.content.res.Resources;
import android.util.AttributeSet;
import android.view.Known;
import android.view.View;
import android.view.ViewGroup;
import android.widget.FrameLayout;
import android.widget.LinearLayout;
import android.widget.RelativeLayout;
import android.widget.ScrollView;
import android.widget.TextView;

import java.io.BufferedReader;
import java.io.IOException;
import java.io.InputStreamReader;
import java.io.PrintStream;
import java.nio.charset.StandardCharsets;
import java.util.ArrayList;
import java.util.List;

/**
 * Lays out trees with Android's classes. Of each tree it reads a line "tree WIDTH HEIGHT DENSITY KNOWN,..", of each view a line
 * "DEPTH CLASS NAME=TYPE:WORD ..", the texts in hexadecimal, and a line "end"; it writes the bounds of the views in
 * their parents, a line each, "none" for one that is gone or in one that is, and a line "end".
 */
public class Judge {
    private static final PrintStream OUT = new PrintStream(System.out, false);

    /** The group of a window, which has a direction. */
    static class Window extends FrameLayout {
        Window(Context context) {
            super(context);
            setLayoutDirection(View.LAYOUT_DIRECTION_LTR);
        }
    }

    static View made(String name, Context context, AttributeSet attributes) {
        switch (name) {
            case "View": return new View(context, attributes, 0, 0);
            case "TextView": return new TextView(context, attributes);
            case "FrameLayout": return new FrameLayout(context, attributes, 0, 0);
            case "LinearLayout": return new LinearLayout(context, attributes, 0, 0);
            case "RelativeLayout": return new RelativeLayout(context, attributes, 0, 0);
            case "ScrollView": return new ScrollView(context, attributes, 0, 0);
            default: throw new IllegalArgumentException(name);
        }
    }

    static AttributeSet attributes(String[] words) {
        AttributeSet found = new AttributeSet();
        for (int i = 2; i < words.length; i++) {
            int is = words[i].indexOf('=');
            int colon = words[i].indexOf(':');
            int type = Integer.parseInt(words[i].substring(is + 1, colon));
            String rest = words[i].substring(colon + 1);
            boolean isText = type == 3;
            String text = isText ? text(rest) : null;
            int word = isText ? 0 : Integer.parseUnsignedInt(rest);
            found.values.put(words[i].substring(0, is), new AttributeSet.Value(type, word, text));
        }
        return found;
    }

    static String text(String digits) {
        byte[] bytes = new byte[digits.length() / 2];
        for (int i = 0; i < bytes.length; i++) {
            bytes[i] = (byte) Integer.parseInt(digits.substring(2 * i, 2 * i + 2), 16);
        }
        return new String(bytes, StandardCharsets.UTF_8);
    }

    static void layOut(String[] head, List<String> lines) {
        int width = Integer.parseInt(head[1]);
        int height = Integer.parseInt(head[2]);
        Known.set(head.length > 4 ? head[4] : "");
        Context context = new Context(new Resources(Integer.parseInt(head[3])));
        Window window = new Window(context);
        List<View> path = new ArrayList<>();
        List<View> all = new ArrayList<>();
        path.add(window);
        for (String line : lines) {
            String[] words = line.split(" ");
            int depth = Integer.parseInt(words[0]);
            AttributeSet attributes = attributes(words);
            View view = made(words[1], context, attributes);
            ViewGroup parent = (ViewGroup) path.get(depth);
            parent.addView(view, -1, parent.generateLayoutParams(attributes));
            while (path.size() > depth + 1) {
                path.remove(path.size() - 1);
            }
            path.add(view);
            all.add(view);
        }
        window.measure(View.MeasureSpec.makeMeasureSpec(width, View.MeasureSpec.EXACTLY),
                View.MeasureSpec.makeMeasureSpec(height, View.MeasureSpec.EXACTLY));
        window.layout(0, 0, width, height);
        for (View it : all) {
            OUT.println(isGone(it, window) ? "none" : it.getLeft() + " " + it.getTop() + " " + it.getRight() + " "
                    + it.getBottom());
        }
    }

    static boolean isGone(View view, View window) {
        for (View it = view; it != window; it = (View) it.getParent()) {
            if (it.getVisibility() == View.GONE) {
                return true;
            }
        }
        return false;
    }

    public static void main(String[] words) throws IOException {
        BufferedReader in = new BufferedReader(new InputStreamReader(System.in, StandardCharsets.UTF_8));
        List<String> lines = new ArrayList<>();
        String[] head = null;
        for (String line = in.readLine(); line != null; line = in.readLine()) {
            if (line.startsWith("tree ")) {
                head = line.split(" ");
                lines.clear();
            } else if (line.equals("end")) {
                try {
                    layOut(head, lines);
                } catch (RuntimeException | StackOverflowError error) {
                    OUT.println("refused " + error.toString().replace('\n', ' '));
                }
                OUT.println("end");
                OUT.flush();
            } else {
                lines.add(line);
            }
        }
    }
}
