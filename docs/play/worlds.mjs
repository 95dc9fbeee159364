/** The world of a window: its views and its size, as lines are carried out in it. */
import { windowOf } from "./lines.mjs";
import { FOLLOWED, Tree } from "./tree.mjs";

export class World {
    /** `dump` returns the lines of a layout file of a name. */
    constructor(dump) {
        this.tree = new Tree(dump);
        this.size = null;
    }

    /** What a line that was carried out, with these words and these texts of its reply, made of it. */
    follow(words, line, texts) {
        this.size = windowOf(words) || this.size;
        if (FOLLOWED.includes(words[0])) this.tree.follow(words, line, texts[0]);
    }

    /** The views where they lie, or the number of the refusal by which there are no bounds, by the answer to
     * `bounds`. */
    views(texts) {
        const number = refusalIn(texts);
        return number ? { views: [], noViews: number } : { views: this.tree.placed(texts), noViews: 0 };
    }
}

/** The number of the refusal that an answer is; 0 where it is none. */
export const refusalIn = (texts) => Number((/^line [0-9]+: refused ([0-9]+) /.exec(texts[0] || "") || [0, 0])[1]);
