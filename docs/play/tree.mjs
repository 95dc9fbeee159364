/** The views of a script, line by line: what lines make of them that the reply of `bounds` does not say. As
 * tools/vindaesk/views/view_tree.py follows them, but for backgrounds. */
import { decoded, unescaped, withoutReturn } from "./lines.mjs";
import { elementsIn, lastPart, reference } from "./layouts.mjs";

const LOST = "the views could not be followed; this is a mistake of the page";
const VISIBILITIES = ["visible", "invisible", "gone"];

/** The text at the end of a line, without its escapes. */
function textOf(form, line) {
    const found = form.exec(decoded(withoutReturn(line)));
    return found ? unescaped(found[1]) : "";
}

function* andBelow(view) {
    yield view;
    for (const child of view.children.values()) yield* andBelow(child);
}

/** One method a line; `words` are those of the line, `reply` is the last that the program says of it. */
class Lines {
    constructor(dump) {
        this.dump = dump;
        this.root = null;
        this.views = new Map();
        this.texts = new Map();
    }

    /** The view of a number, or the first in preorder of an id. */
    view(name) {
        if (name[0] === "v") return this.views.get(Number(name.slice(1)));
        const id = parseInt(name.slice(1), 16);
        for (const it of andBelow(this.root)) if (it.id === id) return it;
        return undefined;
    }

    put(number, parent, kind) {
        const made = { number, parent, kind, depth: parent ? parent.depth + 1 : 1, children: new Map(), id: 0,
            text: kind === "TextView" ? "" : null, visibility: VISIBILITIES[0] };
        this.views.set(number, made);
        if (parent) parent.children.set(number, made);
        else this.root = made;
        return made;
    }

    add(words, line, reply) {
        this.put(Number(reply.slice(1)), words[1] === "root" ? null : this.view(words[1]), words[2]);
    }

    inflate(words, line, reply) {
        const place = words.length === 4 ? this.view(words[3]) : null, first = Number(reply.split(" ")[1].slice(1));
        elementsIn(this.dump(words[1])).forEach((it, at) => {
            const parent = it.parent === null ? place : this.views.get(first + it.parent);
            this.dress(this.put(first + at, parent, lastPart(it.name)), it.attributes);
        });
    }

    /** Gives a new view what the attributes of its element say. */
    dress(view, attributes) {
        const [id, visibility, text] = ["id", "visibility", "text"].map((it) => attributes.get(it));
        if (id) view.id = id.word;
        if (visibility) view.visibility = VISIBILITIES[visibility.word];
        if (text && view.text !== null) {
            const [isReference, number] = reference(text);
            view.text = isReference ? (number ? this.texts.get(number) : "") : text.text || "";
        }
    }

    remove(words) {
        const view = this.view(words[1]);
        for (const it of andBelow(view)) this.views.delete(it.number);
        if (view.parent) view.parent.children.delete(view.number);
        else this.root = null;
    }

    id(words) {
        this.view(words[1]).id = parseInt(words[2].slice(1), 16);
    }

    text(words, line) {
        this.view(words[1]).text = textOf(/^ *text +[^ ]+ (.*)$/s, line);
    }

    visible(words) {
        this.view(words[1]).visibility = words[2];
    }

    res(words, line) {
        const number = parseInt(words[1].slice(1), 16);
        this.texts.delete(number);
        if (words[2] === "text") this.texts.set(number, textOf(/^ *res +[^ ]+ +text (.*)$/s, line));
    }
}

/** The first words of lines that say something of views. */
export const FOLLOWED = ["add", "inflate", "remove", "id", "text", "visible", "res"];

export class Tree extends Lines {
    /** What a line that was carried out, one of FOLLOWED, made of the views. */
    follow(words, line, reply) {
        this[words[0]](words, line, reply);
    }

    /** All views in preorder where they lie, by the lines of `bounds`. */
    placed(lines) {
        const views = this.root ? [...andBelow(this.root)] : [], windows = new Map();
        if (views.length !== lines.length) throw new Error(LOST);
        return views.map((view, at) => {
            const [name, ...words] = lines[at].split(" ");
            if (name !== "v" + view.number) throw new Error(LOST);
            const bounds = words[0] === "none" ? null : words.slice(0, 4).map(Number);
            const scroll = words[4] === "scroll" ? Number(words[5]) : null;
            const around = view.parent ? windows.get(view.parent.number) : { left: 0, top: 0 };
            const shifted = (it, side) => it + (side % 2 ? around.top : around.left);
            const window = bounds && around ? bounds.map(shifted) : null;
            windows.set(view.number, window && { left: window[0], top: window[1] - (scroll || 0) });
            const { number, depth, kind, id, text, visibility } = view;
            return { number, depth, kind, id, text, visibility, bounds, window, scroll };
        });
    }
}

/** The characters that JSON escapes in a text of a message. */
const quoted = (text) => JSON.stringify(text).replace(/[\ud800-\udfff]/g, (it) => it);

/** A view as a line of `vindaesk tree`, without what it is indented by. */
export function rowOf(it) {
    const words = ["v" + it.number, it.kind];
    if (it.id) words.push(it.name);
    if (it.text) words.push(quoted(it.text));
    words.push(it.bounds ? it.bounds.join(" ") : "none");
    if (it.window && it.window.join() !== it.bounds.join()) words.push("at " + it.window.join(" "));
    if (it.scroll !== null) words.push("scroll " + it.scroll);
    if (it.visibility !== "visible") words.push(it.visibility);
    return words.join(" ");
}
