/** A script of a stack of windows. The module carries out such a script as a whole; so it is given once with a line
 * after each that is always refused, which says which texts belong to which line, and once with questions at its
 * end. */
import { encoded, failureOf, joined, textsOf, wordsOf } from "./lines.mjs";
import { Picture, asked } from "./pixels.mjs";
import { World, refusalIn } from "./worlds.mjs";

const MARK = encoded("?\n"), FEED = encoded("\n");
const OF_WINDOW = / *in +([0-7]) +/y;
// how many lines are carried out, and how many pixels are shown, for all are in one answer
const MOST_LINES = 1 << 18;
const MOST_PIXELS = 1 << 22, MOST_SIDE = 4096;
const TOO_LARGE = -1, OUTSIDE = -2;

/** Why a stack of windows has no picture here, by the number that is given for it. */
export const UNSEEN = {
    [TOO_LARGE]: `it would have more than ${MOST_PIXELS} pixels; tools/screenshot --stack writes it`,
    [OUTSIDE]: "no window has a part from the point 0 0 of the stack on",
};

export const STACK_TOUCHES = ["sdown", "smove", "sup", "scancel"];

/** Windows in their order from below, each with its corner, as the lines of a stack leave them. */
class Windows {
    constructor(dump) {
        Object.assign(this, { dump, found: [] });
    }

    of(pane) {
        return this.found.find((it) => it.pane === pane);
    }

    /** What a line that was carried out made of them. */
    follow(words, line, texts) {
        const pane = Number(words[1]), its = this.of(pane);
        if (words[0] === "at") {
            const corner = [Number(words[2]), Number(words[3])];
            if (its) its.corner = corner;
            else this.found.push({ pane, corner, world: new World(this.dump) });
        }
        if (words[0] === "close" || words[0] === "raise") this.found = this.found.filter((it) => it !== its);
        if (words[0] === "raise") this.found.push(its);
        if (words[0] === "in") {
            const inner = line.subarray(innerAt(line));
            its.world.follow(wordsOf(inner), inner, texts);
        }
    }

    /** The part of the stack that the windows with a size take up, as far as a line can ask for it; nothing where there
     * is none. */
    box() {
        const sized = this.found.filter((it) => it.world.size);
        const [[left, width], [top, height]] = [0, 1].map((side) => {
            const least = Math.max(Math.min(...sized.map((it) => it.corner[side])), 0);
            const most = Math.max(...sized.map((it) => it.corner[side] + it.world.size[side]));
            return [least, Math.min(most - least, MOST_SIDE)];
        });
        return width > 0 && height > 0 && left < MOST_SIDE && top < MOST_SIDE ? { left, top, width, height } : null;
    }
}

/** All of some lines, which are not too many. */
function firstOf(given, most) {
    const found = [], why = `the script of a stack has more than ${most} lines; ./vindaesk stack takes more`;
    for (const it of given) {
        if (found.push(it) > most) throw new Error(why);
    }
    return found;
}

/** Where the line of a window begins in a line of a stack. */
function innerAt(line) {
    OF_WINDOW.lastIndex = 0;
    return OF_WINDOW.test(String.fromCharCode(...line)) ? OF_WINDOW.lastIndex : 0;
}

export class StackRun {
    /** `finding` makes what is said of a refused line; `dump` returns the lines of a layout file. */
    constructor(vindaesk, files, { finding, dump }) {
        Object.assign(this, { vindaesk, files, finding, windows: new Windows(dump) });
        Object.assign(this, { refused: [], touches: [], status: 0 });
    }

    /** The answer to lines. */
    answer(parts) {
        const { page, status } = this.vindaesk.stack(joined(parts), this.files);
        if (status > 1) throw failureOf(status);
        return page;
    }

    /** Carries out lines, of which `given` has the bytes, and asks for the views and for the picture of a window, or of
     * all of them. */
    carryOut(given, pane) {
        const lines = firstOf(given, MOST_LINES), page = this.answer(lines.flatMap((it) => [it.text, FEED, MARK]));
        this.attribute(lines, textsOf(page));
        const open = this.windows.found.map((it) => `in ${it.pane} bounds`), shown = this.windows.of(pane);
        const part = this.part(shown), word = shown ? `in ${pane} pixels` : "compose";
        const isTooLarge = part !== null && part.width * part.height > MOST_PIXELS;
        const colours = part && !isTooLarge ? asked(word, part.left, part.top, part.width, part.height) : [];
        const questions = [...open, ...colours];
        const whole = this.answer([...lines.flatMap((it) => [it.text, FEED]), MARK,
            ...questions.flatMap((it) => [encoded(it), FEED, MARK])]);
        const pages = partedBy(whole, lines.length + 1, questions.length);
        const windows = this.windows.found.map(({ pane, corner, world }, at) =>
            ({ pane, corner, size: world.size, ...world.views(textsOf(pages[at + 1])) }));
        const picture = this.picture(part && !isTooLarge ? part : null, shown, pages.slice(open.length + 1));
        const { refused, touches, status } = this;
        return { answer: pages[0].slice(), status, refused, touches, windows, pane: shown ? pane : null,
            ...(isTooLarge ? { picture: null, noPicture: TOO_LARGE } : picture) };
    }

    /** The part of the stack, or of one window, that is shown. */
    part(shown) {
        if (!shown) return this.windows.box();
        const [width, height] = shown.world.size || [1, 1];
        return { left: 0, top: 0, width, height };
    }

    picture(part, shown, pages) {
        if (!part) return { picture: null, noPicture: OUTSIDE };
        const found = new Picture(part.width, part.height);
        for (const page of pages) {
            const number = refusalIn(page.length < 100 ? textsOf(page) : []);
            if (number) return { picture: null, noPicture: number };
            found.add(page);
        }
        return { picture: found.made(shown ? shown.corner : [part.left, part.top]), noPicture: 0 };
    }

    /** Gives each line the texts that it has in the answer to lines with marks. */
    attribute(lines, texts) {
        let at = 0;
        lines.forEach((it, place) => {
            const mark = `line ${2 * place + 2}: refused `, begun = at;
            while (!texts[at].startsWith(mark)) at++;
            this.line(it, wordsOf(it.text), texts.slice(begun, at), `line ${2 * place + 1}: refused `);
            at++;
        });
    }

    line(it, words, texts, refused) {
        if (texts.length && texts[0].startsWith(refused)) {
            this.status = 1;
            this.refused.push(this.finding(it, words, texts[0].slice(refused.length - "refused ".length)));
            return;
        }
        this.windows.follow(words, it.text, texts);
        if (STACK_TOUCHES.includes(words[0])) this.touches.push({ line: it.number, words, replies: texts });
    }
}

/** The parts of an answer: the one up to the mark that is the line of a number, and the one to each question after
 * it. */
function partedBy(page, number, count) {
    const found = [];
    let begun = 0;
    for (let k = 0; k <= count; k++) {
        const mark = encoded(`line ${number + 2 * k}: refused 31 Syntax\n`), at = placeOf(page, mark, begun);
        found.push(page.subarray(begun, at));
        begun = at + mark.length;
    }
    return found;
}

/** Where a line begins in an answer, from a place on which is the begin of a line. */
function placeOf(page, line, from) {
    for (let at = from; at < page.length; ) {
        if (line.every((it, k) => page[at + k] === it)) return at;
        const feed = page.indexOf(10, at);
        at = feed < 0 ? page.length : feed + 1;
    }
    throw new Error("the answer to a stack of windows has no end; this is a mistake of the page");
}
