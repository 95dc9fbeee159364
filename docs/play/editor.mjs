/** The editor: a text field with the numbers of its lines, and behind it each refused word and why it is refused. */
import { by, made } from "./page.mjs";

const LINE = 22;
// how much a text field takes, in which browsers stay quick
export const MOST_LINES = 20000;
export const MOST_BYTES = 1 << 20;

/** Where the first lines of a text, or of its bytes, end, up to a count. */
export function wholeLines(text, count) {
    const feed = typeof text === "string" ? "\n" : 10;
    let end = 0;
    for (let left = Math.max(count, 0); left > 0; left--) {
        const at = text.indexOf(feed, end);
        if (at < 0) return text.length;
        end = at + 1;
    }
    return end;
}

/** A row of a text from a column on, as a part of it: the word there. */
function partsOf(row, column) {
    const all = [...row], before = all.slice(0, column - 1), rest = all.slice(column - 1);
    const end = rest.findIndex((it) => it === " "), size = end < 0 ? rest.length : Math.max(end, 1);
    return [before.join(""), rest.slice(0, size).join(""), rest.slice(size).join("")];
}

export class Editor {
    /** `changed` is called after an edit, `tooLong` with the length of a text that is pasted and is too long. */
    constructor(changed, tooLong) {
        this.field = by("script");
        this.refused = new Map();
        this.field.addEventListener("input", () => {
            this.refused = new Map();
            this.rows = null;
            this.draw();
            changed();
        });
        this.field.addEventListener("scroll", () => this.draw());
        this.field.addEventListener("paste", (it) => {
            const text = it.clipboardData.getData("text/plain"), length = text.length + this.field.value.length;
            if (wholeLines(text, MOST_LINES - this.rows.length) === text.length && length <= MOST_BYTES) return;
            it.preventDefault();
            tooLong(length);
        });
        new ResizeObserver(() => this.draw()).observe(this.field);
    }

    get text() {
        return this.field.value;
    }

    set text(text) {
        this.field.value = text;
        this.field.setSelectionRange(0, 0);
        this.field.scrollTop = this.field.scrollLeft = 0;
        this.refused = new Map();
        this.rows = null;
        this.draw();
    }

    /** Whether the text cannot be edited. */
    set isFixed(it) {
        this.field.readOnly = it;
    }

    get isFixed() {
        return this.field.readOnly;
    }

    /** Adds a line at the end, and shows it. */
    append(line) {
        const text = this.field.value;
        this.field.value = text + (text === "" || text.endsWith("\n") ? "" : "\n") + line + "\n";
        this.rows = null;
        this.field.scrollTop = this.field.scrollHeight;
        this.draw();
    }

    /** Shows which lines are refused. */
    show(refused) {
        this.refused = new Map(refused.map((it) => [it.line, it]));
        this.draw();
    }

    /** Draws what is seen behind the field and beside it. */
    draw() {
        this.rows = this.rows || this.field.value.split("\n");
        const { scrollTop, scrollLeft, clientHeight } = this.field;
        const first = Math.floor(scrollTop / LINE);
        const seen = this.rows.slice(first, first + Math.ceil(clientHeight / LINE) + 1);
        by("back").replaceChildren(...seen.map((row, at) => this.line(row, this.refused.get(first + at + 1))));
        by("gutter").replaceChildren(...seen.map((_, at) => this.number(first + at + 1)));
        by("back").style.transform = `translate(${-scrollLeft}px, ${first * LINE - scrollTop}px)`;
        for (const it of by("gutter").children) it.style.transform = `translateY(${first * LINE - scrollTop}px)`;
        by("gutter").style.minWidth = String(this.rows.length).length + 2 + "ch";
    }

    number(number) {
        return made("div", String(number), this.refused.has(number) ? { class: "wrong" } : {});
    }

    line(row, refusal) {
        if (!refusal) return made("div");
        const [before, word, rest] = partsOf(row, refusal.column);
        const found = made("div", before, { class: "wrong" });
        const why = made("span", `${refusal.title}: ${refusal.why}`, { class: "why" });
        found.append(made("mark", word || " "), rest, why);
        return found;
    }

    /** Puts the cursor where a line is refused. */
    go({ line, column }) {
        const rows = this.rows.slice(0, line - 1), [before, word] = partsOf(this.rows[line - 1] || "", column);
        const at = rows.reduce((sum, it) => sum + it.length + 1, 0) + before.length;
        this.field.focus();
        this.field.setSelectionRange(at, at + word.length);
        this.field.scrollTop = Math.max((line - 5) * LINE, 0);
    }
}
