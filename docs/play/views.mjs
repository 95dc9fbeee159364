/** The list of views, of a stack below their windows. */
import { by, made } from "./page.mjs";
import { rowOf } from "./tree.mjs";

/** The views that are laid out and visible, as all around them. */
function seen(views) {
    const found = [], around = [];
    for (const it of views) {
        around.length = it.depth - 1;
        around.push(it.window !== null && it.visibility === "visible" && around.every(Boolean));
        if (around.every(Boolean)) found.push(it);
    }
    return found;
}

const isWithin = (x, y, [left, top, right, bottom]) => left <= x && x < right && top <= y && y < bottom;

/** A box of a window in the coordinates of the stack. */
export const onStack = ({ corner }, box) => box.map((it, side) => it + corner[side % 2]);

/** The topmost window that has a point of the stack in it. */
export const windowAt = (windows, x, y) =>
    windows.findLast((it) => it.size && isWithin(x, y, onStack(it, [0, 0, ...it.size])));

/** What a row says of a window of a stack. */
function titleOf({ pane, corner, size }, isTop) {
    const sized = size ? `${size[0]} by ${size[1]}` : "without a size";
    return `window ${pane} at ${corner.join(" ")}, ${sized}${isTop ? ", on top" : ""}`;
}

/** The rows of windows: of a view it and its window, of a window that alone; each with its level. */
function rowsOf(windows) {
    if (windows.length === 1 && windows[0].pane === null) {
        return windows[0].views.map((view) => ({ view, window: windows[0], level: view.depth, text: rowOf(view) }));
    }
    return [...windows].reverse().flatMap((window, at) => [
        { view: null, window, level: 1, text: titleOf(window, at === 0) },
        ...window.views.map((view) => ({ view, window, level: view.depth + 1, text: rowOf(view) })),
    ]);
}

export class Views {
    /** `chosen` is called with the row of the view that is chosen, or nothing. */
    constructor(chosen) {
        Object.assign(this, { chosen, windows: [], rows: [], at: -1 });
        by("tree").addEventListener("click", (it) => {
            const row = it.target.closest("li");
            if (row) this.choose([...by("tree").children].indexOf(row));
        });
        by("tree").addEventListener("keydown", (it) => this.take(it));
    }

    /** Shows windows, from below, with their views; the row that was chosen stays so. */
    show(windows) {
        const before = this.rows[this.at], unseen = new Set(windows.flatMap((it) => it.views));
        for (const it of windows.flatMap(({ views }) => seen(views))) unseen.delete(it);
        Object.assign(this, { windows, rows: rowsOf(windows) });
        by("tree").replaceChildren(...this.rows.map((it) => this.row(it, unseen.has(it.view))));
        this.choose(before ? this.rows.findIndex((it) => isSame(it, before)) : -1, false);
    }

    row({ view, level, text }, isUnseen) {
        const found = made("li", text, { role: "treeitem", "aria-level": level, tabindex: -1 });
        found.style.paddingLeft = 8 + 16 * (level - 1) + "px";
        if (isUnseen) found.classList.add("unseen");
        if (!view) found.classList.add("window");
        return found;
    }

    /** Chooses the row at a place, or none. */
    choose(at, isShown = true) {
        this.at = at;
        const rows = [...by("tree").children];
        for (const [place, it] of rows.entries()) {
            it.setAttribute("aria-selected", place === at);
            it.tabIndex = place === Math.max(at, 0) ? 0 : -1;
        }
        if (isShown && at >= 0) rows[at].scrollIntoView({ block: "nearest", inline: "nearest" });
        this.chosen(this.rows[at] || null);
    }

    /** Chooses the last view in preorder that is seen at a point of the stack, in the topmost window there. */
    chooseAt(x, y) {
        const window = windowAt(this.windows, x, y);
        const found = window && seen(window.views).findLast((it) => isWithin(x, y, onStack(window, it.window)));
        this.choose(this.rows.findIndex((it) => found && it.view === found));
    }

    /** Arrows go from row to row, left to the one around it and right to the first within it; Escape chooses none. */
    take(event) {
        const at = Math.max(this.at, 0), last = this.rows.length - 1, { level } = this.rows[at] || {};
        const around = this.rows.slice(0, at).findLastIndex((it) => it.level < level);
        const inner = this.rows[at + 1] && this.rows[at + 1].level > level ? at + 1 : at;
        const to = {
            ArrowDown: Math.min(at + 1, last), ArrowUp: Math.max(at - 1, 0), ArrowLeft: around < 0 ? at : around,
            ArrowRight: inner, Home: 0, End: last, Enter: at, " ": at, Escape: -1,
        }[event.key];
        if (to === undefined || last < 0) return;
        event.preventDefault();
        this.choose(to);
        by("tree").children[to < 0 ? 0 : to].focus();
    }
}

/** Whether two rows are of the same view, or of the same window. */
const isSame = (one, other) =>
    one.window.pane === other.window.pane && (one.view && one.view.number) === (other.view && other.view.number);
