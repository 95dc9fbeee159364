/** The lines that touches of the picture add to the script. */
import { windowAt } from "./views.mjs";

export class Touching {
    constructor() {
        Object.assign(this, { form: "run", windows: [], pane: null });
    }

    /** Takes over the windows of a script of a form, from below. */
    show(form, windows) {
        Object.assign(this, { form, windows });
    }

    /** The lines of an event of a pointer at a point of the stack; after the last one of a gesture there is a frame. */
    lines(kind, number, [x, y], isLast) {
        const before = this.form === "stack" ? "s" : "";
        const whole = ` ${number} ${x} ${y}`, place = { down: whole, move: whole, up: ` ${number}`, cancel: "" }[kind];
        if (kind === "down" && !isLast) this.pane = windowAt(this.windows, x, y)?.pane ?? null;
        return [before + kind + place, ...(isLast ? this.frame() : [])];
    }

    /** A frame of the window that has the gesture. */
    frame() {
        if (this.form === "run") return ["frame"];
        return this.pane === null ? [] : [`in ${this.pane} frame`];
    }

    /** A tap in the middle of a box. */
    tap([left, top, right, bottom]) {
        const point = [(left + right) >> 1, (top + bottom) >> 1];
        return [...this.lines("down", 0, point, false), ...this.lines("up", 0, point, true)];
    }
}
