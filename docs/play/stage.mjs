/** The picture, with the chosen view and the paths of touches over it. Points are those of the stack. */
import { by, drawn, picked } from "./page.mjs";
import { onStack } from "./views.mjs";

const WAYS = { down: 2, move: 2, up: 0 };

/** The paths of pointers, by the lines of touches. */
function pathsOf(touches) {
    const found = [], open = new Map();
    for (const { words: [whole, pointer, x, y] } of touches) {
        const word = whole.replace(/^s/, "");
        if (word === "down") {
            open.set(pointer, []);
            found.push(open.get(pointer));
        }
        if (WAYS[word] && open.has(pointer)) open.get(pointer).push([Number(x), Number(y)]);
    }
    return found;
}

/** A path as a drawing has it; that of one point has a second one, so that there is a line. */
function wayOf(points) {
    const [x, y] = points[0], more = points.length === 1 ? [[x, y + 0.01]] : [];
    return [...points, ...more].map((it) => it.join()).join(" ");
}

export class Stage {
    /** `chosen` is called with a point that is clicked, `touched` with the events of a pointer that touches. */
    constructor(chosen, touched) {
        Object.assign(this, { chosen, touched, picture: null, row: null, touches: [], pointers: new Map() });
        const stage = by("stage");
        for (const kind of ["pointerdown", "pointermove", "pointerup", "pointercancel"]) {
            stage.addEventListener(kind, (it) => this.take(it));
        }
        addEventListener("keydown", (it) => it.key === "Escape" && this.cancel());
        by("zoom").addEventListener("change", () => this.size());
        by("mode").addEventListener("change", () => stage.classList.toggle("touching", picked("mode") === "touch"));
        new ResizeObserver(() => this.size()).observe(by("s-picture"));
    }

    /** Shows a picture, or none. */
    show(picture, touches) {
        this.picture = picture;
        this.touches = touches;
        by("stage").parentElement.hidden = !picture;
        if (!picture) return;
        const canvas = by("picture"), { width, height, origin } = picture;
        if (canvas.width !== width || canvas.height !== height) Object.assign(canvas, { width, height });
        canvas.getContext("2d").putImageData(new ImageData(picture.pixels, width, height), 0, 0);
        canvas.setAttribute("aria-label", `Picture of the last frame, ${width} by ${height} pixels`);
        by("marks").setAttribute("viewBox", [...origin, width, height].join(" "));
        this.size();
        this.mark(this.row);
    }

    /** Gives the picture the size that was asked for. */
    size() {
        if (!this.picture) return;
        const zoom = picked("zoom"), { width, height } = this.picture;
        const room = by("stage").parentElement.clientWidth;
        const most = Math.min(room / width, (0.75 * innerHeight) / height);
        const scale = zoom === "fit" ? (most > 1 ? Math.min(Math.floor(most), 8) : most) : Number(zoom);
        by("stage").style.width = width * scale + "px";
        by("stage").style.height = height * scale + "px";
        by("picture").classList.toggle("large", scale >= 1);
    }

    /** Draws the chosen view, or window, and the paths. */
    mark(row) {
        this.row = row;
        const found = [];
        for (const points of pathsOf(this.touches).map(wayOf)) {
            found.push(drawn("polyline", { points, class: "under" }), drawn("polyline", { points, class: "path" }));
        }
        const box = boxOf(row);
        if (box) {
            const [x, y, right, bottom] = box, sides = { x, y, width: right - x, height: bottom - y };
            found.push(drawn("rect", { ...sides, class: "around" }), drawn("rect", { ...sides, class: "chosen" }));
        }
        by("marks").replaceChildren(...found);
    }

    /** The point of the stack that is under a pointer. */
    point(event) {
        const box = by("stage").getBoundingClientRect(), { width, height, origin: [left, top] } = this.picture;
        return [left + Math.floor(((event.clientX - box.left) * width) / box.width),
            top + Math.floor(((event.clientY - box.top) * height) / box.height)];
    }

    /** The number of a pointer in lines: the least that is free. */
    numberOf(id) {
        if (!this.pointers.has(id)) {
            const taken = new Set(this.pointers.values());
            this.pointers.set(id, [...Array(32).keys()].find((it) => !taken.has(it)));
        }
        return this.pointers.get(id);
    }

    /** Takes the gesture away. */
    cancel() {
        if (!this.pointers.size) return;
        this.pointers.clear();
        this.touched("cancel", 0, [0, 0], true);
    }

    take(event) {
        if (!this.picture || (event.type === "pointerdown" && event.button !== 0)) return;
        if (picked("mode") === "choose" && !this.pointers.size) {
            if (event.type === "pointerdown") this.chosen(...this.point(event));
            return;
        }
        if (event.type === "pointerdown") by("stage").setPointerCapture(event.pointerId);
        else if (!this.pointers.has(event.pointerId)) return;
        const number = this.numberOf(event.pointerId);
        if (event.type === "pointercancel") return void this.cancel();
        if (event.type === "pointerup") this.pointers.delete(event.pointerId);
        this.touched(event.type.slice("pointer".length), number, this.point(event), this.pointers.size === 0);
    }
}

/** Where the view of a row, or its window, is on the stack; nothing where it is nowhere. */
export function boxOf(row) {
    if (!row) return null;
    const box = row.view ? row.view.window : row.window.size && [0, 0, ...row.window.size];
    return box && onStack(row.window, box);
}
