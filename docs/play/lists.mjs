/** The lists below the script: refused lines, files, and touches. */
import { made, pressed } from "./page.mjs";

// how many refused lines are listed
const MOST = 100;

const listed = (inner) => {
    const row = made("li");
    row.append(inner);
    return row;
};

/** The rows of refused lines; one of the script itself leads to its word by `go`. */
export function messages(refused, go) {
    const rows = refused.slice(0, MOST).map((it) => {
        const text = `${it.file && it.file + ":"}${it.line}:${it.column}: ${it.title}: ${it.why}`;
        return listed(it.file ? made("span", text) : pressed(text, () => go(it)));
    });
    const more = refused.length - MOST;
    return more > 0 ? [...rows, listed(made("span", `and ${more} more`))] : rows;
}

/** The rows of files, each with a button by which it is removed. */
export const fileRows = (files, remove) => Object.entries(files).map(([name, it]) => {
    const row = made("li", `${name}, ${it.length} bytes`);
    row.append(pressed("Remove", () => remove(name), { "aria-label": "Remove " + name }));
    return row;
});

/** The rows of touches, of which the last one is open. */
export const touchRows = (touches) => touches.map(({ line, words, replies }, at) => {
    const found = made("details", undefined, at === touches.length - 1 ? { open: "" } : {});
    const summary = `line ${line}: ${words.join(" ")} → ${replies[replies.length - 1] || "nothing"}`;
    found.append(made("summary", summary), made("pre", replies.join("\n")));
    return listed(found);
});
