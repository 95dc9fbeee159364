/** The page: an editor whose script is carried out as one types, and what it comes to. */
import { Carrier } from "./carrier.mjs";
import { Editor } from "./editor.mjs";
import { Held } from "./held.mjs";
import { decoded, encoded, wordsOf } from "./lines.mjs";
import { MOST, fromBase64, hashOf, ofHash } from "./link.mjs";
import { fileRows, messages, touchRows } from "./lists.mjs";
import { by, made, pick, picked } from "./page.mjs";
import { Stage, boxOf } from "./stage.mjs";
import { UNSEEN } from "./stacks.mjs";
import { Touching } from "./touching.mjs";
import { Views } from "./views.mjs";

// how long the page waits for the next key, in milliseconds, and how much of an answer it shows, in characters
const PAUSE = 60, SHOWN = 200000;
// the first words of lines that a stack alone has, and one that a window alone has
const OF_STACKS = ["at", "in", "raise", "close", "compose", "sdown", "smove", "sup", "scancel"];
const OF_WINDOWS = ["window"];

const BROKEN = "The link is cut short or wrong: it holds no script. Ask for it once more, or for the script.";

const data = JSON.parse(by("data").textContent);
const examples = data.examples.map(({ name, form, script, files }) => ({
    name, form, script: fromBase64(script),
    files: Object.fromEntries(Object.entries(files).map(([key, file]) => [key, fromBase64(file)])),
}));
const carrier = new Carrier(by("worker").textContent, fromBase64(data.module), data.tables);
const editor = new Editor(() => soon(PAUSE), (length) => {
    const why = `With this text the script has ${length} characters, too many to be edited here`;
    say(why + ": save it as a file, and add that.");
});
const held = new Held(editor, Object.assign({}, ...examples.map((it) => it.files)));
const touching = new Touching();
const views = new Views((row) => {
    stage.mark(row);
    by("tap").disabled = !(row && row.view && row.view.window);
});
const stage = new Stage((x, y) => views.chooseAt(x, y), touched);

let timer = 0;
// what the last run came to, for a check and for the console
globalThis.play = { open, take, carrier, runs: 0 };

const say = (text) => {
    by("note").textContent = text;
};

/** Has the script carried out in some time, from now. */
function soon(time) {
    clearTimeout(timer);
    const begun = performance.now();
    timer = setTimeout(() => run(begun), time);
}

async function run(begun) {
    by("state").setAttribute("aria-busy", "true");
    const { script, form, files } = held, pane = by("pane").value;
    const given = { script, form, files, pane: pane === "" ? null : Number(pane) };
    const { found, error, isOld } = await carrier.run(given);
    if (isOld) return;
    by("state").removeAttribute("aria-busy");
    by("state").classList.toggle("failed", Boolean(error));
    if (error) by("state").textContent = `No answer: ${error}.`;
    else show(found, form);
    requestAnimationFrame(() => {
        const runs = globalThis.play.runs + 1, took = performance.now() - begun;
        globalThis.play = { open, take, carrier, ...found, error, script, took, runs };
    });
}

/** Shows what a script of a form came to. */
function show(found, form) {
    const { refused, touches, picture, answer, windows } = found;
    editor.show(refused.filter((it) => !it.file));
    by("state").textContent = stateOf(found, form);
    by("messages").replaceChildren(...messages(refused, (it) => editor.go(it)));
    showPanes(found, form);
    touching.show(form, windows);
    stage.show(picture, touches);
    by("nothing").textContent = picture ? "" : nothing("There is no picture", found.noPicture);
    views.show(windows);
    const without = windows.find((it) => it.noViews);
    const where = without && without.pane !== null ? ` of the window ${without.pane}` : "";
    by("no-views").textContent = without ? nothing("There are no bounds" + where, without.noViews) : "";
    by("touches").replaceChildren(...touchRows(touches));
    by("touches").scrollTop = by("touches").scrollHeight;
    by("no-touches").hidden = touches.length > 0;
    const text = decoded(answer);
    const more = text.length > SHOWN ? `\n.. and ${text.length - SHOWN} characters more` : "";
    by("answer").textContent = text.slice(0, SHOWN) + more;
}

/** How a script ended, in a sentence; and where its lines are those of the other form, how that is chosen. */
function stateOf({ refused, status }, form) {
    const count = refused.length, lines = count > 1 ? `${count} lines are` : `${count || "no"} line is`;
    const rows = editor.text.split("\n"), others = form === "run" ? OF_STACKS : OF_WINDOWS;
    const other = refused.find((it) => !it.file && others.includes(wordsOf(encoded(rows[it.line - 1] || ""))[0]));
    const hint = form === "run" ? "a stack of windows" : "one window";
    const more = other ? ` Line ${other.line} is of ${hint}, which can be chosen above.` : "";
    return `Status ${status}, ${lines} refused.${more}`;
}

/** Shows which windows of a stack there are to be shown. */
function showPanes({ windows, pane }, form) {
    by("panes").hidden = form === "run";
    const all = made("option", "all, as they lie", { value: "" });
    by("pane").replaceChildren(all, ...windows.map((it) => made("option", String(it.pane), { value: it.pane })));
    by("pane").value = pane ?? "";
}

function nothing(what, number) {
    return `${what}: ${data.tables.nothing[number] || UNSEEN[number] || "refusal " + number}.`;
}

/** Adds lines to the script. */
function add(lines) {
    if (held.fixed) return say(held.fixed);
    for (const it of lines) editor.append(it);
    soon(0);
}

/** Takes an event of a pointer that touches. */
function touched(kind, ...event) {
    const lines = touching.lines(kind, ...event);
    if (kind !== "move" || !editor.text.endsWith(lines[0] + "\n")) add(lines);
}

/** Opens a script with its files. */
function open(bytes, files, form = "run") {
    held.open(bytes, files, form);
    opened();
}

/** Shows what was opened. */
function opened() {
    pick("form", held.form);
    by("link").hidden = true;
    by("pane").value = "";
    showFiles();
    soon(0);
}

function openExample(name) {
    const found = examples.find((it) => it.name === name);
    open(found.script, { ...found.files }, found.form);
    by("example").value = name;
}

function showFiles() {
    by("files").replaceChildren(...fileRows(held.files, (name) => {
        delete held.files[name];
        showFiles();
        by("upload").focus();
        soon(0);
    }));
}

/** Adds files, of which scripts are opened. */
async function take(given) {
    const said = [];
    for (const it of given) {
        const bytes = await it.arrayBuffer().catch(() => null);
        said.push(bytes ? held.take(it.name, new Uint8Array(bytes)) : `${it.name} cannot be read; it may be a folder.`);
    }
    say(said.filter(Boolean).join(" "));
    by("example").value = "";
    opened();
}

async function share() {
    if (held.fixed) return say(held.fixed);
    const own = held.ownFiles;
    const hash = await hashOf(editor.text, held.form, own);
    const link = location.href.split("#")[0] + hash;
    if (link.length > MOST) {
        const why = `The link would have ${link.length} characters, and many programs cut those of more than ${MOST}`;
        return say(why + ": save the script instead.");
    }
    history.replaceState(null, "", hash);
    Object.assign(by("link"), { hidden: false, value: link });
    const isCopied = await navigator.clipboard.writeText(link).then(() => true, () => false);
    if (!isCopied) by("link").select();
    held.keep();
    const without = own.length ? ` It does not hold ${own.join(", ")}.` : "";
    say((isCopied ? "The link is copied." : "Here is the link.") + without);
}

/** Opens the script of the page's address. Returns whether there is one. */
async function openLink() {
    const found = await ofHash(location.hash).catch(() => ({ isBroken: true }));
    if (found && found.isBroken) say(BROKEN);
    if (!found || found.isBroken) return false;
    const { script, form, without } = found, { ofExamples } = held;
    const named = [...script.matchAll(new RegExp(data.inflating, "gm"))].map((it) => it[1]);
    const there = named.filter((it) => Object.hasOwn(ofExamples, it) && !without.includes(it));
    open(encoded(script), Object.fromEntries(there.map((it) => [it, ofExamples[it]])), form);
    by("example").value = "";
    const them = without.length > 1 ? "them" : "it";
    say(without.length ? `The link does not hold ${without.join(", ")}: add ${them}.` : "");
    return true;
}

function save() {
    const name = held.form === "stack" ? "play.stack" : "play.script";
    const link = made("a", undefined, { download: name, href: URL.createObjectURL(new Blob([held.script])) });
    link.click();
    URL.revokeObjectURL(link.href);
    held.keep();
}

by("version").textContent = data.version;
by("example").append(made("option", "(own script)", { value: "" }));
by("example").append(...examples.map((it) => made("option", it.name, { value: it.name })));
by("example").onchange = () => {
    say("");
    if (by("example").value) openExample(by("example").value);
};
by("upload").onchange = () => take([...by("upload").files]).then(() => (by("upload").value = ""));
by("share").onclick = share;
by("save").onclick = save;
by("tap").onclick = () => add(touching.tap(boxOf(stage.row)));
by("pane").onchange = () => soon(0);
by("form").onchange = () => {
    held.form = picked("form");
    soon(0);
};
addEventListener("hashchange", openLink);
addEventListener("beforeunload", (it) => held.isUnsaved && it.preventDefault());
for (const kind of ["dragover", "dragleave", "drop"]) {
    addEventListener(kind, (it) => {
        it.preventDefault();
        document.body.classList.toggle("dropping", kind === "dragover");
        if (kind === "drop") take([...it.dataTransfer.files]);
    });
}
openLink().then((isOpen) => isOpen || openExample(data.first));
