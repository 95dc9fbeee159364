/** A link that holds the script: packed, in letters that an address may have. */
import { decoded, encoded } from "./lines.mjs";

// longer links are cut by many programs
export const MOST = 16000;

const through = async (bytes, stream) =>
    new Uint8Array(await new Response(new Blob([bytes]).stream().pipeThrough(stream)).arrayBuffer());

const TO = { "+": "-", "/": "_", "=": "" }, FROM = { "-": "+", "_": "/" };

const toLetters = (bytes) =>
    btoa(Array.from(bytes, (it) => String.fromCharCode(it)).join("")).replace(/[+/=]/g, (it) => TO[it]);

export const fromBase64 = (text) =>
    Uint8Array.from(atob(text.replace(/[-_]/g, (it) => FROM[it])), (it) => it.charCodeAt(0));

const WORDS = { run: "script", stack: "stack" };

/** What follows the page's address: the script by its form, and the names of the files of the user's own, which are
 * not in it. */
export async function hashOf(script, form, names) {
    const packed = toLetters(await through(encoded(script), new CompressionStream("deflate-raw")));
    return `#${WORDS[form]}=` + packed + (names.length ? "&without=" + names.map(encodeURIComponent).join(",") : "");
}

/** The script of a link, its form, and the names of the files that are not in it; nothing where there is no link. */
export async function ofHash(hash) {
    if (hash === "" || hash === "#") return null;
    const [, word, packed, names] = /^#(script|stack)=([\w-]+)(?:&without=(.*))?$/.exec(hash);
    const script = decoded(await through(fromBase64(packed), new DecompressionStream("deflate-raw")));
    const form = Object.keys(WORDS).find((it) => WORDS[it] === word);
    return { script, form, without: names ? names.split(",").map(decodeURIComponent) : [] };
}
