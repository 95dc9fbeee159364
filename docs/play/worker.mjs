/** The page's worker: it holds the module, and carries out one script after the other. */
import { Vindaesk } from "../../bindings/web/vindaesk.mjs";
import { outcome } from "./runner.mjs";

// a module with nothing but a memory of 64 bits
const WIDE = Uint8Array.of(0, 0x61, 0x73, 0x6d, 1, 0, 0, 0, 5, 3, 1, 4, 0);
const TOO_OLD = "this browser runs no WebAssembly with 64-bit memory, as Chromium from 133 and Firefox from 134 on do";

let loading = null, tables = null;

/** Why there is no answer. */
function reasonOf(error) {
    if (!WebAssembly.validate(WIDE)) return TOO_OLD;
    const said = String((error && error.message) || error);
    const isBroken = error instanceof WebAssembly.RuntimeError || error instanceof RangeError;
    return isBroken ? `the module has failed (${said}), and is begun anew with the next script` : said;
}

self.onmessage = async ({ data }) => {
    if (data.module) {
        tables = data.tables;
        loading = Vindaesk.load(data.module);
        // whoever waits for it says why
        loading.catch(() => {});
        return;
    }
    try {
        const found = outcome(await loading, data.given, tables);
        const moved = [found.answer.buffer, ...(found.picture ? [found.picture.pixels.buffer] : [])];
        self.postMessage({ found }, moved);
    } catch (error) {
        self.postMessage({ error: reasonOf(error) });
    }
};
