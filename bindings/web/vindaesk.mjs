/** Vindaesk in a page or in Node: each call gives the bytes that the program writes, and its status.
 *
 *      const vindaesk = await Vindaesk.load(await (await fetch("vindaesk.wasm")).arrayBuffer());
 *      const { page, status } = vindaesk.run("window 9 9\ninflate a.xml\nframe\nbounds\n", { "a.xml": bytes });
 *
 * Scripts and files are texts or Uint8Arrays. include/vindaesk.h says what each call does. A module is used by one
 * thread. */

const SMALL = 8;
const ENCODER = new TextEncoder();
const bytesOf = (given) => (typeof given === "string" ? ENCODER.encode(given) : given);

/** The buffer of some files, by their names. */
function packed(files) {
    const parts = [];
    for (const [name, contents] of Object.entries(files).map((it) => it.map(bytesOf))) {
        const lengths = new BigUint64Array([BigInt(name.length), BigInt(contents.length)]);
        parts.push(new Uint8Array(lengths.buffer), name, contents);
    }
    const all = new Uint8Array(parts.reduce((sum, it) => sum + it.length, 0));
    parts.reduce((at, it) => (all.set(it, at), at + it.length), 0);
    return all;
}

export class Vindaesk {
    /** Makes the module of its bytes. */
    static async load(bytes) {
        return new Vindaesk((await WebAssembly.instantiate(bytes)).instance.exports);
    }

    constructor(exports) {
        this.exports = exports;
        // how much room an answer has; the buffer with so much is kept from call to call, as the place of its size is
        this.room = 65536;
        this.kept = { room: 0, answer: 0n };
        this.size = this.taken(8);
    }

    /** Each of these returns { page, status }, of which `page` has the bytes. */
    run(script, files = {}) {
        return this.answer("vindaesk_run", [script, packed(files)]);
    }

    stack(script, files = {}) {
        return this.answer("vindaesk_stack", [script, packed(files)]);
    }

    focus(script, side, view, files = {}) {
        return this.answer("vindaesk_focus", [script, side, view, packed(files)]);
    }

    dump(name, files) {
        return this.answer("vindaesk_dump", [name, packed(files)]);
    }

    /** Ids are numbers. */
    lookup(name, ids, files) {
        return this.answer("vindaesk_lookup", [name, new Uint32Array(ids), packed(files)]);
    }

    /** A session: its `line` returns { page, status }, and `close` frees it. */
    session(files = {}) {
        const handle = this.put(new Uint8Array(8));
        const given = packed(files);
        const at = this.put(given);
        const status = this.exports.vindaesk_open(at, BigInt(given.length), handle);
        this.exports.vindaesk_free(at);
        if (status !== 0) throw new Error("there is no memory for a session");
        return {
            line: (line) => {
                const found = this.call("vindaesk_line", [line], [handle]);
                // a refusal fits into any buffer, so such a line was carried out
                return found.status === SMALL ? this.call("vindaesk_answer", [], [handle]) : found;
            },
            close: () => this.exports.vindaesk_close(handle),
        };
    }

    answer(name, given) {
        const found = this.call(name, given);
        return found.status === SMALL ? this.call(name, given) : found;
    }

    /** A call with the buffer for answers, which has more room after one that was too small. */
    call(name, given, first = []) {
        const answer = this.answers(), arrays = given.map(bytesOf), places = arrays.map((it) => this.put(it));
        const words = places.flatMap((at, i) => [at, BigInt(arrays[i].length)]);
        const status = this.exports[name](...first, ...words, answer, BigInt(this.room), this.size);
        const { buffer } = this.exports.memory;
        const length = Number(new DataView(buffer).getBigUint64(Number(this.size), true));
        if (status === SMALL) this.room = length;
        const page = new Uint8Array(buffer, Number(answer), status === SMALL ? 0 : length).slice();
        for (const at of places) this.exports.vindaesk_free(at);
        return { page, status };
    }

    /** Where the buffer for answers is. */
    answers() {
        if (this.kept.room !== this.room) {
            if (this.kept.answer) this.exports.vindaesk_free(this.kept.answer);
            this.kept = { room: 0, answer: 0n };
            this.kept = { room: this.room, answer: this.taken(this.room) };
        }
        return this.kept.answer;
    }

    /** Some bytes of the module's memory. */
    taken(length) {
        const at = this.exports.vindaesk_take(BigInt(length));
        if (at === 0n) throw new Error("the module has no memory");
        return at;
    }

    /** Copies an array into the module's memory. */
    put(array) {
        const { buffer, byteOffset, byteLength } = array, at = this.taken(byteLength);
        const room = new Uint8Array(this.exports.memory.buffer, Number(at), byteLength);
        room.set(new Uint8Array(buffer, byteOffset, byteLength));
        return at;
    }
}
