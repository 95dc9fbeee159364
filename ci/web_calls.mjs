/** Carries calls out by the WebAssembly module: each has its words, its script and its files in base64, and its answer
 * is a page in base64 and a status. A call of the word `lines` has a session carry out a script line by line. */
const decoded = (text) => Uint8Array.from(atob(text), (it) => it.charCodeAt(0));
const encoded = (bytes) => btoa(Array.from(bytes, (it) => String.fromCharCode(it)).join(""));

function lines(vindaesk, script, files) {
    const session = vindaesk.session(files), found = [];
    let status = 0;
    // so that long answers do not fit at first; a refusal does
    vindaesk.room = 128;
    for (let at = 0; at <= script.length; ) {
        const feed = script.indexOf(10, at), end = feed < 0 ? script.length : feed;
        const answer = session.line(script.subarray(at, end));
        found.push(...answer.page);
        status = Math.max(status, answer.status);
        at = end + 1;
    }
    session.close();
    return { page: found, status };
}

function answered(vindaesk, { words: [form, ...more], script, files }) {
    const given = decoded(script);
    const held = Object.fromEntries(Object.entries(files).map(([name, it]) => [name, decoded(it)]));
    switch (form) {
        case "lines": return lines(vindaesk, given, held);
        case "dump": return vindaesk.dump(more[0], held);
        case "lookup": return vindaesk.lookup(more[0], more.slice(1).map((it) => parseInt(it, 16)), held);
        default: return vindaesk[form](given, ...more, held);
    }
}

export const answers = (vindaesk, calls) => calls.map((call) => {
    const { page, status } = answered(vindaesk, call);
    return [encoded(page), status];
});
