"""How well a page in Chromium can be read, as WCAG 2.2 counts it at its level AA: texts have at least 4.5 times the light of
what they are on, or the other way round; what bounds controls, and the frame of what has the focus, 3 times.
"""
from typing import List

import chromium

FAINT = """(() => {
    const parts = (text) => { const found = text.match(/[0-9.]+/g).map(Number); return found.length > 3 ? found : [...found, 1]; };
    const over = (top, under) => under.map((it, k) => k < 3 ? top[k] * top[3] + it * (1 - top[3]) : 1);
    const light = (it) => it.slice(0, 3).map(it => it / 255).map(it => it <= .04045 ? it / 12.92 : ((it + .055) / 1.055) ** 2.4)
        .reduce((sum, it, k) => sum + it * [.2126, .7152, .0722][k], 0);
    const ratio = (one, other) => { const all = [light(one), light(other)]; return (Math.max(...all) + .05) / (Math.min(...all) + .05); };
    const backOf = (it) => {
        const under = it.parentElement ? backOf(it.parentElement) : [255, 255, 255, 1];
        return over(parts(getComputedStyle(it).backgroundColor), under);
    };
    const found = [], shown = [...document.querySelectorAll('body, body *')].filter(it => it.getClientRects().length);
    const note = (what, it, number, least) => { if (number < least) found.push(`${what} ${it.id || it.tagName}: ${number.toFixed(2)}`); };
    for (const it of shown.filter(it => [...it.childNodes].some(it => it.nodeType === 3 && it.data.trim()))) {
        const colour = parts(getComputedStyle(it).color), back = backOf(it);
        if (colour[3] > 0) note('text', it, ratio(over(colour, back), back), 4.5);
    }
    // a field of text lies over what marks its lines
    for (const it of document.querySelectorAll('#back .wrong')) {
        note('script', it, ratio(parts(getComputedStyle(document.getElementById('script')).color), backOf(it)), 4.5);
    }
    for (const it of shown.filter(it => it.matches('button, select, .button, #editor, input:not([type]), input[type=text]'))) {
        const style = getComputedStyle(it), back = backOf(it.parentElement);
        if (style.borderTopWidth !== '0px') note('edge', it, ratio(over(parts(style.borderTopColor), back), back), 3);
    }
    const ring = document.createElement('i');
    ring.style.color = 'var(--chosen)';
    for (const it of document.querySelectorAll('body, section')) {
        it.append(ring);
        note('focus', it, ratio(parts(getComputedStyle(ring).color), backOf(it)), 3);
    }
    ring.remove();
    return shown.length > 40 ? found : ['only ' + shown.length + ' elements are shown'];
})()"""


def faint(browser: chromium.Browser) -> List[str]:
    """What has too little contrast, each with its ratio."""
    found: List[str] = browser.value(FAINT)
    return found
