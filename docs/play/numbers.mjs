/** Numbers in decimal digits, of which the last one is rounded to the nearest, and half of it to an even one. */

/** A whole number with a sign, stored in this number of bits. */
export const signed = (word, bits) => word - Math.floor(word / 2 ** (bits - 1)) * 2 ** bits;

/** The whole number nearest to a fraction of a number that is not negative. */
function nearest(above, below) {
    const floor = above / below, twice = 2n * (above % below);
    return twice > below || (twice === below && floor % 2n === 1n) ? floor + 1n : floor;
}

/** A fraction with some digits after the point. */
export function decimal(above, below, digits) {
    const number = (above < 0n ? -above : above) * 10n ** BigInt(digits);
    const found = String(nearest(number, below)).padStart(digits + 1, "0");
    const whole = found.slice(0, found.length - digits), sign = above < 0n ? "-" : "";
    return sign + whole + (digits ? "." + found.slice(found.length - digits) : "");
}

/** A number with some digits that count, as `%g` writes it. */
export function general(number, digits) {
    const sign = number < 0 || Object.is(number, -0) ? "-" : "", [above, below] = fraction(Math.abs(number));
    if (above === 0n) return sign + "0";
    // a float has at most 112 digits, so that no digit before its exponent is rounded
    let power = Number(Math.abs(number).toExponential(100).split("e")[1]);
    const shift = digits - 1 - power, ten = 10n ** BigInt(Math.abs(shift));
    let found = String(shift < 0 ? nearest(above, below * ten) : nearest(above * ten, below));
    if (found.length > digits) [found, power] = [found.slice(0, digits), power + 1];
    const short = (text) => (text.includes(".") ? text.replace(/\.?0*$/, "") : text);
    if (power < -4 || power >= digits) {
        const mantissa = short(found[0] + "." + found.slice(1));
        return `${sign}${mantissa}e${power < 0 ? "-" : "+"}${String(Math.abs(power)).padStart(2, "0")}`;
    }
    if (power < 0) return sign + short("0." + "0".repeat(-1 - power) + found);
    return sign + short(found.slice(0, power + 1) + "." + found.slice(power + 1));
}

/** A float that is not negative as a fraction. */
function fraction(number) {
    let power = 0;
    while (!Number.isInteger(number)) [number, power] = [number * 2, power + 1];
    return [BigInt(number), 1n << BigInt(power)];
}
