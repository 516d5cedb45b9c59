// SPDX-License-Identifier: Apache-2.0
// What the page says, in sentences.

const [MAX_LENGTH, PARSE_INT, MAX_INT, CONTEXT, NO_VALID_RANGES, OTHER] = [1, 3, 4, 5, 6, 7];

export const counted = (number, one, many = `${one}s`) => `${number.toLocaleString('en')} ${number === 1 ? one : many}`;

const FROM = { start: () => 'every version', before: ({ text }) => `${text} and above`, after: ({ text }) => `above ${text}` };
const BELOW = { before: ({ text }) => `below ${text}`, after: ({ text }) => `up to ${text}` };

// `1.2.3 and above, below 2.0.0-0`
export function ofSet({ lower, upper }) {
    if (lower.kind === 'before' && upper.kind === 'after' && lower.text === upper.text) {
        return `${lower.text} alone`;
    }
    if (upper.kind === 'end') {
        return FROM[lower.kind](lower);
    }
    const below = BELOW[upper.kind](upper);
    return lower.kind === 'start' ? below : `${FROM[lower.kind](lower)}, ${below}`;
}

// The word of a text that begins at an offset.
export function wordAt(text, offset) {
    return /^\S*/.exec(text.slice(offset))[0];
}

export function ofRefusedRange(text, { offset }, isLoose) {
    const word = wordAt(text, offset);
    if (isLoose) {
        return 'npm does not read this range: no word of it is a comparator, or a number is too large.';
    }
    return word === ''
        ? `npm does not read this range: a comparator ends early at character ${offset + 1}.`
        : `npm does not read this range: at character ${offset + 1} “${word}” is no comparator.`;
}

export function ofRefusedVersion(text, { kind, offset }) {
    const place = `at character ${offset + 1}`;
    const rest = text.slice(offset);
    return {
        [MAX_LENGTH]: 'No version: it is longer than 256 bytes.',
        [PARSE_INT]: `No version: the number ${place} is too large.`,
        [MAX_INT]: `No version: the number ${place} is above 9007199254740991.`,
        [CONTEXT]: `No version: a number or a dot is missing ${place}.`,
        [NO_VALID_RANGES]: 'No version.',
        [OTHER]: `No version: “${rest}” ${place} does not belong to it.`,
    }[kind] ?? 'No version.';
}

const beginning = ({ kind, text }) => (kind === 'after' ? `begins above ${text}` : `begins at ${text}`);
const ending = ({ kind, text }) => (kind === 'after' ? `ends at ${text}` : `ends below ${text}`);

// Why a version is admitted, or not. `place` says where it lies: see `placeOf` of answers.js.
export function ofVersion({ isAdmitted, isPrerelease, triple, place }, isIncluded) {
    const { inside, below, above } = place;
    if (isAdmitted) {
        return isPrerelease && !isIncluded
            ? `Inside: ${ofSet(inside)}. It is a prerelease, and an end of that set is a prerelease of ${triple} too.`
            : `Inside: ${ofSet(inside)}.`;
    }
    if (inside) {
        return `Inside: ${ofSet(inside)}. But it is a prerelease, and no end of that set is a prerelease of ${triple}.`;
    }
    if (below && above) {
        return `Between two sets: one ${ending(below.upper)}, and the next ${beginning(above.lower)}.`;
    }
    if (above) {
        return `Below the range, which ${beginning(above.lower)}.`;
    }
    return below ? `Above the range, which ${ending(below.upper)}.` : 'The range has no version.';
}

export function ofCount(versions, highest, least) {
    const admitted = versions.filter((it) => it.isAdmitted).length;
    if (least === undefined) {
        return 'This range admits no version.';
    }
    if (versions.length === 0) {
        return `The least version that it admits is ${least}.`;
    }
    return `${admitted} of ${counted(versions.length, 'version')} admitted${highest === undefined ? '.' : `; the highest is ${highest}.`}`;
}
