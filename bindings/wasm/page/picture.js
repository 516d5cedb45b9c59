// SPDX-License-Identifier: Apache-2.0
// The picture of the sets on a line of versions.
import { counted } from './sentences.js';

const NAMESPACE = 'http://www.w3.org/2000/svg';
const [STEP, ROW, MARGIN] = [92, 16, 20];
const MOST_ROWS = 40; // A picture of more sets is a picture of the first ones.

function shape(name, attributes, ...inside) {
    const made = document.createElementNS(NAMESPACE, name);
    Object.entries(attributes).forEach(([key, value]) => made.setAttribute(key, value));
    made.append(...inside);
    return made;
}

// The versions at ends of sets and those that are asked for, in order, each once: `{ at, text, version }`.
function placesOf(library, sets, versions) {
    const ends = sets.flatMap(({ lower, upper }) => [lower, upper]).filter(({ at }) => at !== undefined);
    const points = [...ends, ...versions.map((version) => ({ at: version.at, text: version.print, version }))];
    points.sort((one, other) => library.compare(one.at, other.at));
    const places = [];
    for (const point of points) {
        const last = places.at(-1);
        if (last && library.compare(last.at, point.at) === 0) {
            last.version ??= point.version;
        } else {
            places.push({ ...point });
        }
    }
    return places;
}

function endsOf(set, x) {
    const of = ({ lower, upper }) => [[lower, 'before'], [upper, 'after']];
    return of(set).filter(([cut]) => cut.at !== undefined).map(([cut, closed]) => [x(cut), cut.kind === closed]);
}

export function pictureOf(library, allSets, versions) {
    const sets = allSets.slice(0, MOST_ROWS);
    const places = placesOf(library, sets, versions);
    const width = Math.max(320, (places.length + 1) * STEP);
    const line = MARGIN + sets.length * ROW + 14;
    const middle = (place) => (place + 1) * STEP - STEP / 2;
    const x = (cut) => ({ start: 0, end: width })[cut.kind] ?? middle(places.findIndex(({ at }) => library.compare(at, cut.at) === 0));
    const picture = shape('svg', { viewBox: `0 0 ${width} ${line + 96}`, width, role: 'img', 'aria-labelledby': 'picture-title' });
    const isPart = sets.length < allSets.length;
    picture.append(shape('title', { id: 'picture-title' }, `${isPart ? `The first ${sets.length} of ` : ''}${counted(allSets.length, 'set')} and `
        + `${counted(versions.length, 'version')} on a line. The list and the table say the same in words.`));
    picture.append(shape('line', { class: 'axis', x1: 0, x2: width, y1: line, y2: line }));
    sets.forEach((set, row) => {
        const y = MARGIN + row * ROW;
        picture.append(shape('line', { class: 'set', x1: x(set.lower), x2: x(set.upper), y1: y, y2: y }));
        endsOf(set, x).forEach(([cx, isClosed]) => picture.append(shape('circle', { class: isClosed ? 'end closed' : 'end', cx, cy: y, r: 6 })));
    });
    places.forEach(({ text, version }, place) => {
        const cx = middle(place);
        picture.append(version ? shape('circle', { class: version.isAdmitted ? 'version admitted' : 'version', cx, cy: line, r: 7 })
            : shape('line', { class: 'axis', x1: cx, x2: cx, y1: line - 6, y2: line + 6 }));
        picture.append(shape('text', { transform: `translate(${cx - 4} ${line + 24}) rotate(30)` }, text.length > 24 ? `${text.slice(0, 23)}…` : text));
    });
    return picture;
}
