// SPDX-License-Identifier: Apache-2.0
// The page: reads what is typed, asks the library, and shows its answer at each key.
import { answerTo } from './answers.js';
import { Library } from './library.js';
import { pictureOf } from './picture.js';
import * as sentences from './sentences.js';
import module from 'denimscree.wasm';

const EXAMPLES = ['^1.2.3', '^0.2.3-beta', '~1.2', '1.2 - 2.3', '>=1.2.3-rc.1 <2 || 3.x', '<=20', '>4 <3', '>=1.2.3 latest'];
const FIRST = { range: '^0.2.3-beta', other: '', versions: '0.2.3-beta 0.2.3-rc.1 0.2.3 0.2.4-rc.1 0.2.9 0.3.0-0 0.3.0 1.0.0' };
const MOST_ITEMS = 200; // A longer list is cut, and says so.

const byId = (id) => document.getElementById(id);

function element(name, attributes, ...inside) {
    const made = document.createElement(name);
    Object.entries(attributes).forEach(([key, value]) => made.setAttribute(key, value));
    made.append(...inside);
    return made;
}

const soft = (text) => element('p', { class: 'soft' }, text);

// The sets of a range in words, below its text.
function listOf(reading, name) {
    const { text, sets, count } = reading;
    const shown = sets.slice(0, MOST_ITEMS).map((set) => element('li', {}, sentences.ofSet(set)));
    const list = element(count > 1 ? 'ol' : 'ul', { 'aria-label': name }, ...shown);
    const more = count > shown.length ? [soft(`… and ${sentences.counted(count - shown.length, 'more set', 'more sets')}.`)] : [];
    const code = text.length > 2000 ? `${text.slice(0, 2000)}…` : text;
    return [element('p', {}, element('code', {}, code)), list, ...more];
}

function showReading({ text, refused, reading, least }) {
    if (refused) {
        const end = refused.offset + sentences.wordAt(text, refused.offset).length;
        const marked = element('p', { class: 'refused-text' }, text.slice(0, refused.offset), element('mark', {}, text.slice(refused.offset, end) || ' '), text.slice(end));
        return [marked, soft('npm takes such a text for a tag, such as “latest”.')];
    }
    return [...listOf(reading, 'Sets of the range'), soft(least === undefined ? 'No version satisfies it.' : `The least version that satisfies it is ${least}.`)];
}

function showCrate({ crate, options }) {
    if (options.isIncluded || crate === undefined) {
        return [];
    }
    const head = element('h3', {}, 'The Rust crate node-semver reads it otherwise');
    return crate.isRefused ? [head, soft('It refuses this text.')] : [head, ...listOf(crate, 'Sets, as the Rust crate reads the range')];
}

function showBeside({ beside, text, other, options }) {
    if (beside === undefined) {
        return [soft('Write a second range to see what both admit.')];
    }
    if (beside.refused) {
        return [soft(sentences.ofRefusedRange(other, beside.refused, options.isLoose))];
    }
    if (!('both' in beside)) {
        return [soft('The first range is not read.')];
    }
    const part = (title, reading, none) => [element('h3', {}, title), ...(reading ? listOf(reading, title) : [soft(none)])];
    return [...part('In both', beside.both, 'They have nothing in common.'), ...part(`In ${text || 'the first'} alone`, beside.alone, 'All of the first is in the second.')];
}

function rowOf(version, { highest, options, refused }) {
    const head = element('th', { scope: 'row' }, version.text);
    if (version.refused) {
        return element('tr', {}, head, element('td', { class: 'no' }, '–'), element('td', {}, sentences.ofRefusedVersion(version.text, version.refused)));
    }
    if (refused) {
        return element('tr', {}, head, element('td', { class: 'no' }, '–'), element('td', {}, 'The range is not read.'));
    }
    const why = sentences.ofVersion(version, options.isIncluded) + (version === highest ? ' It is the highest.' : '');
    return element('tr', {}, head, element('td', { class: version.isAdmitted ? 'yes' : 'no' }, version.isAdmitted ? '✓ yes' : '✗ no'), element('td', {}, why));
}

function tableOf(answer) {
    const rows = answer.versions.slice(0, MOST_ITEMS).map((version) => rowOf(version, answer));
    const head = element('tr', {}, ...['Version', 'Admitted', 'Why'].map((name) => element('th', { scope: 'col' }, name)));
    const more = answer.versions.length > rows.length ? [soft(`… and ${sentences.counted(answer.versions.length - rows.length, 'more version')}.`)] : [];
    return [element('table', {}, element('thead', {}, head), element('tbody', {}, ...rows)), ...more];
}

function show(library, answer) {
    const { text, refused, reading, asked, highest, least, options } = answer;
    byId('summary').textContent = refused ? sentences.ofRefusedRange(text, refused, options.isLoose) : sentences.ofCount(asked, highest?.print, least);
    byId('summary').classList.toggle('refused', refused !== undefined);
    byId('range').setAttribute('aria-invalid', String(refused !== undefined));
    byId('reading').replaceChildren(...showReading(answer), ...showCrate(answer));
    byId('picture').replaceChildren(refused ? soft('There are no sets to draw.') : pictureOf(library, reading.sets, asked.slice(0, MOST_ITEMS)));
    byId('each').replaceChildren(...(answer.versions.length === 0 ? [soft('Write versions above.')] : tableOf(answer)));
    byId('beside').replaceChildren(...showBeside(answer));
}

function typed() {
    const options = { isLoose: byId('loose').checked, isIncluded: byId('included').checked };
    return { text: byId('range').value, other: byId('other').value, versions: byId('versions').value.split(/[\s,]+/).filter(Boolean), options };
}

// The part of the address behind `#` holds what was typed.
function addressOf({ text, other, versions, options }) {
    const said = new URLSearchParams({ range: text });
    [['other', other], ['versions', versions.join(' ')], ['loose', options.isLoose ? 'yes' : ''], ['prereleases', options.isIncluded ? 'yes' : '']]
        .filter(([, value]) => value !== '').forEach(([name, value]) => said.set(name, value));
    return `#${said}`;
}

function takeAddress() {
    const said = new URLSearchParams(location.hash.slice(1));
    const first = location.hash.length > 1 ? { range: '', other: '', versions: '' } : FIRST;
    ['range', 'other', 'versions'].forEach((name) => { byId(name).value = said.get(name) ?? first[name]; });
    byId('loose').checked = said.get('loose') === 'yes';
    byId('included').checked = said.get('prereleases') === 'yes';
}

function answerAll(library) {
    const asked = typed();
    try {
        library.ask(() => show(library, answerTo(library, asked)));
    } catch (error) {
        byId('summary').textContent = `There is no answer: ${error.message}. Shorter texts will have one.`;
    }
    history.replaceState(null, '', addressOf(asked));
    byId('copied').textContent = '';
}

async function copyLink() {
    try {
        await navigator.clipboard.writeText(location.href);
        byId('copied').textContent = 'Copied.';
    } catch {
        byId('copied').textContent = 'Copy the address of this page.';
    }
}

function exampleButton(text, again) {
    const button = element('button', { type: 'button' }, element('code', {}, text));
    button.addEventListener('click', () => {
        byId('range').value = text;
        again();
        byId('range').focus();
    });
    return button;
}

async function begin() {
    const library = new Library(await WebAssembly.compile(module));
    const again = () => answerAll(library);
    byId('form').addEventListener('input', again);
    byId('form').addEventListener('submit', (event) => event.preventDefault());
    addEventListener('hashchange', () => { takeAddress(); again(); });
    byId('examples').append(...EXAMPLES.map((text) => exampleButton(text, again)));
    byId('copy').addEventListener('click', copyLink);
    takeAddress();
    again();
}

begin().catch((error) => { byId('summary').textContent = `This browser cannot run the page: ${error.message}`; });
