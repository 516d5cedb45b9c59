// SPDX-License-Identifier: Apache-2.0
// The page in Chromium:  node --experimental-websocket --test page.test.mjs, with PAGE=file and, for a picture of it, PICTURE=file.png
import assert from 'node:assert/strict';
import path from 'node:path';
import { after, before, beforeEach, test } from 'node:test';
import { pathToFileURL } from 'node:url';
import { Browser } from './browser.mjs';

const url = pathToFileURL(path.resolve(process.env.PAGE)).href;
let browser;

before(async () => {
    browser = await Browser.open(url, { width: 1000, height: 1100 });
});

after(() => browser.close());

const text = (id) => browser.value(`document.getElementById('${id}').innerText`);
const summary = () => text('summary');

// The page as it is behind an address that holds these values.
async function at(values) {
    await browser.value(`location.hash = '#${new URLSearchParams(values)}'`);
    await browser.until(`document.getElementById('range').value === ${JSON.stringify(values.range)} && !/Loading/.test(document.getElementById('summary').textContent)`);
}

// Types into a field as a person does: what it had is replaced.
async function type(id, typed) {
    await browser.value(`(() => { const field = document.getElementById('${id}'); field.focus(); field.select(); })()`);
    await (typed === '' ? browser.press('Delete', 'Delete', 46) : browser.call('Input.insertText', { text: typed }));
}

const rows = () => browser.value(`[...document.querySelectorAll('#each tbody tr')].map((row) => [...row.children].map((it) => it.innerText))`);

beforeEach(() => at({ range: '^1.2.3', versions: '1.2.3' }));

test('answers at each key, for a range that is typed', async () => {
    await at({ range: '^1.2.3', versions: '1.2.2 1.2.3 1.9.0 2.0.0' });
    assert.equal(await summary(), '2 of 4 versions admitted; the highest is 1.9.0.');
    await type('range', '>=2');
    assert.equal(await summary(), '1 of 4 versions admitted; the highest is 2.0.0.');
    await type('versions', '');
    assert.equal(await summary(), 'The least version that it admits is 2.0.0.');
});

test('gives the reason of each version', async () => {
    await at({ range: '^1.2.3-rc.1 || 3.x', versions: '1.2.2 1.2.3-rc.2 1.2.4-rc.1 v1.2.4 2.5.0 3.1.0 4.0.0 v1.2 1.2.3-01' });
    assert.deepEqual(await rows(), [
        ['1.2.2', '✗ no', 'Below the range, which begins at 1.2.3-rc.1.'],
        ['1.2.3-rc.2', '✓ yes', 'Inside: 1.2.3-rc.1 and above, below 2.0.0-0. It is a prerelease, and an end of that set is a prerelease of 1.2.3 too.'],
        ['1.2.4-rc.1', '✗ no', 'Inside: 1.2.3-rc.1 and above, below 2.0.0-0. But it is a prerelease, and no end of that set is a prerelease of 1.2.4.'],
        ['v1.2.4', '✓ yes', 'Inside: 1.2.3-rc.1 and above, below 2.0.0-0.'],
        ['2.5.0', '✗ no', 'Between two sets: one ends below 2.0.0-0, and the next begins at 3.0.0.'],
        ['3.1.0', '✓ yes', 'Inside: 3.0.0 and above, below 4.0.0-0. It is the highest.'],
        ['4.0.0', '✗ no', 'Above the range, which ends below 4.0.0-0.'],
        ['v1.2', '–', 'No version: a number or a dot is missing at character 5.'],
        ['1.2.3-01', '–', 'No version: “01” at character 7 does not belong to it.'],
    ]);
});

test('says where a text is no range, as npm has it', async () => {
    await at({ range: '>=1.2.3 latest', versions: '1.2.3' });
    assert.equal(await summary(), 'npm does not read this range: at character 9 “latest” is no comparator.');
    assert.equal(await browser.value(`document.querySelector('mark').textContent`), 'latest');
    assert.equal(await browser.value(`document.getElementById('range').getAttribute('aria-invalid')`), 'true');
    await browser.value(`document.getElementById('loose').click()`);
    assert.equal(await summary(), '1 of 1 version admitted; the highest is 1.2.3.');
});

test('shows how the Rust crate reads a text otherwise', async () => {
    await at({ range: '<=20' });
    const reading = await text('reading');
    assert.match(reading, /<21\.0\.0-0/);
    assert.match(reading, /The Rust crate node-semver reads it otherwise\s+<=20\.0\.0-0/);
    await at({ range: '^1.2.3' });
    assert.doesNotMatch(await text('reading'), /Rust crate/);
});

test('compares with a second range', async () => {
    await at({ range: '1 - 3', other: '^2.5 || 4', versions: '' });
    assert.deepEqual((await text('beside')).split(/\n+/), ['In both', '>=2.5.0 <3.0.0-0', '2.5.0 and above, below 3.0.0-0', 'In 1 - 3 alone', '>=1.0.0 <2.5.0||>=3.0.0-0 <4.0.0-0',
        '1.0.0 and above, below 2.5.0', '3.0.0-0 and above, below 4.0.0-0']);
    await type('other', '5');
    assert.match(await text('beside'), /They have nothing in common\./);
});

test('with all prereleases, a prerelease is admitted as a release is', async () => {
    await at({ range: '~1.2', versions: '1.2.9 1.2.10-rc.1', prereleases: 'yes' });
    assert.equal(await summary(), '2 of 2 versions admitted; the highest is 1.2.10-rc.1.');
});

test('a range that admits nothing, and an empty text', async () => {
    await at({ range: '>4 <3', versions: '1.0.0' });
    assert.equal(await summary(), 'This range admits no version.');
    await type('range', '');
    assert.equal(await summary(), '1 of 1 version admitted; the highest is 1.0.0.');
});

test('the address holds what was typed', async () => {
    await type('range', '<=20');
    await type('other', '^3');
    const said = new URLSearchParams((await browser.value('location.hash')).slice(1));
    assert.deepEqual(Object.fromEntries(said), { range: '<=20', other: '^3', versions: '1.2.3' });
});

test('the keyboard reaches each control, in the order of the page', async () => {
    await browser.value(`document.getElementById('range').focus()`);
    const seen = [];
    for (let step = 0; step < 14; step++) {
        await browser.press('Tab', 'Tab', 9);
        seen.push(await browser.value(`document.activeElement.id || document.activeElement.textContent`));
    }
    const examples = await browser.value(`[...document.querySelectorAll('#examples button')].map((it) => it.textContent)`);
    assert.deepEqual(seen, [...examples, 'included', 'loose', 'versions', 'other', 'picture', 'copy']);
});

test('a screen reader has a name for each control, and is told the answer', async () => {
    const spoken = await browser.spoken();
    const controls = spoken.filter(([role]) => ['textbox', 'checkbox', 'button'].includes(role));
    assert.equal(controls.length, 14);
    assert.deepEqual(controls.filter(([, name]) => name === ''), []);
    assert.equal(spoken.filter(([role]) => role === 'status').length, 2);
    assert.deepEqual(spoken.filter(([role]) => role === 'image' || role === 'img').map(([, name]) => name),
        ['1 set and 1 version on a line. The list and the table say the same in words.']);
});

test('hostile texts and other scripts are shown as text', async () => {
    const hostile = '<img src=x onerror=alert(1)>';
    await at({ range: hostile, other: hostile, versions: `${hostile} версия 一.二.三` });
    assert.equal(await browser.value(`document.querySelectorAll('img, script:not(:last-of-type)').length`), 0);
    assert.match(await summary(), /^npm does not read this range: at character 1 “<img” is no comparator\.$/);
    assert.deepEqual((await rows()).map(([version]) => version), ['<img', 'src=x', 'onerror=alert(1)>', 'версия', '一.二.三']);
});

test('three thousand sets have an answer', async () => {
    await at({ range: '1', versions: '1.0.0 2.0.0' });
    await type('range', Array.from({ length: 3000 }, (_, place) => `${place}.1.x`).join(' || '));
    await browser.until(`/^0 of 2/.test(document.getElementById('summary').textContent)`);
    assert.match(await text('reading'), /… and 2,800 more sets\./);
});

test('an answer does not make the typist wait', async () => {
    const took = await browser.value(`(() => {
        const began = performance.now();
        for (let turn = 0; turn < 50; turn++) {
            document.getElementById('range').value = '^1.2.' + turn;
            document.getElementById('form').dispatchEvent(new Event('input'));
        }
        return (performance.now() - began) / 50;
    })()`);
    assert.ok(took < 50, `${took} ms`);
});

test('it fits into 360 pixels, light and dark', async () => {
    await at({ range: '^0.2.3-beta', versions: '0.2.3-beta 0.2.3 0.2.4-rc.1 0.3.0' });
    for (const isDark of [false, true]) {
        await browser.resize(360, 800, isDark);
        assert.ok(await browser.value(`document.documentElement.scrollWidth <= 360`));
    }
    await browser.resize(1000, 1100);
});

test('nothing is requested, and nothing can be', async () => {
    const asked = browser.events('Network.requestWillBeSent').map(({ request }) => request.url).filter((it) => !it.startsWith(url) && !it.startsWith('data:'));
    assert.deepEqual(asked, []);
    const sent = await browser.value(`fetch('http://127.0.0.1:9/').then(() => 'sent', () => 'refused')`);
    assert.equal(sent, 'refused');
    assert.deepEqual(browser.events('Runtime.exceptionThrown'), []);
});

test('a picture of it is made', async () => {
    await at({ range: '^0.2.3-beta || 2.x', versions: '0.2.3-beta 0.2.4-rc.1 0.2.9 1.0.0 2.5.0 3.0.0', other: '0.2.5 - 2.2' });
    assert.equal(await summary(), '3 of 6 versions admitted; the highest is 2.5.0.');
    if (process.env.PICTURE) {
        await browser.picture(process.env.PICTURE);
    }
});
