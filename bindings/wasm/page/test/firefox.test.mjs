// SPDX-License-Identifier: Apache-2.0
// The same file in Firefox, where that is installed:  node --experimental-websocket --test firefox.test.mjs, with PAGE=file
import assert from 'node:assert/strict';
import path from 'node:path';
import { after, before, describe, test } from 'node:test';
import { setTimeout as pause } from 'node:timers/promises';
import { pathToFileURL } from 'node:url';
import { Firefox, installed } from './firefox.mjs';

const url = pathToFileURL(path.resolve(process.env.PAGE)).href;

describe('in Firefox', { skip: installed === undefined && 'Firefox is not installed' }, () => {
    let browser;

    before(async () => {
        browser = await Firefox.open(url);
    });

    after(() => browser?.close());

    const summary = () => browser.value(`document.getElementById('summary').innerText`);

    // Waits until the page says what a pattern has, and returns it.
    async function said(pattern) {
        for (let tries = 0; tries < 300 && !pattern.test(await summary()); tries++) {
            await pause(100);
        }
        return summary();
    }

    // Puts values into the fields, as one key after the other would.
    async function fill(values) {
        for (const [id, value] of Object.entries(values)) {
            await browser.value(`(() => { document.getElementById('${id}').value = ${JSON.stringify(value)}; })()`);
        }
        await browser.value(`document.getElementById('form').dispatchEvent(new Event('input'))`);
    }

    test('the page answers at each key', async () => {
        await said(/./);
        await fill({ versions: '1.2.2 1.2.3-rc.2 1.2.4-rc.1 1.9.0 2.0.0' });
        await browser.value(`(() => { const field = document.getElementById('range'); field.focus(); field.select(); })()`);
        await browser.type('^1.2.3-rc.1');
        assert.equal(await said(/^2 of 5/), '2 of 5 versions admitted; the highest is 1.9.0.');
        await browser.type(' || 2');
        assert.equal(await said(/^3 of 5/), '3 of 5 versions admitted; the highest is 2.0.0.');
    });

    test('hostile texts are shown as text', async () => {
        const hostile = '<img src=x onerror=alert(1)>';
        await fill({ range: hostile, other: hostile, versions: `${hostile} версия` });
        assert.equal(await said(/no comparator/), 'npm does not read this range: at character 1 “<img” is no comparator.');
        assert.equal(await browser.value(`document.querySelectorAll('img').length`), 0);
    });

    test('three thousand sets have an answer', async () => {
        await fill({ range: Array.from({ length: 3000 }, (_, place) => `${place}.1.x`).join(' || '), other: '', versions: '1.0.0 2.0.0' });
        assert.match(await said(/^0 of 2/), /^0 of 2/);
    });

    test('nothing is requested, and nothing can be', async () => {
        const asked = browser.events('network.beforeRequestSent').map(({ request }) => request.url);
        assert.deepEqual(asked.filter((it) => !it.startsWith(url) && !/^(data|about):/.test(it)), []);
        assert.equal(await browser.value(`fetch('http://127.0.0.1:9/').then(() => 'sent', () => 'refused')`), 'refused');
    });
});
