// SPDX-License-Identifier: Apache-2.0
// Firefox with one page, driven by WebDriver BiDi.
import { spawn, spawnSync } from 'node:child_process';
import { mkdtempSync, rmSync } from 'node:fs';
import os from 'node:os';
import path from 'node:path';
import { addressOf, Connection } from './browser.mjs';

// The name of the program, where it is installed.
export const installed = ['firefox', 'firefox-esr'].find((name) => spawnSync(name, ['--version']).status === 0);

export class Firefox {
    static async open(url) {
        const browser = new Firefox();
        browser.folder = mkdtempSync(path.join(os.tmpdir(), 'page-'));
        const flags = ['--headless', '--no-remote', '--profile', browser.folder, '--remote-debugging-port=0'];
        browser.child = spawn(installed, flags, { stdio: ['ignore', 'ignore', 'pipe'], env: { ...process.env, HOME: browser.folder } });
        browser.connection = await Connection.open(`${await addressOf(browser.child, /WebDriver BiDi listening on (ws:\S+)/)}/session`);
        await browser.call('session.new', { capabilities: {} });
        await browser.call('session.subscribe', { events: ['network.beforeRequestSent', 'log.entryAdded'] });
        const { contexts } = await browser.call('browsingContext.getTree');
        browser.context = contexts[0].context;
        await browser.call('browsingContext.navigate', { context: browser.context, url, wait: 'complete' });
        return browser;
    }

    call(method, params) {
        return this.connection.call(method, params);
    }

    events(method) {
        return this.connection.eventsOf(method);
    }

    async value(expression) {
        const { result, exceptionDetails } = await this.call('script.evaluate', {
            expression: `(async () => JSON.stringify(await (${expression})))()`, target: { context: this.context }, awaitPromise: true,
        });
        if (exceptionDetails) {
            throw new Error(exceptionDetails.text);
        }
        return result.value === undefined ? undefined : JSON.parse(result.value);
    }

    // Presses the keys of a text, one after the other.
    type(text) {
        const actions = [...text].flatMap((value) => [{ type: 'keyDown', value }, { type: 'keyUp', value }]);
        return this.call('input.performActions', { context: this.context, actions: [{ type: 'key', id: 'keyboard', actions }] });
    }

    async close() {
        await this.call('browser.close').catch(() => {});
        this.connection.socket.close();
        if (this.child.exitCode === null) {
            await new Promise((found) => this.child.on('exit', found));
        }
        rmSync(this.folder, { recursive: true, force: true, maxRetries: 5 });
    }
}
