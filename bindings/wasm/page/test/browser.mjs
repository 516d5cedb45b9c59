// SPDX-License-Identifier: Apache-2.0
// Chromium with one page, driven by its DevTools protocol.
import { spawn } from 'node:child_process';
import { mkdtempSync, rmSync, writeFileSync } from 'node:fs';
import os from 'node:os';
import path from 'node:path';
import { setTimeout as pause } from 'node:timers/promises';

const FLAGS = ['--headless', '--no-sandbox', '--disable-gpu', '--hide-scrollbars', '--remote-debugging-port=0', '--remote-debugging-address=127.0.0.1'];

// The address at which a started browser says that it listens.
export function addressOf(child, saying) {
    return new Promise((found, failed) => {
        let said = '';
        child.stderr.on('data', (data) => {
            said += data;
            const match = said.match(saying);
            if (match) {
                found(match[1]);
            }
        });
        child.on('exit', () => failed(new Error(`the browser ended: ${said}`)));
    });
}

export class Connection {
    static async open(address) {
        const socket = new WebSocket(address);
        await new Promise((found, failed) => Object.assign(socket, { onopen: found, onerror: failed }));
        return new Connection(socket);
    }

    constructor(socket) {
        this.socket = socket;
        this.waiting = new Map();
        this.events = [];
        socket.onmessage = ({ data }) => this.take(JSON.parse(data));
    }

    take(message) {
        if (message.id === undefined) {
            this.events.push(message);
            return;
        }
        const { method, found, failed } = this.waiting.get(message.id);
        this.waiting.delete(message.id);
        if (message.error) {
            failed(new Error(`${method}: ${message.error.message ?? message.message}`));
        } else {
            found(message.result);
        }
    }

    // The events of a method, each with its parameters.
    eventsOf(method) {
        return this.events.filter((event) => event.method === method).map(({ params }) => params);
    }

    call(method, params = {}, sessionId = this.sessionId) {
        const id = (this.count = (this.count ?? 0) + 1);
        return new Promise((found, failed) => {
            this.waiting.set(id, { method, found, failed });
            this.socket.send(JSON.stringify({ id, method, params, sessionId }));
        });
    }
}

export class Browser {
    static async open(url, { width, height }) {
        const browser = new Browser();
        browser.folder = mkdtempSync(path.join(os.tmpdir(), 'page-'));
        browser.child = spawn('chromium', [...FLAGS, `--user-data-dir=${browser.folder}`, 'about:blank'], { stdio: ['ignore', 'ignore', 'pipe'] });
        browser.connection = await Connection.open(await addressOf(browser.child, /DevTools listening on (ws:\S+)/));
        const { targetId } = await browser.call('Target.createTarget', { url: 'about:blank' });
        const { sessionId } = await browser.call('Target.attachToTarget', { targetId, flatten: true });
        browser.connection.sessionId = sessionId;
        for (const domain of ['Page', 'Runtime', 'Log', 'Network', 'Accessibility']) {
            await browser.call(`${domain}.enable`);
        }
        await browser.resize(width, height);
        await browser.call('Page.navigate', { url });
        return browser;
    }

    call(method, params) {
        return this.connection.call(method, params);
    }

    resize(width, height, isDark = false) {
        const scheme = { features: [{ name: 'prefers-color-scheme', value: isDark ? 'dark' : 'light' }] };
        return Promise.all([this.call('Emulation.setDeviceMetricsOverride', { width, height, deviceScaleFactor: 1, mobile: false }), this.call('Emulation.setEmulatedMedia', scheme)]);
    }

    events(method) {
        return this.connection.eventsOf(method);
    }

    async value(expression) {
        const ran = await this.call('Runtime.evaluate', { expression, awaitPromise: true, returnByValue: true, userGesture: true });
        if (ran.exceptionDetails) {
            throw new Error(ran.exceptionDetails.exception?.description ?? ran.exceptionDetails.text);
        }
        return ran.result.value;
    }

    async until(expression) {
        for (let tries = 0; tries < 300; tries++) {
            if (await this.value(expression).catch(() => false)) {
                return;
            }
            await pause(100);
        }
        throw new Error(`never true: ${expression}`);
    }

    async press(key, code = key, number = 0, modifiers = 0) {
        for (const type of ['keyDown', 'keyUp']) {
            await this.call('Input.dispatchKeyEvent', { type, key, code, windowsVirtualKeyCode: number, modifiers });
        }
    }

    // The controls and what a screen reader says of them, as `role: name`.
    async spoken() {
        const { nodes } = await this.call('Accessibility.getFullAXTree');
        return nodes.filter(({ ignored }) => !ignored).map(({ role, name }) => [role?.value, name?.value ?? '']);
    }

    async picture(file) {
        const { data } = await this.call('Page.captureScreenshot', { format: 'png', captureBeyondViewport: true });
        writeFileSync(file, Buffer.from(data, 'base64'));
    }

    async close() {
        await this.call('Browser.close').catch(() => {});
        this.connection.socket.close();
        if (this.child.exitCode === null) {
            await new Promise((found) => this.child.on('exit', found));
        }
        rmSync(this.folder, { recursive: true, force: true, maxRetries: 5 });
    }
}
