// SPDX-License-Identifier: Apache-2.0
// The print of a range admits the versions that the range admits. The print is made of comparators, which JavaScript
// finds, and the library tests the range. A row of the table covers what npm drops from a print.
'use strict';

const assert = require('node:assert');
const { test } = require('node:test');
const here = require('..');
const { OPTIONS } = require('./calls.js');
const { Edited } = require('./edited.js');
const { coversRange, rules } = require('./rules.js');
const { Texts } = require('./texts.js');

const RANGES = 4000;
const VERSIONS = ['0.0.0-0', '0.0.0', '1.0.0', '1.2.3', '2.0.0', '3.0.0-rc.1'];
const DROPS = ['large numbers and long words', 'any version beside others'];
const dropping = rules.filter(({ name }) => DROPS.includes(name));

const isDropped = (text, options) => dropping.some((rule) => coversRange(rule, text, options));

for (const [name, Generator] of Object.entries({ grammar: Texts, edits: Edited })) {
    test(`${RANGES} ranges by ${name}`, () => {
        const texts = new Generator(5);
        let printed = 0;
        for (let i = 0; i < RANGES; i++) {
            const [text, options] = [texts.range(), texts.of(OPTIONS)];
            const print = here.validRange(text, options);
            if (print !== null && !isDropped(text.trim(), options)) {
                printed++;
                for (const version of [...VERSIONS, texts.version()]) {
                    assert.strictEqual(here.satisfies(version, print, options), here.satisfies(version, text, options),
                        JSON.stringify({ text, options, print, version }));
                }
            }
        }
        assert.ok(printed > RANGES / 10, `${printed} prints`);
    });
}
