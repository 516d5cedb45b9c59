// SPDX-License-Identifier: Apache-2.0
// Command lines that npm's command `semver` has not, with what the proved program `semver` and the command of this package
// write. Both are run on them: the program by tests/npm/semver.js.
'use strict';

const written = (...versions) => ({ status: 0, output: versions.map((version) => `${version}\n`).join(''), error: '' });
const NOTHING = { status: 1, output: '', error: '' };

// Words, standard input, and the output. npm's command reads no standard input.

const VERSIONS = '1.10.0\nv1.2.3\r\n\nlatest\n2.0.0-rc.1\n 1.4.2 \n2.0.0+5';
const text = (output, status = 0) => ({ status, output, error: '' });
const READ_ROWS = [
    [['-r', '^1'], VERSIONS, written('1.2.3', '1.4.2', '1.10.0')],
    [['--loose'], VERSIONS, written('1.2.3', '1.4.2', '1.10.0', '2.0.0-rc.1', '2.0.0')],
    [['-'], VERSIONS, written('1.2.3', '1.4.2', '1.10.0', '2.0.0-rc.1', '2.0.0')],
    [['--unsorted', '3.0.0', '-', '0.1.0', '-', 'x'], VERSIONS, written('3.0.0', '1.10.0', '1.2.3', '2.0.0-rc.1', '1.4.2', '2.0.0', '0.1.0')],
    [['--unsorted', '3.0.0', '1.0.0'], VERSIONS, written('3.0.0', '1.0.0')],
    [['--unsorted', '--reverse', '-'], '1.0.0\n3.0.0\n2.0.0\n', written('1.0.0', '3.0.0', '2.0.0')],
    [['-v', '-'], '1.0.0', written('1.0.0')],
    [['--least', '-'], VERSIONS, written('1.2.3')],
    [['--greatest', '-'], VERSIONS, written('2.0.0')],
    [['--greatest', '-r', '1.x', '-'], VERSIONS, written('1.10.0')],
    [['--least', '--greatest', '1.0.0', '2.0.0'], '', written('2.0.0')],
    [['--greatest', '--least', '1.0.0', '2.0.0'], '', written('1.0.0')],
    [['--greatest', '--unsorted', '2.0.0', '1.0.0'], '', written('2.0.0', '1.0.0')],
    [['--least', '-r', '^3', '-'], VERSIONS, NOTHING],
    [['--least', '-i', 'minor', '1.2.3'], '', written('1.3.0')],
    [['-i', 'major'], '1.2.3\n', written('2.0.0')],
    [['-r', '^1'], '', NOTHING],
    [['-c'], 'release-1.2\n', written('1.2.0')],
    [['--json', '1.10.0', '1.2.3'], '', text('["1.2.3","1.10.0"]\n')],
    [['--json', '--unsorted', '1.10.0', 'x', '1.2.3-rc.1'], '', text('["1.10.0","1.2.3-rc.1"]\n')],
    [['--json', '--least', '1.10.0', '1.2.3'], '', text('["1.2.3"]\n')],
    [['--json', 'x'], '', text('[]\n', 1)],
    [['--json', '--unsorted', 'x'], '', text('[]\n', 1)],
    [['--json', '--greatest', 'x'], '', text('[]\n', 1)],
    [['--json', '-i', 'minor', '1.2.3'], '', text('["1.3.0"]\n')],
    [['--json', '-i', 'minor', 'x'], '', text('[]\n', 1)],
    [['--json', '-i', 'prerelease', '--preid', 'beta', '-n', 'false', '1.2.3-beta'], '', text('[null]\n')],
];

// `--explain`: words, the output, and the errors. No row reads standard input.
const lines = (status, output, error = []) => ({ status, output: output.map((line) => `${line}\n`).join(''),
    error: error.map((line) => `${line}\n`).join('') });
const NO_EXPLANATION = lines(1, [], ['--explain can only be used on ranges, with no version']);
const EXPLAIN_ROWS = [
    [['--explain', '-r', '^1.2.3-rc.4 || 2.x'],
        lines(0, ['>=1.2.3-rc.4 <2.0.0-0  prereleases of 1.2.3', '>=2.0.0 <3.0.0-0  no prereleases'])],
    [['-r', '^1.2.3-rc.4', '--explain', '-p'], lines(0, ['>=1.2.3-rc.4 <2.0.0-0  all prereleases inside'])],
    [['--explain', '-r', '>1.2.3-a <=3.0.0-b'], lines(0, ['>1.2.3-a <=3.0.0-b  prereleases of 1.2.3 and 3.0.0'])],
    [['--explain', '-r', '>=1.2.3-a <1.2.3-b'], lines(0, ['>=1.2.3-a <1.2.3-b  prereleases of 1.2.3'])],
    [['--explain', '-r', '1.2.3-a'], lines(0, ['1.2.3-a  prereleases of 1.2.3'])],
    [['--explain', '-r', '*'], lines(0, ['*  no prereleases'])],
    [['--explain', '-r', ''], lines(0, ['*  no prereleases'])],
    // No version is between the ends, or none with the numbers of the upper end.
    [['--explain', '-r', '>4 <3'], lines(0, ['<0.0.0-0  no versions'])],
    [['--explain', '-r', '>1.2.3 <1.2.4-0 || >1.2.3 <1.2.4-a'],
        lines(0, ['>1.2.3 <1.2.4-0  no versions', '>1.2.3 <1.2.4-a  prereleases of 1.2.4'])],
    [['--explain', '-r', '>1.0.0-a <1.0.0-a.0 || >=1.0.0-a <1.0.0-a.0'],
        lines(0, ['>1.0.0-a <1.0.0-a.0  no versions', '>=1.0.0-a <1.0.0-a.0  prereleases of 1.0.0'])],
    [['--explain', '-p', '-r', '>1.2.3 <1.2.4-0 || >1.0.0-a <1.0.0-a.0 || <0.0.0-1 || <0.0.0-0'],
        lines(0, ['>1.2.3 <1.2.4-0  no versions', '>1.0.0-a <1.0.0-a.0  no versions', '<0.0.0-1  all prereleases inside',
            '<0.0.0-0  no versions'])],
    [['--explain', '-r', '^9007199254740991'], lines(0, ['>=9007199254740991.0.0 <9007199254740992.0.0-0  no prereleases'])],
    // Several ranges, and texts that are refused: their bytes are characters of the line.
    [['--explain', '-r', '1', '-r', '2'], lines(0, ['>=1.0.0 <2.0.0-0  no prereleases', '>=2.0.0 <3.0.0-0  no prereleases'])],
    [['--explain', '-r', '>=1.2 foo'], lines(1, [], ['>=1.2 foo', '      ^'])],
    [['--explain', '-r', '>=1.2\t"é\u3000foo'], lines(1, [], ['>=1.2\\x09\\"\\xc3\\xa9\\xe3\\x80\\x80foo', '         ^'])],
    [['--explain', '-r', '日\u3000foo'], lines(1, [], ['\\xe6\\x97\\xa5\\xe3\\x80\\x80foo', '^'])],
    [['--explain', '-r', '1\u3000foo'], lines(1, [], ['1\\xe3\\x80\\x80foo', '             ^'])],
    [['--explain', '-l', '-r', 'foo bar'], lines(1, [], ['foo bar', '^'])],
    [['--explain', '-r', 'foo', '-r', '3', '-r', '1 - 2 x.y'],
        lines(1, ['>=3.0.0 <4.0.0-0  no prereleases'], ['foo', '^', '1 - 2 x.y', '  ^'])],
    // Nothing to explain.
    [['--explain'], NO_EXPLANATION],
    [['--explain', '-r', '1', '1.2.3'], NO_EXPLANATION],
    [['--explain', '-r', '1', '-'], NO_EXPLANATION],
    [['--explain', '-r', '1', '-i'], NO_EXPLANATION],
    [['--explain', '-r'], NO_EXPLANATION],
    [['--explain', '-r', '1', '-r'], { ...NO_EXPLANATION, output: '>=1.0.0 <2.0.0-0  no prereleases\n' }],
    [['--explain', '-r', 'x y', '-r'], lines(1, [], ['x y', '  ^'])],
];

// Bytes that are no UTF-8 make a line that is no version.
const NO_UTF8 = [['-'], Buffer.from([0x31, 0x2e, 0x32, 0x2e, 0x33, 0xff, 0x0a, 0x31, 0x2e, 0x30, 0x2e, 0x30, 0x0a]), written('1.0.0')];

// Words, standard input, and the output.
const ROWS = [...READ_ROWS, NO_UTF8, ...EXPLAIN_ROWS.map(([words, answer]) => [words, '1.2.3\n', answer])];

module.exports = { ROWS };
