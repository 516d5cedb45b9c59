// SPDX-License-Identifier: Apache-2.0
// The order of the elements of a list, as their places: elements that are equal stay as they stood.
'use strict';

const { Words } = require('./builtins.js');

// Merges two parts of `from`, the one up to `middle` and the other from there, into `to`.
function merge(from, to, start, middle, end, order) {
    let one = start;
    let other = middle;
    for (let i = start; i < end; i++) {
        const isFirst = other === end || (one < middle && order(from[one], from[other]) <= 0);
        to[i] = isFirst ? from[one++] : from[other++];
    }
}

// The places up to `count` in the order of a function of two places.
function sortPlaces(count, order) {
    let from = new Words(count);
    let to = new Words(count);
    for (let i = 0; i < count; i++) {
        from[i] = i;
    }
    for (let width = 1; width < count; width *= 2) {
        for (let start = 0; start < count; start += 2 * width) {
            const middle = start + width < count ? start + width : count;
            const end = middle + width < count ? middle + width : count;
            const isInOrder = middle === end || order(from[middle - 1], from[middle]) <= 0;
            merge(from, to, start, isInOrder ? end : middle, end, order);
        }
        const sorted = to;
        to = from;
        from = sorted;
    }
    return from;
}

module.exports = { sortPlaces };
