'use strict';
// What tests read of graphs of any form.

const isObject = (value) => typeof value === 'object' && value !== null && !Array.isArray(value);

/** The elements of a list of a graph; none if it has no such list. */
const elementsOf = (list) => (Array.isArray(list) ? list.filter(isObject) : []);

const numberOr0 = (value) => (Number.isFinite(value) ? value : 0);

/** The points of a section, from its start to its end. */
const pointsOf = ({ startPoint, bendPoints = [], endPoint }) => [startPoint, ...bendPoints, endPoint];

module.exports = { elementsOf, numberOr0, pointsOf };
