'use strict';
// Options of a whole document: what its text says of them, and how one is written into it.

const { nameOf } = require('../options');
const { bareOf, tokensOf } = require('./tokens');
const { meantBy } = require('./outline');

const PREFIX = 'elk.';

const INDENT = '  ';

const DEPTHS = { '{': 1, '[': 1, '}': -1, ']': -1 };

/** The members of the object that begins at a place: the token of each name, the first one of each value, and its end. */
function membersOf(text, from) {
  const members = [];
  let [depth, name, member] = [1];
  for (const token of tokensOf(text, from + 1)) {
    depth += DEPTHS[token.text] ?? 0;
    if (depth === 0) {
      break;
    } else if (depth === 1 && token.text === ',') {
      [name, member] = [];
    } else if (member) {
      member.end = token.end;
    } else if (name && token.text !== ':') {
      member = { key: bareOf(name.text), name, value: token, end: token.end };
      members.push(member);
    } else {
      name ??= token;
    }
  }
  return members;
}

const isObjectAt = (text, at) => text[at] === '{';

/** Where the document begins, if it is an object. */
function rootOf(text) {
  const [first] = tokensOf(text);
  return first?.text === '{' ? first.start : undefined;
}

/** Where the options of the outermost level begin; undefined if it has none. */
function optionsOf(text, root) {
  const holder = membersOf(text, root).findLast(({ key }) => key === 'layoutOptions');
  return holder && isObjectAt(text, holder.value.start) ? holder.value.start : undefined;
}

/** Puts a member into the object that begins at a place, as its first one. */
function memberIn(text, start, depth, member) {
  const end = start + 1;
  const isEmpty = /^\s*\}/.test(text.slice(end));
  const isSpread = /^[ \t]*\n/.test(text.slice(end));
  const lead = isSpread ? `\n${INDENT.repeat(depth)}` : ' ';
  return { from: end, to: end, text: `${lead}${member}${isEmpty ? ' ' : ','}` };
}

/** The letters of a member, with the comma that parts it from the next or from the last one. */
function memberFrom(text, { name, end }) {
  const next = /^\s*,\s*/.exec(text.slice(end));
  if (next) {
    return { from: name.start, to: end + next[0].length, text: '' };
  }
  const before = /,?\s*$/.exec(text.slice(0, name.start))[0].length;
  return { from: name.start - before, to: end, text: '' };
}

/** The member with an option; if there are several, the longest key counts. */
const memberOf = (members, name) =>
  members.filter(({ key }) => nameOf(key) === name).sort((one, other) => other.key.length - one.key.length)[0];

/**
 * The change of a text that gives its outermost level an option, or takes it away.
 * @param {string} text a document of JSON, which may have faults
 * @param {string} name of the option
 * @param {string | number | undefined} value undefined takes the option away
 * @returns {{ from: number, to: number, text: string } | undefined} what is written instead of which letters
 */
function withOption(text, name, value) {
  const root = rootOf(text);
  if (root === undefined) {
    return undefined;
  }
  const start = optionsOf(text, root);
  const found = start === undefined ? undefined : memberOf(membersOf(text, start), name);
  if (value === undefined) {
    return found && memberFrom(text, found);
  }
  if (found) {
    return { from: found.value.start, to: found.end, text: JSON.stringify(value) };
  }
  const member = `"${PREFIX}${name}": ${JSON.stringify(value)}`;
  return start === undefined
    ? memberIn(text, root, 1, `"layoutOptions": { ${member} }`)
    : memberIn(text, start, 2, member);
}

/** The values of these options, by their names, as the outermost level has them. */
function chosenIn(text, names) {
  const root = rootOf(text);
  const start = root === undefined ? undefined : optionsOf(text, root);
  const members = start === undefined ? [] : membersOf(text, start);
  const found = names.map((name) => [name, memberOf(members, name)]).filter(([, member]) => member);
  return Object.fromEntries(found.map(([name, { value }]) => [name, meantBy(value.text)]));
}

module.exports = { chosenIn, withOption };
