'use strict';
// Whether a text is well-formed XML, as far as the pictures need it: elements, attributes, text and entities.

const NAME = '[A-Za-z_][\\w.-]*';
const TEXT = `(?:[^<&]|&(?:amp|lt|gt|quot|apos);)*`;
const TAG = new RegExp(`<(?:/(${NAME})|(${NAME})((?:\\s+${NAME}="(?:[^<&"]|&(?:amp|lt|gt|quot|apos);)*")*)\\s*(/?))>`, 'y');
const CHARACTERS = /^[\t\n\r\u0020-\ud7ff\ue000-\ufffd\u{10000}-\u{10ffff}]*$/u;

const hasDoubles = (attributes) => {
  const names = [...attributes.matchAll(new RegExp(`(${NAME})="`, 'g'))].map(([, name]) => name);
  return new Set(names).size < names.length;
};

/** The elements of a text of XML, in order; throws at the first place that is not well-formed. */
function elementsOfXml(text) {
  const fail = (at) => {
    throw new Error(`not well-formed at ${at}: ${JSON.stringify(text.slice(at, at + 60))}`);
  };
  if (!CHARACTERS.test(text)) {
    fail(0);
  }
  const [elements, open, words] = [[], [], new RegExp(TEXT, 'y')];
  for (let at = 0; at < text.length; ) {
    TAG.lastIndex = at;
    const tag = TAG.exec(text);
    if (!tag) {
      fail(at);
    }
    const [whole, closed, opened, attributes, isEmpty] = tag;
    if (closed !== undefined ? open.pop() !== closed : hasDoubles(attributes)) {
      fail(at);
    }
    if (opened !== undefined && !isEmpty) {
      open.push(opened);
    }
    words.lastIndex = at + whole.length;
    const [content] = words.exec(text);
    if (opened !== undefined) {
      elements.push({ name: opened, attributes, content });
    }
    at += whole.length + content.length;
    if (open.length === 0) {
      return content.trim() === '' && at === text.length ? elements : fail(at);
    }
  }
  return fail(text.length);
}

module.exports = { elementsOfXml };
