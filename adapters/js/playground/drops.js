'use strict';
// Documents that are dropped on the page or pasted beside the text. Within the editor a text is a part of a document.

const isWithin = (target, editor) => target instanceof Node && editor.contains(target);

const fileOf = ({ files, types }) => files[0] ?? [...types].includes('Files');

/**
 * @param {HTMLElement} editor keeps what is dropped or pasted into it, save files
 * @param {{ onFile: (file: File) => void, onText: (text: string) => void }} listener
 */
function hearDrops(editor, { onFile, onText }) {
  const over = (isOver) => document.body.classList.toggle('over', isOver);
  const isOurs = ({ target, dataTransfer }) => fileOf(dataTransfer) || !isWithin(target, editor);
  // Before the editor hears of it, which would put the text of a file in.
  const first = { capture: true };
  document.addEventListener('dragover', (event) => {
    if (isOurs(event)) {
      event.preventDefault();
      event.stopPropagation();
    }
    over(isOurs(event));
  }, first);
  document.addEventListener('dragleave', ({ relatedTarget }) => relatedTarget || over(false));
  document.addEventListener('dragend', () => over(false));
  document.addEventListener('drop', (event) => {
    over(false);
    if (!isOurs(event)) {
      return;
    }
    event.preventDefault();
    event.stopPropagation();
    take(event.dataTransfer);
  }, first);
  // A paste into a field is a part of what stands there.
  document.addEventListener('paste', (event) => {
    if (!isWithin(event.target, editor) && !event.target.closest?.('input, textarea, select')) {
      event.preventDefault();
      take(event.clipboardData);
    }
  });
  const take = (data) => {
    const [file] = data.files;
    const text = data.getData('text/plain');
    if (file) {
      onFile(file);
    } else if (text) {
      onText(text);
    }
  };
}

module.exports = { hearDrops };
