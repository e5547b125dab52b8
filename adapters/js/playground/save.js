'use strict';
// Files of a drawing.

// Browsers refuse larger canvases.
const MOST_PIXELS = 8192;

/** Hands a file to whoever sits there. */
function save(name, blob) {
  const link = document.createElement('a');
  link.href = URL.createObjectURL(blob);
  link.download = name;
  document.body.append(link);
  link.click();
  link.remove();
  setTimeout(() => URL.revokeObjectURL(link.href), 60_000);
}

function loaded(svg) {
  return new Promise((resolve, reject) => {
    const image = new Image();
    image.onload = () => resolve(image);
    image.onerror = () => reject(new Error('the browser can\'t read the picture'));
    image.src = `data:image/svg+xml;charset=utf-8,${encodeURIComponent(svg)}`;
  });
}

/** A picture as PNG, with two pixels for a unit where the browser can. */
async function pngOf(svg) {
  const image = await loaded(svg);
  const { naturalWidth: width, naturalHeight: height } = image;
  const scale = Math.min(2, MOST_PIXELS / width, MOST_PIXELS / height);
  const canvas = document.createElement('canvas');
  canvas.width = Math.max(1, Math.round(width * scale));
  canvas.height = Math.max(1, Math.round(height * scale));
  canvas.getContext('2d').drawImage(image, 0, 0, canvas.width, canvas.height);
  const blob = await new Promise((resolve) => {
    canvas.toBlob(resolve, 'image/png');
  });
  if (!blob) {
    throw new Error('the browser can\'t make a picture of this size');
  }
  return blob;
}

/**
 * Copies a picture.
 * @param {Promise<Blob>} png browsers must be asked at once, while the click counts for which it is made
 */
async function copyPicture(png) {
  if (typeof ClipboardItem !== 'function' || !navigator.clipboard?.write) {
    throw new Error('this browser copies no pictures; save it as PNG');
  }
  await navigator.clipboard.write([new ClipboardItem({ 'image/png': png })]);
}

/** Whether a text could be handed to the clipboard. */
async function copied(text) {
  try {
    await navigator.clipboard.writeText(text);
    return true;
  } catch {
    const area = document.createElement('textarea');
    area.value = text;
    document.body.append(area);
    area.select();
    const isDone = document.execCommand('copy');
    area.remove();
    return isDone;
  }
}

module.exports = { copied, copyPicture, pngOf, save };
