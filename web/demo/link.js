// A chart with its labels and calls as a link, and a widget as text. What comes from outside is only ever text: the engine examines it.
const MOST_CALLS = 5000, MOST_LETTERS = 200000; // of a chart's text, packed: far more than any chart has

function packed(text) {
  const bytes = new TextEncoder().encode(text);
  let letters = '';
  for (const b of bytes) letters += String.fromCharCode(b);
  return btoa(letters).replaceAll('+', '-').replaceAll('/', '_').replaceAll('=', '');
}
function unpacked(word) {
  const letters = atob(word.replaceAll('-', '+').replaceAll('_', '/'));
  return new TextDecoder('utf-8', { fatal: true }).decode(Uint8Array.from(letters, (c) => c.charCodeAt(0)));
}

export function linkOf({ text, labels, calls }, here) {
  const url = new URL(here);
  url.hash = `c=${packed(text)}&l=${packed(labels)}&e=${calls.slice(0, MOST_CALLS).join('~')}`;
  return url.href;
}
// What a link carries, or null where it carries nothing; a broken one throws.
export function fromLink(hash) {
  const fields = new URLSearchParams(hash.replace(/^#/, ''));
  if (!fields.has('c')) return null;
  if (Math.max(fields.get('c').length, fields.get('l')?.length ?? 0) > MOST_LETTERS) throw new Error('it carries more than any chart has');
  const calls = (fields.get('e') ?? '').split('~').filter((c) => c !== '').slice(0, MOST_CALLS).map((word) => {
    const m = /^(?:(p)(-?\d{1,10})\.(-?\d{1,10})|(r)|(d))$/.exec(word);
    if (!m) throw new Error('a call in this link cannot be read');
    return { kind: m[1] ?? m[4] ?? m[5], event: Number(m[2]), argument: Number(m[3]) };
  });
  return { text: unpacked(fields.get('c')), labels: unpacked(fields.get('l') ?? ''), calls };
}

// A widget's numbers by line: started, active, slots, variables, how many wait, what waits.
const PARTS = [1, 64, 64, 16, 1, 32];
export function savedText(numbers) {
  let at = 0;
  return `${PARTS.map((n) => { at += n; return Array.from(numbers.slice(at - n, at)).join(' '); }).join('\n')}\n`;
}
export function numbersOf(text) {
  const words = text.trim().split(/\s+/).filter((w) => w !== '');
  if (!words.every((w) => /^-?\d{1,10}$/.test(w) && Number(w) === (Number(w) | 0))) throw new RangeError('these are not all 32-bit whole numbers');
  return words.map(Number);
}
