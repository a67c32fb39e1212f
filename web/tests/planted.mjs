// Faults planted in the wasm file must be found. A size of the scope stands in the code as a constant, at one place or more; a copy of the
// file with another constant in its place, everywhere, is run through the vectors and, where those find nothing, through recorded calls.
// `--each` plants at one place at a time and only tells: what one place misses, another may still refuse (a text's numbers are looked at by
// the reader and again by rule R0), so that not each of these can be found.
//
//   node planted.mjs [--each] [RECORDED]       RECORDED: a file that `compare --record` wrote
import fs from 'node:fs';
import { Engine } from '../quasarhorn.js';
import { random } from './random.mjs';
import { WASM, vectors } from './vectors.mjs';

const each = process.argv.includes('--each'), recorded = process.argv.slice(2).find((word) => fs.existsSync(word)) ?? null, file = fs.readFileSync(WASM);
const FAULTS = [[1000000000, 8], [1000000001, 9], [32768, 100], [178, 200], [200000, 5]];

// A whole number as WebAssembly writes it: in as few bytes as it needs, or in so many.
function signed(n, bytes = 0) {
  const out = [];
  for (let more = true; more;) {
    const low = n & 0x7f;
    n >>= 7;
    more = out.length + 1 < bytes || !((n === 0 && !(low & 0x40)) || (n === -1 && low & 0x40));
    out.push(more ? low | 0x80 : low);
  }
  return out;
}
function placesOf(from) { // 0x41 and 0x42: a constant of 32, of 64 bits
  return [0x41, 0x42].flatMap((type) => {
    const old = Buffer.from([type, ...signed(from)]), places = [];
    for (let at = file.indexOf(old); at >= 0; at = file.indexOf(old, at + 1)) places.push(at);
    return places;
  });
}
function* plants() {
  for (const [from, to] of FAULTS) {
    const bytes = Buffer.from(signed(to, signed(from).length)), places = placesOf(from);
    for (const [i, group] of (each ? places.map((p) => [p]) : [places]).entries()) {
      const copy = Buffer.from(file);
      for (const at of group) bytes.copy(copy, at + 1);
      yield { name: `${to} for ${from}${each ? `, place ${i + 1}` : `, ${group.length} places`}`, copy, planted: group.length };
    }
  }
}
async function foundBy(copy) {
  const engine = await Engine.load(copy);
  try { const { wrong } = vectors(engine); if (wrong.length) return `the vectors: ${wrong[0]}`; } catch (e) { return `the vectors: ${e.message}`; }
  const apart = recorded && (await random(copy, fs.createReadStream(recorded))).apart;
  return apart ? `the recorded calls: ${apart}` : null;
}

let found = 0, planted = 0;
for (const { name, copy, planted: count } of plants()) {
  const by = count ? await foundBy(copy) : null;
  planted++;
  if (by) found++;
  if (each || !by) console.log(`${by ? 'found' : 'NOT FOUND'} ${name}${by ? `, by ${by}` : ''}`);
}
const ok = each ? found > 0 : found === planted;
console.log(`planted faults: ${found} of ${planted} found: ${ok ? '1 passed, 0' : '0 passed, 1'} failed`);
process.exit(ok ? 0 : 1);
