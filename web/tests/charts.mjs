// Charts at the edge of the sizes, for the tests in Node. Tabs are written as spaces.
const tabs = (text) => text.replaceAll(' ', '\t');
const list = (n, row) => Array.from({ length: n }, (_, i) => `${row(i)}\n`).join('');

export const K = tabs(`S 0 - o 1
S 1 0 b -
S 2 0 o 3
S 3 2 b -
S 4 2 b -
V 0 -100 100 0
E 2
T 0 1 1 - - - h2
T 1 3 2 - - - 4
T 2 2 1 - - - 1
A e 4 o 7 -
A x 2 a 0 60
A d 2 o 9 -
`);

// 64 states, each in the one before it; 128 transitions, every second to a history; 256 actions on the way in and out.
export const deep = tabs(list(63, (i) => `S ${i} ${i ? i - 1 : '-'} o ${i + 1}`) + 'S 63 62 b -\nV 0 -1000000000 1000000000 0\nE 32\n'
  + list(128, (i) => `T ${i} ${1 + (i % 63)} ${1 + (i % 32)} - - - ${i % 2 ? `h${1 + (i % 62)}` : 1 + ((i * 7) % 63)}`)
  + list(256, (i) => `A ${'ex'[i % 2]} ${i % 64} a 0 1`));

// 63 children of the root.
export const wide = tabs('S 0 - o 1\n' + list(63, (i) => `S ${i + 1} 0 b -`) + 'E 32\n'
  + list(128, (i) => `T ${i} ${1 + (i % 63)} ${1 + (i % 32)} - - - ${1 + ((i * 5) % 63)}`));

// 31 components side by side, each of which answers every event, and null transitions that settle.
export const broad = tabs('S 0 - o 1\nS 1 0 a -\n' + list(62, (i) => (i % 2 ? `S ${i + 2} ${i + 1} b -` : `S ${i + 2} 1 o ${i + 3}`)) + 'V 0 0 32 0\nE 32\n'
  + list(124, (i) => (i < 31 ? `T ${i} ${3 + 2 * i} ${1 + (i % 2)} - - - ${3 + 2 * i}` : i < 62 ? `T ${i} ${2 + 2 * (i - 31)} 3 - - - h${2 + 2 * (i - 31)}`
    : i < 93 ? `T ${i} ${3 + 2 * (i - 62)} ${4 + (i % 29)} - - - -` : `T ${i} ${3 + 2 * (i - 93)} 0 0 = ${1 + (i - 93)} -`))
  + list(31, (i) => `A t ${93 + i} a 0 1`) + list(31, (i) => `A t ${62 + i} s 0 1`) + list(31, (i) => `A e ${3 + 2 * i} a 0 ${i % 2}`));
