// Chart K of the scope document written by hand, as a programmer would without an engine: for the speed to be compared with.
// It does all that the engine does for K and no more: states, history, the variable held in its range, the trace. It knows no other chart.
export function handWrittenK() {
  const trace = new Int32Array(15);
  let state = 1, history = -1, value = 0, n = 0;
  const tell = (kind, first, second) => { trace[n++] = kind; trace[n++] = first; trace[n++] = second; };
  const enter4 = () => { tell(3, 4, 0); tell(6, 7, 0); state = 4; };
  const leave2 = () => {
    tell(2, state, 0); history = state; tell(2, 2, 0);
    value = Math.min(value + 60, 100);
    tell(4, 0, value); tell(3, 1, 0); state = 1;
  };
  return {
    trace,
    get value() { return value; },
    // How many numbers of the trace were written.
    send(event) {
      n = 0;
      switch (state) {
        case 1:
          if (event !== 1) return n;
          tell(1, 0, 0); tell(2, 1, 0); tell(3, 2, 0);
          if (history === -1) { tell(6, 9, 0); tell(3, 3, 0); state = 3; } else if (history === 3) { tell(3, 3, 0); state = 3; } else enter4();
          return n;
        case 3:
          if (event === 2) { tell(1, 1, 0); tell(2, 3, 0); enter4(); } else if (event === 1) { tell(1, 2, 0); leave2(); }
          return n;
        default:
          if (event === 1) { tell(1, 2, 0); leave2(); }
          return n;
      }
    },
  };
}
