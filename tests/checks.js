// What test scripts compare: a line for each comparison, and at last whether all hold.
'use strict';

let failed = 0;
const holds = (what, got, wanted) => {
  const [text, want] = [JSON.stringify(got), JSON.stringify(wanted)];
  if (text !== want) failed++;
  console.log(text === want ? `ok: ${what}` : `FAILED: ${what}: got ${text}, not ${want}`);
};

// Whether a call traps.
const traps = call => {
  try {
    call();
    return false;
  } catch (fault) {
    return fault instanceof WebAssembly.RuntimeError;
  }
};

// Calls the function of each word NAME=FILE, by its name, and sets the exit status.
const runAll = (functions, words) => {
  for (const word of words) {
    const [name, file] = word.split('=');
    try {
      functions[name](name, file);
    } catch (fault) {
      holds(`${name}: it runs`, String(fault), 'with no fault');
    }
  }
  console.log(failed === 0 ? 'all hold' : `${failed} failed`);
  process.exitCode = failed === 0 ? 0 : 1;
};

module.exports = { holds, runAll, traps };
