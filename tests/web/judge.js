// Counts what is asserted. A failure is printed, and the rest goes on.
const results = { passed: 0, failed: 0 };

async function judge(name, test) {
  try {
    await test();
    results.passed++;
  } catch (error) {
    results.failed++;
    console.log(`${name}: failed\n${error.stack ?? error}`);
  }
}

function finish() {
  console.log(`${results.passed} passed, ${results.failed} failed`);
  process.exitCode = results.failed === 0 && results.passed > 0 ? 0 : 1;
}

// Random numbers, the same for the same seed.
function random(seed) {
  let state = seed >>> 0;
  const next = () => {
    state = (state + 0x9e3779b9) >>> 0;
    let z = state;
    z = Math.imul(z ^ (z >>> 16), 0x85ebca6b);
    z = Math.imul(z ^ (z >>> 13), 0xc2b2ae35);
    return (z ^ (z >>> 16)) >>> 0;
  };
  const below = (n) => Math.floor((next() / 2 ** 32) * n);
  const oneIn = (n) => below(n) === 0;
  const pick = (list) => list[below(list.length)];
  const bytes = (n) => Uint8Array.from({ length: n }, () => below(256));
  return { next, below, oneIn, pick, bytes };
}

module.exports = { judge, finish, random };
