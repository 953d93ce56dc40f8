// Prints the bits of frames as the page of a run shows them: `node page_bits.js BITS.js < FRAMES`. Each line of input
// contains a frame, followed by the frames that compete with it. The output for each line is the output of `canbusd
// bits`, without the number of bits.
const fs = require("fs"), vm = require("vm");

vm.runInThisContext(`${fs.readFileSync(process.argv[2], "utf8")}\nObject.assign(globalThis, { wireBits, silentAt });`);
const { wireBits, silentAt } = globalThis;

function textOf(frame, others) {
  const bits = wireBits(frame), lines = [];
  bits.forEach(({ field, bit, isStuff }, place) => {
    if (field !== bits[place - 1]?.field) lines.push(field.padEnd(15));
    lines[lines.length - 1] += isStuff ? `(${bit})` : bit;
  });
  for (const other of others) {
    const place = silentAt(bits, wireBits(other));
    lines.push(place < 0 ? `not silent     ${other}` : `${"silent".padEnd(15)}${bits[place].field.padEnd(15)}bit ${place}, ${other}`);
  }
  return lines;
}
const frames = fs.readFileSync(0, "utf8").split("\n").filter(Boolean);
for (const line of frames) console.log(JSON.stringify(textOf(...(([frame, ...others]) => [frame, others])(line.split(" ")))));
