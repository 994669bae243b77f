// lib0 and Yjs on the inputs of a measurement: speed.cjs FOLDER. A line each: what, and the least ns for one operation.
const Y = require('yjs'), dec = require('lib0/dist/decoding.cjs'), enc = require('lib0/dist/encoding.cjs'), fs = require('fs');
const folder = process.argv[2], inputs = 64;
const rd = f => new Uint8Array(fs.readFileSync(`${folder}/${f}.bin`));
let sink = 0;
function best(name, per, f, ms = 700) {
  const t0 = process.hrtime.bigint();
  let least = Infinity;
  while (process.hrtime.bigint() - t0 < BigInt(ms) * 1000000n) {
    const t = process.hrtime.bigint();
    sink ^= f();
    least = Math.min(least, Number(process.hrtime.bigint() - t) / per);
  }
  console.log(`${name}\t${least.toFixed(2)}`);
}
['nine in ten one byte', 'even, 1 to 5 bytes', 'all one byte'].forEach((what, m) => {
  const bs = [...Array(inputs).keys()].map(i => rd(`numbers-${m}-${i}`));
  const vs = bs.map(b => { const d = dec.createDecoder(b), v = []; while (dec.hasContent(d)) v.push(dec.readVarUint(d)); return v; });
  const per = vs.reduce((n, v) => n + v.length, 0);
  best(`read u32, ${what}`, per, () => { let s = 0; bs.forEach((b, k) => { const d = dec.createDecoder(b); for (let i = vs[k].length; i > 0; i--) s ^= dec.readVarUint(d); }); return s; });
  best(`write u32, ${what}`, per, () => { let s = 0; for (const v of vs) { const e = enc.createEncoder(); for (let i = 0; i < v.length; i++) enc.writeVarUint(e, v[i]); s += enc.length(e); } return s; });
});
const bs = [...Array(inputs).keys()].map(i => rd(`vector-${i}`)), maps = bs.map(b => Y.decodeStateVector(b));
best('decode of rising clients, 256 clients', inputs, () => { let n = 0; for (const b of bs) n += Y.decodeStateVector(b).size; return n; });
best('encode, 256 clients', inputs, () => { let n = 0; for (const m of maps) n += Y.encodeStateVector(m).length; return n; });
if (sink === 0.5) console.log(sink);
