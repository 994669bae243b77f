// compare.cjs ONE [SEED [ROUNDS]]: lib0's numbers, and the state vectors and delete sets of real Yjs
// documents, against the model and (where it is linked) the proved library. ONE answers a case a line.
// Needs Debian's node-yjs and node-lib0 (NODE_PATH=/usr/share/nodejs).
'use strict'
const Y = require('yjs')
const enc = require('lib0/encoding')
const dec = require('lib0/decoding')
const { spawnSync } = require('child_process')

const [one, seedWord, roundsWord] = process.argv.slice(2)
let seed = Number(seedWord || Date.now() % 1000000007)
const rounds = Number(roundsWord || 300)
console.log(`Yjs ${require('yjs/package.json').version}, lib0 ${require('lib0/package.json').version}, seed ${seed}, ${rounds} rounds of documents`)
const next = () => { seed = (seed + 0x6D2B79F5) | 0; let t = Math.imul(seed ^ (seed >>> 15), 1 | seed); t = (t + Math.imul(t ^ (t >>> 7), 61 | t)) ^ t; return (t ^ (t >>> 14)) >>> 0 }
const below = n => next() % n

const cases = [] // {kind, line, want}
const ask = (kind, line, want) => cases.push({ kind, line, want })
const hex = b => b.length === 0 ? '-' : Buffer.from(b).toString('hex').toUpperCase()
const written = (f, x) => { const e = enc.createEncoder(); f(e, x); return enc.toUint8Array(e) }
const show = x => BigInt(x).toString()

// ---- numbers
const safe = Number.MAX_SAFE_INTEGER
const values = new Set()
for (let i = 0; i < 20000; i++) values.add(i)
for (let k = 0; k <= 53; k++) for (const d of [-2, -1, 0, 1, 2]) { const x = 2 ** k + d; if (x >= 0 && x <= safe) values.add(x) }
for (let i = 0; i < 20000; i++) { const k = below(54); values.add(Math.floor(next() / 2 ** 32 * 2 ** k)) }
for (const x of values) {
  const b = written(enc.writeVarUint, x)
  for (const w of ['u64', 'usize'].concat(x < 2 ** 32 ? ['u32'] : [], x < 256 ? ['u8'] : [])) {
    ask('write', `write_${w} bytes=${'00'.repeat(b.length) || '-'} at=0 int=${x}`, `no=0 next=${b.length} bytes=${hex(b)}`)
    ask('read', `read_${w} bytes=${hex(b)}FF at=0`, `no=0 value=${x} next=${b.length}`)
  }
  for (const y of [x, -x]) {
    const minus = y < 0 || Object.is(y, -0)
    const s = written(enc.writeVarInt, y)
    const back = dec.readVarInt(dec.createDecoder(s))
    if (!Object.is(back, y)) throw new Error(`lib0 reads ${hex(s)} as ${back}`)
    ask('write signed', `write_signed_i64 bytes=${'00'.repeat(s.length)} at=0 int=${show(y)} flag=${minus}`, `no=0 next=${s.length} bytes=${hex(s)}`)
    if (!Object.is(y, -0)) ask('write signed', `write_i64 bytes=${'00'.repeat(s.length)} at=0 int=${show(y)}`, `no=0 next=${s.length} bytes=${hex(s)}`)
    ask('read signed', `read_signed_i64 bytes=${hex(s)}FF at=0`, `no=0 value=${show(y)} some=${minus} next=${s.length}`)
    ask('read signed', `read_i64 bytes=${hex(s)}FF at=0`, `no=0 value=${show(y)} next=${s.length}`)
  }
}
// any bytes, on lib0's domain: what it reads is a safe integer in at most nine bytes, or the bytes end there
for (let i = 0; i < 60000; i++) {
  const b = Uint8Array.from({ length: below(11) }, () => below(3) === 0 ? below(128) : below(256))
  for (const [read, name] of [[dec.readVarUint, 'read_u64'], [dec.readVarInt, 'read_signed_i64']]) {
    if (b.length === 0 && name !== 'read_u64') continue // listed: lib0 reads 0 from no byte
    const d = dec.createDecoder(b)
    let x, end = false
    try { x = read(d) } catch (e) { if (/end of/i.test(e.message)) end = true; else continue }
    if (end) { if (b.length <= 9) ask('read', `${name} bytes=${hex(b)} at=0`, name === 'read_u64' ? 'no=1 value=0 next=0' : 'no=1 value=0 some=false next=0'); continue }
    if (Math.abs(x) > safe || d.pos > 9) continue
    ask('read', `${name} bytes=${hex(b)} at=0`, name === 'read_u64' ? `no=0 value=${x} next=${d.pos}` : `no=0 value=${show(x)} some=${x < 0 || Object.is(x, -0)} next=${d.pos}`)
  }
}

// ---- real documents: some clients type and delete, and hear of each other now and then
const vecTable = m => { const v = [...m].sort((p, q) => p[0] - q[0]); return `${v.length};${v.map(p => p[0]).join(',')};${v.map(p => p[1]).join(',')};` }
const zeros = n => Array(n).fill(0).join(',')
const vecOut = (m, room) => { const v = [...m].sort((p, q) => p[0] - q[0]); const pad = x => x.concat(Array(room - v.length).fill(0)).join(','); return `${v.length};${pad(v.map(p => p[0]))};${pad(v.map(p => p[1]))};` }
const rowsOf = ds => { const r = []; for (const c of [...ds.clients.keys()].sort((p, q) => p - q)) for (const d of ds.clients.get(c)) r.push([c, d.clock, d.clock + d.len]); return r }
const idTable = (r, room) => { const pad = k => r.map(x => x[k]).concat(Array((room === undefined ? r.length : room) - r.length).fill(0)).join(','); return `${r.length};${pad(0)};${pad(1)};${pad(2)}` }
const nines = (n, k) => Array(k).fill(Array(n).fill(9).join(',')).join(';')
for (let round = 0; round < rounds; round++) {
  const n = 2 + below(4)
  const used = new Set()
  const docs = Array.from({ length: n }, () => { const d = new Y.Doc({ gc: below(2) === 0 }); do { d.clientID = below(3) === 0 ? below(300) + 1 : next() } while (used.has(d.clientID)); used.add(d.clientID); return d })
  const steps = 20 + below(120)
  for (let s = 0; s < steps; s++) {
    const d = docs[below(n)]
    const t = d.getText('t')
    if (below(3) > 0 || t.length === 0) t.insert(below(t.length + 1), 'abcdefgh'.slice(0, 1 + below(8)))
    else { const at = below(t.length); t.delete(at, 1 + below(Math.min(6, t.length - at))) }
    if (below(6) === 0) { const e = docs[below(n)]; Y.applyUpdate(e, Y.encodeStateAsUpdate(d, Y.encodeStateVector(e))) }
  }
  for (const d of docs) {
    // its state vector, read by us as by Yjs, and written by us in order
    const b = Y.encodeStateVector(d)
    const m = Y.decodeStateVector(b)
    const room = m.size + below(2)
    ask('vector', `vector.decode bytes=${hex(b)} at=0 out=0;${zeros(room)};${zeros(room)};`, `no=0 next=${b.length} out=${vecOut(m, room)}`)
    const e = enc.createEncoder()
    enc.writeVarUint(e, m.size)
    for (const [c, k] of [...m].sort((p, q) => p[0] - q[0])) { enc.writeVarUint(e, c); enc.writeVarUint(e, k) }
    const ours = enc.toUint8Array(e)
    const back = Y.decodeStateVector(ours)
    if (back.size !== m.size || [...m].some(([c, k]) => back.get(c) !== k)) throw new Error('Yjs does not read clients in rising order')
    ask('vector', `vector.encode bytes=${'00'.repeat(ours.length)} at=0 a=${vecTable(m)}`, `no=0 next=${ours.length} bytes=${hex(ours)}`)
    for (const [c, k] of m) ask('vector', `vector.get a=${vecTable(m)} client=${c}`, `no=0 value=${k}`)
  }
  // two desks: the vector after both updates is the larger clock of each client
  const [p, q] = docs
  const vp = Y.decodeStateVector(Y.encodeStateVector(p))
  const vq = Y.decodeStateVector(Y.encodeStateVector(q))
  const up = Y.encodeStateAsUpdate(p)
  const uq = Y.encodeStateAsUpdate(q)
  const dp = rowsOf(Y.decodeUpdate(up).ds)
  const dq = rowsOf(Y.decodeUpdate(uq).ds)
  const both = new Y.Doc({ gc: false })
  Y.applyUpdate(both, up)
  Y.applyUpdate(both, uq)
  const vb = Y.decodeStateVector(Y.encodeStateVector(both))
  ask('vector merge', `vector.merge a=${vecTable(vp)} b=${vecTable(vq)} out=0;${nines(vb.size, 2)};`, `no=0 out=${vecOut(vb, vb.size)}`)
  const order = () => { let l = false, g = false; for (const c of new Set([...vp.keys(), ...vq.keys()])) { const x = vp.get(c) || 0, y = vq.get(c) || 0; l = l || x < y; g = g || x > y } return l && g ? 0 : l ? 1 : g ? 3 : 2 }
  ask('vector order', `vector.partial_cmp a=${vecTable(vp)} b=${vecTable(vq)}`, `no=0 value=${order()}`)
  // delete sets: Yjs's own merge of two updates, and the set of the document that took both
  const merged = rowsOf(Y.decodeUpdate(Y.mergeUpdates([up, uq])).ds)
  ask('delete sets', `id.merge a=${idTable(dp)} b=${idTable(dq)} out=0;${nines(merged.length, 3)}`, `no=0 out=${idTable(merged, merged.length)}`)
  const whole = rowsOf(Y.createDeleteSetFromStructStore(both.store))
  ask('delete sets', `id.merge a=${idTable(dq)} b=${idTable(dp)} out=0;${nines(whole.length, 3)}`, `no=0 out=${idTable(whole, whole.length)}`)
  const ds = Y.createDeleteSetFromStructStore(both.store)
  for (const [c, k] of vb) for (let i = 0; i < 8; i++) { const x = below(k + 1); ask('deleted?', `id.contains a=${idTable(whole)} client=${c} start=${x}`, `no=0 some=${Y.isDeleted(ds, Y.createID(c, x))}`) }
}

// ---- the answers
const out = spawnSync(one, [], { input: cases.map(c => c.line).join('\n') + '\n', maxBuffer: 1 << 30, encoding: 'utf8' })
if (out.status !== 0) { console.error(out.stderr); process.exit(1) }
const got = out.stdout.split('\n')
const count = {}
let bad = 0
cases.forEach((c, i) => {
  count[c.kind] = (count[c.kind] || 0) + 1
  if (got[i] !== c.want) { if (bad++ < 10) console.log(`DIFFER ${c.line}\n  Yjs   ${c.want}\n  model ${got[i]}`) }
})
for (const k of Object.keys(count)) console.log(`${k.padEnd(14)} ${count[k]}`)
console.log(`${cases.length} cases, ${bad} differ`)

// ---- what Yjs does otherwise, shown
const said = (f, b) => { const d = dec.createDecoder(Uint8Array.from(b)); try { const x = f(d); return `${Object.is(x, -0) ? '-0' : x}, place ${d.pos}` } catch (e) { return `throws "${e.message}"` } }
const eighty = (n, l) => Array(n).fill(0x80).concat(l)
console.log('\nWhat lib0 and Yjs do otherwise:')
for (const [name, f, b] of [
  ['readVarUint', dec.readVarUint, eighty(4, [0x10])], ['readVarUint', dec.readVarUint, eighty(5, [1])], ['readVarUint', dec.readVarUint, eighty(7, [0x10])],
  ['readVarUint', dec.readVarUint, eighty(10, [1])], ['readVarUint', dec.readVarUint, eighty(11, [0])], ['readVarUint', dec.readVarUint, eighty(7, [0xff, 0])], ['readVarUint', dec.readVarUint, Array(9).fill(0xff).concat([1])],
  ['readVarInt', dec.readVarInt, []], ['readVarInt', dec.readVarInt, [0x40]], ['readVarInt', dec.readVarInt, [0xc0].concat(eighty(8, [2]))], ['readVarInt', dec.readVarInt, eighty(10, [0])]
]) console.log(`  ${name} of ${b.length ? hex(b) : 'no byte'}: ${said(f, b)}`)
console.log(`  encodeStateVector of {1:0, 4:0}: ${hex(Y.encodeStateVector(new Map([[1, 0], [4, 0]])))}`)
console.log(`  decodeStateVector of 0207010705: ${JSON.stringify([...Y.decodeStateVector(Uint8Array.from([2, 7, 1, 7, 5]))])}`)
process.exit(bad ? 1 : 0)
