// @ts-check
// SHA-256 (FIPS 180-4) of bytes that come piece by piece. It runs in the worker, while the recording is read.

const SHA_START = [0x6a09e667, 0xbb67ae85, 0x3c6ef372, 0xa54ff53a, 0x510e527f, 0x9b05688c, 0x1f83d9ab, 0x5be0cd19];
const SHA_ROUNDS = Int32Array.of(
    0x428a2f98, 0x71374491, 0xb5c0fbcf, 0xe9b5dba5, 0x3956c25b, 0x59f111f1, 0x923f82a4, 0xab1c5ed5, 0xd807aa98,
    0x12835b01, 0x243185be, 0x550c7dc3, 0x72be5d74, 0x80deb1fe, 0x9bdc06a7, 0xc19bf174, 0xe49b69c1, 0xefbe4786,
    0x0fc19dc6, 0x240ca1cc, 0x2de92c6f, 0x4a7484aa, 0x5cb0a9dc, 0x76f988da, 0x983e5152, 0xa831c66d, 0xb00327c8,
    0xbf597fc7, 0xc6e00bf3, 0xd5a79147, 0x06ca6351, 0x14292967, 0x27b70a85, 0x2e1b2138, 0x4d2c6dfc, 0x53380d13,
    0x650a7354, 0x766a0abb, 0x81c2c92e, 0x92722c85, 0xa2bfe8a1, 0xa81a664b, 0xc24b8b70, 0xc76c51a3, 0xd192e819,
    0xd6990624, 0xf40e3585, 0x106aa070, 0x19a4c116, 0x1e376c08, 0x2748774c, 0x34b0bcb5, 0x391c0cb3, 0x4ed8aa4a,
    0x5b9cca4f, 0x682e6ff3, 0x748f82ee, 0x78a5636f, 0x84c87814, 0x8cc70208, 0x90befffa, 0xa4506ceb, 0xbef9a3f7,
    0xc67178f2);

export class Sha256 {
  constructor() {
    this.state = Int32Array.from(SHA_START);
    this.words = new Int32Array(64);
    // The bytes at the end that fill no block of 64 yet, and the number of all.
    this.rest = new Uint8Array(64);
    this.length = 0;
  }
  add(bytes) {
    const kept = this.length % 64;
    this.length += bytes.length;
    if (kept + bytes.length < 64) {
      this.rest.set(bytes, kept);
      return;
    }
    const from = kept ? 64 - kept : 0, end = bytes.length - (bytes.length - from) % 64;
    this.rest.set(bytes.subarray(0, from), kept);
    if (kept) this.takeBlocks(this.rest);
    this.takeBlocks(bytes.subarray(from, end));
    this.rest.set(bytes.subarray(end));
  }
  takeBlocks(bytes) {
    const view = new DataView(bytes.buffer, bytes.byteOffset, bytes.length), w = this.words;
    for (let at = 0; at < bytes.length; at += 64) {
      for (let i = 0; i < 16; i++) w[i] = view.getInt32(at + 4 * i);
      for (let i = 16; i < 64; i++) {
        const x = w[i - 15], y = w[i - 2];
        const s0 = (x >>> 7 | x << 25) ^ (x >>> 18 | x << 14) ^ x >>> 3;
        const s1 = (y >>> 17 | y << 15) ^ (y >>> 19 | y << 13) ^ y >>> 10;
        w[i] = w[i - 16] + s0 + w[i - 7] + s1 | 0;
      }
      this.mix(w);
    }
  }
  mix(w) {
    const state = this.state;
    let a = state[0], b = state[1], c = state[2], d = state[3], e = state[4], f = state[5], g = state[6], h = state[7];
    for (let i = 0; i < 64; i++) {
      const s1 = (e >>> 6 | e << 26) ^ (e >>> 11 | e << 21) ^ (e >>> 25 | e << 7);
      const one = h + s1 + (e & f ^ ~e & g) + SHA_ROUNDS[i] + w[i] | 0;
      const s0 = (a >>> 2 | a << 30) ^ (a >>> 13 | a << 19) ^ (a >>> 22 | a << 10);
      const two = s0 + (a & b ^ a & c ^ b & c) | 0;
      h = g;
      g = f;
      f = e;
      e = d + one | 0;
      d = c;
      c = b;
      b = a;
      a = one + two | 0;
    }
    state[0] += a;
    state[1] += b;
    state[2] += c;
    state[3] += d;
    state[4] += e;
    state[5] += f;
    state[6] += g;
    state[7] += h;
  }
  // The sum of all bytes so far, in hexadecimal digits. Nothing can be added afterwards.
  hex() {
    const kept = this.length % 64, end = new Uint8Array(kept < 56 ? 64 - kept : 128 - kept);
    const view = new DataView(end.buffer), bits = this.length * 8;
    end[0] = 0x80;
    view.setUint32(end.length - 8, Math.floor(bits / 4294967296));
    view.setUint32(end.length - 4, bits % 4294967296);
    this.add(end);
    return Array.from(this.state, (it) => (it >>> 0).toString(16).padStart(8, "0")).join("");
  }
}
