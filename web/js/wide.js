// @ts-check
// Whether a browser has what the module needs.

// The smallest module that has a memory with 64-bit addresses.
const WIDE = new Uint8Array([0, 97, 115, 109, 1, 0, 0, 0, 5, 3, 1, 4, 1]);

export const isWide = () => WebAssembly.validate(WIDE);

export const NARROW = "This browser's WebAssembly has no 64-bit memories, which the programs need: Chromium has them " +
  "from version 133, and Firefox from 134.";
