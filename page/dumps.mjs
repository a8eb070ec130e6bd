// Bytes as text, as octal words and as hexadecimal, in the form of od.

const octal = (value, width) => value.toString(8).padStart(width, '0');
export const hex = (value, width = 2) => value.toString(16).padStart(width, '0');
const printable = (byte) => (byte >= 32 && byte < 127 ? String.fromCharCode(byte) : '.');

/** True if bytes look like text: few of them are neither printable nor white space. */
export function isText(bytes) {
  const head = bytes.subarray(0, 4096);
  const odd = head.filter((it) => it > 126 || (it < 32 && !(it >= 7 && it <= 13))).length;
  return odd <= head.length / 50;
}

/** Returns bytes as text; one that isn't printable ASCII is a backslash and three octal digits, except for white space. */
export function asText(bytes) {
  const parts = [];
  for (let at = 0; at < bytes.length; at += 4096) parts.push(String.fromCharCode(...bytes.subarray(at, at + 4096)));
  return parts.join('').replace(/[^\t\n\x0c\x20-\x7e]/g, (it) => `\\${octal(it.charCodeAt(0), 3)}`);
}

/** Joins the lines of a dump: repeated ones are one `*`, and the last line is the offset of the end. */
function dump(bytes, offset, address, lineOf) {
  const lines = [];
  let last = null;
  let starred = false;
  for (let at = 0; at < bytes.length; at += 16) {
    const part = bytes.subarray(at, at + 16);
    const line = lineOf(part);
    if (line === last && part.length === 16) {
      if (!starred) lines.push('*');
      starred = true;
      continue;
    }
    [last, starred] = [line, false];
    lines.push(`${address(offset + at)} ${line}`);
  }
  lines.push(address(offset + bytes.length));
  return `${lines.join('\n')}\n`;
}

const pairs = (part) => Array.from({ length: Math.ceil(part.length / 2) }, (_, k) => part[2 * k] + 256 * (part[2 * k + 1] ?? 0));
const octalAddress = (at) => octal(at, 7);
const decimalAddress = (at) => String(at).padStart(7, '0');

/** The formats that od has here, by its words. */
const FORMATS = {
  o2: (part) => pairs(part).map((it) => octal(it, 6)).join(' '),
  u2: (part) => pairs(part).map((it) => String(it).padStart(5)).join(' '),
  x1z: (part) => `${[...part].map((it) => hex(it)).join(' ').padEnd(47)}  >${[...part].map(printable).join('')}<`,
};

/** Returns bytes as `od` prints them: `format` is o2, u2 or x1z, and `isDecimal` is for `-A d`. */
export const od = (bytes, format = 'o2', isDecimal = false, offset = 0) => dump(bytes, offset, isDecimal ? decimalAddress : octalAddress, FORMATS[format]);
