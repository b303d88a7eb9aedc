// Zips for tests.
import { deflateRawSync } from 'node:zlib';

// A zip with these files, by its description.
export function zipOf(files, method = 8) {
  const [parts, entries] = [[], []];
  let at = 0;
  for (const [name, text] of files) {
    const packed = method === 8 ? deflateRawSync(Buffer.from(text)) : Buffer.from(text);
    const head = Buffer.alloc(30);
    head.writeUInt32LE(0x04034b50, 0);
    for (const [place, value] of [[8, method], [26, name.length], [28, 4]]) head.writeUInt16LE(value, place);
    const entry = Buffer.alloc(46);
    entry.writeUInt32LE(0x02014b50, 0);
    for (const [place, value] of [[10, method], [28, name.length]]) entry.writeUInt16LE(value, place);
    for (const [place, value] of [[20, packed.length], [24, Buffer.byteLength(text)], [42, at]]) entry.writeUInt32LE(value, place);
    parts.push(head, Buffer.from(name), Buffer.alloc(4), packed);
    entries.push(entry, Buffer.from(name));
    at += 30 + name.length + 4 + packed.length;
  }
  const directory = Buffer.concat(entries);
  const end = Buffer.alloc(22 + 3);
  end.writeUInt32LE(0x06054b50, 0);
  for (const [place, value] of [[8, files.length], [10, files.length], [20, 3]]) end.writeUInt16LE(value, place);
  for (const [place, value] of [[12, directory.length], [16, at]]) end.writeUInt32LE(value, place);
  return new Uint8Array(Buffer.concat([...parts, directory, end]));
}
