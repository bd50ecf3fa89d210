// The elements of what isn't read, by their tags alone, in the place of fields.

import { elementAt, headerLength, lengthAt, tagName } from "./elements.mjs";
import { Field } from "./fields.mjs";

const MOST = 20_000;
const DEEPEST = 60;

// The places of the elements in some bytes, as far as these are elements one after another.
function* placesIn(bytes, start, end) {
  let at = start;
  while (at + 2 <= end) {
    const content = at + headerLength(bytes, at, end);
    const next = content + lengthAt(bytes, at, content);
    yield [at, Math.min(next, end)];
    if (next <= at || next > end) return;
    at = next;
  }
}

/**
 * The elements of some bytes, each behind the one that it stands in; of many, the first. `identify` tells the `id` and the
 * `name` of an OBJECT IDENTIFIER's element, or null.
 */
export function elementsOf(bytes, identify = () => null) {
  const fields = [];
  const [whole] = placesIn(bytes, 0, bytes.length);
  if (whole === undefined) return fields;
  const waiting = [new Field({ at: whole, isElement: true, identify }, tagName(bytes, 0), null, 0)];
  while (waiting.length > 0) {
    const field = waiting.pop();
    field.index = fields.length;
    fields.push(field);
    const { tag, content, end } = elementAt(bytes, field.start, field.end);
    if (!(tag & 0x20) || field.depth >= DEEPEST) continue;
    for (const place of placesIn(bytes, content, end)) {
      if (fields.length + waiting.length + field.inner.length >= MOST) break;
      const node = { at: place, isElement: true, identify };
      field.inner.push(new Field(node, tagName(bytes, place[0]), field, field.inner.length));
    }
    for (let at = field.inner.length - 1; at >= 0; at -= 1) waiting.push(field.inner[at]);
  }
  return fields;
}
