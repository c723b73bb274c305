/* A stretch (document 01, "What is built"): bytes, most significant bit first, and how many of their bits count. */
export class Stretch {
  constructor(bytes, end) {
    this.bytes = bytes;
    this.end = end;
  }

  bit(place) {
    return (this.bytes[place >> 3] >> (7 - (place & 7))) & 1;
  }

  /* So many bits from a place on, as text. */
  text(place, width) {
    let bits = "";
    for (let at = place; at < place + width; at++) bits += this.bit(at);
    return bits;
  }

  /* The same as a number, of up to 53 bits. */
  number(place, width) {
    let value = 0;
    for (let at = place; at < place + width; at++) value = 2 * value + this.bit(at);
    return value;
  }
}
