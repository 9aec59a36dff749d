// A message's fields, unpacked from what page.py packs, and told word for word as fields.py tells them.
// A field is named by its number in wire order. A value's type, and a column's name, are themselves fields of the message.

class Message {
  constructor(told, bytes, ids) {
    this.paper = told.paper;
    this.templates = told.templates;
    this.bytes = bytes;
    this.ids = ids;
    this.count = ids.length;
    this.starts = [];  // of each table, or of each parameter: its first field
    this.unpack();
  }

  // The offset and the three indices of each field, by adding up what the templates say.
  unpack() {
    const { templates, ids, count, paper } = this;
    const opens = templates.map(([number]) => number === paper.PARAMETER_TYPE || number === paper.table_fields[0]);
    const [sizes, firsts, seconds, thirds] = [1, 2, 3, 4].map(part => Int32Array.from(templates, template => template[part]));
    const offset = new Uint32Array(count + 1), i = new Uint16Array(count), j = new Uint32Array(count), k = new Uint16Array(count);
    for (let field = 0, a = 0, b = 0, c = 0; field < count; field++) {
      const id = ids[field];
      offset[field + 1] = offset[field] + sizes[id];
      i[field] = a += firsts[id];
      j[field] = b += seconds[id];
      k[field] = c += thirds[id];
      if (opens[id]) this.starts[a] = field;
    }
    Object.assign(this, { offset, i, j, k });
  }

  number(field) { return this.templates[this.ids[field]][0]; }
  size(field) { return this.offset[field + 1] - this.offset[field]; }
  raw(field) { return this.bytes.subarray(this.offset[field], this.offset[field + 1]); }
  name(field) { return this.paper.fields[this.number(field)][0]; }

  // The field that a byte belongs to, or -1.
  owner(at) {
    if (at < 0 || at >= this.offset[this.count]) return -1;
    let low = 0, high = this.count;
    while (high - low > 1) {
      const middle = (low + high) >> 1;
      if (this.offset[middle] <= at) low = middle; else high = middle;
    }
    return low;
  }

  // -- Places

  where(field) {
    const { paper } = this, number = this.number(field);
    if (within(number, paper.parameter_fields)) return this.parameterText(field, number);
    if (!within(number, paper.table_fields)) return "";
    const row = number >= paper.ROW_LENGTH ? `, row ${this.j[field]}` : "";
    return `table ${this.i[field]}${row}${this.hasColumn(number) ? ", " + this.columnText(field) : ""}`;
  }

  parameterText(field, number) {
    const isValue = number === this.paper.VALUE_LENGTH || number === this.paper.VALUE;
    return `parameter ${this.i[field]}${isValue && this.inArray(field) ? `, element ${this.j[field]}` : ""}`;
  }

  // In a message that is refused before they were read, a column has no name, and perhaps no type.
  columnText(field) {
    const name = this.columnName(field), type = this.paper.types[this.columnType(field)];
    return `column ${this.k[field]}${name && " " + name}${type ? ` (${type})` : ""}`;
  }

  // A column's name as people write it: bare if it is one word that needn't be cut, else in quotes.
  columnName(field) {
    const declared = this.declaring(field), find = number => declared.find(other => this.number(other) === number);
    const length = find(this.paper.COLUMN_NAME_LENGTH), name = find(this.paper.COLUMN_NAME);
    if (name === undefined) return length !== undefined && signed(this.raw(length)) === 0n ? '""' : "";
    const shown = quoted(this.raw(name), this.paper.most_shown);
    return /^"\w+"$/.test(shown) ? shown.slice(1, -1) : shown;
  }

  hasColumn(number) {
    return within(number, [this.paper.COLUMN_TYPE, this.paper.COLUMN_NAME]) || number >= this.paper.CELL_LENGTH;
  }

  // The fields that say what the column of a field is: its type, its name's length and its name.
  declaring(field) {
    const { paper, k } = this, found = [];
    if (!this.hasColumn(this.number(field))) return found;
    for (let other = this.starts[this.i[field]]; other < this.count && this.number(other) <= paper.COLUMN_NAME; other++) {
      if (k[other] === k[field] && this.number(other) >= paper.COLUMN_TYPE) found.push(other);
    }
    return found;
  }

  // -- Types

  columnType(field) { return Number(signed(this.raw(this.declaring(field)[0]))); }
  parameterType(field) { return Number(signed(this.raw(this.starts[this.i[field]]))); }
  elementType(field) { return Number(signed(this.raw(this.starts[this.i[field]] + 1))); }

  // Whether the parameter's values are elements with an index of their own.
  inArray(field) {
    return this.parameterType(field) === this.paper.ARRAY && this.elementType(field) !== this.paper.TINYINT;
  }

  // -- Values

  value(field) {
    const { paper } = this, raw = this.raw(field);
    switch (paper.fields[this.number(field)][1]) {
      case "length": return lengthText(signed(raw));
      case "number": return String(signed(raw));
      case "text": return quoted(raw, paper.most_shown);
      case "opaque": return opaque(raw);
      case "type": return named(signed(raw), paper.types);
      case "flags": return flagsText(raw[0], paper.flags);
      case "status": return named(signed(raw), paper.statuses);
      case "result": return named(signed(raw), paper.results);
      case "hash version": return named(signed(raw), paper.hashes);
      case "address": return raw.join(".");
      case "milliseconds": return utc(1000n * signed(raw));
      case "duration": return `${signed(raw)} ms`;
      case "element count": return countOf(signed(raw), this.elementType(field) === paper.TINYINT ? "byte" : "element");
      case "value": return this.typedValue(field, raw);
    }
  }

  typedValue(field, raw) {
    const { paper } = this;
    if (this.number(field) === paper.CELL) return valueText(paper, this.columnType(field), raw);
    const type = this.parameterType(field);
    if (type !== paper.ARRAY) return valueText(paper, type, raw);
    const element = this.elementType(field);
    return element === paper.TINYINT ? hexadecimal(raw, paper.most_shown) : valueText(paper, element, raw);
  }
}

function within(number, [first, last]) { return first <= number && number <= last; }

// Bytes written as base64, and numbers of some bytes each.
function fromBase64(text) {
  const characters = atob(text), bytes = new Uint8Array(characters.length);
  for (let at = 0; at < bytes.length; at++) bytes[at] = characters.charCodeAt(at);
  return bytes;
}

function unpackedIds(text, size) {
  const Ids = { 1: Uint8Array, 2: Uint16Array, 4: Uint32Array }[size];
  return new Ids(fromBase64(text).buffer);
}
