// What the page shows: the grid of bytes, the list of fields, and the panel that tells the field pointed at or pinned.

const HINT = "Point at a byte, or click or tap it, or move with the arrow keys, Page Up, Page Down, Home and End; n and p go from field to field, "
  + "Escape lets go. Drag, or hold Shift, to choose bytes; copying gives their hex. #N in the address pins byte N. Underlined bytes declare the column of the cell shown.";
const HUE_STEP = 137.508;     // the golden angle: hues of neighbouring numbers lie far apart
const HUE_OF_CELLS = 60;      // of those of the first column
const BYTES_SHOWN = 8;        // of a field in the list, before they are cut
const BYTES_TOLD = 16;        // of a field in the panel

const byId = id => document.getElementById(id);
const told = byId("told"), gridPane = byId("grid"), listPane = byId("list");
const data = JSON.parse(byId("data-told").textContent);
const bytes = fromBase64(byId("data-bytes").textContent);
const message = new Message(data, bytes, unpackedIds(byId("data-ids").textContent, data.bytes_in_id));
const place = data.place === null ? -1 : Math.min(data.place, bytes.length);
const last = place === bytes.length ? place : bytes.length - 1;  // a place at the end has a spot of its own, without a byte

const state = { pointed: -1, pinned: -1, anchor: -1, dragged: -1 };
let bytesInLine, shown = -1, declaring = [];

// -- Drawing: the grid

const grid = new Rows(gridPane, line => drawLine(line, bytesInLine));

function drawLine(line, width) {
  const row = element("div", "line"), from = line * width;
  row.append(element("span", "offset", from), element("span", "hex", from.toString(16)));
  for (let at = from; at < from + width; at++) row.append(at <= last ? dressed(spot(at)) : element("span", "byte"));
  row.append(element("span", "text", characters(bytes.subarray(from, from + width))));
  return row;
}

function spot(at) {
  const it = element("span", "byte spot", at < bytes.length ? hex([bytes[at]]) : ""), field = message.owner(at);
  Object.assign(it, { at, field });
  if (field >= 0) {
    tint(it, field);
    it.classList.toggle("first", at === message.offset[field]);
    it.classList.toggle("last", at === message.offset[field + 1] - 1);
  }
  it.classList.toggle("place", at === place);
  return it;
}

// What a spot's looks owe to what is pointed at, pinned or chosen.
function dressed(it) {
  const [from, to] = chosen(), at = current();
  it.classList.toggle("shown", it.field >= 0 && it.field === shown);
  it.classList.toggle("declares", declaring.includes(it.field));
  it.classList.toggle("at", it.at === at);
  it.classList.toggle("chosen", from < to && from <= it.at && it.at <= to);
  return it;
}

function characters(raw) {
  return Array.from(raw, byte => byte >= 32 && byte < 127 ? String.fromCharCode(byte) : ".").join("");
}

// One hue for each field number, and for cells one for each column; a length is greyer than its body, and every other field is darker.
function tint(it, field) {
  const { fields, CELL } = message.paper, number = message.number(field);
  const isLength = fields[number + 1] !== undefined && fields[number][0] === fields[number + 1][0] + " length";
  const body = isLength ? number + 1 : number;
  it.style.setProperty("--h", Math.round(body === CELL ? HUE_OF_CELLS + HUE_STEP * message.k[field] : HUE_STEP * body) % 360);
  it.classList.add(field % 2 ? "odd" : "even");
  it.classList.toggle("length", isLength);
}

function gridHead(width) {
  const row = element("div", "line head");
  row.append(element("span", "offset", "offset"), element("span", "hex", "hex"));
  for (let at = 0; at < width; at++) row.append(element("span", "byte", at.toString(16)));
  row.append(element("span", "text", "text"));
  return row;
}

// -- Drawing: the list

listPane.append(listHead());
const list = new Rows(listPane, drawField);

function listHead() {
  return fieldRow("head", "columnheader", ["offset", "hex", "field", "where", "size", "bytes", "value"]);
}

function drawField(field) {
  const row = fieldRow("", "cell", fieldTexts(field));
  Object.assign(row, { at: message.offset[field], field });
  row.setAttribute("aria-rowindex", field + 2);  // the head is row 1
  tint(row, field);
  return dressedField(row);
}

function fieldTexts(field) {
  const offset = message.offset[field];
  return [offset, "0x" + offset.toString(16), message.name(field), message.where(field), message.size(field),
    shortHex(message.raw(field), BYTES_SHOWN), message.value(field)];
}

function fieldRow(kind, role, [offset, hexOffset, name, where, size, hexBytes, value]) {
  const row = element("div", "field " + kind);
  row.setAttribute("role", "row");
  row.append(cell("offset", offset, role), cell("hex", hexOffset, role), cell("name", name, role), cell("size", size, role),
    cell("bytes", hexBytes, role), cell("value", value, role));
  row.querySelector(".name").append(element("span", "where", where));
  return row;
}

function dressedField(row) {
  row.classList.toggle("shown", row.field === shown);
  row.setAttribute("aria-current", row.field === shown);
  return row;
}

function cell(kind, text, role) {
  const made = element("span", kind, text);
  made.setAttribute("role", role);
  return made;
}

// The bytes, or the first and the last of them: a number's last bytes say the most.
function shortHex(raw, most) {
  if (raw.length <= most) return hex(raw, " ");
  return `${hex(raw.subarray(0, most / 2), " ")} .. ${hex(raw.subarray(1 - most / 2), " ")}`;
}

// -- Drawing: the panel

function tell(at) {
  told.classList.toggle("hint", at < 0);
  if (at < 0) return told.replaceChildren(element("p", "faint", HINT));
  const field = message.owner(at);
  told.replaceChildren(...(field < 0 ? unreadLines(at) : fieldLines(field)), element("p", "faint", byteLine(at, field)));
}

function fieldLines(field) {
  const where = message.where(field), size = message.size(field), offset = message.offset[field];
  const hexBytes = shortHex(message.raw(field), BYTES_TOLD);
  return [
    element("p", "", message.name(field) + (where ? ", " + where : "")),
    element("p", "value", message.value(field)),
    element("p", "faint", `${span(offset, offset + size - 1)}, ${countOf(size, "byte")}: ${hexBytes}${declaredText(field)}`),
  ];
}

function declaredText(field) {
  const offsets = message.number(field) < message.paper.CELL_LENGTH ? [] : message.declaring(field).map(other => message.offset[other]);
  return offsets.length ? ` · its column is declared at ${offsets.join(", ")}` : "";
}

function unreadLines(at) {
  return [element("p", "", at === place ? "the place of the refusal" : `no field is listed here: the message is refused at byte ${both(place)}`)];
}

function byteLine(at, field) {
  const name = `byte ${both(at)}`, [from, to] = chosen();
  const inField = field < 0 || message.size(field) === 1 ? "" : `, number ${at - message.offset[field] + 1} of its field`;
  const chosenToo = from < to ? ` · chosen to copy: ${span(from, to)}, ${countOf(to - from + 1, "byte")}` : "";
  return (at < bytes.length ? `${name} is hex ${hex([bytes[at]])}, decimal ${bytes[at]}${inField}` : `${name} is past the message's end`) + chosenToo;
}

function span(from, to) { return from === to ? `byte ${both(from)}` : `bytes ${both(from)} to ${both(to)}`; }
function both(offset) { return `${offset} (0x${offset.toString(16)})`; }
