// What the page does: the grid and the list follow each other, the pointer, the keys and the address; copying, printing, the window's size.

const BYTES_IN_LINE = 16;   // of what is copied or printed
const MOST_PRINTED = 8192;  // bytes of a message that is printed whole

// -- What is shown

function current() { return state.pointed >= 0 ? state.pointed : state.pinned; }

// The first and the last of the bytes from the one where choosing began to the pinned one.
function chosen() { return [Math.min(state.anchor, state.pinned), Math.max(state.anchor, state.pinned)]; }

function update() {
  const at = current();
  shown = message.owner(at);
  declaring = shown < 0 ? [] : message.declaring(shown);
  for (const line of grid.drawn.values()) line.querySelectorAll(".spot").forEach(dressed);
  for (const row of list.drawn.values()) dressedField(row);
  tell(at);
}

function pointAt(at) {
  if (at === state.pointed) return;
  state.pointed = at;
  update();
}

// Pins a byte; a pin that goes on from the last one chooses the bytes between them.
function pin(at, goesOn = false) {
  Object.assign(state, { pointed: -1, pinned: at, anchor: goesOn && state.anchor >= 0 ? state.anchor : at });
  update();
}

// Scrolls the grid and the list to the pinned byte and its field.
function reveal() {
  if (state.pinned < 0) return;
  grid.reveal(Math.floor(state.pinned / bytesInLine));
  const field = message.owner(state.pinned);
  if (message.count > 0) list.reveal(field >= 0 ? field : message.count - 1);
}

// -- The pointer

function watchPointer(pane) {
  pane.addEventListener("pointermove", event => movedOver(holder(event.target), event));
  pane.addEventListener("pointerleave", () => pointAt(-1));
  pane.addEventListener("click", event => clicked(holder(event.target), event));
}

// The spot or the row that an element stands in.
function holder(target) { return target.closest(".spot, .field:not(.head)"); }

function movedOver(it, event) {
  if (it === null) return;
  const drags = state.dragged >= 0 && event.buttons === 1 && event.pointerType === "mouse";
  if (!drags) return pointAt(it.at);
  if (it.at === state.pinned && state.anchor === state.dragged) return;
  state.anchor = state.dragged;
  pin(it.at, true);
}

function clicked(it, event) {
  if (it === null || !getSelection().isCollapsed) return;
  pin(it.at, event.shiftKey);
  reveal();
  location.hash = it.at;
}

function startDrag(event) {
  const it = holder(event.target);
  getSelection().removeAllRanges();
  state.dragged = it === null || event.shiftKey ? -1 : it.at;
}

// -- The keys

function pressed(event) {
  if (event.ctrlKey || event.metaKey || event.altKey) return;
  if (event.key === "Escape") return letGo();
  const key = event.key.length === 1 ? event.key.toLowerCase() : event.key;
  const to = destination(key, listPane.contains(event.target));
  if (to === null) return;
  event.preventDefault();
  pin(clamp(to, 0, last), event.shiftKey);
  reveal();
}

// Where a key leads from the pinned byte, or null. With nothing pinned it leads to the start; in the list, keys go by fields.
function destination(key, inList) {
  const moves = inList ? { ...byteMoves(), ...fieldMoves() } : byteMoves();
  if (!Object.hasOwn(moves, key)) return null;
  const starts = state.pinned < 0 && key !== "Home" && key !== "End";
  return starts ? Math.max(place, 0) : moves[key](state.pinned);
}

function byteMoves() {
  const page = Math.max(grid.rowsInView - 1, 1) * bytesInLine;
  return {
    ArrowRight: at => at + 1, ArrowLeft: at => at - 1, ArrowDown: at => at + bytesInLine, ArrowUp: at => at - bytesInLine,
    PageDown: at => at + page, PageUp: at => at - page, Home: () => 0, End: () => last,
    n: at => byFields(at, 1), p: at => byFields(at, -1),
  };
}

function fieldMoves() {
  const page = Math.max(list.rowsInView - 1, 1);
  return {
    ArrowDown: at => byFields(at, 1), ArrowUp: at => byFields(at, -1),
    PageDown: at => byFields(at, page), PageUp: at => byFields(at, -page),
  };
}

// The first byte of a field some fields on; past the fields comes the place of a refusal.
function byFields(at, steps) {
  const field = message.owner(at), from = field < 0 ? message.count : field;
  const to = clamp(from + steps, 0, message.count);
  return to < message.count ? message.offset[to] : Math.max(place, at);
}

function letGo() {
  pin(-1);
  keepAddress();
}

// -- The address: #N pins byte N.

// The keys change the address without a step of its history for each byte.
function keepAddress() {
  const hash = state.pinned < 0 ? "" : "#" + state.pinned;
  if (hash !== location.hash) history.replaceState(null, "", hash || location.pathname + location.search);
}

function followAddress() {
  const found = /^#(\d{1,15})$/.exec(location.hash);
  if (found === null || Number(found[1]) > last || Number(found[1]) === state.pinned) return;
  pin(Number(found[1]));
  reveal();
}

// -- Copying: the chosen bytes, or those of the pinned field, as lines of hex.

function copy(event) {
  if (state.pinned < 0 || !getSelection().isCollapsed) return;
  event.clipboardData.setData("text/plain", hexLines(...copied()));
  event.preventDefault();
}

function copied() {
  const [from, to] = chosen(), field = message.owner(state.pinned);
  return from < to || field < 0 ? [from, to] : [message.offset[field], message.offset[field + 1] - 1];
}

function hexLines(from, to) {
  const lines = [], end = Math.min(to + 1, bytes.length);
  for (let at = from; at < end; at += BYTES_IN_LINE) lines.push(hex(bytes.subarray(at, Math.min(at + BYTES_IN_LINE, end)), " ") + "\n");
  return lines.join("");
}

// -- Printing: what is drawn on the screen is a part of the whole, so paper has lines and rows of its own.

function drawPrint() {
  const whole = last < MOST_PRINTED, [from, to] = whole ? [0, last] : inView();
  const note = whole ? "" : `Printed are ${span(from, to)} of ${bytes.length}, those on the screen, and their fields.`;
  byId("printed").replaceChildren(element("p", "note", note), printedBytes(from, to), printedFields(from, to));
}

function printedBytes(from, to) {
  const lines = element("div", "bytes");
  lines.append(gridHead(BYTES_IN_LINE));
  for (let line = Math.floor(from / BYTES_IN_LINE); line * BYTES_IN_LINE <= to; line++) lines.append(drawLine(line, BYTES_IN_LINE));
  return lines;
}

function printedFields(from, to) {
  const rows = element("div", "fields"), first = message.owner(from);
  rows.append(listHead());
  for (let field = first; first >= 0 && field < message.count && message.offset[field] <= to; field++) rows.append(drawField(field));
  return rows;
}

function inView() {
  const from = Math.ceil(grid.top) * bytesInLine;
  return [from, Math.min(from + grid.rowsInView * bytesInLine - 1, last)];
}

// -- The window's size

function lay() {
  bytesInLine = setting("--bytes-in-line");
  gridPane.querySelector(".head")?.remove();
  gridPane.prepend(gridHead(bytesInLine));
  grid.lay(Math.floor(last / bytesInLine) + 1, setting("--line"));
  list.lay(message.count, setting("--row"));
}

// Keeps what the window showed: the pinned byte if it was there, else the first bytes and fields.
function resized() {
  const showedPin = state.pinned >= 0 && grid.showed(Math.floor(state.pinned / bytesInLine));
  const firstByte = Math.ceil(grid.top) * bytesInLine, firstField = list.top;
  lay();
  grid.scrollTo(firstByte / bytesInLine * grid.height);
  list.scrollTo(firstField * list.height);
  if (showedPin) reveal();
}

// A number of the style, which knows how wide the window is.
function setting(name) { return parseFloat(getComputedStyle(document.documentElement).getPropertyValue(name)); }

function start() {
  const { style } = document.documentElement;
  style.setProperty("--digits", String(bytes.length).length + "ch");
  style.setProperty("--hex-digits", bytes.length.toString(16).length + "ch");
  listPane.setAttribute("aria-rowcount", message.count + 1);
  lay();
  update();
  followAddress();
  if (place >= 0 && state.pinned < 0) { pin(place); reveal(); }
}

start();
performance.mark("drawn");  // for those who measure it
watchPointer(gridPane);
watchPointer(listPane);
gridPane.addEventListener("pointerdown", startDrag);
document.addEventListener("keydown", pressed);
document.addEventListener("keyup", keepAddress);
document.addEventListener("copy", copy);
addEventListener("hashchange", followAddress);
addEventListener("beforeprint", drawPrint);
addEventListener("afterprint", () => byId("printed").replaceChildren());
new ResizeObserver(resized).observe(byId("screen"));
