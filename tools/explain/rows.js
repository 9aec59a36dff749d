// A long list of rows of equal height in a pane that scrolls, of which only those that can be seen are drawn.
// Browsers cut off elements that are too tall, so a list of millions of rows stands in a shorter one: steps of the scrolling are taken
// as they are, and a jump of the scrollbar goes to that part of the whole list.

const MOST_TALL = 4_000_000;  // px
const SPARE_ROWS = 6;         // drawn above and below those that can be seen

class Rows {
  constructor(pane, draw) {
    this.pane = pane;
    this.draw = draw;       // gives the element of a row
    this.drawn = new Map();
    this.sizer = pane.appendChild(element("div", "sizer"));
    this.layer = this.sizer.appendChild(element("div", "layer"));
    this.position = 0;      // px of the whole list above what can be seen
    this.scrolled = 0;      // the pane's scrollTop that belongs to it
    pane.addEventListener("scroll", () => this.follow());
    pane.addEventListener("scrollend", () => this.scrollTo(this.position));
  }

  // Takes on a number of rows and their height, and draws from the first one on.
  lay(count, height) {
    Object.assign(this, { count, height });
    for (const row of this.drawn.values()) row.remove();
    this.drawn.clear();
    this.sizer.style.height = Math.min(count * height, MOST_TALL) + "px";
    this.scrollTo(0);
  }

  get view() { return Math.max(this.pane.clientHeight - this.sizer.offsetTop, this.height); }
  get end() { return Math.max(this.count * this.height - this.view, 0); }
  get scrollEnd() { return Math.max(this.sizer.offsetHeight - this.view, 0); }
  get top() { return this.position / this.height; }
  get rowsInView() { return Math.max(Math.floor(this.view / this.height), 1); }

  // After the pane was scrolled by its user.
  follow() {
    const to = this.pane.scrollTop, moved = to - this.scrolled;
    const jumped = Math.abs(moved) > this.view;
    this.position = clamp(jumped ? scaled(to, this.scrollEnd, this.end, this.view) : this.position + moved, 0, this.end);
    this.scrolled = to;
    if (to <= 0 || to >= this.scrollEnd) this.scrollTo(this.position); else this.paint();
  }

  scrollTo(position) {
    this.position = clamp(position, 0, this.end);
    this.pane.scrollTop = scaled(this.position, this.end, this.scrollEnd, this.view);
    this.scrolled = this.pane.scrollTop;
    this.paint();
  }

  // Scrolls so that a row can be seen: not at all if it can, else to the middle.
  reveal(row) {
    const above = row * this.height, below = above + this.height;
    if (above < this.position || below > this.position + this.view) this.scrollTo(above - (this.view - this.height) / 2);
  }

  // Whether a row could be seen when the pane was drawn last.
  showed(row) {
    return row * this.height >= this.seen[0] && (row + 1) * this.height <= this.seen[1];
  }

  paint() {
    const first = Math.max(Math.floor(this.top) - SPARE_ROWS, 0);
    const last = Math.min(Math.ceil(this.top + this.view / this.height) + SPARE_ROWS, this.count);
    this.keep(first, last);
    this.seen = [this.position, this.position + this.view];
    this.layer.style.transform = `translateY(${this.pane.scrollTop - this.position + first * this.height}px)`;
  }

  // Removes the drawn rows outside a range and draws the missing ones in it.
  keep(first, last) {
    for (const [row, it] of this.drawn) {
      if (row >= first && row < last) continue;
      it.remove();
      this.drawn.delete(row);
    }
    for (let row = first, next = this.layer.firstChild; row < last; row++) {
      if (!this.drawn.has(row)) this.drawn.set(row, this.layer.insertBefore(this.draw(row), next));
      next = this.drawn.get(row).nextSibling;
    }
  }
}

// A place on one range as a place on another: one to one near both ends, so that every step there counts, and scaled between them.
function scaled(at, from, to, edge) {
  if (from === to || at <= edge) return at;
  if (at >= from - edge) return to - (from - at);
  return edge + (at - edge) * (to - 2 * edge) / (from - 2 * edge);
}

function clamp(number, least, most) { return Math.min(Math.max(number, least), most); }

function element(tag, kind = "", text = "") {
  const made = document.createElement(tag);
  made.className = kind;
  made.textContent = text;
  return made;
}
