// A long list as a table of which only the rows in sight are drawn. Every row has one height, the style's
// --row; the row that has the focus stays, and arrow keys go from a field to that of the next row.
import { make } from "./dom.mjs";

const BEYOND = 6; // rows drawn above and below those in sight

export class List {
  // `columns` are the headings; `row` makes a row's cells and `fill` writes an item into them.
  constructor(element, { label, columns, key, row, fill }) {
    Object.assign(this, { element, key, row, fill, items: [], rows: new Map(), whole: false, top: 0 });
    element.setAttribute("role", "table");
    element.setAttribute("aria-label", label);
    element.tabIndex = 0;
    const heads = columns.map(([name, kind]) => make("div", { role: "columnheader", class: kind }, name));
    this.head = make("div", { role: "row", class: "head", "aria-rowindex": 1 }, heads);
    this.body = make("div", { role: "rowgroup", class: "rows" });
    element.append(make("div", { role: "rowgroup", class: "heads" }, this.head), this.body);
    element.addEventListener("scroll", () => this.ask(), { passive: true });
    element.addEventListener("keydown", (event) => this.move(event));
    this.measure();
    new ResizeObserver(() => this.measure() || this.ask()).observe(element);
  }

  // Measured when the list's size changes and not when it is drawn, which would lay the page out each time.
  measure() {
    this.height = parseFloat(getComputedStyle(this.element).getPropertyValue("--row")) || 40;
    this.seen = this.element.clientHeight;
  }

  // Draws before the next frame, once.
  ask() {
    if (this.asked) return;
    this.asked = true;
    requestAnimationFrame(() => {
      this.asked = false;
      this.top = this.element.scrollTop;
      this.draw();
    });
  }

  show(items) {
    this.items = items;
    this.top = Math.min(this.top, Math.max(0, items.length * this.height - this.seen));
    this.element.style.setProperty("--rows", Math.max(1, items.length));
    this.element.setAttribute("aria-rowcount", String(items.length + 1));
    this.draw(true);
  }

  // The numbers of the first row in sight and of the one behind the last.
  span(height) {
    if (this.whole) return [0, this.items.length];
    const first = Math.max(0, Math.floor(this.top / height) - BEYOND);
    const last = Math.ceil((this.top + this.seen) / height) + BEYOND;
    return [first, Math.min(last, this.items.length)];
  }

  // Rows in sight; with `anew` those that stand are filled again.
  draw(anew = false) {
    const { height } = this;
    const [first, last] = this.span(height);
    this.body.style.height = `${height * this.items.length}px`;
    const wanted = new Map();
    for (let i = first; i < last; i++) wanted.set(this.key(this.items[i]), i);
    this.keepFocused(wanted);
    for (const [key, element] of this.rows) {
      if (!wanted.has(key)) {
        element.remove();
        this.rows.delete(key);
      }
    }
    this.place(wanted, height, anew);
  }

  // The row that has the focus, wherever it is by now.
  keepFocused(wanted) {
    const row = document.activeElement?.closest?.("[data-key]");
    if (!row || !this.body.contains(row) || wanted.has(row.dataset.key)) return;
    const at = this.items.findIndex((item) => this.key(item) === row.dataset.key);
    if (at >= 0) wanted.set(row.dataset.key, at);
  }

  place(wanted, height, anew) {
    let cursor = this.body.firstChild;
    for (const [key, i] of [...wanted].sort(([, a], [, b]) => a - b)) {
      const known = this.rows.get(key);
      const row = known ?? this.made(key);
      if (row === cursor) cursor = cursor.nextSibling;
      else this.body.insertBefore(row, cursor);
      row.style.transform = `translateY(${i * height}px)`;
      row.setAttribute("aria-rowindex", String(i + 2));
      row.classList.toggle("odd", i % 2 === 1);
      if (!known || anew) this.fill(row, this.items[i]);
    }
  }

  made(key) {
    const row = make("div", { role: "row", class: "row", "data-key": key });
    row.append(...this.row().map((cell) => make("div", { role: "cell", class: cell.kind }, cell.of)));
    this.rows.set(key, row);
    return row;
  }

  // Up and down from a field to the same field of the next row.
  move(event) {
    const by = { ArrowDown: 1, ArrowUp: -1 }[event.key];
    const row = event.target.closest?.("[data-key]");
    const column = event.target.dataset?.column;
    if (!by || !row || !column) return;
    const at = this.items.findIndex((item) => this.key(item) === row.dataset.key) + by;
    if (at < 0 || at >= this.items.length) return;
    event.preventDefault();
    this.reveal(at);
    this.rows.get(this.key(this.items[at]))?.querySelector(`[data-column="${column}"]`)?.focus();
  }

  // Scrolls a row into sight and draws it.
  reveal(at) {
    const { height, element } = this;
    const seen = element.clientHeight - this.head.offsetHeight;
    if (at * height < element.scrollTop) element.scrollTop = at * height;
    if ((at + 1) * height > element.scrollTop + seen) element.scrollTop = (at + 1) * height - seen;
    this.top = element.scrollTop;
    this.draw();
  }

  // All rows, for print, and back.
  drawWhole(whole) {
    this.whole = whole;
    this.measure();
    this.draw();
  }
}
