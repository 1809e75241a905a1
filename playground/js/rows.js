// Where the lines of the text stand: a long line goes on in the next row, so a copy of the text that is laid out as the
// field is, and not seen, says where each line begins. In a text of very many lines none goes on.
import { byId, html } from "../../page/js/elements.js";

export const ROW = 20; // as in text.css
const TOP = 8, MOST_WRAPPED = 3000;

export class Rows {
  constructor(field) {
    this.field = field;
    this.lines = [""];
    this.width = 0;
    this.tops = [TOP];
  }

  get isWrapped() {
    return this.lines.length <= MOST_WRAPPED;
  }

  /** Takes a text, or the width that the field has now. Lines above the first that differs stand where they stood. */
  take(text) {
    const mirror = byId("mirror"), old = this.lines;
    this.lines = text.split("\n");
    byId("editor").classList.toggle("long", !this.isWrapped);
    if (!this.isWrapped) {
      mirror.replaceChildren();
      this.tops = null;
      return;
    }
    const { clientWidth } = this.field, { children } = mirror;
    let same = 0;
    if (clientWidth !== this.width) mirror.style.width = (this.width = clientWidth) + "px";
    else while (same < children.length && this.lines[same] === old[same]) same++;
    while (children.length > this.lines.length) mirror.lastChild.remove();
    this.lines.forEach((line, at) => {
      if (at >= children.length) mirror.append(html("div", {}, line));
      else if (children[at].textContent !== line) children[at].textContent = line;
    });
    this.tops = [...(this.tops || []).slice(0, same), ...[...children].slice(same).map(child => child.offsetTop)];
    this.bottom = mirror.offsetHeight - TOP;
  }

  /** Where a line begins, in pixels. */
  topOf(line) {
    return this.tops?.[line] ?? TOP + line * ROW;
  }

  /** How high a line is. */
  heightOf(line) {
    if (!this.tops || line >= this.tops.length) return ROW;
    return (line + 1 < this.tops.length ? this.tops[line + 1] : this.bottom) - this.tops[line];
  }

  /** The line at a height. */
  lineAt(y) {
    if (!this.tops) return Math.floor((y - TOP) / ROW);
    const next = this.tops.findIndex(top => top > y);
    return (next < 0 ? this.tops.length : next) - 1;
  }

  /** The places that a line takes from a column on, from the line's beginning: one in each of its rows. */
  placesFrom(line, column) {
    const element = byId("mirror").children[line], text = element?.firstChild, from = Math.min(column, text?.length);
    if (!text || from === text.length) return [{ left: 10, top: 0, width: 8 }];
    const range = document.createRange(), outer = byId("mirror").getBoundingClientRect();
    range.setStart(text, from);
    range.setEnd(text, text.length);
    return Array.from(range.getClientRects(), ({ left, top, width }) => ({ left: left - outer.left,
      top: top - outer.top - this.topOf(line), width }));
  }

  /** The numbers of the lines, each in the first row of its line. */
  numbers(most) {
    return this.lines.slice(0, most).map((_, at) => at + 1 + "\n".repeat(this.heightOf(at) / ROW)).join("");
  }
}
