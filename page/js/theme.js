// The colours of a page.
import { byId } from "./elements.js";

/** Light and dark: as the system has it, or as it was chosen. */
export class Theme {
  constructor() {
    this.chosen = null;
    this.system = matchMedia("(prefers-color-scheme: dark)");
    this.system.addEventListener("change", () => this.paint());
    byId("theme").onclick = () => this.choose(document.documentElement.dataset.theme === "dark" ? "light" : "dark");
    this.paint();
  }

  choose(theme) {
    this.chosen = theme;
    this.paint();
  }

  paint() {
    document.documentElement.dataset.theme = this.chosen || (this.system.matches ? "dark" : "light");
  }

  /** Paper is light; the diagram is printed in sheets. */
  print(diagram) {
    let before = null;
    addEventListener("beforeprint", () => {
      before = this.chosen;
      this.choose("light");
      byId("slices").replaceChildren(...diagram.sheets());
    });
    addEventListener("afterprint", () => {
      this.choose(before);
      byId("slices").replaceChildren();
    });
  }
}
