// The small form at a +, and the menus of a frame and of what is saved: at a place of the screen, gone with Escape or a
// click elsewhere.
import { byId, html } from "../../page/js/elements.js";

export class Menu {
  constructor() {
    this.box = byId("menu");
    this.opener = null;
    document.addEventListener("pointerdown", event => {
      if (!this.box.hidden && !this.box.contains(event.target) && !this.opener?.contains(event.target)) this.close();
    });
    document.addEventListener("keydown", event => {
      if (event.key !== "Escape" || this.box.hidden) return;
      event.preventDefault();
      const { opener } = this;
      this.close();
      if (opener && opener.isConnected) opener.focus();
    });
    addEventListener("resize", () => this.close());
    document.addEventListener("scroll", ({ target }) => {
      if (target !== this.box && target !== byId("source")) this.close();
    }, true);
  }

  open(opener, kids) {
    this.close();
    this.opener = opener;
    opener.setAttribute("aria-expanded", "true");
    this.box.replaceChildren(...kids);
    this.box.hidden = false;
    const { left, bottom, top } = opener.getBoundingClientRect(), { width, height } = this.box.getBoundingClientRect();
    this.box.style.left = Math.max(8, Math.min(innerWidth - width - 8, left)) + "px";
    this.box.style.top = (bottom + 6 + height > innerHeight ? Math.max(8, top - height - 6) : bottom + 6) + "px";
    const first = this.box.querySelector("button,select,input");
    if (first) first.focus({ preventScroll: true });
  }

  close() {
    if (this.box.hidden) return;
    this.box.hidden = true;
    this.opener?.setAttribute("aria-expanded", "false");
    this.opener = null;
  }

  item(text, hint, choose) {
    const button = html("button", { type: "button", role: "menuitem", class: "item" }, text,
      hint ? html("code", {}, hint) : null);
    button.onclick = () => {
      this.close();
      choose();
    };
    return button;
  }
}
