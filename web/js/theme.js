// @ts-check
// Light or dark: what the system asks for, until the button is pressed.

export function listenToTheme() {
  const system = matchMedia("(prefers-color-scheme: dark)"), root = document.documentElement;
  const paint = (/** @type {string} */ theme) => root.dataset.theme = theme;
  const ofSystem = () => paint(system.matches ? "dark" : "light");
  system.addEventListener("change", ofSystem);
  /** @type {HTMLElement} */ (document.getElementById("theme")).onclick =
    () => paint(root.dataset.theme === "dark" ? "light" : "dark");
  ofSystem();
}
