// @ts-check
// EDN as Jepsen writes histories in it (docs/JUDGE.md): each entry as the object of JSON that it stands for. No proof
// speaks of this script: `awshow judge` reads such texts by code that has one.

const MOST_OPEN = 60;

// What stands next: blanks, a comment, a string, a set, a tag, a character, a word, a bracket.
const BLANK = /[\0-\x20,]+|;[^\n]*/y, STRING = /"(?:[^"\\]|\\[^])*"/y;
const TAG = /#[^\0-\x20,()[\]{}";\\#_][^\0-\x20,()[\]{}";]*/y;
const WORD = /(?:\\[^]|##|[^\0-\x20,()[\]{}";\\#])[^\0-\x20,()[\]{}";\\]*/y;

const OPENED = new Map([["(", "["], ["[", "["], ["{", "{\"\":["], ["#{", "{\"\":["]]);
const CLOSED = new Map([["(", "]"], ["[", "]"], ["{", "]}"], ["#{", "]}"]]);
const PAIRS = new Map([[")", ["("]], ["]", ["["]], ["}", ["{", "#{"]]]);

/** Why a text goes on as no EDN that is read. */
export class EdnRefusal extends Error {
  constructor(/** @type {number} */ line, /** @type {string} */ why) {
    super(`line ${line}: ${why}`);
  }
}

/**
 * What a word is in JSON: a keyword is the string of its name, nil is null, and an integer is itself. All others are no
 * values of a history, and become false.
 * @param {string} word
 */
function wordInJson(word) {
  if (word.startsWith(":")) return `"${word.slice(1)}"`;
  if (word === "nil") return "null";
  return /^-?(0|[1-9][0-9]*)$/.test(word) ? word : "false";
}

/** The text of a string, with control characters as JSON has them. @param {string} text */
const stringInJson = text => text.replace(/[\0-\x1f]/g, one => "\\u" + one.charCodeAt(0).toString(16).padStart(4, "0"));

/** A scan of a text, up to where it was read. */
class Scan {
  at = 0;
  line = 1;
  counted = 0;
  /** @type {"fresh" | "bare" | "listed" | "closed"} where entries stand */
  listing = "fresh";
  isInside = false;
  isNamed = false;
  isFresh = true;
  /** @type {string[]} the brackets that are open in the entry */
  brackets = [];
  /** @type {string[]} the entry in JSON, in parts */
  json = [];

  constructor(/** @type {string} */ text) {
    this.text = text;
  }

  /** Refuses the text at this place. @param {string} why @returns {never} */
  refuse(why, place = this.at) {
    throw new EdnRefusal(this.lineOf(place), why);
  }

  /** The number of the line of a place, which never falls. @param {number} place */
  lineOf(place) {
    for (; this.counted < place; this.counted++) if (this.text[this.counted] === "\n") this.line++;
    return this.line;
  }

  /** What stands next of this form, or null. @param {RegExp} form */
  next(form) {
    form.lastIndex = this.at;
    const found = form.exec(this.text);
    if (found) this.at = form.lastIndex;
    return found && found[0];
  }

  get separator() {
    return this.isFresh ? "" : this.isNamed && !this.brackets.length ? ":" : ",";
  }

  /** One more form stands. */
  count() {
    if (!this.brackets.length) this.isNamed = !this.isNamed;
    this.isFresh = false;
  }

  /** Adds a form. @param {string} json */
  put(json, place = this.at) {
    if (!this.isInside) this.refuse("wanted an entry, a map of EDN whose keys are keywords", place);
    this.json.push(this.separator, json);
    this.count();
  }

  /** @param {string} bracket */
  open(bracket) {
    if (this.isInside) {
      if (this.brackets.length >= MOST_OPEN) this.refuse("wanted at most 60 brackets within one another");
      this.json.push(this.separator, OPENED.get(bracket) || "");
      this.brackets.push(bracket);
      this.isFresh = true;
    } else if (bracket === "{" && this.listing !== "closed") {
      this.json = ["{"];
      this.brackets = [];
      if (this.listing === "fresh") this.listing = "bare";
      this.isInside = this.isFresh = true;
      this.isNamed = false;
    } else if (bracket === "[" && this.listing === "fresh") this.listing = "listed";
    else this.refuse("wanted an entry, a map of EDN whose keys are keywords");
  }

  /** Closes a bracket, and gives the entry that it ends. @param {string} bracket */
  close(bracket) {
    const opened = this.isInside ? this.brackets.at(-1) ?? "{" : this.listing === "listed" ? "[" : "";
    const isEntry = this.isInside && !this.brackets.length;
    if (!PAIRS.get(bracket)?.includes(opened)) this.refuse("wanted brackets in pairs");
    if (!this.isInside) {
      this.listing = "closed";
      return null;
    }
    if (isEntry) {
      this.isInside = false;
      return this.json.join("") + "}";
    }
    this.json.push(CLOSED.get(opened) || "");
    this.brackets.pop();
    this.count();
    return null;
  }

  /** The JSON of the next entry, or null where the text has ended. */
  entry() {
    while (this.at < this.text.length) {
      if (this.next(BLANK) || this.next(TAG)) continue;
      const string = this.next(STRING);
      if (string) {
        this.put(stringInJson(string), this.at - 1);
        continue;
      }
      const word = this.next(WORD);
      if (word) {
        if (this.text[this.at] === "\\") this.refuse("wanted a form of EDN, and no #_");
        if (this.at === this.text.length) break;
        this.put(wordInJson(word.startsWith("##") ? word.slice(1) : word));
        continue;
      }
      const one = this.text[this.at], bracket = one === "#" ? this.text.slice(this.at, this.at + 2) : one;
      if (PAIRS.has(bracket)) {
        const entry = this.close(bracket), line = this.lineOf(this.at);
        this.at++;
        if (entry) return { line, json: entry };
      } else if (OPENED.has(bracket)) {
        this.at += bracket.length - 1;
        this.open(bracket);
        this.at++;
      } else if (one === "#" && this.at + 1 < this.text.length) {
        this.refuse("wanted a form of EDN, and no #_", this.at + 1);
      } else break;
    }
    const isWhole = !this.isInside && this.listing !== "listed" && this.isRest;
    if (!isWhole) this.refuse("wanted the end of what is begun", this.text.length);
    return null;
  }

  /** Whether the text ends between forms: behind a word, a tag or a part of a string it doesn't. */
  get isRest() {
    return this.at === this.text.length && (this.at === 0 || /[\0-\x20,()[\]{}"]$|;[^\n]*$/.test(this.text));
  }
}

/**
 * The entries of a text of EDN, each as the text of an object of JSON, with the number of the line on which it ends.
 * @param {string} text @returns {Generator<{line: number, json: string}>}
 */
export function* entriesOf(text) {
  const scan = new Scan(text);
  for (let entry; (entry = scan.entry());) yield entry;
}

const SPACE = "(?:[\\0-\\x20,]|;[^\\n]*\\n)*";
const BEGINS = new RegExp(`^${SPACE}(?:\\[${SPACE})?(?:${TAG.source}${SPACE})?\\{${SPACE}:`);

/** Whether a text is meant as EDN: its first form is a map whose first key is a keyword, maybe in a vector. */
export const isEdn = (/** @type {string} */ text) => BEGINS.test(text);
