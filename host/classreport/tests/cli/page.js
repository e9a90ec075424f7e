// Runs a page's own script over a stand-in for a browser's document: `node page.js FILE`.
"use strict";
const fs = require("fs");
const page = fs.readFileSync(process.argv[2], "utf8");

// An element: as much of one as the script asks for.
class Element {
  constructor(name, classes) {
    this.classes = classes || [];
    this.classList = { contains: (wanted) => this.classes.includes(wanted) };
    this.listeners = {};
    this.name = name;
    this.value = "";
    this.textContent = "";
    this.kept = [];
  }
  set className(name) { this.classes = [name]; this.classList = { contains: (wanted) => wanted === name }; }
  addEventListener(kind, listener) { this.listeners[kind] = listener; }
  append(...what) { this.kept.push(...what); }
  insertCell() { this.cell = new Element("td"); return this.cell; }
  cloneNode() { return this; }
  getAttribute(name) { return this[name]; }
  after(row) { this.nextElementSibling = row; row.before = this; }
  remove() { this.before.nextElementSibling = null; }
}

const body = page.slice(page.indexOf("<tbody>"), page.indexOf("</tbody>"));
const rows = [...body.matchAll(/<tr( class="unknown")?>(.*)<\/tr>/g)].map(([, unknown, text]) => {
  const row = new Element("tr", unknown ? ["unknown"] : []);
  row.textContent = text.replace(/<[^>]*>/g, "\n");
  row.href = /href="([^"]*)"/.exec(text)[1];
  row.cells = { length: 5 };
  return row;
});
const named = {};
for (const id of ["words", "unknown", "count", "rows"]) named[id] = new Element(id);
const asked = [];
globalThis.document = {
  getElementById: (id) => named[id],
  querySelectorAll: (what) => (what === "tr.drawn" ? rows.map((row) => row.nextElementSibling).filter(Boolean) : rows),
  querySelector: (what) => { asked.push(what); return new Element("chain"); },
  createElement: (name) => new Element(name),
};

const script = page.slice(page.indexOf("<script>") + 8, page.indexOf("</script>"));
new Function(script)();

const told = [named.count.textContent];
const filtered = (words, unknown) => {
  named.words.value = words;
  named.unknown.checked = unknown;
  named.words.listeners.input();
  told.push(named.count.textContent);
};
filtered("SPEAKER", false);
filtered("", true);
filtered("nothing like it", true);
filtered("", false);

// A click on a link opens the chain below its row, a second one closes it; a click elsewhere does nothing.
const link = { getAttribute: () => rows[0].href, closest: () => rows[0] };
const click = (found) => named.rows.listeners.click({ target: { closest: () => found }, preventDefault() {} });
click(null);
told.push(String(Boolean(rows[0].nextElementSibling)));
click(link);
told.push(String(rows[0].nextElementSibling.cell.colSpan));
click(link);
told.push(String(Boolean(rows[0].nextElementSibling)), asked.join());
console.log(told.join("\n"));
