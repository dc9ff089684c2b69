// The page around the program: a text and what it is, its races with why, witness and mend, faults at their place, and what
// is kept of it. Names, labels and whatever else comes from a text are put in as text alone.
"use strict";

const MOST_ROWS = 500;          // rows of the table of races
const MOST_BYTES = 200000;      // of a chart that is drawn whole
const WINDOW = 60;              // events of a line that are drawn of a larger one
const LIMIT = 30000;            // milliseconds for an answer
const MOST_OF_A_LINK = 1 << 24; // bytes of a text in the address

const by = (id) => document.getElementById(id);
const encode = (text) => new TextEncoder().encode(text);
const decode = (bytes) => new TextDecoder().decode(bytes);

const element = (name, words = "", more = {}) => {
  const made = document.createElement(name);
  made.textContent = words;
  return Object.assign(made, more);
};

// The program in its Worker. A call that takes too long, or is stopped, ends the Worker, and another one is begun.
class Answers {
  constructor(source, module) {
    this.url = URL.createObjectURL(new Blob([source], {type: "text/javascript"}));
    this.module = module;
    this.number = 0;
    this.waiting = new Map();
    this.begin();
  }

  begin() {
    this.worker = new Worker(this.url);
    this.worker.onmessage = ({data}) => this.take(data);
    this.worker.postMessage({module: this.module});
  }

  // What the program answers: {status, out, err}, both as bytes.
  ask(program, words, files) {
    const number = ++this.number;
    const answer = new Promise((resolve, reject) => this.waiting.set(number, {resolve, reject}));
    this.worker.postMessage({number, program, words, files});
    this.watch();
    return answer;
  }

  take({number, fault, ...answer}) {
    const asked = this.waiting.get(number);
    if (asked === undefined) return;
    this.waiting.delete(number);
    if (fault === undefined) asked.resolve(answer);
    else asked.reject(new Error(fault));
    this.watch();
  }

  // Counts the time of the call that is at work.
  watch() {
    clearTimeout(this.late);
    clearTimeout(this.slow);
    tellWork("");
    if (this.waiting.size === 0) return;
    this.slow = setTimeout(() => tellWork("working .."), 300);
    this.late = setTimeout(() => this.stop(`stopped after ${LIMIT / 1000} seconds, and restarted`), LIMIT);
  }

  stop(why) {
    this.worker.terminate();
    const ended = [...this.waiting.values()];
    this.waiting.clear();
    this.watch();
    this.begin();
    for (const {reject} of ended) reject(new Error(why));
    if (why !== "") tellWork(why);
  }
}

function tellWork(words) {
  by("working").textContent = words;
  by("stop").hidden = words !== "working ..";
}

// ---- What a text is

const EVENT_OF_A_LOG = /^\s*\S+\s+(?:send|sent|tx|out|->|>|recv|receive|received|rx|in|<-|<|arrive)\s+(?:(?:to|from)\s+)?\S*[^\s:]\s+[^\s:]\S*/i;
const ARROW_WITH_LABEL = /^\s*[\w" ]+(?:<?-+>+|-+[x)])\s*[\w" ]+:/m;

// The first word that stands in no comment of some tool.
function firstWord(text) {
  let rest = text.replace(/^\ufeff/, "");
  for (;;) {
    const skipped = rest.replace(/^\s+/, "").replace(/^(?:#|\/\/|'|%%(?!\{))[^\n]*/, "").replace(/^(?:\/\*[^]*?\*\/|\/'[^]*?'\/|%%\{[^]*?\}%%)/, "");
    if (skipped === rest) return /^\S*/.exec(rest)[0];
    rest = skipped;
  }
}

function kindOf(text) {
  const word = firstWord(text);
  if (word === "instances") return "schedule";
  if (word === "msc" || word.startsWith("msc{")) return text.includes("{") && !/^msc run;\r?(\n|$)/.test(text) ? "mscgen" : "chart";
  if (word.startsWith("@startuml")) return "plantuml";
  if (/^sequencediagram;?$/i.test(word) || /^---$/.test(word)) return "mermaid";
  const lines = text.slice(0, 100000).split("\n").slice(0, 1000);
  if (lines.some((line) => line.includes("(?<") || /^\s*\S+\s+\{"/.test(line))) return "shiviz";
  if (ARROW_WITH_LABEL.test(text.slice(0, 100000))) return /->>|-->>|-\)/.test(text) ? "mermaid" : "plantuml";
  return lines.some((line) => EVENT_OF_A_LOG.test(line)) ? "log" : "chart";
}

const isImported = (kind) => kind !== "chart" && kind !== "schedule";

const KINDS = {
  chart: "a chart", schedule: "a schedule", mscgen: "an mscgen diagram", plantuml: "a PlantUML diagram",
  mermaid: "a Mermaid diagram", log: "a log", shiviz: "a log for ShiViz",
};

const OPTIONS = {
  log: "--pattern REGEX  --hosts a,b  --peer a=x,y  --from-line 1  --to-line 99", shiviz: "--hosts a,b  --peer a=x,y  --from-line 1  --to-line 99",
};

// The words of a line as a shell takes them: blanks part them, quotation marks and \ hold together.
function wordsOf(line) {
  const words = [];
  for (const [word] of line.matchAll(/(?:[^\s"'\\]|\\.|"(?:[^"\\]|\\.)*"|'[^']*')+/g)) {
    words.push(word.replace(/\\(.)|"((?:[^"\\]|\\.)*)"|'([^']*)'/g, (_, one, double, single) => one ?? single ?? double.replace(/\\(["\\])/g, "$1")));
  }
  return words;
}

// What a chart's text says: its instances, and the events of each.
function chartOf(text) {
  const names = [], events = [];
  for (const line of text.split("\n")) {
    const [first, message, , partner] = line.replace(/;$/, "").split(" ");
    if (first === "instance") names.push(message), events.push([]);
    else if (first === "out" || first === "in") events.at(-1)?.push({sends: first === "out", message, partner});
    else if (first === "endmsc") break;
  }
  return {names, events};
}

const chartPart = (text) => text.slice(0, text.indexOf("\nendmsc;\n") + "\nendmsc;\n".length);
const isDrawnWhole = (text) => text.length <= MOST_BYTES;

// ---- Pictures

// A picture as elements of their own. Its style is a sheet of the frame's, since no text may bring one into the page.
function pictureOf(bytes, host) {
  let style = "";
  const text = decode(bytes).replace(/<style>([^]*?)<\/style>/, (_, sheet) => ((style = sheet), ""));
  const svg = document.importNode(new DOMParser().parseFromString(text, "image/svg+xml").documentElement, true);
  const root = host.shadowRoot ?? host.attachShadow({mode: "open"});
  const sheet = new CSSStyleSheet();
  sheet.replaceSync(`:host{display:block} svg{display:block} ${style} ${by("marks").textContent}`);
  root.adoptedStyleSheets = [sheet];
  root.replaceChildren(svg);
  fit(svg, host);
  return svg;
}

// A picture that is a little wider than its frame is made to fit; of a much wider one a part is seen.
function fit(svg, host) {
  const width = +svg.getAttribute("width"), room = host.parentElement.clientWidth - 2;
  const scale = !by("fit").checked || room <= 0 || width <= room ? 1 : Math.max(room / width, 0.55);
  svg.style.width = `${Math.floor(width * scale)}px`;
  svg.style.height = "auto";
}

// Words that may break behind each _.
function breakable(name, words) {
  const made = element(name);
  for (const part of words.split(/(?<=_)/)) made.append(part, document.createElement("wbr"));
  return made;
}
