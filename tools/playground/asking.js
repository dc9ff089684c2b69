// What is asked of a race, what is kept, the comparison, the command line, the address; and how the page begins.
"use strict";

// ---- A race

async function tellRace(row) {
  const number = ++choice;
  by("details").hidden = row === null;
  if (row === null || now === null) return;
  const [instance, , first] = races.numbersOf(row), last = +row.dataset.last;
  const events = now.chart.events[instance - 1];
  const earlier = by("earlier");
  earlier.replaceChildren(...Array.from({length: Math.min(last - first + 1, MOST_ROWS)}, (_, at) =>
    element("option", eventWords(events[first + at - 1], first + at), {value: first + at})));
  by("earlier_label").hidden = first === last;
  await tellPair(row, first, () => number === choice);
}

// Why a pair is a race, the other run, and what prevents it.
async function tellPair(row, earlier, counts) {
  const it = now, [number, receive] = races.numbersOf(row);
  const instance = it.chart.names[number - 1], events = it.chart.events[number - 1];
  by("race_words").replaceChildren(...breakable("span", `${instance}: ${eventWords(events[receive - 1], receive)} may come before ${eventWords(events[earlier - 1], earlier)}`).childNodes);
  const words = [it.name, instance, String(earlier), String(receive)];
  try {
    const why = await view(["why", ...words], it.file);
    if (!counts()) return;
    tellWhy(it, row, why);
    const witness = await view(["witness", ...words], it.file);
    const drawn = witness.status === 1 ? await view(["draw", "the other run"], file("the other run", witness.out)) : undefined;
    if (!counts()) return;
    tellWitness(witness, drawn);
    // A message for the last event of the range puts all of them before the receive.
    const mended = await view(["mend", it.name, instance, row.dataset.last, String(receive)], it.file);
    if (counts()) tellMending(mended);
  } catch (error) {
    if (counts() && error.message !== "") by("why_words").textContent = error.message;
  }
}

// The sentences of `why`, and its two columns; what comes before the receive is marked in the picture.
function tellWhy(it, row, why) {
  const [instance, receive] = races.numbersOf(row), lines = decode(why.out).split("\n");
  const before = [], counts = it.chart.names.map(() => 0), alone = [], reordered = [];
  for (const line of lines) {
    const [first, name, count] = line.split(" ");
    if (first === "before" && count !== "0") {
      before.push(`the first ${count === "1" ? "event" : `${count} events`} of ${name}`);
      counts[it.chart.names.indexOf(name)] = count;
    } else if (first === "and") alone.push(count);
    else if (first === "line") reordered.push(line.slice(5).split(" | "));
  }
  row.dataset.before = counts.join(" ");
  row.dataset.also = alone.join(" ");
  races.markChosen();
  const also = alone.map((event) => `event ${event} of ${it.chart.names[instance - 1]}`);
  by("why_words").textContent = why.status !== 1 ? decode(why.out) || wordsOfRefusal(why)
    : before.length + also.length === 0 ? "Nothing has to come before this receive."
    : `Before this receive come ${[...before, ...also].join(", ")}, and nothing else has to.`;
  by("reordered").hidden = reordered.length === 0;
  by("reordered").tBodies[0].replaceChildren(...reordered.slice(0, MOST_ROWS).map(([is, may]) => {
    const line = element("tr", "", {className: may.startsWith(`${receive} `) ? "receive" : ""});
    line.append(element("td", is), element("td", may));
    return line;
  }));
}

function tellWitness(witness, drawn) {
  const reported = decode(witness.err).trim();
  by("witness").hidden = drawn === undefined || drawn.status !== 0;
  by("witness_words").textContent = witness.status !== 1 ? reported
    : `The same messages, in the other order.${reported === "" ? "" : ` (${reported})`}`;
  if (!by("witness").hidden) pictureOf(drawn.out, by("witness"));
}

let mended;

function tellMending(answer) {
  by("mend_words").textContent = decode(answer.err).trim();
  by("mend").hidden = answer.status !== 0 || answer.out.length === 0;
  mended = answer.out;
}

// ---- The text is replaced by what the program writes

function take(bytes) {
  const text = by("text");
  by("kind").value = "";
  // (so that it can be undone by the browser's own key)
  text.focus();
  text.select();
  if (!document.execCommand("insertText", false, decode(bytes))) text.value = decode(bytes);
  text.setSelectionRange(0, 0);
  text.scrollTop = 0;
  return look();
}

async function tidy() {
  const it = asked();
  const answer = await view(["tidy", it.name], file(it.name, it.text));
  if (answer.status === 0) await take(answer.out);
  else clearAll(wordsOfRefusal(answer));
}

async function mendAll() {
  if (now === null) return;
  const answer = await view(["mend", "--all", now.name], now.file);
  const reported = decode(answer.err).trim();
  if (reported === "") by("summary").textContent = `${by("summary").textContent.split("; ")[0]}; no single message leaves fewer.`;
  else {
    await take(answer.out);
    by("reported").replaceChildren(...reported.split("\n").map((line) => element("li", line)));
  }
}

// ---- What is kept

function save(name, bytes, type) {
  const url = URL.createObjectURL(new Blob([bytes], {type}));
  element("a", "", {href: url, download: name}).click();
  setTimeout(() => URL.revokeObjectURL(url), 10000);
}

const baseName = () => now.name.replace(/^.*\//, "").replace(/\.\w+$/, "") || "chart";

// What stands under "Save as": its words, the end of the file's name, and the command.
const KEPT = [
  ["mscgen", "mscgen", () => ["export", "--to", "mscgen"]],
  ["PlantUML", "plantuml", () => ["export", "--to", "plantuml"]],
  ["Mermaid", "mermaid", () => ["export", "--to", "mermaid"]],
  ["a log for ShiViz", "log", () => ["export", "--to", "shiviz"]],
  ["its races by name", "races", () => ["races"]],
  ["its races as JSON", "json", () => ["races", "--json"]],
  ["the picture with numbers", "svg", () => ["draw", "--numbers"]],
  ...(hasCommand("page ") ? [["a page of its own", "html", () => ["page"]]] : []),
];

async function saveAs() {
  const kept = KEPT[by("save_as").value];
  by("save_as").value = "";
  if (kept === undefined || now === null) return;
  const answer = await view([...kept[2](), now.name], now.file);
  if (answer.status === 2) by("reported").append(element("li", wordsOfRefusal(answer)));
  else save(`${baseName()}.${kept[1]}`, answer.out, "text/plain");
  for (const line of decode(answer.err).split("\n")) if (line !== "") by("reported").append(element("li", line));
}

// ---- Two recordings

async function compare() {
  const kind = by("kind_b").value || kindOf(by("text_b").value);
  const other = {text: by("text_b").value, kind, name: "B", options: [], seed: null, source: file("B", by("text_b").value)};
  by("compared").textContent = "";
  if (now === null) return (by("compared").textContent = "The text on the left has no chart.");
  const chart = await chartOfText(other);
  if (chart.status === 2) return (by("compared").textContent = `B: ${chart.words}`);
  const answer = await view(["compare", "A", "B"], file("A", now.text_of_chart), file("B", chartPart(decode(chart.out))));
  by("compared").textContent = answer.status === 2 ? decode(answer.err)
    : decode(answer.out) || "Both are the same: no two events are in opposite orders, and neither has an event that the other lacks.";
}

// ---- The command line

async function runCommand(event) {
  event.preventDefault();
  const [program, ...words] = wordsOf(by("command").value);
  const show = (status, out, err) => {
    by("command_status").textContent = status;
    by("command_out").textContent = out;
    by("command_err").textContent = err;
  };
  if (program !== "mscview" && program !== "mscrun") return show("", "", "A command line begins with mscview or mscrun.");
  if (words.length === 0 || words.includes("--help") || words[0] === "help") return show("", usages[program], "");
  if (program === "mscrun" && words[0] === "threads") return show("", "", "This page has no threads: use ./mscrun threads.");
  const files = [file("FILE", by("text").value), file("B", by("text_b").value)];
  if (now !== null) files.push(file("CHART", now.text_of_chart));
  try {
    const answer = await answers.ask(program, words, files);
    show(`status ${answer.status}`, decode(answer.out), decode(answer.err));
  } catch (error) {
    show("", "", error.message);
  }
}

// ---- The text in the address: z and a deflated JSON text in the letters that an address may have

async function through(bytes, stream) {
  const read = new Blob([bytes]).stream().pipeThrough(stream).getReader(), parts = [];
  for (let many = 0; ;) {
    const {done, value} = await read.read();
    if (done) return new Uint8Array(await new Blob(parts).arrayBuffer());
    many += value.length;
    if (many > MOST_OF_A_LINK) throw new Error("the text in this address is too long");
    parts.push(value);
  }
}

async function addressOf(state) {
  const bytes = await through(encode(JSON.stringify(state)), new CompressionStream("deflate-raw"));
  let letters = "";
  for (const byte of bytes) letters += String.fromCharCode(byte);
  return `#z${btoa(letters).replaceAll("+", "-").replaceAll("/", "_").replaceAll("=", "")}`;
}

async function stateOf(address) {
  const bytes = bytesOfLetters(address.slice(2).replaceAll("-", "+").replaceAll("_", "/"));
  return JSON.parse(decode(await through(bytes, new DecompressionStream("deflate-raw"))));
}

async function keepInAddress() {
  const {text, options} = asked();
  location.hash = await addressOf({text, kind: by("kind").value, options: options.length > 0 ? by("options").value : ""});
  const reported = "The address now contains the text: send it, or bookmark it.";
  by("summary").textContent = reported;
  await navigator.clipboard?.writeText(location.href).catch(() => undefined);
}

async function readAddress() {
  if (!location.hash.startsWith("#z")) return false;
  try {
    const {text, kind, options} = await stateOf(location.hash);
    if (text === by("text").value) return true;
    setText(String(text), "", String(kind ?? ""), String(options ?? ""));
  } catch (error) {
    clearAll(`The text in this address can't be read: ${error.message}`);
  }
  return true;
}

// ---- How it begins

function setText(text, name = "", kind = "", options = "") {
  by("text").value = text;
  by("text").scrollTop = 0;
  by("kind").value = kind;
  by("options").value = options;
  by("from").value = 1;
  fileName = name;
  return look();
}

async function openFile(given, box) {
  if (given === undefined) return;
  const text = await given.text();
  if (box === "text") await setText(text, given.name);
  else by("text_b").value = text;
}

function fitAll() {
  for (const id of ["picture", "witness"]) {
    const svg = by(id).shadowRoot?.querySelector("svg");
    if (svg) fit(svg, by(id));
  }
}

function showPane(tab) {
  for (const other of document.querySelectorAll("[role=tab]")) {
    other.setAttribute("aria-selected", String(other === tab));
    by(other.dataset.pane).hidden = other !== tab;
  }
}

function listen() {
  const on = (id, kind, call) => by(id).addEventListener(kind, call);
  on("text", "input", () => ((fileName = ""), textChanged()));
  on("text", "scroll", drawGutter);
  addEventListener("resize", () => (drawGutter(), fitAll()));
  on("fit", "change", fitAll);
  for (const id of ["options", "seed"]) on(id, "input", textChanged);
  for (const id of ["kind", "order", "receives", "completion", "luck"]) on(id, "change", look);
  on("from", "input", () => now !== null && drawPicture(now, () => true));
  on("next_seed", "click", () => ((by("seed").value = String((BigInt(by("seed").value.replace(/\D/g, "") || 0) + 1n) % 2n ** 64n)), look()));
  on("example", "change", () => by("example").value !== "" && setText(...examples[by("example").value].slice(1)));
  on("open", "change", () => openFile(by("open").files[0], "text"));
  on("open_b", "change", () => openFile(by("open_b").files[0], "text_b"));
  on("stop", "click", () => answers.stop("stopped and restarted"));
  on("earlier", "change", () => (choice++, tellPair(races.chosen, +by("earlier").value, ((number) => () => number === choice)(choice))));
  on("mend", "click", () => take(mended));
  on("mend_all", "click", mendAll);
  on("tidy", "click", tidy);
  on("save_picture", "click", () => save(`${baseName()}.svg`, now.picture, "image/svg+xml"));
  on("save_chart", "click", () => save(`${baseName()}.msc`, encode(now.text_of_chart), "text/plain"));
  on("save_as", "change", saveAs);
  on("link", "click", keepInAddress);
  on("compare", "click", compare);
  on("command_form", "submit", runCommand);
  addEventListener("hashchange", readAddress);
  for (const tab of document.querySelectorAll("[role=tab]")) tab.addEventListener("click", () => showPane(tab));
  addEventListener("dragover", (event) => (event.preventDefault(), by("input").classList.add("over")));
  addEventListener("dragleave", () => by("input").classList.remove("over"));
  addEventListener("drop", (event) => {
    event.preventDefault();
    by("input").classList.remove("over");
    openFile(event.dataTransfer.files[0], event.target === by("text_b") ? "text_b" : "text");
  });
}

async function begin() {
  for (const [at, [title]] of examples.entries()) by("example").append(element("option", title, {value: at}));
  for (const [at, [words]] of KEPT.entries()) by("save_as").append(element("option", words, {value: at}));
  by("kind_b").replaceChildren(...[...by("kind").options].map((it) => it.cloneNode(true)));
  const bytes = unpacked(by("module").textContent, by("unpacker").textContent);
  answers = new Answers(by("worker").textContent, await WebAssembly.compile(bytes));
  performance.mark("ready");
  listen();
  if (!(await readAddress())) await setText(...examples[0].slice(1));
  performance.mark("shown");
  document.documentElement.dataset.ready = "";
}

begin().catch((error) => (by("summary").textContent = `This page can't run here: ${error.message}`));
