// The page itself: what happens as a text is typed, a race is chosen, a button pressed.
"use strict";

const usages = {mscview: by("usage_mscview").textContent, mscrun: by("usage_mscrun").textContent};
const hasCommand = (words) => usages.mscview.includes(`mscview ${words}`);
const examples = JSON.parse(by("examples").textContent);

const races = new Races({
  frame: by("picture_frame"), picture: () => by("picture").shadowRoot, list: by("races").tBodies[0], search: by("search"),
  shown: (row, before) => {
    before?.removeAttribute("aria-selected");
    row?.setAttribute("aria-selected", "true");
    tellRace(row);
  },
});

let answers;
let run = 0;       // the number of the look at the text that counts
let choice = 0;    // the number of the choice of a race that counts
let now = null;    // what is known of the text
let fileName = "";

const file = (name, bytes) => ({name, bytes: typeof bytes === "string" ? encode(bytes) : bytes});
const view = (words, ...files) => answers.ask("mscview", words, files);
const wordsOfRefusal = (answer) => decode(answer.err).trim().split("\n").at(-1);

// ---- A look at the text

function textChanged() {
  clearTimeout(textChanged.soon);
  textChanged.soon = setTimeout(look, 250);
  drawGutter();
}

// What stands in the box, and what it is by the choice or by itself.
function asked() {
  const text = by("text").value;
  const kind = by("kind").value || kindOf(text);
  const options = isImported(kind) ? wordsOf(by("options").value) : [];
  return {text, kind, options, name: safeName(fileName || "chart"), seed: kind === "schedule" && by("order").value === "drawn" ? by("seed").value.trim() : null};
}

// A file's name that no command takes for an option.
const safeName = (name) => (name.startsWith("-") ? `./${name}` : name);

async function look() {
  clearTimeout(textChanged.soon);
  if (answers.waiting.size > 0) answers.stop("");
  const number = ++run;
  choice++;
  const it = asked();
  by("options_bar").hidden = !isImported(it.kind);
  by("options").placeholder = OPTIONS[it.kind] ?? "--join a=b,c  --skip 3..7  --strict";
  by("order_bar").hidden = it.kind !== "schedule";
  by("seed").hidden = by("next_seed").hidden = by("order").value === "";
  if (it.text.trim() === "") return clearAll("");
  try {
    await lookAt(it, () => number === run);
  } catch (error) {
    if (number === run && error.message !== "") clearAll(error.message);
  }
}

// Finds the chart of a text, its faults, races and picture, as long as nothing newer is asked for.
async function lookAt(it, counts) {
  const source = file(it.name, it.text);
  const found = {...it, source, reported: [], faults: []};
  if (it.kind !== "log" && it.kind !== "shiviz") found.explained = decode((await view(["explain", it.name], source)).out);
  const chart = await chartOfText(found);
  if (!counts()) return;
  if (chart.status === 2) {
    now = null;
    clearAll(chart.words);
    tellFaults(found, chart.words);
    return;
  }
  found.text_of_chart = chartPart(decode(chart.out));
  found.chart = chartOf(found.text_of_chart);
  found.reported = decode(chart.reported).split("\n").filter((line) => line !== "");
  // (the schedule itself has its capacity, and who chose)
  found.file = it.kind === "schedule" && it.seed === null ? source : file(it.name, found.text_of_chart);
  now = found;
  tellFaults(found, "");
  by("chart_text").textContent = decode(chart.out);
  await tellRaces(found, counts);
  if (counts()) await drawPicture(found, counts);
}

// The chart that a text comes to: of a schedule by a replay, of another tool's text by an import.
async function chartOfText(it) {
  const nothing = new Uint8Array(0);
  const refused = (answer) => ({status: 2, words: wordsOfRefusal(answer)});
  if (it.kind === "schedule") {
    const words = it.seed === null ? ["replay", it.name] : ["random", it.name, "--seed", it.seed];
    const answer = await answers.ask("mscrun", words, [it.source]);
    return answer.status === 2 ? refused(answer) : {status: 0, out: answer.out, reported: nothing};
  }
  if (isImported(it.kind)) {
    const answer = await view(["import", "--from", it.kind, ...it.options, it.name], it.source);
    return answer.status === 2 ? refused(answer) : {status: 0, out: answer.out, reported: answer.err};
  }
  const answer = await view(["races", it.name], it.source);
  return answer.status === 2 ? refused(answer) : {status: 0, out: it.source.bytes, reported: nothing};
}

function clearAll(words) {
  now = null;
  races.choose(null);
  by("summary").textContent = words;
  by("picture").shadowRoot?.replaceChildren();
  by("races").tBodies[0].replaceChildren();
  for (const id of ["more", "what", "chart_text"]) by(id).textContent = "";
  by("reported").replaceChildren();
  by("faults").replaceChildren();
  for (const id of ["picture_frame", "race_bar", "table_frame", "save_picture", "save_chart", "save_as", "rows_bar"]) by(id).hidden = true;
  faultLines.clear();
  drawGutter();
}

// ---- Faults at their place

const faultLines = new Map();

// What `explain` says, a card for each thing; the line that it names is marked beside the box.
function tellFaults(it, refusal) {
  const [kind, ...parts] = (it.explained ?? "").split("\n\n");
  by("what").textContent = it.explained === undefined ? KINDS[it.kind] : kind.trim();
  faultLines.clear();
  const cards = isFault(it, refusal) || refusal === "" ? parts.map((part) => card(part.trimEnd())) : [];
  if (kind.startsWith("neither")) cards.push(card('help: if this is a log of another form, choose "a log" above, and describe its lines by --pattern'));
  if (refusal !== "" && !cards.some((it) => it.dataset.sort === "error")) cards.unshift(card(`error: ${refusal}`));
  by("faults").replaceChildren(...cards);
  by("reported").replaceChildren(...it.reported.map((line) => element("li", line)));
  by("tidy").hidden = isImported(it.kind);
  drawGutter();
}

// Whether the explanation has the refused fault: that of a diagram is read without options.
const isFault = (it, refusal) => it.explained?.includes(`error: ${/F\d+/.exec(refusal)?.[0] ?? "-"} `);

function card(part) {
  const [, sort, words] = /^(error|note|help): ([^]*?)(?:\n|$)/.exec(part) ?? [, "error", part];
  const made = element("div", "", {className: `fault_card ${sort}`});
  made.dataset.sort = sort;
  made.append(element("p", words));
  const line = +(/line (\d+)/.exec(part)?.[1] ?? /\bF\d+ \w+ (\d+)/.exec(part)?.[1] ?? 0);
  if (line > 0 && sort !== "help") {
    faultLines.set(line, faultLines.get(line) === "fault" || sort === "error" ? "fault" : "note");
    made.append(element("button", `line ${line}`, {type: "button", onclick: () => showLine(line)}));
  }
  const rest = part.split("\n").slice(1);
  const place = rest.filter((it) => !it.startsWith("  = ")).join("\n");
  if (place.trim() !== "") made.append(element("pre", place));
  for (const more of rest.filter((it) => it.startsWith("  = "))) made.append(element("p", more.slice(4)));
  if (sort === "help" && words.includes("tidy")) made.append(element("button", "Tidy the text", {type: "button", onclick: tidy}));
  return made;
}

const LINE = 19;

// The numbers of the lines that are in sight.
function drawGutter() {
  const text = by("text"), gutter = by("gutter");
  const many = text.value.split("\n").length, first = Math.floor(text.scrollTop / LINE);
  const last = Math.min(many, first + Math.ceil(gutter.clientHeight / LINE) + 1);
  const numbers = [];
  for (let line = first + 1; line <= last; line++) {
    const made = element("div", String(line), {className: faultLines.get(line) ?? ""});
    made.style.top = `${(line - 1) * LINE - text.scrollTop}px`;
    numbers.push(made);
  }
  gutter.replaceChildren(...numbers);
}

function showLine(line) {
  const text = by("text"), lines = text.value.split("\n");
  const begin = lines.slice(0, line - 1).reduce((sum, it) => sum + it.length + 1, 0);
  text.focus();
  text.setSelectionRange(begin, begin + (lines[line - 1]?.length ?? 0));
  text.scrollTop = Math.max(0, (line - 6) * LINE);
}

// ---- Races

async function tellRaces(it, counts) {
  const words = ["races"];
  const tellsLuck = it.kind === "log" || (it.kind === "schedule" && it.seed === null);
  by("luck_label").hidden = !tellsLuck;
  by("luck_label").lastChild.textContent = it.kind === "schedule" ? " only by any" : " only luck";
  if (by("receives").checked) words.push("--receives");
  if (by("completion").checked) words.push("--run-to-completion");
  if (tellsLuck && by("luck").checked) words.push("--luck");
  const from = isImported(it.kind) ? ["--from", it.kind, ...it.options] : [];
  const answer = await view([...words, ...from, it.name], from.length > 0 ? it.source : it.file);
  if (!counts()) return;
  races.choose(null);
  const body = by("races").tBodies[0];
  if (answer.status === 2) {
    body.replaceChildren();
    by("summary").textContent = wordsOfRefusal(answer);
    return;
  }
  const ranges = decode(answer.out).split("\n").map((line) => RACE.exec(line)?.groups).filter((range) => range !== undefined);
  by("word_head").hidden = !ranges.some((range) => range.why !== undefined);
  body.replaceChildren(...ranges.slice(0, MOST_ROWS).map((range) => rowOf(it, range)));
  by("more").textContent = ranges.length > MOST_ROWS ? `${ranges.length - MOST_ROWS} more aren't shown: "Save as" has them all.` : "";
  tellSummary(ranges);
  for (const id of ["race_bar", "table_frame"]) by(id).hidden = false;
  for (const id of ["save_chart", "save_as"]) by(id).hidden = false;
  by("table_frame").hidden = ranges.length === 0;
  races.find();
}

// A line of `mscview races`.
const RACE = new RegExp(
  "^(?<instance>\\w+): (?<receive>\\w+ \\((?<number>\\d+), from \\w+\\)) may come before " +
  "(?<earlier>\\w+ \\((?<only>\\d+), \\w+ \\w+\\)|events (?<first>\\d+) to (?<last>\\d+) \\(.*?\\))(?:; (?<why>.*))?$");

const firstOf = (range) => +(range.only ?? range.first);
const lastOf = (range) => +(range.only ?? range.last);

function tellSummary(ranges) {
  const instances = new Set(ranges.map((it) => it.instance)).size;
  const receives = new Set(ranges.map((it) => `${it.instance} ${it.number}`)).size;
  const events = ranges.reduce((sum, it) => sum + lastOf(it) - firstOf(it) + 1, 0);
  const many = (count, one, more) => `${count} ${count === 1 ? one : more}`;
  by("mend_all").hidden = ranges.length === 0;
  by("summary").textContent = ranges.length === 0 ? "No race is shown: the channels guarantee each order."
    : `${many(events, "race", "races")}, of ${many(receives, "receive", "receives")} at ${many(instances, "instance", "instances")}`;
}

function rowOf(it, range) {
  const row = document.createElement("tr");
  row.id = `r${it.chart.names.indexOf(range.instance) + 1}-${range.number}-${firstOf(range)}`;
  row.dataset.last = lastOf(range);
  row.append(breakable("td", range.instance), breakable("td", range.receive), breakable("td", range.earlier));
  if (range.why !== undefined) row.append(element("td", range.why));
  return row;
}

const eventWords = ({sends, message, partner} = {}, number) => `${message} (${number}, ${sends ? "to" : "from"} ${partner})`;

// ---- The picture

async function drawPicture(it, counts) {
  const whole = isDrawnWhole(it.text_of_chart);
  const longest = Math.max(1, ...it.chart.events.map((events) => events.length));
  by("rows_bar").hidden = whole;
  by("from").max = Math.max(1, longest - WINDOW + 1);
  const first = whole ? 1 : +by("from").value;
  by("from_out").textContent = `${first} to ${Math.min(longest, first + WINDOW - 1)} of ${longest}`;
  const words = whole ? [] : ["--events", `${first}..${first + WINDOW - 1}`];
  const answer = await view(["draw", ...words, it.name], it.file);
  if (!counts()) return;
  by("picture_frame").hidden = by("save_picture").hidden = answer.status === 2;
  if (answer.status === 2) return;
  it.picture = answer.out;
  pictureOf(answer.out, by("picture"));
  races.markChosen();
  races.find();
}
