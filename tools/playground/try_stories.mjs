// Tries a page in Chromium as its users do: texts of each kind in the box, clicks, keys, files, hostile texts, a link, a call
// that takes too long. Prints 'held' or 'FAILED' for each story. Nothing is to be asked of any network.
//   node try_stories.mjs PAGE CHROMIUM [FOLDER], where screenshots go into the folder
import {mkdtempSync, readFileSync, rmSync, writeFileSync} from "node:fs";
import {tmpdir} from "node:os";
import {join, resolve} from "node:path";
import {Browser} from "./browser.mjs";
import {unpacked} from "./cases.mjs";

const [, , pageFile, chromium, screenshots] = process.argv;
const address = `file://${resolve(pageFile)}`;
const room = mkdtempSync(join(tmpdir(), "playground-"));
const browser = await Browser.open(chromium);
const text = (name) => readFileSync(name, "utf8");
const quoted = JSON.stringify;

class Wrong extends Error {}
const wants = (holds, what) => {
  if (!holds) throw new Wrong(what);
};

// Opens a page of its own, does something there, and sees that its console and the network are silent.
async function story(name, play, {at = address, shows = "document.documentElement.dataset.ready === ''", ...look} = {}) {
  const page = await browser.page(look);
  try {
    await page.goto(at);
    await page.until(shows);
    await play(page);
    await page.until("document.getElementById('working').textContent !== 'working ..'");
    wants(page.faults.length === 0, `the console says: ${page.faults[0]}`);
    const others = page.requests.filter((url) => !url.startsWith(address) && !url.startsWith("blob:null/") && !url.startsWith(at.split("#")[0]));
    wants(others.length === 0, `the page asks for ${others[0]}`);
    if (screenshots !== undefined) writeFileSync(join(screenshots, `${name.replace(/\W+/g, "_")}.png`), await page.screenshot());
    console.log(`held in Chromium: ${name}`);
  } catch (error) {
    console.log(`FAILED in Chromium: ${name}: ${error.message}`);
  }
  await browser.send("Target.closeTarget", {targetId: page.targetId});
}

// Puts a text into the box as if it were typed, and waits until it is looked at.
async function type(page, words) {
  await page.ask(`(() => { const box = document.getElementById("text"); box.value = ${quoted(words)}; fileName = ""; box.dispatchEvent(new Event("input")); })()`);
  await settled(page);
}

// Waits until nothing is left to be done.
async function settled(page) {
  await new Promise((done) => setTimeout(done, 350));
  await page.until("answers.waiting.size === 0");
  await new Promise((done) => setTimeout(done, 50));
  await page.until("answers.waiting.size === 0");
}

const rows = (page) => page.ask("[...document.querySelectorAll('#races tbody tr')].map((row) => [...row.cells].map((cell) => cell.textContent).join(' | '))");
const words = (page, id) => page.ask(`document.getElementById(${quoted(id)}).textContent`);
const shown = (page, id) => page.ask(`document.getElementById(${quoted(id)}).checkVisibility()`);
const marks = (page) => page.ask("['before', 'earlier', 'receive'].flatMap((look) => [...document.getElementById('picture').shadowRoot.querySelectorAll(`g.${look}`)].map((event) => `${look} ${event.id.slice(1).replace('-', ' ')}`))");

async function clickOn(page, selector) {
  await page.ask(`document.querySelector(${quoted(selector)}).scrollIntoView({block: "center"})`);
  const {x, y} = await page.ask(`(({x, y, width, height}) => ({x: x + width / 2, y: y + height / 2}))(document.querySelector(${quoted(selector)}).getBoundingClientRect())`);
  await page.click(x, y);
  await settled(page);
}

const TWO = "client | answer (3, from east) | ask (2, to west)";
const OTHER = "client | answer (4, from west) | answer (3, from east)";

for (const [kind, file] of [["a chart", "msc"], ["mscgen", "mscgen"], ["PlantUML", "plantuml"], ["Mermaid", "mermaid"], ["a log for ShiViz", "shiviz"]]) {
  await story(`two answers, as ${kind}`, async (page) => {
    await type(page, text(`examples/two_answers/two_answers.${file}`));
    const found = await rows(page);
    wants(found.length === 2 && found[0].startsWith(TWO) && found[1].startsWith(OTHER), `its races are ${found.join("; ")}`);
    await clickOn(page, "#races tbody tr");
    wants((await words(page, "why_words")) === "Before this receive come the first event of client, the first 2 events of east, and nothing else has to.", await words(page, "why_words"));
    const marked = (await marks(page)).sort().join(", ");
    wants(marked === "before 1 1, before 2 1, before 2 2, earlier 1 2, receive 1 3", `marked are ${marked}`);
    wants((await page.ask("document.getElementById('witness').shadowRoot.querySelectorAll('text').length")) > 5, "the other run isn't drawn");
    wants((await words(page, "mend_words")).startsWith("ack from client to east: sent behind event 2"), await words(page, "mend_words"));
    await clickOn(page, "#mend");
    wants((await rows(page)).length < 2 || (await words(page, "summary")).includes("race"), "the message isn't added");
    wants((await page.ask("document.getElementById('text').value")).includes("out ack to east;"), "the chart has no message more");
  });
}
await story("a schedule, its orders and keys", async (page) => {
  await type(page, text("examples/handover/handover.schedule"));
  const found = await rows(page);
  wants(found[0] === "control | handover_complete (6, from mobile) | events 4 to 5 (handover_detection, establish_indication)", found[0]);
  await page.ask("document.activeElement.blur()");
  await page.key("n");
  await settled(page);
  wants((await marks(page)).includes("receive 4 6") && (await marks(page)).includes("earlier 4 5"), `marked are ${await marks(page)}`);
  await page.ask("document.getElementById('order').value = 'drawn'; document.getElementById('order').dispatchEvent(new Event('change'))");
  await settled(page);
  wants((await words(page, "chart_text")).startsWith("msc run;\n"), "no order is drawn");
});
await story("a log of a lock server, and luck alone", async (page) => {
  await type(page, text("examples/erlang/lock_server.log"));
  wants((await rows(page)).some((row) => row.endsWith(" | luck")), "no race is reported as luck");
  const before = (await rows(page)).length;
  await clickOn(page, "#luck");
  const left = await rows(page);
  wants(left.length > 0 && left.length < before && left.every((row) => row.endsWith(" | luck")), `left are ${left.length}`);
});
await story("a click on a dot", async (page) => {
  await type(page, text("examples/two_answers/two_answers.msc"));
  const {x, y} = await page.ask("(() => { const dot = document.getElementById('picture').shadowRoot.querySelector('g[id^=r] > circle.r, svg > circle.r').getBoundingClientRect(); return {x: dot.x + dot.width / 2, y: dot.y + dot.height / 2}; })()");
  await page.click(x, y);
  await settled(page);
  wants((await marks(page)).includes("receive 1 3"), `marked are ${await marks(page)}`);
});
await story("a search, and a click that leaves a race", async (page) => {
  await type(page, text("examples/two_answers/two_answers.msc"));
  const find = (word) => page.ask(`(() => { const box = document.getElementById("search"); box.value = ${quoted(word)}; box.dispatchEvent(new Event("input"));
    return [document.querySelectorAll("#races tbody tr:not([hidden])").length, document.getElementById("picture").shadowRoot.querySelectorAll("text.hit").length]; })()`);
  const [none, some, all] = [await find("no such message"), await find("ask"), await find("")].map(String);
  wants(none === "0,0" && some === "1,2" && all === "2,0", `found are ${none}; ${some}; ${all}`);
  await clickOn(page, "#races tbody td");
  wants((await marks(page)).includes("receive 1 3") && (await shown(page, "details")), "the race isn't shown");
  await clickOn(page, "#races tbody td");
  wants((await marks(page)).length === 0 && !(await shown(page, "details")), "the race isn't left");
});
await story("a fault at its place", async (page) => {
  await type(page, text(unpacked("cases/mscview/explain/send_mistyped.case/input")));
  const cards = await page.ask("[...document.querySelectorAll('.fault_card')].map((card) => card.textContent)");
  wants(cards[0]?.startsWith("F20 Syntax: this can't stand here") && cards[0].includes("here may stand: `send`, `receive`"), String(cards));
  wants((await page.ask("document.querySelector('#gutter .fault')?.textContent")) === "3", "the line isn't marked");
});
await story("a diagram with a fault", async (page) => {
  await type(page, "msc {\n  a, b;\n  a -> c;\n}\n");
  wants((await page.ask("document.querySelector('#gutter .fault')?.textContent")) === "3", await words(page, "faults"));
});
await story("hostile texts stay text", async (page) => {
  const bad = `<img src=x onerror="alert(1)"><script>alert(2)</script>`;
  await page.ask(`fileName = ${quoted(`"><script>alert(3)</script>.msc`)}`);
  await page.ask(`(() => { const box = document.getElementById("text"); box.value = ${quoted(`msc {\n  a [label="${bad.replace(/"/g, "'")}"], b;\n  a -> b [label="${bad.replace(/"/g, "'")}"];\n  b -> a [label="</svg><script>alert(4)</script>"];\n}\n`)}; })()`);
  await page.ask("look()");
  await settled(page);
  wants((await words(page, "reported")).includes("<img src=x onerror="), `it is ${await words(page, "reported")}`);
  for (const place of ["document", "document.getElementById('picture').shadowRoot"]) {
    wants((await page.ask(`${place}.querySelectorAll('img, script:not([id]):not(body > script), iframe, object').length`)) === 0, "an element was made of a text");
  }
  await type(page, bad);
  await type(page, `instances <b>a</b> b\ncapacity 1\n`);
  wants((await words(page, "faults")).includes("<b>a</b>"), await words(page, "faults"));
  wants((await page.ask("document.querySelectorAll('#input b').length")) === 0, "an element was made of a name");
});
await story("a comparison", async (page) => {
  const compared = (name) => text(unpacked(`cases/mscview/compare/two_answers.case/${name}`));
  await type(page, compared("input"));
  await page.ask(`document.querySelector('[data-pane=compare_pane]').click(); document.getElementById("text_b").value = ${quoted(compared("input2"))}; document.getElementById("compare").click()`);
  await settled(page);
  wants((await words(page, "compared")) === compared("stdout"), await words(page, "compared"));
});
await story("a command line", async (page) => {
  await type(page, text("examples/two_answers/two_answers.mscgen"));
  await page.ask("document.querySelector('[data-pane=command_pane]').click(); document.getElementById('command').value = `mscview export --to 'mermaid' CHART`; document.getElementById('command_form').requestSubmit()");
  await settled(page);
  wants((await words(page, "command_out")) === text("examples/two_answers/two_answers.mermaid"), await words(page, "command_err"));
});
await story("a file that is opened", async (page) => {
  const name = join(room, "handover.schedule");
  writeFileSync(name, text("examples/handover/handover.schedule"));
  const {root} = await page.send("DOM.getDocument");
  const {nodeId} = await page.send("DOM.querySelector", {nodeId: root.nodeId, selector: "#open"});
  await page.send("DOM.setFileInputFiles", {files: [name], nodeId});
  await settled(page);
  wants((await page.ask("document.getElementById('picture').shadowRoot.querySelector('title').textContent")) === "handover.schedule", "the picture has another title");
});
await story("an empty text, and one that is nothing", async (page) => {
  await type(page, "");
  wants(!(await shown(page, "picture_frame")), "a picture is left");
  await type(page, "hello\nworld\n");
  wants((await words(page, "what")).startsWith("neither a schedule nor a chart"), await words(page, "what"));
});

let link;
await story("a link is made", async (page) => {
  await type(page, text("examples/two_answers/two_answers.plantuml"));
  await page.ask("document.getElementById('link').click()");
  await page.until("location.hash.startsWith('#z')");
  link = await page.ask("location.href");
});
await story("a link opens with its text", async (page) => {
  wants((await page.ask("document.getElementById('text').value")) === text("examples/two_answers/two_answers.plantuml"), "another text");
  await settled(page);
  wants((await rows(page))[0].startsWith(TWO), "its races aren't shown");
}, {at: link});
await story("a link that is broken", async (page) => {
  wants((await words(page, "summary")).startsWith("The text in this address can't be read"), await words(page, "summary"));
}, {at: `${address}#zAAAA`});

// A page of which one character of its programs was changed.
const damaged = join(room, "damaged.html");
writeFileSync(damaged, text(pageFile).replace(/(id="module">\d+ \d+ [^]{100000})([^])/, (_, before, changed) => before + (changed === "a" ? "b" : "a")));
await story("a page that is damaged", async (page) => {
  wants((await words(page, "summary")) === "This page can't run here: its programs are damaged", await words(page, "summary"));
}, {at: `file://${damaged}`, shows: "document.getElementById('summary').textContent !== ''"});

// A page whose limit is a millisecond: what takes longer is stopped, and reported.
const hasty = join(room, "hasty.html");
writeFileSync(hasty, readFileSync(pageFile, "utf8").replace("const LIMIT = 30000;", "const LIMIT = 200;").replace(/script-src [^;]*;/, "script-src 'unsafe-inline' 'wasm-unsafe-eval';"));
const ring = (rounds) => {
  const lines = ["msc run;"];
  for (let i = 0; i < 32; i++) {
    lines.push(`instance n${i};`);
    for (let turn = 0; turn < rounds; turn++) {
      if (i > 0) lines.push(`in m from n${(i + 31) % 32};`);
      lines.push(`out m to n${(i + 1) % 32};`);
      if (i === 0) lines.push(`in m from n31;`);
    }
    lines.push("endinstance;");
  }
  return `${[...lines, "endmsc;"].join("\n")}\n`;
};
await story("what takes too long is stopped, and begun anew", async (page) => {
  await page.ask(`(() => { const box = document.getElementById("text"); box.value = ${quoted(ring(2048))}; box.dispatchEvent(new Event("input")); })()`);
  await page.until("document.getElementById('summary').textContent.startsWith('stopped after')", 60);
  await type(page, text("examples/two_answers/two_answers.msc"));
  wants((await rows(page)).length === 2, "the next text isn't looked at");
}, {at: `file://${hasty}`});
await story("a button stops what is at work", async (page) => {
  await page.ask(`(() => { const box = document.getElementById("text"); box.value = ${quoted(ring(2048))}; box.dispatchEvent(new Event("input")); })()`);
  await page.until("document.getElementById('stop').checkVisibility()", 60);
  await page.ask("document.getElementById('stop').click()");
  wants((await words(page, "working")).startsWith("stopped"), await words(page, "working"));
  await type(page, text("examples/two_answers/two_answers.msc"));
  wants((await rows(page)).length === 2, "the next text isn't looked at");
});
await story("a narrow window", async (page) => {
  await type(page, text("examples/two_answers/two_answers.msc"));
  wants((await page.ask("document.documentElement.scrollWidth")) <= 420, "it is wider than its window");
}, {width: 420});
await story("a dark scheme", async (page) => {
  await type(page, text("examples/handover/handover.schedule"));
  wants((await page.ask("getComputedStyle(document.body).backgroundColor")) === "rgb(20, 23, 28)", "it isn't dark");
}, {dark: true});

await browser.close();
rmSync(room, {recursive: true, force: true});
