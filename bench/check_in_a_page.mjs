// Times the program in a page, under node as a browser's engine has it: unpacking, compiling and making an instance; `check`
// of two charts of 131,072 events in turn with the native program as a whole process. The median of the calls behind the first
// one counts. In Chromium it times the page from the moment that it is asked for until the program is ready, and until its
// first example is shown.
//   node check_in_a_page.mjs PAGE [CHROMIUM]
import {spawnSync} from "node:child_process";
import {mkdtempSync, readFileSync, rmSync, writeFileSync} from "node:fs";
import {tmpdir} from "node:os";
import {join, resolve} from "node:path";
import {Browser} from "../tools/playground/browser.mjs";
import {bytesIn, file, moduleOf, text} from "../tools/playground/module.mjs";

const [, , page, chromium] = process.argv;
const ROUNDS = 9;
// (more for what takes a tenth of a second: the times of a call are of two kinds, by how far the engine has compiled it)
const CALLS = 31;
const median = (times) => [...times].sort((a, b) => a - b)[Math.floor(times.length / 2)];
const timed = (call) => {
  const began = performance.now();
  const answer = call();
  return {answer, took: performance.now() - began};
};

// The chart in which a token goes from each instance to the one that is so many behind it, round 32, as in large_charts.
function ring(by) {
  const lines = ["msc run;"];
  for (let i = 0; i < 32; i++) {
    lines.push(`instance n${i};`);
    for (let turn = 0; turn < 2048; turn++) {
      const receive = `in message1 from n${(i + 32 - by) % 32};`;
      if (i > 0) lines.push(receive);
      lines.push(`out message1 to n${(i + by) % 32};`);
      if (i === 0) lines.push(receive);
    }
    lines.push("endinstance;");
  }
  return `${[...lines, "endmsc;"].join("\n")}\n`;
}

const {module, Engine, bytes} = moduleOf(page);
const whole = readFileSync(page, "utf8");
const ready = Array.from({length: ROUNDS}, () => timed(() => new Engine(new WebAssembly.Module(bytesIn(whole)))).took);
console.log(`${readFileSync(page).length} bytes of page, ${bytes.length} of WebAssembly; ready in ${median(ready).toFixed(0)} ms (node, median of ${ROUNDS})`);

const room = mkdtempSync(join(tmpdir(), "check-in-a-page-"));
for (const by of [1, 31]) {
  const name = join(room, "chart");
  writeFileSync(name, ring(by));
  const engine = new Engine(module), chart = [file(name)];
  const own = [], native = [];
  for (let round = 0; round < CALLS; round++) {
    const here = timed(() => engine.answer("mscrun", ["check", name], chart));
    const there = timed(() => spawnSync("out/bin/mscrun", ["check", name], {maxBuffer: 1 << 28}));
    if (here.answer.status !== there.answer.status || text(here.answer.out) !== text(there.answer.stdout)) throw new Error("the answers differ");
    own.push(here.took);
    native.push(there.took);
  }
  const [first, ...later] = own;
  const ratio = median(later) / median(native.slice(1));
  console.log(`check of 131,072 events, passed on by ${by}: ${median(later).toFixed(0)} ms (the first ${first.toFixed(0)}), natively ${median(native.slice(1)).toFixed(0)}: ${ratio.toFixed(2)}`);
}
rmSync(room, {recursive: true, force: true});

if (chromium !== undefined && chromium !== "") {
  const browser = await Browser.open(chromium);
  const times = {ready: [], shown: []};
  for (let round = 0; round < ROUNDS; round++) {
    const opened = await browser.page();
    await opened.goto(`file://${resolve(page)}`);
    await opened.until("document.documentElement.dataset.ready === ''");
    for (const [mark, took] of Object.entries(times)) took.push(await opened.ask(`performance.getEntriesByName('${mark}')[0].startTime`));
    await browser.send("Target.closeTarget", {targetId: opened.targetId});
  }
  console.log(`in Chromium the program is ready after ${median(times.ready).toFixed(0)} ms, and the first example is shown after ${median(times.shown).toFixed(0)} (medians of ${ROUNDS})`);
  await browser.close();
}
