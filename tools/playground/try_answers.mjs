// Answers each case and each example by the program in a page, and prints 'held' or 'FAILED' for each kind: status, standard
// output and standard error are to be those of the case, to the byte.
//   node try_answers.mjs PAGE
import {existsSync, readFileSync, readdirSync} from "node:fs";
import {cases, unpacked} from "./cases.mjs";
import {file, moduleOf, text} from "./module.mjs";

const {module, Engine, page} = moduleOf(process.argv[2]);
const engine = new Engine(module);
const lines = (name) => readFileSync(name, "utf8").split("\n").filter((line) => line !== "");
// The status of the races that a file has.
const statusOf = (name) => Number(lines(name).length > 0);
const failed = [];
let held = 0;

// Compares an answer: its name, the program and its words, and what must be answered (nothing: whatever it is).
function answers(name, program, words, status, out, err) {
  const files = words.filter((word) => existsSync(word)).map((word) => file(word));
  const answer = engine.answer(program, words, files);
  const same = (got, wanted) => wanted === undefined || text(got) === (wanted === "" ? "" : readFileSync(wanted, "latin1"));
  if ((status === undefined || answer.status === status) && same(answer.out, out) && same(answer.err, err)) held++;
  else failed.push(`${name}: status ${answer.status}, and ${status} was wanted; ${text(answer.err).split("\n")[0]}`);
}

function report(what) {
  for (const name of failed) console.log(`FAILED in a page: ${name}`);
  if (failed.length === 0) console.log(`held in a page: ${held} ${what}, to the byte`);
  failed.length = held = 0;
}

for (const name of cases) {
  const folder = unpacked(name);
  const program = existsSync(`${folder}/program`) ? readFileSync(`${folder}/program`, "utf8").trim() : "mscrun";
  const words = readFileSync(`${folder}/args`, "utf8").trim().split(/\s+/).map((word) => word.replace(/^FILE/, `${folder}/input`));
  if (words[0] === "threads") continue;
  answers(name, program, words, Number(readFileSync(`${folder}/status`, "utf8")), `${folder}/stdout`, `${folder}/stderr`);
}
report("cases");

const examples = readdirSync("examples").flatMap((story) => readdirSync(`examples/${story}`).map((name) => `examples/${story}/${name}`));
const origin = (name) => [`${name}.msc`, `${name}.schedule`].find((it) => existsSync(it));
const base = (name) => name.replace(/\.\w+$/, "");
for (const name of examples.filter((it) => existsSync(`${base(it)}.stdout`))) {
  const of = base(name), end = name.slice(of.length + 1), from = origin(of);
  if (end === "stdout") {
    const races = lines(name).some((line) => line.startsWith("race "));
    answers(name, "mscrun", [from.endsWith(".msc") ? "check" : "replay", from], Number(races), name, "");
  }
  if (end === "svg") answers(name, "mscview", ["draw", from], 0, name, "");
  if (end === "added") answers(name, "mscview", ["mend", "--all", from], undefined, undefined, name);
  if (["mscgen", "plantuml", "mermaid", "shiviz"].includes(end)) answers(name, "mscview", ["export", "--to", end, from], 0, name, "");
}
for (const folder of ["logs", "erlang", "mpi", "jobs"]) {
  for (const it of readdirSync(`examples/${folder}`).filter((it) => it.endsWith(".words"))) {
    const name = `examples/${folder}/${base(it)}`;
    const words = readFileSync(`examples/${folder}/${it}`, "utf8").replace(/\n$/, "").split("\n");
    answers(name, "mscview", ["import", ...words], 0, `${name}.msc`, `${name}.stderr`);
    answers(`${name}.races`, "mscview", ["races", `${name}.msc`], statusOf(`${name}.races`), `${name}.races`, "");
    if (existsSync(`${name}.luck`)) {
      answers(`${name}.luck`, "mscview", ["races", "--luck", ...words], statusOf(`${name}.luck`), `${name}.luck`, `${name}.stderr`);
    }
    if (existsSync(`${name}.svg`)) answers(`${name}.svg`, "mscview", ["draw", `${name}.msc`], 0, `${name}.svg`, "");
  }
}
report("examples");

const chart = "examples/two_answers/two_answers.msc", script = readFileSync("tools/page/races.js", "utf8").trimEnd();
const isShared = [page, text(engine.answer("mscview", ["page", chart], [file(chart)]).out)].every((it) => it.includes(script));
console.log(`${isShared ? "held" : "FAILED"} in a page: what marks races there is the script of mscview page`);
