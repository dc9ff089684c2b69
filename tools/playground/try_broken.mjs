// Compares the program in a page with the native programs over texts that are broken at random: charts, schedules, diagrams
// of each tool and logs. Status, standard output and standard error are to be equal to the byte.
//   node try_broken.mjs PAGE COUNT SEED
import {spawnSync} from "node:child_process";
import {existsSync, mkdtempSync, readFileSync, readdirSync, rmSync, writeFileSync} from "node:fs";
import {tmpdir} from "node:os";
import {join} from "node:path";
import {cases, unpacked} from "./cases.mjs";
import {file, moduleOf, text} from "./module.mjs";

const [, , page, count, seed] = process.argv;
const {module, Engine} = moduleOf(page);
let engine = new Engine(module);
const room = mkdtempSync(join(tmpdir(), "playground-"));
process.on("exit", () => rmSync(room, {recursive: true, force: true}));

let state = BigInt(seed);
function draw(below) {
  state = (state * 6364136223846793005n + 1442695040888963407n) % 2n ** 64n;
  return Number((state >> 33n) % BigInt(below));
}
const pick = (list) => list[draw(list.length)];

const inputs = (wanted) => cases.filter((name) => wanted.test(name)).map((name) => `${unpacked(name)}/input`);
const ended = (end, folder) => readdirSync(folder).filter((name) => name.endsWith(end)).map((name) => `${folder}/${name}`);
// The charts, schedules and diagrams of the stories, which stand beside what they come to.
const reported = (end) => readdirSync("examples").flatMap((story) => ended(end, `examples/${story}`))
  .filter((name) => existsSync(name.replace(/\.\w+$/, ".stdout")));

// What is broken, and what is asked of it then (FILE is its place).
const KINDS = [
  {texts: [...reported(".msc"), ...inputs(/mscrun\/\w+\/(chart|hostile|coregion.*checked|crossing.*checked)/)],
    asks: ["mscrun check FILE", "mscview races FILE", "mscview races --json --run-to-completion FILE", "mscview draw FILE",
      "mscview draw --around client 2 FILE", "mscview draw --witness client 2 3 FILE", "mscview page FILE", "mscview explain FILE",
      "mscview tidy FILE", "mscview why FILE client 2 3", "mscview witness FILE client 3 4", "mscview mend FILE client 2 3",
      "mscview mend --all FILE", "mscview export --to plantuml FILE"]},
  {texts: [...reported(".schedule"), ...inputs(/mscrun\/\w+\/(drawn|any|ended|refused|coregion_notes|touching)|explain\/.*schedule/)],
    asks: ["mscrun replay FILE", "mscrun random FILE --seed 12", "mscview races FILE", "mscview races --luck FILE",
      "mscview draw --numbers FILE", "mscview page FILE", "mscview explain FILE", "mscview tidy FILE",
      "mscview export --to mscgen FILE", "mscview witness FILE control 4 6"]},
  ...["mscgen", "plantuml", "mermaid"].map((tool) => ({texts: [...reported(`.${tool}`), ...inputs(new RegExp(`import/${tool}`))],
    asks: [`mscview import --from ${tool} FILE`, "mscview import FILE", `mscview races --from ${tool} FILE`,
      `mscview draw --from ${tool} FILE`, `mscview import --strict --from ${tool} FILE`, "mscview explain FILE"]})),
  {texts: [...ended(".log", "examples/logs"), ...ended(".log", "examples/erlang"), ...inputs(/import\/log/)],
    asks: ["mscview import --from log FILE", "mscview races --from log --luck FILE", "mscview races --from log --json FILE",
      "mscview import --from log --pattern (?<host>\\w+)\\s(?<dir>\\w+)\\s(?<peer>\\w+)\\s(?<name>\\w+) FILE"]},
  {texts: [...reported(".shiviz"), ...ended(".shiviz", "examples/logs"), ...inputs(/import\/shiviz/)],
    asks: ["mscview import --from shiviz FILE", "mscview races --from shiviz FILE"]},
];

const all = KINDS.flatMap(({texts}) => texts).map((name) => readFileSync(name));

// Breaks bytes once: a byte, a line, a piece or the end.
function broken(bytes) {
  if (bytes.length === 0) return Buffer.from(" ");
  const lines = text(bytes).split("\n");
  const at = draw(lines.length), place = draw(bytes.length + 1);
  const joined = () => Buffer.from(lines.join("\n"), "latin1");
  switch (draw(10)) {
    case 0: return Buffer.concat([bytes.subarray(0, place), bytes.subarray(place + 1 + draw(3))]);
    case 1: return Buffer.concat([bytes.subarray(0, place), Buffer.from([draw(256)]), bytes.subarray(place)]);
    case 2: return Buffer.concat([bytes.subarray(0, place), Buffer.from([draw(256)]), bytes.subarray(place + 1)]);
    case 3: return bytes.subarray(0, place);
    case 4: lines.splice(at, 1); return joined();
    case 5: lines.splice(at, 0, lines[draw(lines.length)]); return joined();
    case 6: [lines[at], lines[draw(lines.length)]] = [lines[draw(lines.length)], lines[at]]; return joined();
    case 7: lines[at] = lines[at].split(" ").sort(() => draw(3) - 1).join(" "); return joined();
    case 8: lines[at] += pick([" ", "  x", ";", " {", "}", "\r", "\t#", " -> b", "<script>"]); return joined();
    default: lines.splice(at, 0, text(pick(all)).split("\n")[draw(5)] ?? ""); return joined();
  }
}

const failed = [];
for (let number = 1; number <= Number(count); number++) {
  const {texts, asks} = pick(KINDS);
  let bytes = readFileSync(pick(texts));
  for (let times = 1 + draw(3); times > 0; times--) bytes = broken(bytes);
  const name = join(room, "text");
  writeFileSync(name, bytes);
  const [program, ...words] = pick(asks).split(" ").map((word) => (word === "FILE" ? name : word));
  const native = spawnSync(`out/bin/${program}`, words, {stdio: ["ignore", "pipe", "pipe"], maxBuffer: 1 << 28});
  let own;
  try {
    own = engine.answer(program, words, [file(name, bytes)]);
  } catch (error) {
    own = {status: String(error), out: "", err: ""};
    engine = new Engine(module);
  }
  if (own.status !== native.status || text(own.out) !== text(native.stdout) || text(own.err) !== text(native.stderr)) {
    failed.push(`text ${number}, ${program} ${words.slice(0, -1).join(" ")}: status ${own.status}, natively ${native.status}; ${text(own.err).slice(0, 80)} / ${text(native.stderr).slice(0, 80)}`);
  }
}
for (const line of failed.slice(0, 10)) console.log(`FAILED in a page: ${line}`);
if (failed.length === 0) console.log(`held in a page: ${count} broken texts from the seed ${seed} are answered as natively, to the byte`);
