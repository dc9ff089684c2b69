// Tries the memory of the program in a page: many calls in a row give all of it back; and in a page whose memory can be made
// to refuse, each of the first requests is refused in turn, and the call behind it is answered as ever.
//   node try_memory.mjs PAGE CALLS [REFUSING_PAGE]
import {readFileSync} from "node:fs";
import {unpacked} from "./cases.mjs";
import {file, moduleOf, text} from "./module.mjs";

const [, , page, calls, refusing] = process.argv;
const MOST = 100;
const commands = [
  ["mscrun", "replay", "examples/handover/handover.schedule"],
  ["mscrun", "random", "examples/two_phase_commit/two_phase_commit.schedule", "--seed", "7"],
  ["mscrun", "check", "examples/two_answers/two_answers.msc"],
  ["mscview", "races", "examples/two_answers/two_answers.msc"],
  ["mscview", "draw", "examples/two_answers/two_answers.msc"],
  ["mscview", "why", "examples/two_answers/two_answers.msc", "client", "2", "3"],
  ["mscview", "witness", "examples/two_answers/two_answers.msc", "client", "2", "3"],
  ["mscview", "mend", "--all", "examples/two_answers/two_answers.msc"],
  ["mscview", "import", "--from", "mscgen", "examples/two_answers/two_answers.mscgen"],
  ["mscview", "import", "examples/two_answers/two_answers.plantuml"],
  ["mscview", "races", "--from", "mermaid", "--json", "examples/two_answers/two_answers.mermaid"],
  ["mscview", "races", "--from", "log", "--luck", "examples/erlang/lock_server.log"],
  ["mscview", "import", "--from", "shiviz", "examples/two_answers/two_answers.shiviz"],
  ["mscview", "import", "--from", "log", "--pattern", "(?<host>\\w+) (?<dir>\\w+) (?<peer>\\w+) (?<name>\\w+)", "examples/logs/shop.log"],
  ["mscview", "explain", "cases/mscview/explain/send_mistyped.case/input"],
  ["mscview", "tidy", "cases/mscview/explain/comment.case/input"],
  ["mscview", "export", "--to", "mscgen", "examples/two_answers/two_answers.msc"],
  ["mscview", "compare", "cases/mscview/compare/two_answers.case/input", "cases/mscview/compare/two_answers.case/input2"],
];

const bytesOf = (name) => readFileSync(name.startsWith("cases/") ? unpacked(name) : name);
const filesOf = (words) => words.filter((word) => word.includes("/")).map((name) => file(name, bytesOf(name)));
const stated = ({status, out, err}) => `${status}\n${text(out)}\n${text(err)}`;
const tried = commands.map(([program, ...words]) => ({program, words, files: filesOf(words)}));
const ask = (engine, {program, words, files}) => engine.answer(program, words, files);

function manyCalls({module, Engine}) {
  const engine = new Engine(module);
  let after = 0;
  for (let call = 0; call < calls; call++) {
    ask(engine, tried[call % tried.length]);
    if (engine.calls.page_blocks() !== 0n) return `blocks are left behind ${tried[call % tried.length].words.join(" ")}`;
    if (call === 10 * tried.length) after = engine.calls.memory.buffer.byteLength;
    if (call > 10 * tried.length && engine.calls.memory.buffer.byteLength !== after) return `memory has grown by call ${call}`;
  }
  return "";
}

// Refuses the k-th request of a command. What it answers then is the whole answer, where it makes fewer, or status 2.
function refuses({module, Engine}, it) {
  const usual = stated(ask(new Engine(module), it));
  let refused = 0;
  const engine = new Engine(module);
  for (let number = 1; number <= MOST; number++) {
    engine.calls.memory_refuse(BigInt(number));
    const answer = ask(engine, it);
    const made = engine.calls.memory_asked() >= BigInt(number);
    engine.calls.memory_refuse(0n);
    // (regular expressions go on with less, where memory is refused for more)
    if (made && answer.status === 2 && /^refused: F(6|24) /m.test(text(answer.err))) refused++;
    else if (stated(answer) !== usual && !(made && answer.status === 2 && answer.err.length === 0)) return `request ${number}: ${stated(answer).slice(0, 100)}`;
    if (engine.calls.page_blocks() !== 0n) return `request ${number}: blocks are left`;
    if (stated(ask(engine, it)) !== usual) return `request ${number}: the next call is answered otherwise`;
  }
  return refused > 0 ? "" : "no request was refused";
}

const report = (what, fault) => console.log(fault === "" ? `held in a page: ${what}` : `FAILED in a page: ${what}: ${fault}`);
report(`${calls} calls in a row give all memory back`, manyCalls(moduleOf(page)));
if (refusing !== undefined) {
  const found = moduleOf(refusing);
  for (const it of tried) report(`each of ${MOST} requests for memory refused in turn, ${it.words.slice(0, 3).join(" ")}`, refuses(found, it));
}
