// The cases as tools/lib/read_cases unpacks them, in a folder that goes when the script ends.
import {spawnSync} from "node:child_process";
import {mkdtempSync, readdirSync, rmSync} from "node:fs";
import {tmpdir} from "node:os";
import {join} from "node:path";

const room = mkdtempSync(join(tmpdir(), "cases-"));
process.on("exit", () => rmSync(room, {recursive: true, force: true}));
if (spawnSync("tools/lib/read_cases", [room], {stdio: "inherit"}).status !== 0) throw new Error("not all of cases/ can be read");

// The place of a case, `cases/../NAME.case`, and what is below a folder, in order.
export const unpacked = (name) => join(room, name);
const below = (name) => readdirSync(unpacked(name)).sort().map((it) => `${name}/${it}`);

export const cases = below("cases").flatMap(below).flatMap(below);
