// The program out of a page: its module, and the script that calls it, as they stand in the page.
import {readFileSync} from "node:fs";
import vm from "node:vm";

// What stands in the page's element of this id.
const element = (page, id) => new RegExp(`<script type="[^"]*" id="${id}">([^]*?)</script>`).exec(page)[1];

const unpacked = vm.runInThisContext(`(() => {${readFileSync(new URL("unpack.js", import.meta.url), "utf8")}\nreturn unpacked;})()`);

// The module's bytes in a page's text.
export const bytesIn = (page) => unpacked(element(page, "module"), element(page, "unpacker"));

export function moduleOf(file) {
  const page = readFileSync(file, "utf8");
  const bytes = bytesIn(page);
  const module = new WebAssembly.Module(bytes);
  const Engine = vm.runInThisContext(`((self) => {${element(page, "worker")}\nreturn Engine;})({})`);
  return {module, Engine, bytes, page};
}

export const file = (name, bytes = readFileSync(name)) => ({name, bytes: typeof bytes === "string" ? Buffer.from(bytes) : bytes});

export const text = (bytes) => Buffer.from(bytes).toString("latin1");
