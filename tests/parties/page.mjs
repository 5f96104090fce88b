// Answers lines of JSON, [FUNCTION, TEXT ..], by the module of a page: a line [STATUS, TEXT] each.
// usage: node page.mjs PAGE.html
import { readFileSync } from "node:fs";
import { createInterface } from "node:readline";
import { gunzipSync } from "node:zlib";

const page = readFileSync(process.argv[2], "utf-8");
const packed = page.match(/<script type="text\/plain" id="module">([^<]*)</)[1];
const compiled = new WebAssembly.Module(gunzipSync(Buffer.from(packed, "base64")));
// The functions of the page itself, without its document.
const code = page.match(/\/\*\* Calls a function of the module[^]*?\n}\n/)[0];
const call = new Function("compiled", `${code}; return call;`)(compiled);

if (WebAssembly.Module.imports(compiled).length) {
  throw new Error("the module has imports");
}
for await (const line of createInterface({ input: process.stdin })) {
  const { status, text } = call(...JSON.parse(line));
  console.log(JSON.stringify([status, text]));
}
