// Runs a program for WebAssembly once for each line of standard input, a call as rust/driver.rs reads it, and writes a line as it does:
// node wasi_calls.mjs PROGRAM
import { closeSync, mkdtempSync, openSync, readFileSync, rmSync, writeFileSync } from "node:fs";
import { tmpdir } from "node:os";
import { join } from "node:path";
import { WASI } from "node:wasi";

const program = await WebAssembly.compile(readFileSync(process.argv[2]));
const folder = mkdtempSync(join(tmpdir(), "calls-"));
const [input, output, errors] = ["input", "output", "errors"].map((name) => join(folder, name));

async function status(words, streams) {
  const [stdin, stdout, stderr] = streams;
  const wasi = new WASI({ version: "preview1", args: ["ti", ...words], stdin, stdout, stderr });
  try {
    return wasi.start(await WebAssembly.instantiate(program, wasi.getImportObject()));
  } catch (trap) {
    return String(trap).replaceAll(" ", "_");
  }
}

for (const line of readFileSync(0, "utf8").slice(0, -1).split("\n")) {
  const [data, ...words] = line.split(" ").map((digits) => Buffer.from(digits, "hex"));
  writeFileSync(input, data);
  const streams = [openSync(input, "r"), openSync(output, "w"), openSync(errors, "w")];
  const result = await status(words.map(String), streams);
  streams.forEach((stream) => closeSync(stream));
  console.log([result, readFileSync(output, "hex"), readFileSync(errors, "hex")].join(" "));
}
rmSync(folder, { recursive: true });
