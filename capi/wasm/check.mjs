// Runs the module over conformance/ in node: node --experimental-wasm-memory64 check.mjs
import crypto from "node:crypto";
import fs from "node:fs";
import path from "node:path";
import { fileURLToPath } from "node:url";
import vm from "node:vm";

const here = path.dirname(fileURLToPath(import.meta.url)), conformance = path.join(here, "..", "..", "conformance");
vm.runInThisContext(`${fs.readFileSync(path.join(here, "decoder.js"), "utf8")}; globalThis.decode = decode;`);
const { instance } = await WebAssembly.instantiate(fs.readFileSync(path.join(here, "out", "jevmutzal.wasm")), {});
const rows = fs.readFileSync(path.join(conformance, "expected.tsv"), "utf8").trim().split("\n").slice(1);

function told(stream, piece) {
    const md5 = crypto.createHash("md5");
    let count = 0, fault = "";
    for (const next of decode(instance.exports, stream, piece)) {
        if (next.picture) {
            next.picture.planes.forEach((plane) => md5.update(plane));
            count++;
        }
        if (next.fault) fault = `fault unit=${next.fault.unit} at=${next.fault.at} cause=${next.fault.cause}`;
    }
    return [md5.digest("hex"), String(count), fault].join(" ");
}

let wrong = 0, runs = 0;
for (const [name, , pictures, md5, text] of rows.map((row) => row.split("\t"))) {
    const stream = new Uint8Array(fs.readFileSync(path.join(conformance, "streams", `${name}.drc`)));
    const wanted = [md5, pictures, text.split("|")[1] ?? ""].join(" ");
    for (const piece of [1, 7, 65536]) {
        const found = told(stream, piece);
        runs++;
        if (found === wanted) continue;
        wrong++;
        console.log(`${name}, pieces of ${piece}: ${found}, expected ${wanted}`);
    }
}
console.log(`${runs - wrong} of ${runs} runs agree; ${instance.exports.memory.buffer.byteLength} bytes of memory`);
process.exit(wrong ? 1 : 0);
