// Compares the module with the results of `cases.py`: node [--experimental-wasm-memory64] page/test.mjs MODULE.wasm cases.json
import fs from "fs";
import { compare } from "./compare.mjs";
import { load } from "./overlay.mjs";
import { contoursOf } from "./wkt.mjs";

const library = await load(fs.readFileSync(process.argv[2]));
const said = compare(library, fs.readFileSync(process.argv[3], "utf8").trim().split("\n").map((line) => JSON.parse(line)));
console.log(`in node: ${said}`);

// rings in any direction, decimals, empty members, lower case; and texts that are refused
const read = (text) => JSON.stringify(contoursOf(text));
const wanted = "[[[0,0],[9,0],[9.5,9],[0,9]],[[3,3],[3,6],[6,6],[6,3]]]";
const forms = ["POLYGON ((0 0, 9 0, 9.5 9, 0 9, 0 0), (3 3, 3 6, 6 6, 6 3))", "polygon((0 0,0 9,9.5 9,9 0),(3 3,6 3,6 6,3 6,3 3))",
    "MULTIPOLYGON (EMPTY, ((0 0, 9 0, 9.5 9, 0 9), (3 3, 3 6, 6 6, 6 3, 3 3)))\nPOLYGON EMPTY\n"];
const sorted = (text) => read(text).match(/-?[\d.]+,-?[\d.]+/g).sort().join(" ");
let wrong = forms.filter((text) => sorted(text) !== wanted.match(/-?[\d.]+,-?[\d.]+/g).sort().join(" ")).length;
for (const text of ["POINT (0 0)", "POLYGON ((0 0, 1 x))", "POLYGON ((0 0, 1 1)", "POLYGON Z ((0 0 0))", "POLYGON ((0 0)) POLYGON"]) {
    try {
        contoursOf(text);
        wrong++;
    } catch (error) {
        wrong += /line 1/.test(error.message) ? 0 : 1;
    }
}
console.log(`in node: ${wrong} texts of WKT are read otherwise than they have to be`);
process.exit(/ 0 other$/.test(said) && !wrong ? 0 : 1);
