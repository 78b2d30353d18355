// Joins the modules of each command into one file: `node join_commands.mjs FOLDER [NAME ..]`. Without names, it joins all commands. For each command,
// it writes two files. FOLDER/NAME.cjs contains the command and the modules that it uses. FOLDER/sources/NAME contains a checksum and a list of
// sources; the checksum covers these sources and the joined file. js/node/joined_loader.cjs verifies the checksum before it uses a joined file. tools/ship
// calls this script, which needs esbuild.
import { execFileSync } from "node:child_process";
import { mkdirSync, readFileSync, rmSync, writeFileSync } from "node:fs";
import { join, resolve } from "node:path";
import { COMMANDS } from "../js/node/commands/table.mjs";
import { hashFiles } from "../js/node/joined_loader.cjs";
import { TOP } from "../js/node/top_folder.mjs";

const [, , folderName = "", ...commandNames] = process.argv;
if (folderName === "" || folderName.startsWith("-") || commandNames.some((name) => !Object.hasOwn(COMMANDS, name))) {
  process.stderr.write("usage: node tools/join_commands.mjs FOLDER [NAME ..]\n");
  process.exit(2);
}
const folder = resolve(folderName);
const names = commandNames.length > 0 ? commandNames : Object.keys(COMMANDS);
const ESBUILD = ["--bundle", "--platform=node", "--format=cjs", "--target=node18", "--minify", "--legal-comments=none", "--log-level=error",
  // Dynamic imports become calls of `require`, which are faster than Node's ES module loader.
  "--supported:dynamic-import=false",
  // CommonJS has no import.meta, so this variable replaces it.
  "--define:import.meta.url=scriptUrl", '--banner:js=const scriptUrl=require("node:url").pathToFileURL(__filename).href;'];
const META = join(folder, "meta.json");

/** Returns the source of a command's entry module. The command's own modules are loaded only after its arguments have been parsed. */
const entryModule = (name) => `import { runCommand } from "./js/node/command_line.mjs";
export const run = (words) => runCommand("${name}", words, () => import("./js/node/commands/${name}.mjs"));
`;

mkdirSync(join(folder, "sources"), { recursive: true });
for (const name of names) {
  const file = join(folder, `${name}.cjs`);
  const externals = Object.keys(COMMANDS).filter((other) => other !== name).map((other) => `--external:./${other}.mjs`);
  const options = [...ESBUILD, ...externals, `--outfile=${file}`, `--metafile=${META}`, "--sourcefile=entry.mjs"];
  execFileSync("esbuild", options, { cwd: TOP, input: entryModule(name) });
  const { inputs } = JSON.parse(readFileSync(META, "utf8"));
  const sources = Object.keys(inputs).filter((input) => input !== "entry.mjs").sort();
  writeFileSync(join(folder, "sources", name), `${hashFiles([...sources.map((source) => join(TOP, source)), file])}\n${sources.join("\n")}\n`);
}
rmSync(META);
