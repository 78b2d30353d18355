// The table of front panel words, read from its file. The page has no files, so page/build embeds the table in its scripts.
import { readFileSync } from "node:fs";

export default readFileSync(new URL("../../tools/lib/face.txt", import.meta.url), "utf8");
