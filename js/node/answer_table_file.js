// The table of the bench's answers, read from its file. The page has no files, so page/build embeds the table in its scripts.
import { readFileSync } from "node:fs";

export default readFileSync(new URL("../../tools/lib/answers.txt", import.meta.url), "utf8");
