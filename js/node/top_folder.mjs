// The top folder of Fethsaim. This module and the joined modules of the commands (shipped/commands) are both two folders below it, so both
// use the same relative path.
import { fileURLToPath } from "node:url";

export const TOP = fileURLToPath(new URL("../..", import.meta.url)).replace(/\/$/, "");
