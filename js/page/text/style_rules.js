// The style rules that CodeMirror creates at run time. The page's content security policy allows only the page's own style sheet, so the
// rules are inserted at the beginning of that sheet.

import { StyleModule } from "style-mod";

/** @type {Set<StyleModule>} the modules whose rules are in the style sheet */
const addedModules = new Set();
/** The number of rules that have been inserted so far. */
let insertedCount = 0;

/** Makes CodeMirror insert its style rules into the page's style sheet. */
export function insertRulesIntoSheet() {
  StyleModule.mount = (_, modules) => {
    const [sheet] = document.styleSheets;
    for (const module of [modules].flat()) {
      if (addedModules.has(module)) continue;
      addedModules.add(module);
      for (const rule of module.getRules().split("\n").filter(Boolean)) sheet.insertRule(rule, insertedCount++);
    }
  };
}
