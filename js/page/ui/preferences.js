// The user's preferences for the page, for example folded panels and the tab in front. The preferences are in the browser's local storage
// if the browser allows that, otherwise in memory until the page is closed.

const STORAGE_KEY = "fethsaim.choices";

/** @typedef {Pick<Storage, "getItem" | "setItem">} PreferenceStore */

/** Returns the browser's local storage, or null if the page cannot use it. */
export function getBrowserStore() {
  try {
    return localStorage;
  } catch {
    return null;
  }
}

/**
 * Returns the stored preferences, by name. Returns no preferences if the text is damaged.
 * @param {string | null} text the stored text, or null if nothing is stored
 * @returns {Record<string, string>}
 */
function parsePreferences(text) {
  try {
    const storedValues = JSON.parse(text || "{}");
    return Object.fromEntries(Object.entries(storedValues).filter(([, value]) => typeof value === "string"));
  } catch {
    return {};
  }
}

export class Preferences {
  /** @param {PreferenceStore | null} store null if the browser has no storage */
  constructor(store = getBrowserStore()) {
    this.store = store;
    this.valuesByName = parsePreferences(this.read());
  }

  read() {
    try {
      return this.store && this.store.getItem(STORAGE_KEY);
    } catch {
      return null;
    }
  }

  /**
   * Returns the preference with this name, or "" if there is none.
   * @param {string} name
   */
  get(name) {
    return Object.prototype.hasOwnProperty.call(this.valuesByName, name) ? this.valuesByName[name] : "";
  }

  /**
   * @param {string} name
   * @param {string} value
   */
  set(name, value) {
    // Another tab may have stored other preferences in the meantime.
    this.valuesByName = { ...this.valuesByName, ...parsePreferences(this.read()), [name]: value };
    try {
      if (this.store) this.store.setItem(STORAGE_KEY, JSON.stringify(this.valuesByName));
    } catch {
      // Without local storage, the preference lasts only until the page is closed.
    }
  }
}
