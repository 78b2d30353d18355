// The user's colour theme: the system's, light or dark. `page/style/tokens.css` defines the colours of each theme.

/** @typedef {"system" | "light" | "dark"} ThemeName */

export class Theme {
  /** @param {import("./preferences.js").Preferences} preferences */
  constructor(preferences) {
    this.preferences = preferences;
    /** The listener for theme changes. */
    this.onChange = () => {};
    this.show();
  }

  /** @returns {ThemeName} */
  get name() {
    const storedName = this.preferences.get("theme");
    return storedName === "light" || storedName === "dark" ? storedName : "system";
  }

  /** @param {ThemeName} name */
  set(name) {
    this.preferences.set("theme", name);
    this.show();
    this.onChange();
  }

  show() {
    const { name } = this;
    const { dataset } = document.documentElement;
    if (name === "system") delete dataset.theme;
    else dataset.theme = name;
  }
}
