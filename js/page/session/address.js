// The page's URL. The text after `#` names a saved session or an example, or contains the texts that a link shares. The text after `?`
// names the example whose story the page opens.

/** @typedef {"session" | "example" | "link"} FragmentKind */

/** @param {string} text */
function decodeText(text) {
  try {
    return decodeURIComponent(text);
  } catch {
    return text;
  }
}

/**
 * Returns the name of the example whose story the URL requests, or "" if the URL requests no story. The URL can contain the example's name
 * or the name of the example's folder.
 * @param {string} search
 */
export function readRequestedStory(search) {
  return new URLSearchParams(search).get("story")?.replace(/_/g, " ") || "";
}

/** Removes the name of the story from the page's URL. */
export function removeStoryFromUrl() {
  const url = new URL(location.href);
  url.search = "";
  try {
    history.replaceState(null, "", url);
  } catch {
    // Some browsers do not let a page change the URL of a local file. A reload then opens the story again.
  }
}

/**
 * Parses the fragment of a URL. Ignores trailing spaces, which users sometimes copy together with a URL. `kind` is "" if the fragment is of
 * no known kind.
 * @param {string} hash
 * @returns {{ kind: FragmentKind | "", value: string }}
 */
export function readUrlFragment(hash) {
  const [, kind, value] = /^#(session|example|link)=(.*?)(?:%20|%09|%0A|%0D|\s)*$/i.exec(hash) || [];
  return { kind: /** @type {FragmentKind | ""} */ (kind || ""), value: kind === "example" ? decodeText(value) : value || "" };
}

/**
 * @param {FragmentKind} kind
 * @param {string} value
 */
export function formatUrlFragment(kind, value) {
  return `#${kind}=${kind === "example" ? encodeURIComponent(value) : value}`;
}
