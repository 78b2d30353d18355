// Creates an SVG file through the drawing methods of a canvas context. Implements only the methods that the drawing of waves needs.

/** The width of a character in pixels; the font is monospaced. */
const CHARACTER_WIDTH = 7.25;
/** @type {Record<string, string>} the SVG text anchors, by canvas `textAlign` */
const ANCHORS = { left: "start", center: "middle", right: "end" };

/** @type {(number: number) => string} returns a number with at most two decimals */
const formatNumber = (number) => String(Math.round(number * 100) / 100);

/** @type {(text: string) => string} escapes the characters that are special in XML */
const escapeText = (text) => text.replace(/[&<>"]/g, (letter) => `&#${letter.charCodeAt(0)};`);

/**
 * Returns the name and attributes of an element, without angle brackets.
 * @param {string} name
 * @param {Record<string, string | number>} attributes
 */
function formatTag(name, attributes) {
  return [name, ...Object.entries(attributes).map(([key, value]) => `${key}="${escapeText(String(value))}"`)].join(" ");
}

/**
 * Returns the source text of an SVG element. Without content, the element is self-closing.
 * @param {string} name
 * @param {Record<string, string | number>} attributes
 * @param {string} [content] the escaped content of the element
 */
function formatElement(name, attributes, content) {
  return content === undefined ? `<${formatTag(name, attributes)}/>` : `<${formatTag(name, attributes)}>${content}</${name}>`;
}

export class SvgContext {
  /**
   * @param {number} width
   * @param {number} height
   * @param {string} background the background colour
   */
  constructor(width, height, background) {
    this.size = [width, height];
    /** @type {string[]} */
    this.parts = [formatElement("rect", { width: "100%", height: "100%", fill: background })];
    this.fillStyle = this.strokeStyle = "#000";
    this.lineWidth = 1;
    this.font = "";
    this.textAlign = "left";
    this.textBaseline = "";
    this.path = "";
    /** @type {Record<string, string>} */
    this.dash = {};
    /** @type {Record<string, string>} */
    this.currentBox = {};
    this.clipCount = 0;
  }

  save() {}

  restore() {
    this.parts.push("</g>");
  }

  clearRect() {}

  beginPath() {
    this.path = "";
  }

  /**
   * Starts a new line at a point.
   * @param {number[]} point
   */
  moveTo(...point) {
    this.path += `M${point.map(formatNumber).join()}`;
  }

  /**
   * Adds a line from the current point to another point.
   * @param {number[]} point
   */
  lineTo(...point) {
    this.path += `${this.path === "" ? "M" : "L"}${point.map(formatNumber).join()}`;
  }

  /**
   * Sets the rectangle to which a later call of `clip` limits the drawing.
   * @param {number[]} box x, y, width and height
   */
  rect(...box) {
    const [x, y, width, height] = box.map(formatNumber);
    this.currentBox = { x, y, width, height };
  }

  clip() {
    this.clipCount += 1;
    const id = `clip${this.clipCount}`;
    const clipPath = formatElement("clipPath", { id }, formatElement("rect", this.currentBox));
    this.parts.push(clipPath, `<${formatTag("g", { "clip-path": `url(#${id})` })}>`);
  }

  stroke() {
    const attributes = { "fill": "none", "stroke": this.strokeStyle, "stroke-width": this.lineWidth, ...this.dash };
    this.parts.push(formatElement("path", { d: this.path, ...attributes }));
  }

  /**
   * Draws a filled rectangle.
   * @param {number[]} box x, y, width and height
   */
  fillRect(...box) {
    this.rect(...box);
    this.parts.push(formatElement("rect", { ...this.currentBox, fill: this.fillStyle }));
  }

  /**
   * Draws text.
   * @param {string} text
   * @param {number} x
   * @param {number} y the y position of the text centre
   */
  fillText(text, x, y) {
    const attributes = { "dy": ".35em", "text-anchor": ANCHORS[this.textAlign], "fill": this.fillStyle };
    this.parts.push(formatElement("text", { x: formatNumber(x), y: formatNumber(y), ...attributes }, escapeText(text)));
  }

  /**
   * Returns the estimated width of a string.
   * @param {string} text
   */
  measureText(text) {
    return { width: text.length * CHARACTER_WIDTH };
  }

  /**
   * Sets the lengths of dashes and gaps; an empty list means solid lines.
   * @param {number[]} lengths
   */
  setLineDash(lengths) {
    this.dash = lengths.length === 0 ? {} : { "stroke-dasharray": lengths.join(" ") };
  }

  /** The source text of the SVG file. */
  get text() {
    const [width, height] = this.size;
    const attributes = { width, height, "font-family": "monospace", "font-size": 12 };
    return `${formatElement("svg", { xmlns: "http://www.w3.org/2000/svg", ...attributes }, `\n${this.parts.join("\n")}\n`)}\n`;
  }
}
