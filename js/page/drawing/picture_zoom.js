// The zoom of the board's picture. The picture fits the width of its panel until buttons, keys or the wheel change its size.

import { button, onClick } from "../ui/dom.js";

/** The zoom factor of one button click, key press or wheel step. */
const ZOOM_FACTOR = 1.25;
/** The minimum scale, unless the picture fits into its panel only at a smaller scale. */
const MIN_SCALE = 0.35;
/** The maximum scale. */
const MAX_SCALE = 4;
/** Scales that differ by less than this count as equal. */
const SCALE_TOLERANCE = 0.001;

export class PictureZoom {
  /** @param {HTMLElement} root the panel in which the picture scrolls */
  constructor(root) {
    this.root = root;
    this.largerButton = button("picture-larger");
    this.smallerButton = button("picture-smaller");
    onClick(this.largerButton, () => this.zoom(ZOOM_FACTOR));
    onClick(this.smallerButton, () => this.zoom(1 / ZOOM_FACTOR));
    onClick(button("picture-fit"), () => this.fit());
    root.addEventListener("keydown", (event) => this.handleKey(event));
    root.addEventListener("wheel", (event) => this.handleWheel(event), { passive: false });
  }

  /** The bounding box of the picture on the page. */
  get box() {
    const picture = this.root.querySelector("svg");
    return picture ? picture.getBoundingClientRect() : new DOMRect();
  }

  /** The current scale: displayed width divided by natural width, or 0 if there is no picture. */
  get scale() {
    const width = parseFloat(this.root.style.getPropertyValue("--picture-width"));
    return width > 0 ? this.box.width / width : 0;
  }

  /** The minimum and maximum scale. The range always includes the current scale. */
  get bounds() {
    const { root, scale, box } = this;
    const height = parseFloat(getComputedStyle(root).maxHeight) || root.clientHeight;
    const fitScale = scale * Math.min(root.clientWidth / box.width, height / box.height);
    return { min: Math.min(MIN_SCALE, fitScale, scale), max: Math.max(MAX_SCALE, scale) };
  }

  /**
   * Zooms the picture around a point of the panel.
   * @param {number} factor
   * @param {{ x: number, y: number }} [fixedPoint] the point of the panel at which the picture does not move, by default the centre
   */
  zoom(factor, fixedPoint = { x: this.root.clientWidth / 2, y: this.root.clientHeight / 2 }) {
    const { root, scale } = this;
    if (scale === 0) return;
    const { scrollLeft, scrollTop } = root;
    const { min, max } = this.bounds;
    root.style.setProperty("--picture-zoom", String(Math.min(max, Math.max(min, scale * factor))));
    root.classList.add("zoomed");
    const scaleRatio = this.scale / scale;
    root.scrollTo((scrollLeft + fixedPoint.x) * scaleRatio - fixedPoint.x, (scrollTop + fixedPoint.y) * scaleRatio - fixedPoint.y);
    this.showBounds();
  }

  fit() {
    this.root.classList.remove("zoomed");
    this.showBounds();
  }

  /** Sets `aria-disabled` on the zoom button whose limit is reached. Unlike `disabled`, this attribute lets the button keep the focus. */
  showBounds() {
    const { scale, bounds: { min, max } } = this;
    this.smallerButton.setAttribute("aria-disabled", String(scale <= min + SCALE_TOLERANCE));
    this.largerButton.setAttribute("aria-disabled", String(scale >= max - SCALE_TOLERANCE));
  }

  /** @param {KeyboardEvent} event */
  handleKey(event) {
    if (event.ctrlKey || event.metaKey || event.altKey) return;
    /** @type {Record<string, () => void>} */
    const actions = { "+": () => this.zoom(ZOOM_FACTOR), "-": () => this.zoom(1 / ZOOM_FACTOR), 0: () => this.fit() };
    if (!(event.key in actions)) return;
    event.preventDefault();
    actions[event.key]();
  }

  /** @param {WheelEvent} event */
  handleWheel(event) {
    if (!event.ctrlKey && !event.metaKey) return;
    event.preventDefault();
    const { left, top } = this.root.getBoundingClientRect();
    this.zoom(event.deltaY < 0 ? ZOOM_FACTOR : 1 / ZOOM_FACTOR, { x: event.clientX - left, y: event.clientY - top });
  }
}
