// Computes the routes of wires in the wiring diagram, in SVG units. A wire runs directly from pin to pin. If a part is in the way, the wire
// runs above or below that part. If the user has moved parts, a wire can run from right to left. This module does not draw.

/**
 * @typedef {import("./wiring.js").Point} Point
 * @typedef {import("./wiring.js").Part} Part
 * @typedef {Pick<Part, "x" | "y" | "width" | "height">} Box
 * @typedef {{ from: Point, to: Point }} Ends the two ends of a wire
 * @typedef {[Point, Point, Point, Point]} Curve a cubic Bezier curve: its start, two control points, and its end
 */

/** The horizontal distance from a pin to a control point. Used for arcs within one column, and for detours that do not run to the right. */
const CONTROL_OFFSET = 12;
/** The distance from pins and parts to the turning points of a wire. */
const TURN_DISTANCE = 8;
/** The minimum horizontal distance from a pin to a control point, in direct curves between two columns. */
const MIN_CONTROL_OFFSET = 30;
/** The distance between a wire and the part that it passes. */
const LANE_DISTANCE = 5;
/** The offsets that separate the wires along the same part. A lane is the horizontal line along which a wire passes a part. */
const LANE_OFFSETS = [0, -2, 2, -4, 4];
/** The number of intervals into which a curve is divided to test whether a part covers it. */
const SAMPLE_INTERVALS = 24;

/**
 * Returns the direct curve between the ends of a wire. If both ends are in one column, the curve is an arc to the right.
 * @param {Ends} ends
 * @returns {Curve}
 */
function directCurve({ from, to }) {
  if (from.x === to.x) return [from, { x: from.x + CONTROL_OFFSET, y: from.y }, { x: to.x + CONTROL_OFFSET, y: to.y }, to];
  const bend = Math.max(MIN_CONTROL_OFFSET, Math.abs(to.x - from.x) / 2);
  return [from, { x: from.x + bend, y: from.y }, { x: to.x - bend, y: to.y }, to];
}

/**
 * Returns an S-shaped curve, which is horizontal at both ends.
 * @param {Point} from
 * @param {Point} to
 * @returns {Curve}
 */
function sCurve(from, to) {
  const x = (from.x + to.x) / 2;
  return [from, { x, y: from.y }, { x, y: to.y }, to];
}

/**
 * Returns a point on a curve.
 * @param {Curve} curve
 * @param {number} parameter the curve parameter, from 0 (start) to 1 (end)
 * @returns {Point}
 */
export function pointAt(curve, parameter) {
  const opposite = 1 - parameter;
  const weights = [opposite ** 3, 3 * opposite ** 2 * parameter, 3 * opposite * parameter ** 2, parameter ** 3];
  /** @type {(coordinate: (point: Point) => number) => number} */
  const sum = (coordinate) => curve.reduce((total, point, index) => total + weights[index] * coordinate(point), 0);
  return { x: sum(({ x }) => x), y: sum(({ y }) => y) };
}

/**
 * Returns whether a point is inside a box.
 * @param {Point} point
 * @param {Box} box
 */
function isInside({ x, y }, box) {
  return x > box.x && x < box.x + box.width && y > box.y && y < box.y + box.height;
}

/**
 * Returns whether a part covers any sampled point of a curve.
 * @param {Curve} curve
 * @param {Box} box the box of the part
 */
export function isCurveCovered(curve, box) {
  return Array.from({ length: SAMPLE_INTERVALS - 1 }, (_, index) => pointAt(curve, (index + 1) / SAMPLE_INTERVALS))
    .some((point) => isInside(point, box));
}

/**
 * Returns the y coordinates of the lanes above and below each part, shortest detour first. Omits lanes above the diagram.
 * @param {Ends} ends
 * @param {Box[]} boxes the boxes of the parts
 */
function sortedLanes({ from, to }, boxes) {
  /** @type {(lane: number) => number} */
  const detourLength = (lane) => Math.abs(lane - from.y) + Math.abs(lane - to.y);
  return boxes.flatMap(({ y, height }) => [y - LANE_DISTANCE, y + height + LANE_DISTANCE]).filter((lane) => lane > 0)
    .sort((a, b) => detourLength(a) - detourLength(b));
}

/**
 * Returns the y coordinate of a lane that avoids all parts between the ends. Selects the lane with the shortest detour.
 * @param {Ends} ends
 * @param {Box[]} boxesBetween the boxes of the parts between the ends
 */
function laneAround({ from, to }, boxesBetween) {
  const lanes = boxesBetween.flatMap(({ y, height }) => [y - LANE_DISTANCE, y + height + LANE_DISTANCE]);
  const freeLanes = lanes.filter((lane) => boxesBetween.every(({ y, height }) => lane < y || lane > y + height));
  /** @type {(lane: number) => number} */
  const detourLength = (lane) => Math.abs(lane - from.y) + Math.abs(lane - to.y);
  return freeLanes.reduce((best, lane) => (detourLength(lane) < detourLength(best) ? lane : best));
}

/**
 * Returns the curves of a wire with two turning points and a horizontal section between them.
 * @param {Ends} ends
 * @param {number} y the y coordinate of the horizontal section
 * @param {number} left the x coordinate of the first turning point
 * @param {number} right the x coordinate of the second turning point
 * @returns {Curve[]}
 */
function turningRoute({ from, to }, y, left, right) {
  return [sCurve(from, { x: left, y }), sCurve({ x: left, y }, { x: right, y }), sCurve({ x: right, y }, to)];
}

/**
 * Returns the curves of a wire that turns near its pins. The wire leaves its start to the right and reaches its end from the left. Between
 * the two turns, the wire can run from right to left.
 * @param {Ends} ends
 * @param {number} y the y coordinate of the horizontal section
 * @returns {Curve[]}
 */
function detourRoute(ends, y) {
  const { from, to } = ends;
  if (to.x - from.x > 2 * TURN_DISTANCE) return turningRoute(ends, y, from.x + TURN_DISTANCE, to.x - TURN_DISTANCE);
  const [above, below] = [{ x: from.x, y }, { x: to.x, y }];
  return [
    [from, { x: from.x + CONTROL_OFFSET, y: from.y }, { x: from.x + CONTROL_OFFSET, y }, above],
    sCurve(above, below),
    [below, { x: to.x - CONTROL_OFFSET, y }, { x: to.x - CONTROL_OFFSET, y: to.y }, to],
  ];
}

/**
 * Returns the curves of a wire: the first possible route that no part covers, or else the direct curve.
 * @param {Ends} ends
 * @param {Box[]} boxes the boxes of the parts
 * @param {number} wireNumber the number of the wire, which selects its offset in LANE_OFFSETS
 * @returns {Curve[]}
 */
export function routeWire(ends, boxes, wireNumber) {
  const { from, to } = ends;
  // A part that covers an end of the wire cannot be avoided.
  const avoidableBoxes = boxes.filter((box) => !isInside(from, box) && !isInside(to, box));
  /** @type {(route: Curve[]) => boolean} */
  const isRouteFree = (route) => !route.some((curve) => avoidableBoxes.some((box) => isCurveCovered(curve, box)));
  const directRoute = [directCurve(ends)];
  if (isRouteFree(directRoute)) return directRoute;
  const offset = LANE_OFFSETS[wireNumber % LANE_OFFSETS.length];
  const boxesBetween = avoidableBoxes.filter(({ x, width }) => x > from.x && x + width < to.x);
  const left = Math.min(...boxesBetween.map(({ x }) => x)) - TURN_DISTANCE;
  const right = Math.max(...boxesBetween.map(({ x, width }) => x + width)) + TURN_DISTANCE;
  const hasRoom = boxesBetween.length > 0 && left > from.x && right < to.x;
  const routesAround = hasRoom ? [turningRoute(ends, laneAround(ends, boxesBetween) + offset, left, right)] : [];
  const detours = sortedLanes(ends, avoidableBoxes).map((lane) => detourRoute(ends, lane + offset));
  return [...routesAround, ...detours].find(isRouteFree) || directRoute;
}

/**
 * Formats curves as the `d` attribute of an SVG path.
 * @param {Curve[]} curves
 */
export function pathText(curves) {
  /** @type {(point: Point) => string} */
  const formatPoint = ({ x, y }) => `${x} ${y}`;
  return `M${formatPoint(curves[0][0])}${curves.map(([, ...points]) => `C${points.map(formatPoint).join(" ")}`).join("")}`;
}
