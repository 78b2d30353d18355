// Notes about the examples: a first thing to try in each, and the welcome cards for a first visit.

/** A first thing to try in each example, by the example's name. */
export const FIRST_TRIES = {
  "three lamps": "Pause it, then step with F11 and watch a lamp change.",
  "counter": "Press COUNT: the display counts.",
  "a fault to find": "Step over with F10 and find the line that is wrong.",
  "traffic light": "Press WALK and wait for green.",
  "running light": "Choose speed 1/100 and watch the light run.",
  "stopwatch": "Click RUN to start it, and again to stop it.",
  "die": "Hold THROW, then let it go.",
  "clock": "Hold SET: a minute passes in half a second.",
  "music box": "Turn the sound on and press PLAY.",
  "pictures": "Press NEXT: another picture appears.",
  "lock": "Press 4 7 1 1 #: the lock opens for a second.",
  "stacker": "Press DROP when the row is above the one below it.",
  "lamps": "Step over with F10: two ones move through the shift register.",
  "first": "Show the console and click Run: three lines run on an empty bench.",
  "calculator": "Press 7 * 6 =: the display shows 42.",
  "printing calculator": "Press 2 + 3 * 4 = and read the tape.",
  "empty bench": "Draw a board in Wiring, or write one in Board.",
};
/** The order of the examples. An example that is not in this list comes first. */
export const EXAMPLE_ORDER = Object.keys(FIRST_TRIES);
/** @type {(title: string, toDo: string) => string} */
export const exampleWords = (title, toDo) => `${title} ${toDo}`;

// --- session/welcome_view.js ---
export const WELCOME = "What would you like to do first?";
export const WELCOME_HINT = "First steps, in the list of commands (Ctrl+Shift+P), shows these cards again.";
export const CLOSE = "Close";
/** The welcome cards: their titles, their texts, and the examples that they open. */
export const WELCOME_CARDS = {
  lamp: { title: "Light a lamp (3 clicks)", words: "Your first program, step by step. No knowledge is needed.", example: "" },
  step: { title: "Step through a program", words: "Three lamps. Pause, step, and see what changes.", example: "three lamps" },
  traffic: { title: "See a machine at work", words: "A traffic light. Press WALK and wait for green.", example: "traffic light" },
  fault: { title: "Find a bug", words: "A counter counts too far. Step over with F10.", example: "a fault to find" },
  calculator: { title: "Use a calculator", words: "Twenty keys and a display. Press 7 * 6 =.", example: "calculator" },
  draw: { title: "Draw your own board", words: "Chips, lamps and keys. Drag wires from pin to pin.", example: "empty bench" },
};
