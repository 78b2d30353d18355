// Announces changing text to screen readers. The text is announced after it has been unchanged for at least ANNOUNCEMENT_DELAY_MS. Text
// that changes again before that time is not announced.

/** The time that a text must stay unchanged before it is announced, in milliseconds. Also the minimum time between announcements. */
export const ANNOUNCEMENT_DELAY_MS = 1000;

/** Announces the changing text of one source, such as a display. */
export class Announcer {
  /** @param {(text: string) => void} say announces text */
  constructor(say) {
    this.say = say;
    this.text = "";
    this.lastAnnounced = "";
    /** True until the first text of a board arrives. The first text is not announced. */
    this.isFirst = true;
    /** True if the text has not changed since the timer started. */
    this.isUnchanged = true;
    this.timer = 0;
  }

  /** Prepares for the text of a new board. The first text of a board is not announced. */
  begin() {
    this.isFirst = true;
  }

  /**
   * Sets the text. The text is announced after it has been unchanged for at least ANNOUNCEMENT_DELAY_MS, unless the last announcement had
   * the same text.
   * @param {string} text
   */
  announce(text) {
    if (this.isFirst) {
      this.isFirst = false;
      this.text = this.lastAnnounced = text;
    }
    if (text === this.text) return;
    this.text = text;
    this.isUnchanged = false;
    if (this.timer === 0) this.startTimer();
  }

  /** Starts the timer for the next announcement. */
  startTimer() {
    this.isUnchanged = true;
    this.timer = Number(setTimeout(() => this.onTimer(), ANNOUNCEMENT_DELAY_MS));
  }

  /** Announces the text if it did not change while the timer ran; otherwise restarts the timer. */
  onTimer() {
    this.timer = 0;
    if (!this.isUnchanged) {
      this.startTimer();
    } else if (this.text !== this.lastAnnounced) {
      this.lastAnnounced = this.text;
      this.say(this.text);
    }
  }
}
