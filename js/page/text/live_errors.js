// Error checks while the user types. A check starts when the user pauses. An edit cancels the check in progress, and another check starts
// at the next pause.

/** The delay in milliseconds between the last edit and a check. */
const CHECK_DELAY_MS = 300;

/**
 * @template Result
 */
export class LiveErrors {
  /**
   * @param {(isWanted: () => boolean) => Promise<Result | undefined>} find resolves to the errors; resolves to undefined if `isWanted`
   *   returns false, because an edit or a newer check has cancelled the check
   * @param {(result: Result) => void} show
   * @param {(error: unknown) => void} reportFailure
   */
  constructor(find, show, reportFailure) {
    this.find = find;
    this.show = show;
    this.reportFailure = reportFailure;
    this.checkCount = 0;
    this.timer = 0;
  }

  /** Cancels the check in progress, and schedules another check. Called after each edit. */
  handleEdit() {
    this.checkCount += 1;
    clearTimeout(this.timer);
    this.timer = window.setTimeout(() => this.checkNow().catch(this.reportFailure), CHECK_DELAY_MS);
  }

  /**
   * Checks the text immediately and shows the result. Resolves to the result, or to undefined if an edit or a newer check
   * has cancelled this check.
   * @returns {Promise<Result | undefined>}
   */
  async checkNow() {
    clearTimeout(this.timer);
    this.checkCount += 1;
    const { checkCount } = this;
    const isWanted = () => checkCount === this.checkCount;
    const result = await this.find(isWanted);
    if (result === undefined || !isWanted()) return undefined;
    this.show(result);
    return result;
  }
}
