// When the program is asked: at once about the trait that is shown, and about all others while nothing is typed.
import { askGoal, askObligations, askReport, hasDerive } from './asking.mjs';
import { Caller } from './caller.mjs';

/** After so long a call is given up, with its worker, where a newer text waits for it. */
const MOST_PATIENCE = 2000;
/** So long nothing must be typed before the other traits are looked at. */
const REST = 300;

const NOTHING = { statements: new Map(), theory: [] };

export class Looking {
  /**
   * `page` says what is shown: `stem`, `folder`, and the `line` of the script's cursor. It is told what is found: by
   * `report` of the shown trait, by `goal` at the cursor, by `learnt` that its statements are known, by `other` of
   * another trait, and by `settled` once all is known.
   */
  constructor(page, makeWorker, module) {
    this.page = page;
    this.newCaller = () => new Caller(makeWorker, module);
    this.front = this.newCaller();
    // The worker for the traits that aren't shown, which begins once they are asked about.
    this.behind = null;
    // The newest report on each trait, with the key of the files that it is of.
    this.reports = new Map();
    this.forget();
    this.turn = 0;
    this.isBusy = false;
    this.rest = 0;
  }

  /** Forgets the statements of the trait that was shown. */
  forget() {
    this.about = NOTHING;
    this.aboutKey = null;
  }

  /** The report on a trait as its files stand, or null where it isn't known. */
  known(stem) {
    const report = this.reports.get(stem);
    return report?.key === this.page.folder.key(stem) ? report.part : null;
  }

  hasDerive() {
    return hasDerive((call) => this.front.ask(call));
  }

  ask(call) {
    return this.front.ask(call);
  }

  /** Begins to ask about the shown trait anew; what an older turn still waits for is not shown. */
  look() {
    const mine = ++this.turn;
    clearTimeout(this.rest);
    if (this.isBusy) setTimeout(() => this.loseTemper(mine), MOST_PATIENCE);
    else this.answer();
  }

  loseTemper(mine) {
    const isLate = performance.now() - this.since >= MOST_PATIENCE;
    if (this.isBusy && mine === this.turn && isLate) this.front.giveUp('a newer text waits');
  }

  async answer() {
    this.isBusy = true;
    for (let mine = -1; mine !== this.turn;) {
      mine = this.turn;
      this.since = performance.now();
      await this.answerOnce(mine);
    }
    this.isBusy = false;
    this.rest = setTimeout(() => this.lookBehind(), REST);
  }

  /** Asks what isn't known of the shown trait: first the report, then the goal, then the statements. */
  async answerOnce(mine) {
    const { stem, folder, line } = this.page, ask = (call) => this.front.ask(call), began = performance.now();
    const isOld = () => mine !== this.turn;
    if (!stem) return this.page.report(null);
    const part = this.known(stem) ?? await this.askReport(this.front, stem);
    if (!part || isOld()) return null;
    this.page.report(part, performance.now() - began);
    const labels = part.duties.map((duty) => duty.label);
    const goal = labels.length ? await askGoal(ask, folder, stem, line, labels) : null;
    if (isOld()) return null;
    this.page.goal(goal, labels.length > 0);
    const key = folder.theoryKey(stem);
    if (!part.error && !part.trouble && key !== this.aboutKey) {
      const about = await askObligations(ask, folder, stem);
      if (isOld()) return null;
      this.about = about;
      this.aboutKey = key;
    }
    return this.page.learnt(part, mine);
  }

  /** Asks for the report on a trait, and keeps it; null where its files changed meanwhile, or the call was given up. */
  async askReport(caller, stem) {
    const { folder } = this.page, key = folder.key(stem);
    const part = await askReport((call) => caller.ask(call), folder, stem);
    if (part.trouble?.givenUp || folder !== this.page.folder || folder.key(stem) !== key) return null;
    this.reports.set(stem, { key, part });
    return part;
  }

  /** Reports on the other traits, one after the other, until something is typed. */
  async lookBehind() {
    const mine = this.turn;
    this.behind ??= this.newCaller();
    for (const stem of this.page.folder.stems()) {
      if (this.known(stem)) continue;
      await this.askReport(this.behind, stem);
      if (mine !== this.turn) return;
      this.page.other(stem);
    }
    this.page.settled(mine);
  }
}
