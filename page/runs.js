/** What is said while work goes on that has taken so many seconds. */
export const workSays = (seconds) =>
  seconds < 1 ? "Working. Stop ends it." : `Working for ${seconds.toFixed(0)} s. Stop ends it.`;

/** Runs of the page: what was asked of one input writes nothing once another input has come. */
export class Runs {
  constructor() {
    this.number = 0;
  }

  /** Begins a run. Of each that began earlier nothing is shown any more. */
  begin() {
    this.number += 1;
    const own = this.number;
    const isCurrent = () => own === this.number;
    // The button that asks for a run may be gone when there is something to read, and then the focus belongs there.
    let isPressed = false;
    return {
      isCurrent,
      press: () => (isPressed = true),
      /** Whether what is shown now is to take the focus: the first words of a run that was asked for by a button. */
      takesFocus() {
        const takes = isPressed && isCurrent();
        isPressed = false;
        return takes;
      },
    };
  }
}
