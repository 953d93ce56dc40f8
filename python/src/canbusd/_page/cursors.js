// A second cursor, and its distance from the chosen step.

const second = { step: null };
function markStep(step) {
  second.step = second.step === step ? null : step;
  at("mark").setAttribute("aria-pressed", second.step !== null);
  sayStep();
  dueHash();
}
const isMarked = () => second.step !== null && second.step < axis.count;
function placeSecond() {
  at("second-cursor").hidden = !isMarked();
  if (isMarked()) placeCursor(second.step, at("second-cursor"));
}
on("cursor placed", placeSecond);
on("chosen", made => {
  if (!isMarked() || second.step === view.step) return;
  const seconds = sinceStep(view.step, second.step), apart = attemptOf[view.step] - attemptOf[second.step];
  made.push(element("p", [element("b", `Since the mark, ${titleOf(second.step)}: `),
    `${seconds && `${seconds} s, `}${times(Math.abs(apart), "attempt")} ${apart < 0 ? "before" : "after"} it.`]));
});
