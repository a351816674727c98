// ---------------------------------------------------------------- the page of one run begins

makeRun();
byId("heads").replaceChildren(...makeHeads());
begin();
if (!followLink()) goTo(stepThatMatters());
