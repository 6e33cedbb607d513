"""The runs of the prover over a crate's edits, and what came of each edit."""
import os
import re
import tempfile

import prover
from edits import ALLOWED, Copied
from judging import GONE, NOT_TRIED, PROVED, Judgement

# the prover's words where the edit makes a loop of which nothing shows that it ends
ENDLESS = re.compile(r"no proof: expected a measure")


class Trials:
    """The runs over these edits of a crate, and what came of each: why it isn't refused, or nothing where it is. They follow one another,
    and each takes the proofs of unchanged functions that those before it left."""

    def __init__(self, crate, edits):
        self.crate, self.edits, self.outcomes, self.runs, self.seconds = crate, edits, {}, 0, 0

    def weight(self):
        """What they are likely to take, beside those of other crates."""
        return len(self.edits) * sum(map(len, self.crate.texts.values()))

    def run(self, library):
        """Tries the edits on copies, and then in place those that can't be copied, or that were neither refused nor proved on a copy."""
        with tempfile.TemporaryDirectory(prefix="newsd-edits-kept-") as kept:
            self.on_copies(library, kept, [it for it in self.edits if self.crate.may_be_copied(it)])
            for edit in self.edits:
                if self.outcomes.get(edit) not in ("", PROVED):
                    self.judge(library, kept, self.crate.edited(edit), {edit: edit.changed}, {edit: self.crate.leaf(edit.changed)})
        return self

    def on_copies(self, library, kept, edits):
        """Tries these edits in one run, and again those of which it says nothing. A copy without an end keeps the others from speaking."""
        while edits:
            copies = self.crate.copies(edits)
            changed, controls = {it.edit: [it] for it in copies}, {it.edit: [control] for it, control in copies.items()}
            self.judge(library, kept, self.crate.with_copies([*copies, *dict.fromkeys(copies.values())]), changed, controls)
            unsaid = [it for it in edits if self.outcomes[it] not in ("", PROVED)]
            edits = unsaid if len(unsaid) < len(edits) else []

    def judge(self, library, kept, texts, changed, controls):
        """Notes what a run over these texts says of each edit. `changed` has the functions that it changes, or its copy; `controls` has one
        that is unchanged. Of the controls, an edit's verdict rests on its own alone."""
        asked = {it for those in [*changed.values(), *controls.values()] for it in those}
        with tempfile.TemporaryDirectory(prefix="newsd-edit-") as room:
            for path, text in texts.items():
                os.makedirs(os.path.dirname(os.path.join(room, path)), exist_ok=True)
                with open(os.path.join(room, path), "w", encoding="utf-8") as file:
                    file.write(text)
            words = sorted(it.ending() for it in asked)
            ran = prover.check(library, room, ["--incremental", kept, *(word for it in words for word in ("--only", it))])
        self.runs, self.seconds = self.runs + 1, self.seconds + ran.seconds
        judgement = Judgement(ran.status, ran.said)
        places = {it: it.place(texts) for it in asked if isinstance(it, Copied)}
        for edit, those in changed.items():
            why = judgement.why_not(those, asked - {*controls[edit]}, controls[edit], places)
            # an error that stops the whole run doesn't say of which edit it is
            is_endless = ENDLESS.search(why) and (len(changed) == 1 or not why.startswith(NOT_TRIED))
            self.outcomes[edit] = "" if is_endless or why.startswith(GONE) and ALLOWED in edit.text else why
