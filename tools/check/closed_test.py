"""Plants each known way round the closed step in a copy of the crates.

`closed` must refuse each of them, and must accept what the crates above may use.
"""

import shutil
from pathlib import Path

from closed import refusals
from trial import Trial

SPECS = "rohc_replay/specs/Planted.antt"
PROOFS = "rohc_concentrator/proofs/planted/Proof.antt"
CODE = "rohcd/src/planted.rt"
LAWS = "rohc_context/proofs/StepLaws.antt"

REFUSED = (
    # Forbidden uses, in each way of writing them.
    (SPECS, "use Rattle.rohc_context.specs.Step.{Steps}"),
    (SPECS, "use Rattle.rohc_context.specs.Step.{LoneStep, Steps}"),
    (SPECS, "use Rattle.rohc_context.specs.SavedReading.{saved_at, state_at}"),
    (SPECS, "use Rattle.rohc_context.specs.SavedText.{state_text}"),
    (PROOFS, "use Rattle.rohc_context.proofs.SavedLemmas.{state_back}"),
    (PROOFS, "use Rattle.rohc_context.specs.SavedReading.{saved_at}\nlemma : saved_at [] ≡ saved_at []\nunfolding saved_at\nlemma = refl"),
    (SPECS, "use Rattle.rohc_context.specs.Step.{\n  LoneStep,\n  Steps,\n}"),
    (SPECS, "use Rattle.rohc_context.specs.Step"),
    (SPECS, "use Rattle.rohc_context.specs.Step as step"),
    (SPECS, "use Rattle.rohc_context.specs.Step.{}"),
    (SPECS, "use Rattle.rohc_context.specs.{Step.Steps}"),
    (SPECS, "use Rattle.rohc_context.specs"),
    (SPECS, "use Rattle.rohc_context as context"),
    (SPECS, "use Rattle.rohc_context"),
    (SPECS, "use Rattle.{rohc_context.specs.Step}"),
    (SPECS, "use Rattle as R\nuse R.rohc_context.specs.Step.{Steps}"),
    (SPECS, "use package.Rattle.rohc_context.specs.Step.{Steps}"),
    (SPECS, "use Rattle.«rohc_context».specs.Step.{Steps}"),
    (SPECS, "use Rattle.rohc_context.«specs».Step.{Steps}"),
    (SPECS, "use Rattle.rohc_context.specs.«Step».{Steps}"),
    (SPECS, "use Rattle.rohc_context.specs.Step.{«Steps»}"),
    (SPECS, "use Rattle . rohc_context . specs . Step . {Steps}"),
    (SPECS, "use Rattle.rohc_context\n  .specs.Step.{Steps}"),
    (SPECS, "use Rattle.rohc_context{- -}.specs.Step.{Steps}"),
    (SPECS, "use Rattle.rohc_context.specs.Step.{LoneStep{-, -}, Steps}"),
    (SPECS, "use Rattle.rohc_context.specs.Step.{LoneStep} use Rattle.rohc_context.specs.Step.{Steps}"),
    (SPECS, "step = Rattle.rohc_context.specs.Step.Steps"),
    (SPECS, "use Rattle.rohc_context.specs.PlainIr.{plain_ir}"),
    (SPECS, "use Rattle.rohc_context.specs.Record.{Reference}"),
    (SPECS, "use Rattle.rohc_context.specs.Update.{MissesIn}"),
    (SPECS, "use Rattle.rohc_context.specs.declared.record.Context"),
    (SPECS, "use Rattle.rohc_context.specs.declared.record.Context as context"),
    (SPECS, "use Rattle.rohc_context.specs.declared.record.Context.{accepted}"),
    (SPECS, "use Rattle.rohc_context.specs.declared.state.State.{State}"),
    (SPECS, "use Rattle.rohc_context.specs.declared.state.State.TheVariants as states"),
    (PROOFS, "use Rattle.rohc_context.proofs.StepLemmas.{step_some}"),
    (PROOFS, "use Rattle.rohc_context.proofs.StepLaws"),
    (PROOFS, "use Rattle.rohc_context.proofs.StepLaws.{step_some}"),
    (PROOFS, "use Rattle.rohc_context.proofs.step.Context.arrive.Goals as goal"),
    (CODE, "ghost use Rattle.rohc_context.specs.Step.{Steps};"),
    (CODE, "ghost use Rattle.rohc_context.proofs.StepLemmas.{step_some};"),
    (CODE, "#[tactic(auto, using(rohc_context::proofs::StepLemmas::step_some))]"),
    (CODE, "use rohc_context as context;"),
    (CODE, "use rohc_context;"),
    (CODE, "use rohc_context::{self};"),
    (CODE, "use rohc_context::*;"),
    (CODE, "use rohc_context::specs;"),
    (CODE, "use rohc_context::{laws, specs::Step};"),
    (CODE, "use rohc_context :: specs :: Step;"),
    (CODE, "use ::rohc_context::specs::Step;"),
    (CODE, "use r#rohc_context::specs::Step;"),
    (CODE, "use rohc_context::laws as step;"),
    (CODE, "use rohc_context::laws::*;"),
    (CODE, "extern crate rohc_context;"),
    # Words that are exported again or renamed.
    (SPECS, "pub use Rattle.rohc_context.specs.Step.{LoneStep}"),
    (SPECS, "unfoldable pub use Rattle.rohc_context.specs.Step.{LoneStep}"),
    (SPECS, "use Rattle.rohc_context.specs.Step.{LoneStep as Step}"),
    (SPECS, "use Rattle.rohc_concentrator.specs.Report.{LoneStep as Step}"),
    (CODE, "pub use rohc_context as context;"),
    (CODE, "pub use rohc_context::laws;"),
    # Words that are unfolded.
    (
        PROOFS,
        "use Rattle.rohc_context.specs.Step.{LoneStep}\nlemma : LoneStep None s m h x y\nunfolding LoneStep\nlemma = refl",
    ),
    (PROOFS, "use Rattle.rohc_context.specs.Step.{LoneStep}\nlemma = unfold LoneStep in refl"),
    (PROOFS, "use Rattle.rohc_context.specs.Step.{LoneStep}\nown : LoneStep None s m h x y\nunfolding own LoneStep\nown = refl"),
    (PROOFS, "use Rattle.rohc_context.specs.Step.{LoneStep}\nlemma : LoneStep None s m h x y\nunfolding other\nlemma = refl"),
    (PROOFS, "LoneStep : ℕ\nlemma : LoneStep ≡ 1\nunfolding LoneStep\nlemma = refl"),
    (PROOFS, "use Rattle.rohc_concentrator.specs.Report\nlemma = unfold Report.LoneStep in refl"),
    (
        PROOFS,
        "use Rattle.rohc_context.specs.Record.{Record, record_of}\nlemma : (c : Context) → record_of c ≡ record_of c\nunfolding record_of\nlemma = refl",
    ),
    (CODE, "#[tactic(auto, unfolding(rohc_context::specs::Step::LoneStep))]"),
    (CODE, "#[tactic(auto, unfolding(crate::specs::Planted::LoneStep))]"),
    # Mentions in each place of a file.
    ("rohcd/src/out/planted.rt", "ghost use Rattle.rohc_context.specs.Step.{Steps};"),
    ("rohcd/specs/out/Planted.antt", "use Rattle.rohc_context.specs.Step.{Steps}"),
    ("rohcd/proofs/rohc_context/Planted.antt", "use Rattle.rohc_context.specs.Step.{Steps}"),
    ("rohc_context_two/specs/Planted.antt", "use Rattle.rohc_context.specs.Step.{Steps}"),
    ("rohc_frame/specs/Planted.antt", "use Rattle.rohc_context.specs.Step.{Steps}"),
    ("rohcd/src/planted.txt", "ghost use Rattle.rohc_context.specs.Step.{Steps};"),
)

LINKS = (
    # Mentions in each place of a file.
    ("rohcd/src/planted", "../../rohc_context/specs"),
    ("rohcd/specs/Planted.antt", "../../rohc_context/specs/Step.antt"),
)

CHANGES = (
    # Words that rohc_context itself must keep closed.
    (LAWS, "pub has_answer : HasAnswer", "pub has_answer : HasAnswer × Steps"),
    (LAWS, "pub has_answer : HasAnswer", "pub has_answer : (s : Settings) → HasAnswer"),
    (LAWS, "pub has_answer : HasAnswer", "abbrev pub has_answer : HasAnswer"),
    (LAWS, "pub has_answer : HasAnswer", "pub has_steps : Steps"),
    (LAWS, "pub has_answer : HasAnswer", "module _ (s : Settings) where\npub has_answer : HasAnswer"),
    (LAWS, "pub has_answer : HasAnswer", "{- -} pub has_answer : HasAnswer"),
    (LAWS, "use Rattle.rohc_context.specs.Laws", "pub use Rattle.rohc_context.specs.Laws"),
    (LAWS, ".specs.Laws.{HasAnswer", ".proofs.StepLemmas.{HasAnswer"),
    (LAWS, ".specs.Laws.{HasAnswer, ", ".specs.Laws.{HasSteps as HasAnswer, "),
    ("rohc_context/specs/Step.antt", "unfoldable pub LoneStep :", "abbrev pub LoneStep :"),
    ("rohc_context/specs/Record.antt", "unfoldable pub record_of :", "abbrev pub record_of :"),
    ("rohc_context/specs/Step.antt", "unfoldable pub HasMissed :", "abbrev pub HasMissed :"),
    ("rohc_context/specs/Repaired.antt", "unfoldable pub Repairs :", "abbrev pub Repairs :"),
    ("rohc_context/specs/Excess.antt", "unfoldable pub excess_in :", "abbrev pub excess_in :"),
    ("rohc_context/specs/Fallen.antt", "unfoldable pub fallen :", "abbrev pub fallen :"),
)

ACCEPTED = (
    # Allowed uses.
    (
        SPECS,
        "use Rattle.rohc_context.specs.Step.{LoneStep, HasMissed}\nuse Rattle.rohc_context.specs.Record.{Record, record_of}\nuse Rattle.rohc_context.specs.Good.{AreGoodValues, IsGoodRecord}\nuse Rattle.rohc_context.specs.declared.record.Context.{Context}\nuse Rattle.rohc_context.specs.declared.reply.Outcome.TheVariants as outcomes\n-- LoneStep, which no crate above unfolds",
    ),
    (PROOFS, "use Rattle.rohc_context.proofs.StepLaws.{has_answer, keeps_good}"),
    (PROOFS, "use Rattle.rohc_context.proofs.SavedLemmas.{comes_back, is_spelled}"),
    (SPECS, "use Rattle.rohc_context.specs.SavedText.{saved_text}\nuse Rattle.rohc_context.specs.SavedReading.{saved_at}"),
    (PROOFS, "unfoldable pub own : ℕ\nlemma : own ≡ 1\nunfolding own\nlemma = refl"),
    (PROOFS, "-- as in rohc_context\nuse Rattle.rohc_context.specs.Fallen.{fallen}\nown : ℕ\nlemma : own ≡ 1\nunfolding own\nlemma = refl"),
    (
        CODE,
        "use rohc_context::{Context, Refusal};\nuse rohc_context::Settings;\nfn f() { rohc_context::laws::one_answer(); }\nghost use Rattle.rohc_context.specs.Laws.{HasAnswer};",
    ),
)


def demand_refusal(trial: Trial, crates: Path, name: str, what: str) -> None:
    """The copy must be refused, for this file."""
    said = refusals(crates)
    trial.demand(any(name in text for text in said), f"not refused: {name}: {what}; it said: {said}")


def refuses(trial: Trial, crates: Path, name: str, text: str) -> None:
    """A new file with this text must be refused."""
    file = trial.write(f"crates/{name}", f"{text}\n")
    demand_refusal(trial, crates, name, text)
    file.unlink()


def refuses_link(trial: Trial, crates: Path, name: str, target: str) -> None:
    """A link to this place must be refused."""
    link = crates / name
    link.symlink_to(target)
    demand_refusal(trial, crates, name, f"a link to {target}")
    link.unlink()


def refuses_change(trial: Trial, crates: Path, name: str, old: str, new: str) -> None:
    """A file of rohc_context in which one text is replaced by another must be refused."""
    file = crates / name
    text = file.read_text()
    if trial.demand(old in text, f"no such text: {name}: {old}"):
        file.write_text(text.replace(old, new, 1))
        demand_refusal(trial, crates, name, new)
        file.write_text(text)


def accepts(trial: Trial, crates: Path, name: str, text: str) -> None:
    """A new file with this text must be accepted."""
    file = trial.write(f"crates/{name}", f"{text}\n")
    said = refusals(crates)
    trial.demand(not said, f"not let through: {text}\n{said}")
    file.unlink()


def refuses_nothing_there(trial: Trial) -> None:
    """A folder that is not there must not be taken for good."""
    try:
        refusals(trial.scratch / "nowhere")
    except FileNotFoundError:
        return
    trial.wrong("not refused: a folder that is not there")


def check(trial: Trial) -> None:
    """Plants all of them, one after another."""
    crates = trial.scratch / "crates"
    for file in (trial.top / "crates").rglob("*"):
        parts = file.relative_to(trial.top / "crates").parts
        if file.suffix in (".rt", ".antt") and parts[1] != "out":
            (crates / Path(*parts)).parent.mkdir(parents=True, exist_ok=True)
            shutil.copy(file, crates / Path(*parts))
    trial.demand(not refusals(crates), "the copy as it is: refused")
    for name, text in REFUSED:
        refuses(trial, crates, name, text)
    for name, target in LINKS:
        refuses_link(trial, crates, name, target)
    for name, old, new in CHANGES:
        refuses_change(trial, crates, name, old, new)
    refuses_nothing_there(trial)
    for name, text in ACCEPTED:
        accepts(trial, crates, name, text)
    trial.say(f"closed: {len(REFUSED) + len(LINKS) + len(CHANGES) + len(ACCEPTED)} plants tried")
