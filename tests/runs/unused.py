"""No declaration of the crates is without a use. `../unused.py` finds them."""
from documents import text_of
from references import Sources
from steps import compare
from unused import Unused

# A small crate, in which the names that end with `unused` are named by nothing.
CRATE = {
    "crates/xw_a/specs/Word.antt": """use Rattle.std.specs.Prelude.{ℕ, ◌+◌}

-- named below, in a proof and in a source; these_unused words are a note
abbrev pub word : ℕ → ℕ
word n = n

abbrev pub words_unused : ℕ → ℕ
words_unused n = word n

pub record Row : Type 0 where
  pub width : ℕ

abbrev pub ◌plus◌ : ℕ → ℕ → ℕ
◌plus◌ m n = m + n
""",
    "crates/xw_a/proofs/WordLemmas.antt": """use Rattle.xw_a.specs.Word.{word as one, words_unused, Row}

pub step : (n : ℕ) → one n ≡ n
step n = refl

pub row_unused : Row → Row
row_unused row = row

pub ruleset steps = (step)
""",
    "crates/xw_a/proofs/Lib.antt": "pub mod WordLemmas\n",
    "crates/xw_a/proofs/WorkedExamples.antt": """use Rattle.xw_a.specs.Word.{◌plus◌}

three : 1 plus 2 ≡ 3
three = refl
""",
    "crates/xw_a/src/lib.rt": """pub const ONE: u8 = 1;

#[tactic(auto, using(crate::proofs::WordLemmas::steps))]
pub fn first() -> u8 {
    ONE
}

/// A law.
pub fn words_are_kept()
    ensures { WordsAreKept }
{}

fn second_unused() -> u8 {
    second_unused() + first()
}

#[test]
fn first_is_one() {}

impl Drop for Row {
    fn drop(&mut self) {}
}
""",
    "crates/xw_a/README.md": "`words_are_kept` is proved, and second_unused is no quotation.\n",
}

# Lemmas of each file that nothing names, and that still stand there.
LEFT = """
xw_answers/proofs/Escapes: same_judged
xw_answers/proofs/Recording: one_line put_line_parts spot_parts
xw_arguments/proofs/Rows: found_by called no_convert no_check
xw_best/proofs/ClimbLemmas: restarted work_kept work_made work_done
xw_best/proofs/LeastLemmas: worst_none
xw_cli/proofs/Steps: replays resumed unresumed
xw_cli_files/proofs/Steps: explained_so_far left_told left_untold left_nowhere
xw_desk/proofs/Checks: not_read
xw_desk/proofs/Writing: reasoned unreasoned
xw_feas/proofs/EditsLemmas: block_refused refusal_made
xw_feas/proofs/FormedLemmas: formed_steps
xw_feas/proofs/Noting: same_length
xw_feas/proofs/ShapeLemmas: made_steps shape_steps
xw_files/proofs/CellLemmas: map-none
xw_files/proofs/PuzLemmas/Clues: with_front-none
xw_files/proofs/TextLemmas/ClueIndex: index_starts
xw_files/proofs/TextLemmas/Lines: trim_front-blank
xw_files/proofs/TextLemmas/Numbers: number_small
xw_files/proofs/TextLemmas/Whole: field_shows
xw_files/proofs/TextLemmas/Writes: rows_start row_fits
xw_fill/proofs/EntryLemmas: list_good_from
xw_fill/proofs/EnteredSinceLemmas: noted-kept noted-new
xw_fill/proofs/ReasonLemmas: good_letter
xw_fill/proofs/SearchLemmas: alive-words
xw_fill/proofs/SuggestingLemmas: none_past
xw_fill/proofs/WordsLemmas: next_not_entered
xw_grid/proofs/ChangeLemmas: lights_are_with
xw_grid/proofs/LightTableLemmas: line_none line_small
xw_grid/proofs/OrbitCellLemmas: left_small
xw_journal/proofs/Groups: both_closed scanned-none
xw_journal/proofs/WholeLines: no_lf_from
xw_lines/proofs/Texts: begins-whole
xw_lines/proofs/Turns: speaks-map
xw_net/proofs/Edits/ChangeFacts: word_brings_none
xw_plain/proofs/FlagsLemmas: KeepsBelow-start
xw_plain/proofs/Strip: StripsUnsupported-start KeepsLettersBelow-start
xw_search/proofs/CheckLemmas: repeated_at
xw_search/proofs/Frames: AreFrames-last
xw_search/proofs/LetterSearch: shaped_start
xw_search/proofs/LightLemmas: differ-length
xw_session_laws/proofs/JournalFiles: kept_behind
xw_words/proofs/ColumnLemmas: column_pushed no_column_of
xw_words/proofs/DictionaryLemmas: matching_steps
xw_words/proofs/IndexLemmas: none_linked
"""


def finds_what_is_unused(room, program):
    compare("unused names", [name for _, name in Unused(CRATE).find()], ["words_unused", "row_unused", "second_unused"])


def all_is_used(room, program):
    texts = {name: text_of(name) for name in Sources().files if name.endswith((".rt", ".antt", ".md", ".ll", ".h"))}
    left = {(f"crates/{file}.antt", name) for file, _, names in (line.partition(": ") for line in LEFT.split("\n")) for name in names.split()}
    found = set(Unused(texts).find())
    compare("declarations that nothing names", sorted(found - left), [])
    compare("declarations that are gone or named again", sorted(left - found), [])


CASES = {"what_is_unused_is_found": [finds_what_is_unused], "all_is_used": [all_is_used]}
