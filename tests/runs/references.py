"""What documents cite of the sources is there, and `docs/layers.svg` is what its script makes. `../references.py` reads the documents."""
import subprocess
from importlib.machinery import SourceFileLoader
from importlib.util import module_from_spec, spec_from_loader

from documents import TOP, text_of
from references import Reader, Sources, links_in
from steps import compare

README = "crates/xw_words/README.md"
# A README of xw_words in which every line has one fault, beside what is found of it. Its first lines have none.
SOUND = """The dictionary is `bank::Bank`, by `specs/Dictionary.antt` and `columns.rt`, above [its letters](../xw_letters/README.md#promises).
`xw_grid` has `grid::Grid::set`, `cell::Side::Right` and `specs/Edit.antt`. `proofs/NAME/` stands for others, and `~/a.txt` and `/dev/null` are elsewhere.
`docs/DECISIONS.md`, "Words", and `web/dist/xw.html`, which a build makes.

| Promise | Contract |
|---|---|
| a word | `bank::Bank::new` (`empty`), by `specs/Dictionary.antt`, `IsDictionary` |
| another | the same (`memory`) |

"""
FAULTS = {
    "`bank::Bank::newer`": "there is no bank::Bank::newer",
    "`grid::Grid::set`, of another crate": "there is no grid::Grid::set",
    "`table::Bank::new`, of another module": "there is no table::Bank::new",
    "`bank::Added::Gone`": "there is no bank::Added::Gone",
    "`specs/Dictionaries.antt`": "there is no specs/Dictionaries.antt",
    "`specs/Edit.antt`": "there is no specs/Edit.antt",
    "`tests/runs/reference.py`": "there is no tests/runs/reference.py",
    "`column.rt`": "there is no column.rt",
    "[a link](../xw_letter/README.md)": "the link ../xw_letter/README.md leads to no file",
    "[a link](../xw_letters/README.md#promise)": "the link ../xw_letters/README.md#promise leads to no section",
    '`docs/DECISIONS.md`, "Word"': "docs/DECISIONS.md has no section Word",
    "`bank::Bank::new` (`empty`, `full`)": "bank::Bank::new has no clause full",
    "| Promise | Contract |\n|---|---|\n| a word | `new` and `add` of `bank::Bank` (`full`) |": "no function of the row has a clause full",
    "| Promise | Contract |\n|---|---|\n| a word | `bank::Bank::new`, by `specs/Dictionary.antt`, `IsDictionaries` |": "no source has a name IsDictionaries",
}


def faults_in(sources, text):
    return [fault.split(": ", 1)[1] for fault in Reader(sources, README, text).faults]


def finds_faults(room, program):
    """Each wrong citation is found, and no right one is taken for wrong."""
    sources = Sources()
    compare("right citations", faults_in(sources, SOUND), [])
    compare("wrong citations", {text: faults_in(sources, f"{SOUND}{text}\n") for text in FAULTS}, {text: [fault] for text, fault in FAULTS.items()})


def documents_are_true(room, program):
    sources = Sources()
    faults = [fault for name in sources.documents() for fault in Reader(sources, name, text_of(name)).faults]
    assert not faults, "; ".join(faults)


def crates_are_described(room, program):
    """The README of each crate names its modules, and says what of it is not proved. That of the page names its modules."""
    sources, faults = Sources(), []
    for name, crate in sources.crates.items():
        text = text_of(f"crates/{name}/README.md")
        modules = {module.split("::")[-1] for module in crate.modules} - {"lib", "main"}
        faults += [f"crates/{name}/README.md does not name {module}" for module in sorted(modules) if f"{module}`" not in text]
        if name != "xw_tests_engine" and "## Not proved" not in text:
            faults.append(f"crates/{name}/README.md does not say what is not proved")
    page = text_of("web/editor/README.md")
    scripts = [it.removeprefix("web/editor/").removesuffix(".js") for it in sources.files if it.startswith("web/editor/") and it.endswith(".js")]
    faults += [f"web/editor/README.md does not name {script}" for script in sorted(scripts) if f"`{script}`" not in page]
    assert not faults, "; ".join(faults)


def installed_links_lead_on(room, program):
    """A document that is installed links to nothing that is not."""
    loader = SourceFileLoader("build_of_xw", str(TOP / "build"))
    build = module_from_spec(spec_from_loader(loader.name, loader))
    loader.exec_module(build)
    installed = {*build.cited("docs/commands.md", "include/xw.h", "include/xw_lines.h"), "docs/commands.md"}
    links = {(name, to) for name in installed if name.endswith(".md") for to in links_in(name, text_of(name))}
    compare("links to what is not installed", [link for link in sorted(links) if link[1] not in installed], [])


def layers_are_drawn(room, program):
    """`docs/layers.svg` is what `tools/make-layers` makes of `crates.txt`."""
    subprocess.run([TOP / "tools/make-layers", room / "layers.svg"], check=True)
    assert (room / "layers.svg").read_bytes() == (TOP / "docs/layers.svg").read_bytes(), "docs/layers.svg is not up to date: run tools/make-layers"


CASES = {
    "wrong citations are found": [finds_faults],
    "what documents cite is there": [documents_are_true],
    "crates and the page are described": [crates_are_described],
    "links of what is installed": [installed_links_lead_on],
    "the drawing of the layers": [layers_are_drawn],
}
