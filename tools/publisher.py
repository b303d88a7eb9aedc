"""Who publishes xw, and where: every package names them, and nothing else in the repository does. Whoever publishes a release gives addresses of their
own here. Until then they are placeholders, below a domain that nobody can own, and `./build dist --release` refuses them."""
import re

from proving import Failed

# the page of the repository, from which it can be cloned too
REPOSITORY = "https://xw.example/xw"
# whom the packages name as their maintainer: NAME <ADDRESS>
MAINTAINER = "The xw authors <maintainer@xw.example>"

PLACEHOLDER = re.compile(r"\.example\b")


def expect_addresses():
    """A release names whom its users can reach."""
    for name, value in (("REPOSITORY", REPOSITORY), ("MAINTAINER", MAINTAINER)):
        if PLACEHOLDER.search(value):
            raise Failed(f"a release needs addresses of yours: {name} of tools/publisher.py is the placeholder {value}")


def filled(text, **values):
    """A template of a package, with its marks @repository@ and @maintainer@ replaced, and those of other values by their names."""
    for mark, value in {"repository": REPOSITORY, "maintainer": MAINTAINER, **values}.items():
        text = text.replace(f"@{mark}@", value)
    return text
