"""contrib/prometheus: rules and dashboard ask for what the service tells, and, where promtool is here (Debian's package prometheus), the
rules say what their own tests want."""
import json
import re
import shutil
import subprocess

import pytest
from shell import TOP

pytestmark = pytest.mark.scripts
FOLDER = f"{TOP}/contrib/prometheus"
NAME = re.compile(r"\b(?:jumbetai|process)_[a-z_]+\b")


def text_of(path: str) -> str:
    with open(path, encoding="utf-8") as it:
        return it.read()


def names_told() -> set[str]:
    """The names of the series that the service tells."""
    told = set()
    for name in NAME.findall(text_of(f"{TOP}/service/src/metrics.rs")):
        told |= {name, *(f"{name}_{part}" for part in ("bucket", "sum", "count"))}
    return told


@pytest.mark.parametrize("file", ["jumbetai.rules.yml", "dashboard.json", "jumbetai.rules.test.yml"])
def test_what_a_file_asks_for_is_told(file: str) -> None:
    assert {*NAME.findall(text_of(f"{FOLDER}/{file}"))} - names_told() == set()


def test_readme_has_the_alerts_of_the_rules() -> None:
    alerts = re.findall(r"- alert: (\w+)", text_of(f"{FOLDER}/jumbetai.rules.yml"))
    assert re.findall(r"^\| (Jumbetai\w+) \|", text_of(f"{FOLDER}/README.md"), re.M) == alerts


def test_each_panel_has_an_id_of_its_own() -> None:
    panels = json.loads(text_of(f"{FOLDER}/dashboard.json"))["panels"]
    assert len({it["id"] for it in panels}) == len(panels)


@pytest.mark.skipif(not shutil.which("promtool"), reason="promtool isn't here")
@pytest.mark.parametrize("words", ["check rules jumbetai.rules.yml", "test rules jumbetai.rules.test.yml"])
def test_promtool(words: str) -> None:
    ran = subprocess.run(["promtool", *words.split()], cwd=FOLDER, capture_output=True, text=True)
    assert ran.returncode == 0, ran.stdout + ran.stderr
