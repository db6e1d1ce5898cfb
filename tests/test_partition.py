"""Regions that lose one another for a minute, and are killed: behind it all come to one view, which has what was acknowledged.

tools/soak_partition.py does so for as long as one likes.
"""
import pytest
from harness import Counts
from soak_partition import lacks, options, soak


@pytest.mark.library
@pytest.mark.alone
@pytest.mark.slow
def test_regions_that_part(service: str, checks: Counts) -> None:
    why = lacks(service)
    if why:
        pytest.skip(why)
    soak(options().parse_args([f"--program={service}"]), checks)
