"""Where the tests find the repository's files."""

import os
from pathlib import Path

import pytest

TOP = Path(os.environ.get('ERD_TOP') or Path(__file__).resolve().parents[3])


@pytest.fixture(scope='session')
def top():
    """The top of the repository."""
    return TOP


def pytest_generate_tests(metafunc):
    """Gives each conformance case to a test that asks for one; `conformance/make` makes their folders."""
    if 'case' in metafunc.fixturenames:
        cases = sorted(path.parent for path in (TOP / 'out' / 'conformance').glob('*/why'))
        metafunc.parametrize('case', cases, ids=[path.name for path in cases])
