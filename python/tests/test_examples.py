"""The examples in the module's texts."""
import doctest

import command
import cube_archive


def load_tests(_loader, tests, _pattern):
    tests.addTests(doctest.DocTestSuite(cube_archive))
    return tests
