"""Runs the trial, by .ci/fresh-machine."""

import sys

from .trial import main

sys.exit(main())
