"""The older name of covrith.reports."""

import sys

import covrith.reports

sys.modules[__name__] = covrith.reports
